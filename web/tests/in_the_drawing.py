"""What the session does in the drawing: names, places, arrows, and the list of diagrams."""
import time

from selenium.webdriver import ActionChains
from selenium.webdriver.common.by import By
from selenium.webdriver.common.keys import Keys

import browser
from browser import wait

PLACES = """return Object.fromEntries([...document.querySelectorAll('#drawing .vertex')].map((v) => {
    const box = v.querySelector('.shape').getBoundingClientRect();
    return [v.querySelector('text').textContent, [box.x + box.width / 2, box.y + box.height / 2, box.width]]; }))"""
OVERLAPS = """const boxes = [...document.querySelectorAll('#drawing .vertex .shape')].map((el) => el.getBoundingClientRect());
    return boxes.flatMap((p, i) => boxes.slice(i + 1).filter((q) => p.left < q.right && q.left < p.right
        && p.top < q.bottom && q.top < p.bottom)).length"""
NAMES = ["Warm-up exercises", "Injury", "Coach", "Team motivation", "Fitness level", "Pre-game proprioception", "Genetics",
         "Neuromuscular fatigue", "Connective tissue disorder", "Tissue weakness", "Contact sport", "Previous injury"]


def empty(s):
    """An empty diagram."""
    s.one("#new").click()
    s.soon("an empty diagram", lambda: s.text() == "dag {\n}\n" and not s.names(), s.text)


def paste(s, text):
    """Pastes a text in the place of the diagram's."""
    s.run("""const area = document.getElementById('text');
        area.value = arguments[0];
        area.dispatchEvent(new InputEvent('input', { inputType: 'insertFromPaste' }));""", text)
    time.sleep(0.7)


def places(s):
    return s.run(PLACES)


def at(s, x, y):
    """The offset of a place of the drawing's pane from its middle, where the driver counts from."""
    box = s.one("#drawing").rect
    return int(x - box["width"] / 2), int(y - box["height"] / 2)


def twice(s, x, y):
    """A double click on the ground. On a busy machine its two clicks may come too late after each other; then it is done again."""
    for _ in range(4):
        ActionChains(s.driver).move_to_element_with_offset(s.one("#drawing"), *at(s, x, y)).double_click().perform()
        if wait(lambda: s.all("#menu input"), 5):
            break
    s.soon("a new variable asks for its name", lambda: s.all("#menu input"))


def keeps_typed_names(s):
    """A name that was typed is kept when one clicks elsewhere; Escape drops it."""
    empty(s)
    for name, x, y in (("Age", 200, 200), ("Sex", 420, 200), ("Death", 310, 380)):
        twice(s, x, y)
        s.keys(name)
    ActionChains(s.driver).move_to_element_with_offset(s.one("#drawing"), *at(s, 310, 280)).click().perform()
    s.soon("typed names are kept", lambda: sorted(s.names()) == ["Age", "Death", "Sex"], s.text)
    s.check("no name is asked for any more", not s.all("#menu"))
    s.click("Sex")
    s.item("Rename")
    s.keys("Gender", Keys.ESCAPE)
    s.soon("Escape drops what was typed", lambda: not s.all("#menu") and "Sex" in s.names(), s.text)
    s.click("Sex")
    s.item("Rename")
    s.keys("Gender")
    next(b for b in s.all("#menu button") if b.text == "OK").click()
    s.soon("OK takes it", lambda: "Gender" in s.names(), s.text)
    s.click("Gender")
    s.item("Rename")
    s.keys("Age")
    s.one("#fit").click()
    s.soon("a name that is there is refused, and said so", lambda: "named Age already" in s.one("#toast").text and "Gender" in s.names(), s.text)
    s.click("Gender")
    s.item("Rename")
    s.keys("Last")
    s.one("#new").click()
    s.soon("and it is kept by what opens another diagram", lambda: not s.names(), s.text)
    s.one("#diagrams").click()
    s.soon("in the list", lambda: "Last" in s.one("#diagrams-list").text, lambda: s.one("#diagrams-list").text)
    s.keys(Keys.ESCAPE)


def moves_nothing_by_itself(s):
    """What was placed stays, however near the names are."""
    empty(s)
    wanted = {}
    for name, x, y in (("A", 200, 200), ("B", 230, 210), ("C", 260, 200), ("A long name", 280, 225), ("Another", 420, 420)):
        twice(s, x, y)
        s.keys(name, Keys.ENTER)
        s.soon(f"{name} is there", lambda: name in s.names(), s.names)
        time.sleep(0.4)
        wanted[name] = (x, y)
    pane = s.run("const b = document.getElementById('drawing').getBoundingClientRect(); return [b.x, b.y]")
    seen = places(s)
    far = {name: (round(seen[name][0] - pane[0]), round(seen[name][1] - pane[1])) for name, (x, y) in wanted.items()
           if abs(seen[name][0] - pane[0] - x) > 2 or abs(seen[name][1] - pane[1] - y) > 2}
    s.check("each stands where it was placed", not far, far)
    before = places(s)
    s.click("Another")
    s.item("Exposure")
    s.soon("a mark", lambda: "exposure" in s.text(), s.text)
    time.sleep(0.4)
    after = places(s)
    s.check("moves nothing", all(abs(before[n][k] - after[n][k]) < 1 for n in before for k in (0, 1)), (before, after))
    text = s.text()
    s.undo()
    s.redo()
    s.soon("nor do undo and redo", lambda: s.text() == text, s.text)
    time.sleep(0.5)
    after = places(s)
    s.check("nor do undo and redo move", all(abs(before[n][k] - after[n][k]) < 1 for n in before for k in (0, 1)), (before, after))
    s.example("fork")
    s.write("dag { X [exposure] Y [outcome] X -> M -> Y Z -> X Z -> Y }")
    before = places(s)
    s.run("arguments[0].focus()", s.vertex("M"))
    s.keys("a")
    s.soon("an act in a computed layout", lambda: "adjusted" in s.text(), s.text)
    time.sleep(0.5)
    after = places(s)
    s.check("moves nothing either", all(abs(before[n][k] - after[n][k]) < 1 for n in before for k in (0, 1)), (before, after))


def finds_room(s):
    """New variables that aren't placed by hand stand where there is room."""
    empty(s)
    for name in NAMES:
        s.one("#add").click()
        s.soon("a name is asked for", lambda: s.all("#menu input"))
        s.keys(name, Keys.ENTER)
        s.soon(f"{name} is there", lambda: name in s.names(), s.names)
    time.sleep(0.5)
    s.check("no label lies on another", s.run(OVERLAPS) == 0, s.run(OVERLAPS))
    out = s.run("""const pane = document.getElementById('drawing').getBoundingClientRect();
        return [...document.querySelectorAll('#drawing .vertex .shape')].map((el) => el.getBoundingClientRect())
            .filter((p) => p.left < pane.left || p.right > pane.right || p.top < pane.top || p.bottom > pane.bottom).length""")
    s.check("all are in view", out == 0, out)


def scales_each_paste(s):
    """A pasted text has a scale of its own."""
    s.example("napkin")
    paste(s, 'dag { A [pos="0.1,0.1"] B [pos="0.4,0.5"] C [exposure,pos="0.2,0.9"] D [outcome,pos="0.8,0.6"] A -> B C -> D }')
    paste(s, 'dag { X1 [exposure,pos="0,0"] X2 [pos="1,0"] X3 [pos="2,1"] Y [outcome,pos="3,1"] Z [pos="1.5,2"] X1 -> X2 -> X3 -> Y Z -> Y }')
    wide = places(s)["X1"][2]
    s.check("labels are as large as usual", wide > 45, wide)


def names_diagrams(s):
    """Diagrams have names; files are called so; nothing goes without a word; two tabs keep apart."""
    empty(s)
    s.one("#add").click()
    s.soon("a name is asked for", lambda: s.all("#menu input"))
    s.keys("Mine", Keys.ENTER)
    s.soon("a diagram of mine", lambda: "Mine" in s.names(), s.text)
    s.one("#diagrams").click()
    field = s.one("#diagram-name")
    field.send_keys(Keys.CONTROL, "a")
    field.send_keys("Sports: injuries", Keys.TAB)
    s.soon("it has a name", lambda: s.one("#diagrams .name").get_attribute("textContent") == "Sports: injuries", lambda: s.one("#diagrams").text)
    s.check("in the list", "Sports: injuries (shown)" in s.one("#diagrams-list").text.replace("\n", " "), s.one("#diagrams-list").text)
    s.keys(Keys.ESCAPE)
    s.one("#save-text").click()
    path = s.saved("Sports injuries.dag")
    s.check("a file is called so", path and "Mine" in path.read_text(), list(s.downloads.iterdir()))
    for i in range(12):
        s.one("#new").click()
        s.write(f"dag {{ N{i} }}")
    s.one("#diagrams").click()
    s.soon("nothing falls out of the list", lambda: "Sports: injuries" in s.one("#diagrams-list").text and len(s.all("#diagrams-list li")) > 12,
           lambda: s.one("#diagrams-list").text)
    row = next(li for li in s.all("#diagrams-list li") if "Sports" in li.text)
    row.find_elements(By.CSS_SELECTOR, "button")[1].click()
    s.soon("one is deleted", lambda: "taken out of the list" in s.one("#diagrams-list").text)
    s.one("[data-key=restore]").click()
    s.soon("and comes back", lambda: "Sports: injuries" in s.one("#diagrams-list").text)
    row = next(li for li in s.all("#diagrams-list li") if "Sports" in li.text)
    row.find_elements(By.CSS_SELECTOR, "button")[0].click()
    s.soon("it is opened", lambda: s.names() == ["Mine"], s.text)
    s.check("by its name", s.one("#diagrams .name").get_attribute("textContent") == "Sports: injuries", s.one("#diagrams").text)
    s.one("#new").click()
    s.write("dag { Twin }")
    s.one("#diagrams").click()
    s.one("#diagram-name").send_keys("Sports: injuries", Keys.TAB)
    s.soon("a name that another has gets a number", lambda: s.one("#diagrams .name").get_attribute("textContent") == "Sports: injuries 2", lambda: s.one("#diagrams").text)
    s.check("and that is said", "Another of your diagrams is called Sports: injuries, so this one is Sports: injuries 2." in s.one("#diagram-taken").text, s.one("#diagram-taken").text)
    s.keys(Keys.ESCAPE)


def keeps_tabs_apart(s):
    """What another tab shows doesn't come here."""
    if "firefox" in type(s.driver).__module__ or not hasattr(s.driver, "execute_cdp_cmd"):
        return
    driver = s.driver
    s.example("front_door")
    s.write("dag { Here -> It }")
    here = driver.current_window_handle
    driver.switch_to.new_window("tab")
    browser.open_page(driver)
    s.soon("another tab", lambda: s.names(), s.text)
    s.one("#new").click()
    s.write("dag { There -> Else }")
    driver.switch_to.window(here)
    browser.open_page(driver)
    s.check("a reload shows what this tab showed", "Here" in s.text(), s.text())
    s.write("dag { Here -> It -> Now }")
    kept = s.run("return localStorage.getItem('causal.named')")
    s.check("both are kept", "There" in kept and "Now" in kept, kept)
    there = [handle for handle in driver.window_handles if handle != here]
    driver.switch_to.window(there[0])
    driver.close()
    driver.switch_to.window(here)
    driver.switch_to.new_window("tab")
    browser.open_page(driver)
    s.soon("a tab that begins with the same diagram", lambda: "Now" in s.text(), s.text)
    s.write("dag { Changed -> Here }")
    there = driver.current_window_handle
    driver.switch_to.window(here)
    s.one("#diagrams").click()
    s.soon("doesn't take it away: both are in the list", lambda: all(name in s.one("#diagrams-list").text for name in ("Now", "Changed")),
           lambda: s.one("#diagrams-list").text)
    cut = s.run("const list = document.getElementById('diagrams-list'); return list.scrollWidth - list.clientWidth")
    s.check("and no button of the list is cut off", cut <= 0, cut)
    s.keys(Keys.ESCAPE)
    driver.switch_to.window(there)
    driver.close()
    driver.switch_to.window(here)


def keeps_the_view(s):
    """What was placed by hand is seen as it was when a pane gets another size; what was fitted is fitted again."""
    width = lambda: list(places(s).values())[0][2]
    s.example("warm_up")
    before = width()
    s.one("#fold").click()
    s.soon("a picture that was fitted uses the room", lambda: width() > before, width)
    s.one("#fold").click()
    s.soon("and fits again", lambda: abs(width() - before) < 1, width)
    s.write(SPORTS)
    time.sleep(0.7)
    narrow = width()
    s.one("#fold").click()
    time.sleep(1.5)
    folded = places(s)
    s.one("#arrange").click()
    time.sleep(1.5)
    after = places(s)
    s.check("a computed layout is made for the room", all(abs(folded[n][k] - after[n][k]) < 1 for n in folded for k in (0, 1, 2)), (folded, after))
    s.one("#fold").click()
    s.soon("and made anew", lambda: abs(width() - narrow) < 1, width)
    s.example("warm_up")
    twice(s, 120, 160)
    s.keys("New one", Keys.ENTER)
    s.soon("a variable by hand", lambda: "New one" in s.names(), s.names)
    time.sleep(0.4)
    before = places(s)
    s.one("#fold").click()
    time.sleep(0.5)
    after = places(s)
    far = [name for name in before if abs(before[name][0] - after[name][0]) > 130 or abs(before[name][1] - after[name][1]) > 2
           or abs(before[name][2] - after[name][2]) > 0.5]
    s.check("then nothing is scaled, and the middle stays", not far, (before, after))
    s.one("#fold").click()
    time.sleep(0.5)
    after = places(s)
    s.check("and all stands where it stood", all(abs(before[n][k] - after[n][k]) < 2 for n in before for k in (0, 1)), (before, after))


SPORTS = """dag {
"Warm-up exercises" [exposure]
Injury [outcome]
Coach -> "Team motivation" -> "Warm-up exercises" -> "Intra-game proprioception" -> Injury
Coach -> "Fitness level" -> "Pre-game proprioception" -> "Warm-up exercises"
"Team motivation" -> "Previous injury" <- "Contact sport"
Genetics -> "Fitness level" -> "Neuromuscular fatigue" -> "Intra-game proprioception"
Genetics -> "Connective tissue disorder" -> "Tissue weakness" -> Injury
Genetics -> "Neuromuscular fatigue" <- "Connective tissue disorder"
"Neuromuscular fatigue" -> Injury
}
"""
BEHIND = """const boxes = [...document.querySelectorAll('#drawing .vertex')].map((v) => {
        const b = v.querySelector('.shape').getBoundingClientRect();
        return [v.querySelector('text').textContent, b.left + 1, b.right - 1, b.top + 1, b.bottom - 1]; });
    const found = [];
    for (const edge of document.querySelectorAll('#drawing g.edge')) {
        const line = edge.querySelector('.line'), m = line.getScreenCTM(), ends = edge.dataset.edge.split(/[→↔]/), n = line.getTotalLength();
        for (let t = 0; t <= n; t += 2) {
            const p = line.getPointAtLength(t), x = m.a * p.x + m.e, y = m.d * p.y + m.f;
            const over = boxes.find(([name, l, r, u, d]) => !ends.includes(name) && x > l && x < r && y > u && y < d);
            if (over) { found.push([edge.dataset.edge, over[0]]); break; }
        }
    }
    return found"""


def joins_in_two_clicks(s):
    """Arrows by two clicks, and by dragging from a rim; drawing one again, and back."""
    s.example("fork")
    s.write("dag {\nA [pos=\"0,0\"]\nB [pos=\"2,0\"]\nC [pos=\"1,2\"]\n}\n")
    s.one("#arrow").click()
    s.soon("what a click means is said", lambda: "click its beginning" in s.one("#hint").text, lambda: s.one("#hint").text)
    for a, b in (("A", "B"), ("B", "C")):
        s.click(a)
        s.click(b)
        s.soon(f"{a} to {b} in two clicks", lambda: f"{a} -> {b}" in s.text(), s.text)
    s.click("C")
    s.click("A")
    s.soon("a cycle is refused", lambda: "cycle" in s.one("#toast").text and "C -> A" not in s.text(), lambda: s.one("#toast").text)
    s.click("B")
    s.click("A")
    s.soon("drawn back it is turned round", lambda: "B -> A" in s.text() and "A -> B" not in s.text(), s.text)
    s.click("B")
    s.click("A")
    s.soon("drawn again it goes", lambda: "B -> A" not in s.text() and "A -> B" not in s.text(), s.text)
    said = lambda: s.one("#toast").get_attribute("textContent")  # which stays when the words fade
    s.soon("and that is said", lambda: "taken away" in said(), said)
    s.one("#arc").click()
    s.click("A")
    s.click("C")
    s.soon("a common hidden cause", lambda: "A <-> C" in s.text(), s.text)
    s.click("C")
    s.click("A")
    s.soon("drawn again it goes too", lambda: "<->" not in s.text(), s.text)
    ActionChains(s.driver).drag_and_drop(s.vertex("A"), s.vertex("C")).perform()
    s.soon("or by a drag", lambda: "A <-> C" in s.text(), s.text)
    s.keys(Keys.ESCAPE)
    s.soon("escape ends it", lambda: s.one("#arc").get_attribute("aria-pressed") == "false" and not s.one("#hint").text)
    s.run("arguments[0].focus()", s.vertex("A"))
    s.keys("c")
    s.run("arguments[0].focus()", s.vertex("B"))
    s.keys(Keys.ENTER)
    s.soon("by keys", lambda: "A -> B" in s.text(), s.text)
    rim = s.run("const b = arguments[0].querySelector('.shape').getBoundingClientRect(); return b.height / 2", s.vertex("A"))
    ActionChains(s.driver).move_to_element_with_offset(s.vertex("A"), 0, -int(rim)).click_and_hold().move_to_element(
        s.vertex("C")).release().perform()
    s.soon("dragged from the rim", lambda: "A -> C" in s.text(), s.text)
    s.check("one line for an edge", s.text().count("\n") == 9, s.text())


def bends_round_vertices(s):
    """No edge of a computed layout runs behind a vertex of which it is no end."""
    s.example("fork")
    s.write(SPORTS)
    time.sleep(0.6)
    s.one("#arrange").click()
    time.sleep(1)
    s.check("no edge runs behind another vertex", s.run(BEHIND) == [], s.run(BEHIND))


PARTS = [joins_in_two_clicks, bends_round_vertices, keeps_typed_names, moves_nothing_by_itself, finds_room, scales_each_paste, names_diagrams, keeps_tabs_apart, keeps_the_view]
