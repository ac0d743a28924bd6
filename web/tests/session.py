"""A user's afternoon with the page, in headless Chromium, or with the word `firefox` in Firefox.

    session.py [firefox] [PART..]
"""
import functools
import http.server
import json
import pathlib
import sys
import tempfile
import threading
import time

from selenium.webdriver import ActionChains
from selenium.webdriver.common.by import By
from selenium.webdriver.common.keys import Keys

import browser
import firefox
import in_the_answers
import in_the_drawing
import leaves_the_page
import over_tables
from browser import wait

TOP = browser.WEB.parent
MARKED = """return [...document.querySelectorAll('#drawing .vertex')].filter((v) => v.classList.contains(arguments[0]))
    .map((v) => v.querySelector('text').textContent)"""
CUT = "return [...document.querySelectorAll('#drawing .edge.cut')].map((e) => e.dataset.edge)"


class Session:
    """A page with a count of what went well in it."""

    def __init__(self, driver, downloads):
        self.driver = driver
        self.downloads = downloads
        self.done = self.failed = 0

    def check(self, what, good, saw=""):
        self.done += 1
        if not good:
            self.failed += 1
            print(f"wrong: {what}: saw {saw!r}")

    def do(self, part):
        """Does a part. A step that fails may have met a busy machine: then the whole part is done once more, and counts as it went then."""
        for is_last in (False, True):
            done, failed = self.done, self.failed
            try:
                self.reset()
                part(self)
            except Exception as error:  # the other parts are still tried
                self.check(part.__name__, False, f"{type(error).__name__}: {error}")
            if self.failed == failed or is_last:
                return
            print(f"{part.__name__} is done once more")
            self.done, self.failed = done, failed

    def soon(self, what, test, saw=lambda: ""):
        self.check(what, wait(test), saw())

    # What is seen

    def one(self, css):
        """The first such element, as soon as there is one."""
        wait(lambda: self.all(css))
        return self.driver.find_element(By.CSS_SELECTOR, css)

    def all(self, css):
        return self.driver.find_elements(By.CSS_SELECTOR, css)

    def run(self, script, *words):
        return self.driver.execute_script(script, *words)

    def text(self):
        return self.run("return document.getElementById('text').value")

    def printed(self, number=0):
        """What is printed for an answer, which is opened for that."""
        text = lambda: self.run("""const box = document.querySelectorAll('#panel .source details')[arguments[0]];
            box.open = true;
            return box.querySelector('pre')?.textContent""", number)
        wait(text, 5)
        return text()

    def command(self, number=0):
        return self.all("#panel .command code")[number].text

    def panel(self):
        return self.one("#panel").text

    def vertex(self, name):
        return self.run("""return [...document.querySelectorAll('#drawing .vertex')]
            .find((v) => v.querySelector('text').textContent === arguments[0])""", name)

    def click(self, name):
        """Clicks a vertex, by the pointer: Firefox's driver clicks no group of shapes."""
        ActionChains(self.driver).move_to_element(self.vertex(name)).click().perform()

    def names(self):
        return [el.text for el in self.all("#drawing .vertex text")]

    def marked(self, kind):
        """The vertices that the drawing marks so."""
        return self.run(MARKED, kind)

    def cut(self):
        """The edges that the drawing shows as taken away."""
        return self.run(CUT)

    # What is done

    def example(self, name):
        browser.example(self.driver, name)

    def tab(self, name):
        self.driver.find_element(By.ID, f"tab-{name}").click()
        time.sleep(0.4)

    def item(self, head):
        """Presses the item of the open menu that begins with these words, as soon as it is there."""
        items = lambda: [b for b in self.all("#menu button") if b.text.startswith(head)]
        wait(items)
        items()[0].click()

    def keys(self, *keys):
        ActionChains(self.driver).send_keys(*keys).perform()

    def undo(self):
        ActionChains(self.driver).key_down(Keys.CONTROL).send_keys("z").key_up(Keys.CONTROL).perform()

    def redo(self):
        ActionChains(self.driver).key_down(Keys.CONTROL).key_down(Keys.SHIFT).send_keys("z").key_up(
            Keys.SHIFT).key_up(Keys.CONTROL).perform()

    def write(self, text):
        """Puts a text in the place of the diagram's."""
        self.run("""const area = document.getElementById('text');
            area.value = arguments[0];
            area.dispatchEvent(new Event('input'));""", text)
        time.sleep(0.7)

    def reset(self):
        """Ends what an earlier part left open."""
        self.run("""document.getElementById('menu')?.remove();
            document.querySelector('dialog[open]')?.close();
            document.getElementById('tab-effect').click();
            for (let i = 0; i < 3; i++) document.dispatchEvent(new KeyboardEvent('keydown', { key: 'Escape' }));""")

    def lacks(self, what):
        """Whether the program doesn't know a question yet; then its steps are skipped, by name."""
        time.sleep(0.4)
        is_lacking = "words not understood" in self.panel()
        if is_lacking:
            print(f"skipped: page-session: {what}: the program doesn't know it")
        return is_lacking

    def called(self):
        """The name of the diagram that is shown, which its files have: one that another diagram has already got a number."""
        return self.one("#diagrams .name").get_attribute("textContent")

    def saved(self, name):
        """A file that the page saved."""
        path = self.downloads / name
        return path if wait(lambda: path.exists() and path.stat().st_size) else None

    def saved_as(self, kind):
        """A file of this kind that the page saved of the diagram that is shown."""
        return self.saved(f"{self.called()}.{kind}")


def drags_and_takes_back(s):
    s.example("napkin")
    before = s.text()
    s.check("the example has places", before.count("pos=") == 4, before)
    ActionChains(s.driver).drag_and_drop_by_offset(s.vertex("Z"), 30, 120).perform()
    s.soon("dragging writes a place", lambda: s.text() != before and s.text().count("pos=") == 4, s.text)
    s.check("chains are kept", "W -> Z -> X -> Y" in s.text(), s.text())
    after = s.text()
    s.undo()
    s.soon("undo", lambda: s.text() == before, s.text)
    s.redo()
    s.soon("redo", lambda: s.text() == after, s.text)


OVERLAPS = """const boxes = [...document.querySelectorAll('#drawing .vertex .shape')].map((el) => el.getBoundingClientRect());
    return boxes.flatMap((p, i) => boxes.slice(i + 1).filter((q) => p.left < q.right && q.left < p.right
        && p.top < q.bottom && q.top < p.bottom)).length"""
EXPORTED = """dag {
bb="0,0,1,1"
"age at the first visit" [pos="0.10,0.20"]
smoking [exposure,pos="0.14,0.24"]
"birth weight" [outcome,pos="0.34,0.22"]
tar [pos="0.24,0.23"]
"age at the first visit" -> smoking -> tar -> "birth weight"
}
"""


def fits_places(s):
    s.example("napkin")
    s.write(EXPORTED)
    s.soon("a pasted text's names don't overlap", lambda: len(s.names()) == 4 and s.run(OVERLAPS) == 0, lambda: s.run(OVERLAPS))
    s.check("its places stay as they were written", s.text() == EXPORTED, s.text())
    inside = s.run("""const pane = document.getElementById('drawing').getBoundingClientRect();
        return [...document.querySelectorAll('#drawing .vertex .shape')].map((el) => el.getBoundingClientRect())
            .every((p) => p.left >= pane.left && p.right <= pane.right && p.top >= pane.top && p.bottom <= pane.bottom)""")
    s.check("and all are in view", inside)
    s.one("#arrange").click()
    s.soon("a layout is computed", lambda: "pos=" not in s.text(), s.text)
    s.soon("and the way back is said", lambda: "Undo" in s.one("#toast").text, lambda: s.one("#toast").text)
    s.undo()
    s.soon("the author's places come back", lambda: s.text() == EXPORTED and s.run(OVERLAPS) == 0, s.text)
    time.sleep(0.5)
    ActionChains(s.driver).drag_and_drop_by_offset(s.vertex("tar"), 10, 90).perform()
    s.soon("dragging keeps the names apart", lambda: s.text() != EXPORTED and s.run(OVERLAPS) == 0, s.text)


def draws_large_texts(s):
    s.example("front_door")
    s.run("""window.sawLate = false;
        const drawing = document.getElementById('drawing'), see = () => (window.sawLate ||= drawing.classList.contains('late'));
        new MutationObserver(see).observe(drawing, { attributes: true });""")
    dense = "\n".join(f"w{i} -> w{j}" for i in range(64) for j in range(i + 1, 64))
    s.write(f"dag {{\n{dense}\n}}\n")
    drawn = "return document.querySelectorAll('#drawing .vertex').length === 64 && !document.querySelector('#drawing.late')"
    s.check("a drawing that isn't right yet is dimmed", s.run("return window.sawLate") or s.run(drawn))
    area = s.one("#text")
    s.soon("the answers don't wait for it", lambda: "Mark an outcome" in s.panel(), s.panel)
    s.soon("at the latest after two seconds it is there", lambda: s.run(drawn), lambda: len(s.names()))
    s.check("the text can be written in", area.is_enabled())


def breaks_the_text(s):
    s.example("napkin")
    area = s.one("#text")
    area.click()
    area.send_keys(Keys.CONTROL, Keys.END)
    area.send_keys(Keys.ARROW_UP, Keys.END)
    area.send_keys(" --")
    s.soon("a fault is said", lambda: "This edge has no direction" in s.one("#fault").text, lambda: s.one("#fault").text)
    s.check("without a code", "fault" not in s.one("#fault").text, s.one("#fault").text)
    s.check("at its place", s.one("#paint .fault").text == "--", s.one("#paint").get_attribute("innerHTML"))
    s.check("the answers are said to be older", "last text without a fault" in s.one("#hint").text)
    area.send_keys(Keys.BACKSPACE * 3)
    s.soon("and goes", lambda: not s.one("#fault").is_displayed())
    area.send_keys(Keys.ARROW_UP, Keys.END, "\nY -> W")
    s.soon("a circle is said", lambda: "have a cycle" in s.one("#fault").text, lambda: s.one("#fault").text)
    marked = s.run("return [...document.querySelectorAll('#paint .fault')].map((m) => m.textContent.trim()).join('')")
    s.check("all its names are marked", all(name in marked for name in "WZXY"), marked)
    for _ in range(8):  # what is typed slowly is several steps back
        if s.one("#fault").is_displayed():
            s.undo()
            time.sleep(0.3)
    s.soon("and taken back", lambda: not s.one("#fault").is_displayed())


def draws(s):
    s.example("front_door")
    s.click("M")
    s.check("a menu", s.one("#menu").is_displayed())
    s.item("Adjusted")
    s.soon("a role into the text", lambda: "M [adjusted" in s.text(), s.text)
    s.click("M")
    s.item("Rename")
    field = s.one("#menu input")
    field.send_keys(Keys.CONTROL, "a")
    field.send_keys("tar in lungs", Keys.ENTER)
    s.soon("renaming quotes", lambda: 'X -> "tar in lungs" -> Y' in s.text(), s.text)
    s.click("Y")
    s.item("Arrow")
    s.click("X")
    s.soon("a circle is refused", lambda: "have a cycle" in s.one("#toast").text, lambda: s.one("#toast").text)
    s.check("and changes nothing", "Y -> X" not in s.text(), s.text())
    box = s.one("#drawing").size
    ActionChains(s.driver).move_to_element_with_offset(
        s.one("#drawing"), -box["width"] // 4, box["height"] // 4).double_click().perform()
    s.soon("a double click adds", lambda: "A [pos=" in s.text(), s.text)
    s.keys(Keys.ESCAPE)
    s.click("A")
    s.item("Common")
    s.click("Y")
    s.soon("an edge is drawn", lambda: "A <-> Y" in s.text(), s.text)
    s.click("A")
    s.item("Its edges")
    s.item("A ↔ Y")
    s.item("Make it an arrow")
    s.soon("an edge changes in its place", lambda: "A -> Y" in s.text() and "<-> Y" in s.text(), s.text)
    s.check("chains stay", 'X -> "tar in lungs" -> Y' in s.text(), s.text())
    s.click("A")
    s.item("Delete")
    s.soon("a vertex goes", lambda: "A" not in s.names(), s.text)


def uses_keys_alone(s):
    s.example("front_door")
    s.run("arguments[0].focus()", s.vertex("Y"))
    s.keys("0")
    s.soon("a mark goes", lambda: "Mark an outcome" in s.panel(), s.panel)
    s.keys("o")
    s.soon("and comes", lambda: "Identifiable" in s.panel(), s.panel)
    before = s.text()
    s.keys(Keys.ARROW_DOWN)
    s.soon("arrows move", lambda: s.text() != before and "M" in s.names(), s.text)
    s.keys("n")
    s.soon("a new vertex asks for its name", lambda: s.one("#menu input").is_displayed())
    s.keys("B", Keys.ENTER)
    s.soon("and gets it", lambda: "B [pos=" in s.text(), s.text)
    s.soon("and has the focus", lambda: s.run("return document.activeElement === arguments[0]", s.vertex("B")))
    s.keys("c")
    s.run("arguments[0].focus()", s.vertex("X"))
    s.keys(Keys.ENTER)
    s.soon("an arrow by keys", lambda: "B -> X" in s.text(), s.text)
    s.keys("x")
    s.soon("a vertex's edges", lambda: any("B → X" in b.text for b in s.all("#menu button")))
    s.keys(Keys.ESCAPE)
    s.check("the focus comes back", s.run("return document.activeElement.classList.contains('vertex')"))
    s.run("document.getElementById('tab-effect').focus()")
    s.keys(Keys.ARROW_RIGHT)
    s.soon("tabs by arrows", lambda: s.one("#tab-paths").get_attribute("aria-selected") == "true")
    s.tab("effect")


def names_and_deletes(s):
    s.example("front_door")
    s.click("M")
    s.keys("a")
    s.soon("a key chooses in the open menu", lambda: "M [adjusted" in s.text() and not s.all("#menu"), s.text)
    s.run("document.activeElement.blur()")
    ActionChains(s.driver).move_to_element(s.one("#undo")).move_to_element(s.vertex("M")).perform()
    s.keys("0")
    s.soon("a key is for the vertex under the pointer", lambda: "M [adjusted" not in s.text(), s.text)
    for fresh, why in (("", "can't be empty"), ('a"b', "quotation mark")):
        s.click("M")
        s.item("Rename")
        s.one("#menu input").send_keys(Keys.CONTROL, "a")
        s.one("#menu input").send_keys(fresh or Keys.BACKSPACE, Keys.ENTER)
        s.soon("a name that can't be is refused aloud", lambda: why in s.one("#toast").text, lambda: s.one("#toast").text)
    s.run("arguments[0].focus()", s.vertex("M"))
    s.keys(Keys.DELETE)
    s.soon("after a deletion a vertex has the focus", lambda: "M" not in s.names()
           and s.run("return document.activeElement.classList.contains('vertex')"))
    long = "x" * 90
    s.write(f'dag {{ {long} [exposure] Y [outcome] {long} -> Y }}')
    s.soon("a long name is cut in its shape", lambda: any(name.endswith("…") for name in s.names()), s.names)
    s.check("nothing is pushed away", s.run("return document.documentElement.scrollWidth <= innerWidth"))
    out = s.run("""const pane = document.getElementById('answers-pane').getBoundingClientRect();
        return [...document.querySelectorAll('#tabs button')].filter((el) => el.getBoundingClientRect().right > pane.right
            || el.scrollWidth > el.clientWidth).map((el) => el.id)""")
    s.check("every tab is seen", not out, out)


def says_it_plainly(s):
    s.tab("effect")
    s.write("dag { X [exposure] Y [outcome] Y -> X }")
    s.soon("no directed path", lambda: "No directed path leads from X to Y, so Y isn't changed by X." in s.panel(), s.panel)
    s.check("the tab says what is so", s.one("#tab-effect").get_attribute("textContent") == "Effect: identifiable",
            s.one("#tab-effect").get_attribute("textContent"))
    s.write("dag { X [exposure] Y X -> Y }")
    s.soon("no raw code", lambda: "Mark an outcome" in s.panel() and "fault" not in s.panel(), s.panel)
    s.example("bow")
    s.soon("the plain reason first", lambda: s.one("#panel .verdict p").text.startswith(
        "An unmeasured cause acts on both X and Y, and nothing that is measured breaks it. What is observed doesn't settle"), s.panel)


def saves_the_drawing_and_a_link(s):
    s.example("napkin")
    # A browser may hold back a download that follows another at once; so each is waited for, and asked for again.
    for item, name in (("SVG", "svg"), ("PNG", "png"), ("PDF", "pdf"), ("TikZ", "tex"), ("R code", "R")):
        for _ in range(4):
            s.one("#export").click()
            s.item(item)
            if s.saved(f"Napkin.{name}"):
                break
            time.sleep(1)
    path = s.saved("Napkin.svg")
    s.check("the drawing is saved", path and "<svg" in path.read_text() and ">X</text>" in path.read_text())
    path = s.saved("Napkin.png")
    s.check("as a picture", path and path.read_bytes().startswith(b"\x89PNG"), path)
    path = s.saved("Napkin.pdf")
    pdf = path.read_bytes() if path else b""
    s.check("as PDF", pdf.startswith(b"%PDF-1.4") and b"(X) Tj" in pdf and pdf.rstrip().endswith(b"%%EOF"), pdf[:80])
    path = s.saved("Napkin.tex")
    s.check("as TikZ", path and r"\node[exposure]" in path.read_text() and r"\draw[<->, dashed]" in path.read_text(), path)
    path = s.saved("Napkin.R")
    s.check("as R code", path and 'text <- r"(dag {' in path.read_text() and "identify_effect" in path.read_text(), path)
    s.check("files are called by the diagram's name", s.downloads.joinpath("Napkin.svg").exists())
    text = s.text()
    s.one("#share").click()
    time.sleep(0.3)
    link = s.run("return location.href")
    browser.open_page(s.driver, fragment="#" + link.split("#")[1])
    s.check("the link carries the diagram", s.text() == text, s.text())
    long = browser.survey()
    s.write(long)
    s.one("#share").click()
    s.soon("a long text is packed", lambda: "zip=" in s.run("return location.href"), lambda: s.run("return location.href"))
    link = s.run("return location.href")
    s.check("so that the link is short", len(link) < 2500, len(link))
    browser.open_page(s.driver, fragment="#" + link.split("#")[1])
    s.check("and carries it whole", s.text() == long, s.text())


def takes_other_texts(s):
    """What DAGitty and R write, pasted: it is rewritten, and said so."""
    s.tab("effect")

    def paste(text):
        s.run("""const area = document.getElementById('text');
            area.value = arguments[0];
            area.dispatchEvent(new InputEvent('input', { inputType: 'insertFromPaste' }));""", text)
        time.sleep(0.7)

    paste('g <- dagitty("dag {\\n X [exposure]\\n Y [outcome]\\n X -> Y\\n}")')
    s.soon("R's call", lambda: s.text().startswith("dag {\n X [exposure]") and sorted(s.names()) == ["X", "Y"], s.text)
    s.check("is said", "taken out of R's call" in s.one("#text-notes").text, s.one("#text-notes").text)
    s.undo()
    s.soon("and comes back", lambda: s.text().startswith("g <- dagitty"), s.text)
    paste("E E @-2.2,1.5\nD O @1.4,1.5\nA%20B A @-2.2,-1.5\nU U @0,0\n\nA%20B E D\nE D @0.1,0.2\nU E D\n")
    s.soon("the older form", lambda: sorted(s.names()) == ["A B", "D", "E", "U"] and "U [latent" in s.text() and "E -> D" in s.text(), s.text)
    s.check("its places are kept", s.text().count("pos=") == 4, s.text())
    paste("dag { # what acts\n X [exposure] /* and */ Y [outcome] // here\n X → Y }")
    s.soon("comments and arrows", lambda: "#" not in s.text() and "X -> Y" in s.text(), s.text)
    s.write("dag { X [exposure] Y [outcome] X -> Y // typed\n }")
    s.soon("what is typed is offered to be rewritten", lambda: s.all("#fault [data-key='take text']"), lambda: s.one("#fault").text)
    s.one("#fault [data-key='take text']").click()
    s.soon("and is", lambda: "typed" not in s.text() and not s.one("#fault").is_displayed(), s.text)
    s.write("dag { X [exposure] Y [outcome] Z -> X Z => Y X -> Y }")
    told = lambda: s.one("#text-notes").text + s.one("#fault").text
    s.soon("a dropped edge is told", lambda: "Z = > says nothing" in told() or s.one("#fault").is_displayed(), told)
    s.write('dag { bb="0,0,1,1"\n X [exposure] Y [outcome] X -> Y "=>" note="a" }')
    s.soon("a name of signs is told", lambda: "=> is read as a variable" in told(), told)
    s.check("and each statement that is dropped", "note = " in told() and "bb" not in told(), told())
    s.write("dag { X [exposure] Y [outcome] X -> Y }")
    s.soon("else nothing is", lambda: not told().strip(), told)


def begins_well(s):
    """What the page is for, what to do first, and faults that say what to do."""
    s.one("#new").click()
    s.soon("an empty drawing says what to do", lambda: "Draw your variables. Mark exposure and outcome. Read what to adjust for." in s.one("#welcome").text)
    s.tab("adjustment")
    s.soon("so do the answers", lambda: "Draw your variables" in s.panel() and "is empty" not in s.panel(), s.panel)
    s.tab("rules")
    s.soon("also of the rules", lambda: "is empty" not in s.panel(), s.panel)
    for card in ("effect", "paths", "separation", "rules", "implications", "experiments", "views"):
        s.tab(card)
        s.soon(f"and of {card}", lambda: "Draw your variables" in s.panel(), s.panel)
    s.tab("effect")
    s.check("the page says what it is for", "what to adjust for" in s.one(".tagline").text, s.one("header").text)
    s.check("adjustment comes first", s.all("#tabs button")[0].get_attribute("id") == "tab-adjustment")
    s.check("each tab says what it is", all(tab.get_attribute("title") for tab in s.all("#tabs button")))
    examples = s.run("return [...document.querySelectorAll('#examples-menu optgroup')].map((g) => [g.label, g.children.length])")
    s.check("twenty examples and more, by field", len(examples) >= 4 and sum(n for _, n in examples) >= 25, examples)
    first = s.run("return document.querySelector('#examples-menu optgroup option').value")
    s.example(first)
    s.tab("adjustment")
    s.soon("the first is confounded", lambda: "Physical fitness" in s.panel() and "Hernán" in s.one("#source").text, s.panel)
    s.check("without the models of logic", "positive finite" not in s.panel(), s.panel())
    for text, told, fixed in (
            ("dag { X-ray [exposure] Y [outcome] X-ray -> Y }", "hyphen needs quotation marks", '"X-ray" -> Y'),
            ("dag { X [exposure] Y [outcome] X - > Y }", "An arrow is written ->", "X -> Y"),
            ("dag { X [exposure] Y [outcome] X => Y }", "An arrow is written ->", "X -> Y"),
            ("dag { X [exposure] Y [outcome] X -> Y", "closing brace", "X -> Y\n}"),
            ("", "The text is empty", "dag {")):
        s.write(text)
        s.soon(f"{text!r} is answered", lambda: told in s.one("#fault").text, lambda: s.one("#fault").text)
        s.one("#fault [data-key=mend]").click()
        s.soon("and mended", lambda: fixed in s.text() and not s.one("#fault").is_displayed(), s.text)
    for text, told in (("dag { X -> Y S [selected] X -> S }", "Selection isn't handled"), ("dag { S [latent,exposure] S -> Y }", "S has two marks"),
                       ("pdag { A -- B }", "A pdag isn't read"), ("dag { A [foo] A -> B }", "[foo] isn't known here")):
        s.write(text)
        s.soon(f"{text!r} is answered", lambda: told in s.one("#fault").text, lambda: s.one("#fault").text)
    s.write("dag {\nBody mass [exposure]\nY [outcome]\nBody mass -> Y\n}\n")
    s.soon("a name that became two variables is noted", lambda: 'quotation marks: "Body mass"' in s.one("#text-notes").text, lambda: s.one("#text-notes").text)
    s.one("#text-notes [data-key=mend]").click()
    s.soon("and made one", lambda: sorted(s.names()) == ["Body mass", "Y"], s.text)
    for text, told in (("dag {\nBody mass index [exposure]\nY [outcome]\nBody mass index -> Y\n}\n", 'quotation marks: "Body mass index"'),
                       ("dag { “Body mass index” [exposure] Y [outcome] “Body mass index” -> Y }", "aren't straight")):
        s.write(text)
        s.soon(f"so is {told}", lambda: told in s.one("#text-notes").text, lambda: s.one("#text-notes").text)
        s.one("#text-notes [data-key=mend]").click()
        s.soon("and mended", lambda: sorted(s.names()) == ["Body mass index", "Y"] and not s.one("#text-notes").is_displayed(), s.text)
    for text, told, names in (
            ("dag { “Body mass” [e] Y [o] U [unobserved] “Body mass” -> Y U -> Y }", "quotation marks are straight", ["Body mass", "U", "Y"]),
            ('g <- dagify(y ~ x + a, x ~ a, y ~~ x, exposure = "x", outcome = "y")', "dagify", ["a", "x", "y"]),
            ("y ~ x + z\nx ~ z\nf =~ y + x\n", "lavaan", ["f", "x", "y", "z"]),
            ('digraph G { rankdir=LR; node [shape=box]; a -> b [label="x"]; b -> c; a -> c [dir=both]; }', "Graphviz", ["a", "b", "c"])):
        in_the_drawing.paste(s, text)
        s.soon(f"{told} is rewritten", lambda: sorted(s.names()) == names and told in s.one("#text-notes").text, lambda: (s.text(), s.one("#text-notes").text))
        s.check("Undo is named", "Undo brings the pasted text back" in s.one("#text-notes").text)
    in_the_drawing.paste(s, "dag { X -> Y")
    s.soon("a note goes with its text", lambda: s.one("#fault").is_displayed() and not s.one("#text-notes").is_displayed(), lambda: s.one("#text-notes").text)
    s.undo()
    s.run("""const data = new DataTransfer();
        data.items.add(new File(["PK"], "study.xlsx"));
        document.body.dispatchEvent(new DragEvent("drop", { dataTransfer: data, bubbles: true, cancelable: true }));""")
    s.soon("a file of another kind says which are read", lambda: ".csv, .tsv" in s.one("#toast").text, lambda: s.one("#toast").text)


def changes_several(s):
    s.example("napkin")
    for name in ("W", "Z"):
        ActionChains(s.driver).key_down(Keys.SHIFT).click(s.vertex(name)).key_up(Keys.SHIFT).perform()
    s.soon("two are chosen", lambda: sorted(s.run(MARKED, "selected")) == ["W", "Z"], lambda: s.run(MARKED, "selected"))
    s.one("#selected").click()
    s.item("Adjusted")
    s.soon("both are marked", lambda: s.text().count("adjusted") == 2, s.text)
    place = lambda name: s.run("return document.activeElement && arguments[0].getBoundingClientRect().y", s.vertex(name))
    before = [place("W"), place("Z"), place("X")]
    ActionChains(s.driver).drag_and_drop_by_offset(s.vertex("W"), 0, 60).perform()
    time.sleep(0.6)
    moved = [round(place(name) - was) for name, was in zip(("W", "Z", "X"), before)]
    s.check("both move", moved[0] > 30 and abs(moved[0] - moved[1]) < 3 and moved[2] < moved[0] - 20, moved)
    s.keys(Keys.ESCAPE)
    s.soon("escape ends it", lambda: not s.run(MARKED, "selected") and not s.one("#selected").is_displayed())
    s.one("#fit").click()
    s.one("#select").click()
    box = s.one("#drawing").rect
    ActionChains(s.driver).move_to_element_with_offset(s.one("#drawing"), -int(box["width"] * 0.49), -int(box["height"] * 0.35)).click_and_hold(
        ).move_by_offset(int(box["width"] * 0.97), int(box["height"] * 0.72)).release().perform()
    s.soon("a frame chooses", lambda: len(s.run(MARKED, "selected")) == 4, lambda: s.run(MARKED, "selected"))
    s.run("arguments[0].focus()", s.vertex("X"))
    s.keys(Keys.DELETE)
    s.soon("all go", lambda: not s.names(), s.text)
    s.undo()
    s.soon("and come back", lambda: len(s.names()) == 4, s.text)
    s.keys(Keys.ESCAPE)


def resizes_panes(s):
    width = lambda pane: round(s.one(pane).rect["width"])
    was = width("#answers-pane")
    ActionChains(s.driver).drag_and_drop_by_offset(s.one("#split-answers"), -80, 0).perform()
    s.soon("the answers get wider", lambda: abs(width("#answers-pane") - was - 80) < 4, lambda: width("#answers-pane"))
    s.run("document.getElementById('split-text').focus()")
    was = width("#text-pane")
    s.keys(Keys.ARROW_RIGHT, Keys.ARROW_RIGHT)
    s.soon("the text by keys", lambda: width("#text-pane") == was + 32, lambda: width("#text-pane"))
    s.check("told to a screen reader", s.one("#split-text").get_attribute("aria-valuenow") == str(was + 32))
    browser.open_page(s.driver)
    s.check("it stays so", width("#text-pane") == was + 32, width("#text-pane"))
    for border in ("split-text", "split-answers"):
        s.run("document.getElementById(arguments[0]).focus()", border)
        s.keys(Keys.HOME)
    s.soon("and goes back", lambda: width("#text-pane") == was, lambda: width("#text-pane"))


def keeps_the_work(s):
    s.example("front_door")
    s.one("#share").click()
    time.sleep(0.3)
    s.write("dag { X [exposure] Y [outcome] X -> kept -> Y }")
    s.soon("a link's address follows", lambda: "kept" in s.run("return location.href"), lambda: s.run("return location.href"))
    browser.open_page(s.driver)
    s.check("the diagram is kept", "kept" in s.text(), s.text())
    s.one("#new").click()
    s.soon("an empty one", lambda: s.text() == "dag {\n}\n" and not s.names(), s.text)
    s.one("#diagrams").click()
    s.check("the last ones are listed", "kept" in s.one("#diagrams-list").text, s.one("#diagrams-list").text)
    s.all("#diagrams-list .open")[0].click()
    s.soon("and opened again", lambda: "kept" in s.names(), s.text)


def is_accessible(s):
    """Whatever can be focused has a name, ids are unique, and one heading stands at the top."""
    s.example("napkin")
    s.driver.execute_cdp_cmd("Accessibility.enable", {})
    for tab in ("adjustment", "effect", "paths", "separation", "rules", "implications", "experiments", "data", "compare", "views"):
        s.tab(tab)
        s.run("document.querySelectorAll('#panel details').forEach((el) => (el.open = true))")
        time.sleep(0.3)
        nodes = s.driver.execute_cdp_cmd("Accessibility.getFullAXTree", {})["nodes"]
        nameless = [n["role"]["value"] for n in nodes if not n.get("ignored") and not n.get("name", {}).get("value")
                    and any(p["name"] == "focusable" and p["value"]["value"] for p in n.get("properties", []))
                    and n["role"]["value"] not in ("RootWebArea", "MathMLMath")]
        s.check(f"everything that can be focused has a name: {tab}", not nameless, nameless)
    ids = s.run("return [...document.querySelectorAll('[id]')].map((el) => el.id)")
    s.check("ids are unique", len(ids) == len(set(ids)), sorted(i for i in ids if ids.count(i) > 1))
    label = s.vertex("X").get_attribute("aria-label")
    s.check("a vertex tells its edges", label == "X, exposure; arrow to Y; arrow from Z; common hidden cause with W",
            label)
    s.check("answers are announced", s.run("return document.getElementById('spoken').getAttribute('role')") == "status")


def sends_nothing(s):
    """No request was made but for the page itself, and one that is made is refused."""
    log = [json.loads(entry["message"])["message"] for entry in s.driver.get_log("performance")]
    asked = {e["params"]["request"]["url"] for e in log if e["method"] == "Network.requestWillBeSent"}
    outside = [url[:80] for url in asked if not url.startswith(("blob:", "data:", "about:"))
               and url.split("#")[0] != browser.PAGE.as_uri()]
    s.check("nothing was asked of a network", asked and not outside, outside)
    complaints = [entry for entry in s.driver.get_log("browser") if entry["level"] != "INFO"]
    s.check("no complaint in the console", not complaints, complaints)
    refused = s.driver.execute_async_script("""const done = arguments[0];
        document.addEventListener("securitypolicyviolation", (e) => done(e.effectiveDirective));
        fetch("http://127.0.0.1:9/").catch(() => setTimeout(() => done("none"), 500));""")
    s.check("the page's policy refuses a request", refused == "connect-src", refused)
    s.driver.get_log("browser")


def is_served(s):
    """The page also works where it's served, and asks the server for nothing more."""
    paths = []

    class Handler(http.server.SimpleHTTPRequestHandler):
        def log_message(self, *words):
            paths.append(self.path)

    handler = functools.partial(Handler, directory=browser.PAGE.parent)
    with http.server.ThreadingHTTPServer(("127.0.0.1", 0), handler) as server:
        threading.Thread(target=server.serve_forever, daemon=True).start()
        browser.open_page(s.driver, f"http://127.0.0.1:{server.server_port}/causal.html")
        s.check("the page is served", "minimal set" in s.panel(), s.panel())
        server.shutdown()
    s.check("and asks for nothing more", paths == ["/causal.html"], paths)


def works_by_touch():
    """On a phone: a vertex is dragged and opened by a finger, and nothing is wider than the window."""
    driver = browser.start(width=400, height=860)
    driver.execute_cdp_cmd("Emulation.setTouchEmulationEnabled", {"enabled": True})
    s = Session(driver, None)

    def touch(kind, *at):
        points = [{"x": at[0], "y": at[1]}] if at else []
        driver.execute_cdp_cmd("Input.dispatchTouchEvent", {"type": kind, "touchPoints": points})

    def middle(name):
        return s.run("""const box = arguments[0].getBoundingClientRect();
            return [box.x + box.width / 2, box.y + box.height / 2]""", s.vertex(name))

    try:
        browser.open_page(driver)
        s.example("napkin")
        before = s.text()
        x, y = middle("Z")
        touch("touchStart", x, y)
        for i in range(8):
            touch("touchMove", x + 2 * i, y + 8 * i)
        touch("touchEnd")
        s.soon("a finger drags", lambda: s.text() != before, s.text)
        time.sleep(0.6)
        touch("touchStart", *middle("W"))
        touch("touchEnd")
        s.soon("a finger opens the menu", lambda: s.one("#menu").is_displayed())
        s.keys(Keys.ESCAPE)
        s.run("document.getElementById('arrow').click()")
        for name in ("W", "Y"):
            touch("touchStart", *middle(name))
            touch("touchEnd")
            time.sleep(0.3)
        s.soon("two touches draw an arrow", lambda: "W -> Y" in s.text(), s.text)
        touch("touchStart", *middle("Z"))
        x, y = middle("Y")
        touch("touchMove", (x + middle("Z")[0]) / 2, y + 30)
        touch("touchMove", x, y)
        touch("touchEnd")
        s.soon("or one that is drawn", lambda: "Z -> Y" in s.text(), s.text)
        s.run("document.getElementById('arrow').click()")
        for tab in ("adjustment", "effect", "paths", "separation", "rules", "implications", "experiments", "data", "compare", "views"):
            s.run("document.getElementById('tab-' + arguments[0]).click()", tab)
            time.sleep(0.3)
            wide = s.run("return document.documentElement.scrollWidth - innerWidth")
            s.check(f"nothing is wider than a phone: {tab}", wide <= 0, wide)
        s.example("kidney_stones")
        s.run("document.getElementById('tab-data').click()")
        s.soon("a table on a phone", lambda: s.all("#sample"))
        s.run("document.getElementById('sample').click()")
        s.soon("has values", lambda: s.all("#by"))
        over_tables.by(s, "condition")
        s.soon("and conditions", lambda: s.all("[data-key='arm condition']"))
        wide = s.run("return document.documentElement.scrollWidth - innerWidth")
        s.check("nothing is wider than a phone: a condition", wide <= 0, wide)
        over_tables.by(s, "bounds")
        s.soon("and bounds", lambda: len(over_tables.bounded(s)) == 4, s.panel)
        wide = s.run("return document.documentElement.scrollWidth - innerWidth")
        s.check("nothing is wider than a phone: bounds", wide <= 0, wide)
        s.check("and their intervals", over_tables.has_range(s), s.panel())
        wide = s.run("return document.documentElement.scrollWidth - innerWidth")
        s.check("nothing is wider than a phone: intervals of bounds", wide <= 0, wide)
        s.run("document.getElementById('tab-effect').click()")
        s.one("#panel [data-key='treated']")
        s.run("document.querySelector('#panel [data-key=treated]').click()")
        s.soon("and the treated", lambda: "among those for whom" in s.panel(), s.panel)
        wide = s.run("return document.documentElement.scrollWidth - innerWidth")
        s.check("nothing is wider than a phone: the treated", wide <= 0, wide)
        right = s.run("return document.getElementById('about').getBoundingClientRect().right - innerWidth")
        s.check("the head's buttons are seen on a phone", right <= 0, right)
    finally:
        driver.quit()
    return s


PARTS = [
    *in_the_answers.PARTS[:3], drags_and_takes_back, fits_places, draws_large_texts, breaks_the_text, draws, uses_keys_alone, names_and_deletes,
    says_it_plainly, *in_the_answers.PARTS[3:], *in_the_drawing.PARTS, *leaves_the_page.PARTS, *over_tables.PARTS, begins_well, takes_other_texts,
    changes_several, resizes_panes, saves_the_drawing_and_a_link, keeps_the_work, is_accessible, sends_nothing, is_served,
]


# What only Chromium tells, or only its driver does.
CHROMIUM_ALONE = [is_accessible, sends_nothing]


def main():
    words = sys.argv[1:]
    in_firefox = words[:1] == ["firefox"]
    parts = [part for part in PARTS if not in_firefox or part not in CHROMIUM_ALONE]
    wanted = words[1:] if in_firefox else words
    with tempfile.TemporaryDirectory() as folder:
        driver = (firefox if in_firefox else browser).start(downloads=pathlib.Path(folder))
        try:
            browser.open_page(driver)
            session = Session(driver, pathlib.Path(folder))
            for part in parts:
                if wanted and part.__name__ not in wanted:
                    continue
                session.do(part)
        finally:
            driver.quit()
    done, failed = session.done, session.failed
    if not in_firefox and (not wanted or "works_by_touch" in wanted):
        phone = works_by_touch()
        done, failed = done + phone.done, failed + phone.failed
    print(f"{done} steps of a session{' in Firefox' if in_firefox else ''}, {failed} wrong")
    sys.exit(bool(failed))


if __name__ == "__main__":
    main()
