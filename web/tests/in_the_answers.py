"""What the session does in the cards: sets, formulas, paths, views, and what would help."""
import json
import subprocess
import time

from selenium.webdriver import ActionChains
from selenium.webdriver.common.by import By
from selenium.webdriver.common.keys import Keys

import browser
import leaves_the_page
import over_tables
from browser import wait

EXAMPLES = browser.WEB.parent / "examples"


def reads_a_formula(s):
    s.example("napkin")
    s.check("the answer", s.printed() == "P(Y|do(X)) = q0 / (sum{Y} q0)\nq0 = sum{W} P(W) * P(X,Y|W,Z)\nfree {Z}", s.printed())
    s.check("its command line", s.command() == "$ causal identify diagram.dag --short", s.command())
    labels = [el.get_attribute("aria-label") for el in s.all(".formula [role=math]")]
    lines = s.printed().split("\n")[:2]
    s.check("typeset, with its text as a label", s.all(".formula .mfrac") and labels == lines, labels)
    s.check("a part is explained", s.one(".formula .part").get_attribute("title").startswith("q0 = sum{W}"))
    s.check("a bound name is explained", "bound name" in s.one(".formula .bound").get_attribute("title"))
    s.check("the claim", "equals this formula, if the diagram is right" in s.panel(), s.panel())
    s.check("the source", "Book of Why" in s.one("#source").text)


def chooses_a_form(s):
    """A short formula comes first, and the one that the algorithm builds beside it where it is another."""
    s.example("napkin")
    s.tab("effect")
    is_ticked = lambda: s.run("return document.getElementById('procedure').checked")
    s.check("a short form first", not is_ticked() and "A short formula (--short)" in s.panel(), s.panel())
    s.check("and what the other is", "the full formula, built step by step" in s.panel() and "identification algorithm builds step by step from the diagram" in s.panel(), s.panel())
    s.one("#procedure").click()
    s.soon("as the procedure gives it", lambda: s.printed() == "P(Y|do(X)) = q0 / (sum{Y} q0)\n"
           "q0 = sum{W} P(W) * P(X|W,Z) * P(Y|X,W,Z)\nfree {Z}", s.printed)
    s.check("its command line", s.command() == "$ causal identify diagram.dag", s.command())
    s.check("it is typeset", [el.get_attribute("aria-label") for el in s.all(".formula [role=math]")] == s.printed().split("\n")[:2])
    s.one("#check").click()
    s.soon("check accepts", lambda: "accepted" in s.one(".checked").text, lambda: s.one(".checked").text)
    s.check("the choice stays", is_ticked())
    s.example("front_door")
    s.soon("one form where nothing is shorter", lambda: s.command() == "$ causal identify diagram.dag" and not s.all("#procedure"), s.panel)
    s.example("birth_weight")
    s.soon("another diagram begins with the short form", lambda: s.printed() == "P(Mortality|do(Smoking)) = P(Mortality|Smoking)", s.panel)
    s.one("#check").click()
    s.soon("check accepts it too", lambda: "accepted" in s.one(".checked").text, lambda: s.one(".checked").text)
    s.one("#procedure").click()
    s.soon("the other sums over what is between", lambda: "sum{Weight}" in s.printed(), s.panel)
    s.write("dag { X [exposure] Y [outcome] X -> Y -> Z }")
    s.one("summary[data-key='condition']").click()
    s.soon("a condition may be chosen", lambda: s.all("[data-key='add condition']"), s.panel)
    s.run("const el = document.querySelector('[data-key=\"add condition\"]'); el.value = 'Z'; el.dispatchEvent(new Event('change'))")
    s.soon("a quotient by the procedure", lambda: s.command() == "$ causal identify diagram.dag --given Z" and " / " in s.printed(), s.panel)
    s.one("#procedure").click()
    s.soon("and a short form without one", lambda: s.printed() == "P(Y|do(X),Z) = P(Y|X,Z)", s.panel)
    s.check("its command line too", s.command() == "$ causal identify diagram.dag --given Z --short", s.command())
    s.one("summary[data-key='condition']").click()
    time.sleep(0.3)
    s.example("bow")
    s.soon("no form of a hedge", lambda: s.command() == "$ causal identify diagram.dag" and not s.all("#procedure"), s.panel)


def chooses_sets(s):
    s.example("napkin")
    s.tab("separation")
    s.soon("separation", lambda: "not separated: {X} from {Y} given {}" in s.printed(), s.printed)
    s.one("button[data-key='arm given']").click()
    time.sleep(0.3)
    s.click("W")
    s.soon("choosing by a click", lambda: "given {W}" in s.printed(), s.printed)
    s.check("the path is drawn", len(s.all("#drawing .over path.open")) > 0)
    s.keys(Keys.ESCAPE)
    s.soon("escape ends it", lambda: s.one("#hint").text == "", lambda: s.one("#hint").text)
    s.tab("rules")
    s.soon("a rule", lambda: s.printed().startswith("rule 2"), s.printed)
    s.check("its graph is drawn", s.cut() == ["X→Y"], s.cut())
    s.check("and told", "without X → Y" in s.panel(), s.panel())
    s.example("hidden_cause")
    s.tab("separation")
    s.check("a path through a hidden vertex", "smoking -> tar -> cancer" in s.panel() or "<->" in s.panel(), s.panel())
    s.tab("effect")


def saves_a_certificate(s):
    s.example("napkin")
    s.one("#panel summary[data-key=derivation]").click()
    asked = """return ['.tick', '.cross', '.asked'].map((css) => document.querySelectorAll(css).length)"""
    s.run("document.querySelector('#panel .steps').scrollIntoView()") if wait(lambda: s.all("#panel .steps")) else None
    for item in s.all("#panel .steps > li"):
        s.run("arguments[0].scrollIntoView()", item)
        time.sleep(0.05)
    s.soon("each rule holds", lambda: s.run(asked) == [6, 0, 6], lambda: s.run(asked))
    ActionChains(s.driver).move_to_element(s.one("#undo")).perform()
    s.run("arguments[0].focus()", s.all("#panel .steps .asks")[0])
    s.soon("a rule's graph is drawn", lambda: s.cut(), s.cut)
    lost = s.one("#panel .steps .asked").text.split(" without ")[1].rstrip(".")
    s.check("and its edges are told", sorted(lost.replace(" ", "").split(",")) == sorted(s.cut()), (lost, s.cut()))
    s.run("document.activeElement.blur()")
    s.soon("and goes", lambda: not s.cut(), s.cut)
    s.run("document.getElementById('check').scrollIntoView()")
    s.one("#check").click()
    s.soon("check accepts", lambda: "accepted" in s.one(".checked").text, lambda: s.one(".checked").text)
    s.one("#save").click()
    path = s.saved("Napkin.certificate.json")
    s.check("the certificate is saved", path)
    script = """import { readFileSync } from "node:fs";
        const [loader, module, ...files] = process.argv.slice(1);
        const { load } = await import(loader);
        const causal = await load(readFileSync(module)), [g, c] = files.map((file) => readFileSync(file, "utf8"));
        console.log(causal.run(["check", "g", "c"], { g, c }).out);"""
    words = ["node", "--input-type=module", "-e", script, browser.WEB / "src/causal.mjs",
             browser.WEB / "dist/causal.wasm", EXAMPLES / "napkin.dag", path]
    checked = subprocess.run(words, capture_output=True, text=True, check=False)
    s.check("and accepted elsewhere", checked.stdout.startswith("accepted"), checked.stdout + checked.stderr)


def adjusts_and_compares(s):
    s.example("kidney_stones")
    s.tab("adjustment")
    s.check("the sets", [c.text for c in s.all("#panel .chip")] == ["S"], [c.text for c in s.all("#panel .chip")])
    s.soon("the formula", lambda: "sum{S} P(S) * P(R|" in s.printed(1), lambda: s.printed(1))
    s.check("in the program's LaTeX", s.all("#panel .formula .mop") and s.one("#panel .formula [role=math]").get_attribute(
        "aria-label") == s.printed(1).split("\n")[1], s.printed(1))
    s.one("button[data-key='take']").click()
    s.soon("the set is marked", lambda: "S [adjusted" in s.text(), s.text)
    s.soon("and admissible", lambda: "Admissible" in s.panel(), s.panel)
    s.example("m_bias")
    s.tab("adjustment")
    s.run("arguments[0].focus()", s.vertex("M"))
    s.keys("a")
    s.soon("the path that breaks it", lambda: len(s.all("#drawing .over path.open")) == 4, s.panel)
    s.example("kidney_stones")
    s.tab("compare")
    s.soon("equivalent", lambda: s.printed() == "equivalent", s.printed)
    second = s.one("textarea.second")
    second.send_keys(Keys.CONTROL, "a")
    wanted = "dag { S -> T -> R S -> R U -> V }"
    for letter in wanted:
        s.keys(letter)
        time.sleep(0.03)
    time.sleep(0.6)
    value = s.one("textarea.second").get_attribute("value")
    s.check("typing the second text loses nothing", value == wanted, value)
    s.check("a name in one alone", "observed in one diagram alone: U" in s.panel(), s.panel())
    s.one("textarea.second").send_keys(Keys.CONTROL, "a")
    s.keys("dag { T S R S -> T S -> R }")
    s.soon("the difference is drawn", lambda: len(s.all("#drawing .over path.difference")) == 1, s.panel)


def shows_a_hedge(s):
    s.example("bow")
    s.tab("effect")
    s.check("a hedge is drawn", len(s.all("#drawing .over path.hedge")) == 2)
    s.check("its sets", len(s.all("#drawing .hedge-small")) == 1)
    s.check("its models", len(s.all(".models tbody tr")) == 3, len(s.all(".models tbody tr")))
    s.one("#check").click()
    s.soon("check accepts it", lambda: "accepted" in s.one(".checked").text, lambda: s.one(".checked").text)


def lists_what_is_implied(s):
    s.example("fork")
    s.tab("implications")
    if s.lacks("implications"):
        return
    s.soon("the pairs", lambda: s.printed() == "A from C given {B}", s.printed)
    s.check("their command line", s.command() == "$ causal implications diagram.dag", s.command())
    s.run("arguments[0].focus()", s.one("table.pairs tbody tr"))
    s.soon("a pair is drawn", lambda: s.marked("from") == ["A"] and s.marked("chosen") == ["B"])
    drop = """const data = new DataTransfer();
        data.items.add(new File([arguments[0]], "fork.csv", { type: "text/csv" }));
        document.body.dispatchEvent(new DragEvent("drop", { dataTransfer: data, bubbles: true, cancelable: true }));"""
    s.run(drop, "A,B,C,count\n0,0,0,4\n0,0,1,2\n1,0,0,2\n1,0,1,1\n0,1,0,1\n0,1,1,3\n1,1,0,2\n1,1,1,1\n")
    s.soon("the largest difference", lambda: "A=0,C=0,B=1" in s.one("table.pairs").text, s.panel)
    s.check("with its command line", s.command() == "$ causal implications diagram.dag fork.csv --count=count", s.command())
    s.check("as a probability, and in counts", "0." in s.all("table.pairs tbody td")[2].text
            and "in counts" in s.all("table.pairs tbody td")[2].get_attribute("title"), s.all("table.pairs tbody td")[2].text)
    s.check("with a test", "0." in s.all("table.pairs tbody td")[1].text, s.panel())
    s.check("and what it is worth", "speaks against the diagram" in s.panel() and "not proved" in s.panel(), s.panel())
    s.run(drop, "A,C\n0,1\n")
    s.soon("a table that lacks a column", lambda: "No column for B" in s.panel(), s.panel)
    s.soon("the pairs stay", lambda: s.printed() == "A from C given {B}", s.printed)
    s.example("front_door")
    s.soon("nothing to test", lambda: "No independence to test" in s.panel(), s.panel)


def takes_trials(s):
    s.example("front_door")
    s.tab("experiments")
    s.soon("trials are asked for", lambda: "set in a trial" in s.panel(), s.panel)
    s.write("dag { X [exposure] Y [outcome] Z -> X -> Y Z <-> X Z <-> Y }")
    fold(s, "which trials")
    s.soon("which would help", lambda: s.all("#which-trials [data-key='trial Z']"), s.panel)
    fold(s, "which trials", is_open=False)
    s.one("[data-key='arm experiment 0']").click()
    s.click("Z")
    if s.lacks("surrogate"):
        return
    s.soon("a formula", lambda: s.printed() == "P(Y|do(X)) = P(Y|do(Z),X)\nfree {Z}", s.panel)
    s.check("its command line", s.command() == "$ causal surrogate diagram.dag --experiments Z", s.command())
    s.check("typeset", s.all("#panel .formula .katex"))
    s.one("[data-key='another trial']").click()
    s.soon("a second trial", lambda: len(s.all("#panel .picker")) == 2)
    s.write("dag { X [exposure] Y [outcome] Z -> X -> Y X <-> Y }")
    s.soon("none found", lambda: "No formula found" in s.panel(), s.panel)
    s.soon("the district", lambda: "district {Y}" in s.printed(), s.printed)
    s.keys(Keys.ESCAPE)


def fold(s, key, is_open=True):
    """Opens a fold of the panel, or closes it, and waits until it stays so: a panel that is drawn anew has what was noted of it."""
    looks = []

    def stays():
        summary = s.one(f"summary[data-key='{key}']")
        looks.append(summary.find_element(By.XPATH, "..").get_property("open") == is_open)
        if not looks[-1]:
            summary.click()
        return looks[-3:] == [True] * 3 or (time.sleep(0.05) or False)

    if not wait(stays):
        s.check(f"the fold {key}", False, s.panel())


def asks_under_a_condition(s):
    s.tab("effect")
    s.write("dag { X [exposure] Y [outcome] Z -> X Z -> Y X -> Y }")
    s.soon("the effect", lambda: s.printed() == "P(Y|do(X)) = sum{Z} P(Z) * P(Y|X,Z)", s.panel)
    fold(s, "condition")
    s.soon("a condition may be chosen", lambda: s.all("[data-key='arm condition']"), s.panel)
    s.one("[data-key='arm condition']").click()
    s.click("Z")
    if s.lacks("condition"):
        return
    s.soon("under a condition", lambda: s.printed() == "P(Y|do(X),Z) = P(Y|X,Z)", s.panel)
    s.check("its command line", s.command() == "$ causal identify diagram.dag --given Z", s.command())
    s.one("#check").click()
    s.soon("check accepts", lambda: "accepted" in s.one(".checked").text, lambda: s.one(".checked").text)
    s.write("dag { X [exposure] Y [outcome] X -> Y X <-> Y Y -> Z }")
    s.soon("not identified", lambda: "P(Y|do(X),Z) not identified" in s.printed(), s.panel)
    s.check("without models of its own", "two other models differ on it, which aren't shown" in s.panel(), s.panel())
    s.write("dag { X [exposure] Y [outcome] X -> Y X <-> Y Z -> Y Z <-> Y }")
    s.soon("by the same models", lambda: "the same two models differ on it too" in s.panel(), s.panel)
    s.keys(Keys.ESCAPE)
    s.example("napkin")
    s.soon("another diagram has no condition", lambda: s.command() == "$ causal identify diagram.dag --short", s.command)


def asks_for_a_direct_effect(s):
    s.tab("effect")
    s.write("dag { X [exposure] Y [outcome] X -> M -> Y X -> Y C -> M C -> Y M -> K }")
    s.soon("the effect", lambda: s.command() == "$ causal identify diagram.dag --short", s.command)
    s.one("#panel [data-key='direct']").click()
    s.soon("what is on the way is set too", lambda: s.command() == "$ causal identify diagram.dag --x X,M", s.command)
    s.check("its formula", s.printed().startswith("P(Y|do(X,M)) = sum{C} P(C) * P(Y|"), s.printed())
    s.check("the choice stands above the answer", s.run("""const [kind, verdict] = ['.kind', '.verdict'].map((css) =>
        document.querySelector(`#panel ${css}`).getBoundingClientRect().top); return kind < verdict"""))
    s.one("#check").click()
    s.soon("check accepts", lambda: "accepted" in s.one(".checked").text, lambda: s.one(".checked").text)
    s.tab("adjustment")
    s.soon("the sets for it", lambda: s.command() == "$ causal adjust diagram.dag --x X,M" and "{C}" in s.printed(), s.panel)
    s.tab("effect")
    s.one("[data-key='also set M']").click()
    s.soon("one is left out", lambda: s.command() == "$ causal identify diagram.dag --short", s.command)
    s.one("[data-key='take mediators']").click()
    s.soon("and taken again", lambda: s.command() == "$ causal identify diagram.dag --x X,M", s.command)
    s.one("#panel [data-key='total']").click()
    s.soon("the total effect", lambda: s.command() == "$ causal identify diagram.dag --short", s.command)


def asks_among_the_treated(s):
    """The effect among the treated: its formula, and what stands in its way."""
    s.tab("effect")
    s.example("kidney_stones")
    s.one("#panel [data-key='treated']").click()
    s.soon("its command line", lambda: s.command() == "$ causal treated diagram.dag", s.command)
    s.soon("its formula", lambda: s.printed() == "P(R|do(T),T') = sum{S} P(S|T') * P(R|T,S)", s.printed)
    s.check("typeset, with the primed name", s.one(".formula [role=math]").get_attribute("aria-label") == s.printed()
            and "T′" in s.one(".formula").text.replace("'", "′").replace("\n", ""), s.one(".formula").text)
    s.check("said in words", "among those for whom T' was observed" in s.panel() and "T' the one that was observed" in s.panel(), s.panel())
    copied = leaves_the_page.copied(s)
    s.check("what is copied is what is shown", copied == r"P(R \mid \mathrm{do}(T), T') = \sum_{S} P(S \mid T') P(R \mid T, S)", copied)
    s.check("no certificate is offered", not s.all("#save"))
    fold(s, "condition")
    s.one("[data-key='arm condition']").click()
    s.click("S")
    s.soon("given a covariate", lambda: s.command() == "$ causal treated diagram.dag --given S" and s.printed() == "P(R|do(T),S,T') = P(R|T,S)", s.panel)
    s.click("S")
    s.keys(Keys.ESCAPE)
    fold(s, "condition", is_open=False)
    s.tab("adjustment")
    s.soon("Adjust has sets for the effect alone", lambda: s.command() == "$ causal adjust diagram.dag"
           and s.one("#panel [data-key='total']").get_attribute("aria-checked") == "true" and not s.all("#panel [data-key='treated']"), s.panel)
    s.tab("effect")
    s.example("bow")
    s.soon("another diagram begins with the whole effect", lambda: s.command() == "$ causal identify diagram.dag", s.panel)
    s.one("#panel [data-key='treated']").click()
    s.soon("a confounded treatment", lambda: "Not identifiable" in s.panel() and "lead back from Y to X: Y <-> X." in s.panel(), s.panel)
    s.check("is printed", s.printed().startswith("P(Y|do(X),X') is not identifiable\nX -> Y and Y <-> X\n"), s.printed())
    s.check("with its two models", len(s.all(".models tbody tr")) == 3 and s.all("#drawing .hedge-small"), s.panel())
    s.check("its path is drawn", len(s.all("#drawing .over path.open")) == 2, len(s.all("#drawing .over path.open")))
    fold(s, "next")
    s.soon("what would help", lambda: "the common cause of X and Y" in s.one("#what-next").text, s.panel)
    s.check("and no trial, which gives another effect", "trial" not in s.one("#what-next").text, s.panel())
    fold(s, "next", is_open=False)
    s.example("napkin")
    s.one("#panel [data-key='treated']").click()
    s.soon("a path alone", lambda: "Not identifiable" in s.panel() and "P(Y|do(X)) = P(X,Y) + P(X') * P(Y|do(X),X')" in s.panel(), s.panel)
    s.check("its path", "Y <-> W <-> X" in s.one("#panel .verdict").text and len(s.all("#drawing .over path.open")) == 3, s.panel())
    s.check("that says no", "no" in s.one("#tab-effect .dot").get_attribute("class").split())
    s.write("dag { X [exposure] Y [outcome] A [exposure] X -> A -> Y }")
    s.one("#panel [data-key='treated']").click()
    s.soon("a treatment that acts on another", lambda: "Mark one exposure at a time" in s.panel(), s.panel)
    s.one("#panel [data-key='total']").click()
    s.soon("and back", lambda: s.command().startswith("$ causal identify diagram.dag"), s.command)


def asks_through_mediators(s):
    """Natural effects: mediators by clicks, the formula in its factors, and what stands in the way."""
    s.tab("effect")
    s.example("kidney_stones")
    s.write("dag { X [exposure] M N Y [outcome] X -> M -> Y X -> N -> Y X -> Y }")
    s.one("#panel [data-key='through']").click()
    s.soon("what is on the way is taken", lambda: s.command() == "$ causal natural diagram.dag --through M,N", s.command)
    s.one("[data-key='through N']").click()
    s.soon("one is left out", lambda: s.command() == "$ causal natural diagram.dag --through M", s.command)
    s.soon("its formula", lambda: s.printed() == "P(Y[X,M[X']]) = sum{M,N} P(M|X') * P(N|X) * P(Y|X,M,N)", s.printed)
    labels = [el.get_attribute("aria-label") for el in s.all(".formula [role=math]")]
    s.check("typeset, and so are its factors", labels == [
        s.printed(), "P(M|do(X',N,Y)) = P(M|X')", "P(N|do(X,M,Y)) = P(N|X)", "P(Y|do(X,M,N)) = P(Y|X,M,N)"], labels)
    s.check("each with the value that it reads", "{M} reads X'" in s.panel() and "{Y} reads X" in s.panel(), s.panel())
    s.check("without a fault of the typesetting", not s.all("#panel .katex-error") and s.all("#panel .formula .katex"))
    s.check("which contrasts they are", "natural direct effect is P(Y[X,M[X']]) compared with P(Y|do(X'))" in s.panel()
            and "natural indirect effect is P(Y|do(X)) compared with P(Y[X,M[X']])" in s.panel(), s.panel())
    s.check("the mediator is marked", s.marked("chosen") == ["M"], s.marked("chosen"))
    copied = leaves_the_page.copied(s)
    s.check("what is copied is what is shown", copied == r"P({Y}_{{X}, {M}_{X'}}) = \sum_{M, N} P(M \mid X') P(N \mid X) P(Y \mid X, M, N)", copied)
    s.one("[data-key='arm through']").click()
    s.click("N")
    s.soon("mediators by clicks", lambda: s.command() == "$ causal natural diagram.dag --through M,N", s.command)
    s.click("M")
    s.click("N")
    s.soon("without a mediator", lambda: "There is no mediator" in s.panel() and "click the mediators in the drawing" in s.panel(), s.panel)
    s.click("M")
    s.soon("and with one", lambda: s.command() == "$ causal natural diagram.dag --through M", s.command)
    s.keys(Keys.ESCAPE)
    s.write("dag { X [exposure] Y [outcome] X -> L -> M -> Y L -> Y X -> Y }")
    s.soon("a recanting witness", lambda: "Not identifiable" in s.panel() and "L is a recanting witness" in s.panel(), s.panel)
    s.check("is marked", s.marked("witness") == ["L"] and len(s.all("#drawing .over path.open")) == 1, s.marked("witness"))
    s.check("and printed", s.printed() == "P(Y[X,M[X']]) is not identifiable\nL reads X and X'\nP(Y|do(X)) is identifiable\nanother effect, the "
            "interventional one: sum{M} P(M|do(X')) * P(Y|do(X,M)) = sum{M} (sum{L} P(L|X') * P(M|L)) * (sum{L} P(L|X) * P(Y|X,L,M))", s.printed())
    s.check("that says no", "no" in s.one("#tab-effect .dot").get_attribute("class").split())
    s.write("dag { X [exposure] Y [outcome] U [latent] X -> M -> Y X -> Y U -> M U -> Y }")
    s.soon("a district that reads both values", lambda: "Common hidden causes join Y and M" in s.panel(), s.panel)
    s.check("is marked", sorted(s.marked("witness")) == ["M", "Y"] and len(s.all("#drawing .over path.open")) == 4, len(s.all("#drawing .over path.open")))
    fold(s, "next")
    s.soon("what would help", lambda: "Measure one of these" in s.one("#what-next").text and "U" in s.one("#what-next").text, s.panel)
    fold(s, "next", is_open=False)
    s.write("dag { X [exposure] Y [outcome] X -> M -> Y X -> Y X <-> Y }")
    s.soon("a hedge", lambda: "Not identifiable" in s.panel() and s.all("#drawing .hedge-small") and len(s.all("#drawing .over path.hedge")) == 2, s.panel)
    s.check("with its two models", len(s.all(".models tbody tr")) == 3, s.panel())
    s.write("dag { X [exposure] Y [outcome] X -> Y M -> Y }")
    s.soon("what is nil", lambda: "No directed path leads from X through M to Y: the indirect effect is nil." in s.panel(), s.panel)
    s.tab("adjustment")
    s.soon("Adjust has sets for the effect alone", lambda: s.command() == "$ causal adjust diagram.dag", s.command)
    s.tab("effect")
    s.example("napkin")
    s.soon("another diagram begins with the whole effect", lambda: s.command() == "$ causal identify diagram.dag --short", s.command)


def adjusts_with_what_is_marked(s):
    s.tab("adjustment")
    s.write("dag { X [exposure] Y [outcome] M [adjusted] A -> X A -> M B -> M B -> Y X -> Y }")
    sets = lambda: [chip.text for chip in s.all("[data-key^='with ']")]
    s.soon("sets that contain what is marked", lambda: sorted(sets()) == ["M, A", "M, B"], sets)
    s.all("[data-key^='with ']")[0].click()
    s.soon("one is taken", lambda: s.text().count("adjusted") == 2 and "Admissible" in s.panel(), s.panel)
    s.check("the marked set is judged first", s.all("#panel .verdict")[0].text == "Admissible", s.panel())
    s.write("dag { A [exposure] E [exposure] D [outcome] Z [adjusted] A -> E A -> Z B -> D B -> Z E -> D }")
    s.soon("so is one that isn't admissible", lambda: s.all("#panel .verdict")[0].text.startswith("Not admissible"), s.panel)
    s.check("also by the tab's dot", "no" in s.one("#tab-adjustment .dot").get_attribute("class").split(), s.one("#tab-adjustment").get_attribute("textContent"))
    s.example("warm_up")
    chips = lambda: [chip.text for chip in s.all("[aria-label='Minimal adjustment sets'] .chip")]
    s.soon("seven sets", lambda: len(chips()) == 7, chips)
    s.one("[data-key='wish Coach']").click()
    s.soon("those with a variable", lambda: len(chips()) == 2 and all("Coach" in c for c in chips()), chips)
    s.one("[data-key='wish Coach']").click()
    s.soon("or without it", lambda: len(chips()) == 5 and not any("Coach" in c for c in chips()), chips)
    s.write("dag { X [exposure] Y [outcome] M [adjusted] X -> M -> Y M -> K }")
    s.soon("why a mediator isn't", lambda: "M lies on the way from" in s.panel(), s.panel)
    s.write("dag { X [exposure] Y [outcome] K [adjusted] X -> M -> Y M -> K }")
    s.soon("why what is behind it isn't", lambda: "K lies behind a variable that is on the way" in s.panel(), s.panel)
    s.write("dag { X [exposure] Y [outcome] Frailty [latent] X -> Y Frailty -> X Frailty -> Y }")
    s.tab("effect")
    s.soon("the plain reason", lambda: s.one("#panel .verdict p").text.startswith(
        "Unmeasured Frailty acts on both X and Y, and nothing that is measured breaks it."), s.panel)


def lists_separating_sets(s):
    s.tab("separation")
    s.write("dag { X [exposure] Y [outcome] X -> A -> B -> Y X -> C -> Y }")
    sets = lambda: [chip.text for chip in s.all("[data-key^='separates ']")]
    s.soon("several sets", lambda: sorted(sets()) == ["A, C", "B, C"], sets)
    s.all("[data-key^='separates ']")[0].click()
    s.soon("one is taken", lambda: s.printed().startswith("separated"), s.printed)
    s.tab("implications")
    s.soon("a pair leads there", lambda: s.all("table.pairs tbody button"), s.panel)
    s.all("table.pairs tbody button")[0].click()
    s.soon("with its own sets", lambda: s.all("[data-key^='separates ']"), s.panel)
    s.tab("effect")


EDGES = """return [...document.querySelectorAll('#drawing .edge')].filter((e) => e.classList.contains(arguments[0])
    && e.classList.contains('blocked') === arguments[1]).map((e) => e.dataset.edge).sort()"""


def colours_paths(s):
    s.write("dag { X [exposure] Y [outcome] X -> M -> Y Z -> X Z -> Y M -> K }")
    s.one("#paths").click()
    s.soon("causal paths", lambda: s.run(EDGES, "causal", False) == ["M→Y", "X→M"], lambda: s.run(EDGES, "causal", False))
    s.check("biasing paths", s.run(EDGES, "biasing", False) == ["Z→X", "Z→Y"], s.run(EDGES, "biasing", False))
    s.check("in the legend", s.all(".legend .way")[0].is_displayed())
    s.run("arguments[0].focus()", s.vertex("Z"))
    s.keys("a")
    s.soon("a set blocks", lambda: s.run(EDGES, "biasing", True) == ["Z→X", "Z→Y"], lambda: s.run(EDGES, "biasing", True))
    s.run("arguments[0].focus()", s.vertex("M"))
    s.keys("a")
    s.soon("also the causal one", lambda: s.run(EDGES, "causal", True) == ["M→Y", "X→M"], lambda: s.run(EDGES, "causal", True))
    s.example("m_bias")
    s.soon("a collider that isn't adjusted for opens nothing", lambda: s.run(EDGES, "causal", False) and not s.run(EDGES, "biasing", False),
           lambda: s.run(EDGES, "biasing", False))
    s.run("arguments[0].focus()", s.vertex("M"))
    s.keys("a")
    s.soon("and one that is opens a path", lambda: len(s.run(EDGES, "biasing", False)) == 4, lambda: s.run(EDGES, "biasing", False))
    s.one("#paths").click()
    s.soon("colours go", lambda: not s.run(EDGES, "biasing", False) and not s.run(EDGES, "causal", False))
    s.write("dag { A -> B -> C D -> C U [latent] U -> B }")
    s.run("document.activeElement.blur()")
    ActionChains(s.driver).move_to_element(s.vertex("B")).perform()
    s.soon("ancestors on hover", lambda: sorted(s.marked("ancestor")) == ["A", "U"], lambda: s.marked("ancestor"))
    ActionChains(s.driver).move_to_element(s.one("#undo")).perform()
    s.soon("and they go", lambda: not s.marked("ancestor"))


def tells_paths_apart(s):
    """Paths differ by their lines; an edge on both kinds shows both; the list says what is open, and by what a path is closed."""
    s.write("dag { X [exposure] Y [outcome] X -> I -> Y N -> I N -> W -> X C -> W C -> Y }")
    s.one("#paths").click()
    both = lambda: s.run("""return [...document.querySelectorAll('#drawing g.edge')].filter((e) => e.classList.contains('causal')
        && e.classList.contains('also') && e.querySelector('.second').getAttribute('d')).map((e) => e.dataset.edge)""")
    s.soon("an edge on both kinds shows both", lambda: both() == ["I→Y"], both)
    dashes = lambda cls: s.run("return getComputedStyle(document.querySelector(`#drawing g.edge.${arguments[0]}:not(.also) .line`)).strokeDasharray", cls)
    s.check("causal and biasing lines differ without colour", dashes("causal") == "none" and dashes("biasing") not in ("none", ""), (dashes("causal"), dashes("biasing")))
    s.check("the legend covers nothing", s.run("""const svg = document.getElementById('drawing').getBoundingClientRect();
        return document.querySelector('.below').getBoundingClientRect().top >= svg.bottom - 1"""))
    s.one("#paths").click()
    s.tab("paths")
    rows = lambda: [row.text for row in s.all("table.paths tbody tr")]
    s.soon("a list of paths", lambda: any("X -> I -> Y causal open" in row for row in rows()), rows)
    broken = s.run("""return [...document.querySelectorAll('table.paths td:nth-child(2)')].filter((cell) => {
        const range = document.createRange();
        range.selectNodeContents(cell);
        return range.getClientRects().length > 1; }).length""")
    s.check("no word is broken", broken == 0, broken)
    s.check("with what closes them", any("X <- W <- N -> I -> Y not causal open" in row for row in rows()), rows())
    s.run("arguments[0].focus()", s.vertex("W"))
    s.keys("a")
    s.soon("an adjusted variable closes", lambda: any("N -> I -> Y not causal closed by W (adjusted)" in row for row in rows()), rows)
    s.write("dag { X [exposure] Y [outcome] X -> Y X -> S Y -> S }")
    s.soon("a collider closes", lambda: any("closed by S (a collider)" in row for row in rows()), rows)
    s.write("dag { X [exposure] Y X -> Y }")
    s.one("#paths").click()
    s.soon("without an outcome it is said what is missing", lambda: "Mark an exposure and an outcome first" in s.one("#toast").text
           and s.one("#paths").get_attribute("aria-pressed") == "false", lambda: s.one("#toast").text)
    s.write("dag { A -> B -> C D -> C }")
    s.run("arguments[0].focus()", s.vertex("B"))
    s.keys("m")
    s.soon("causes and effects stay marked", lambda: s.marked("ancestor") == ["A"] and s.marked("descendant") == ["C"],
           lambda: (s.marked("ancestor"), s.marked("descendant")))
    s.check("and the legend tells", s.one("[data-for=ancestor]").is_displayed() and s.one("[data-for=descendant]").is_displayed())
    ActionChains(s.driver).move_to_element(s.vertex("D")).move_to_element(s.one("#undo")).perform()
    s.check("also when the pointer goes on", s.marked("ancestor") == ["A"])
    s.run("document.activeElement.blur()")
    s.keys(Keys.ESCAPE)
    s.soon("escape ends it", lambda: not s.marked("ancestor"))
    s.tab("effect")


def shows_other_views(s):
    """The correlation graph, the moral graph and the class of equivalent diagrams."""
    s.write("dag { A -> B -> C D -> C C -> E }")
    s.tab("views")
    joined = lambda: len(s.all("#drawing .over path.joined"))
    s.soon("what goes together", lambda: joined() == 8, joined)
    s.one("[data-key='view moral']").click()
    s.soon("given all others", lambda: joined() == 5, joined)
    s.one("[data-key='view class']").click()
    s.soon("arrows that may turn", lambda: joined() == 1 and "1 of 4 arrows" in s.panel(), s.panel)
    s.tab("effect")
    s.soon("the diagram comes back", lambda: not joined(), joined)


def tells_what_would_help(s):
    """Where there is no formula: which measurement or which trial would give one."""
    s.write("dag { X [exposure] Y [outcome] U [latent] Z -> X -> Y U -> X U -> Y }")
    s.tab("effect")
    s.soon("no formula", lambda: s.all("summary[data-key=next]"), s.panel)
    s.one("summary[data-key=next]").click()
    told = lambda: s.one("#what-next").text
    s.soon("a measurement", lambda: "Measure one of these" in told() and "U" in told(), told)
    s.write("dag { X [exposure] Y [outcome] Z -> X -> Y Z <-> X Z <-> Y }")
    s.soon("a trial", lambda: s.all("#what-next [data-key='trial Z']") or "identif" in s.panel(), told)
    s.write("dag { X [exposure] Y [outcome] X -> Y X <-> Y }")
    s.soon("a hidden cause without a name", lambda: "the common cause of X and Y" in told(), told)
    s.one("summary[data-key=next]").click()


def lists_instruments(s):
    """Each variable that is an instrument, in which strata, and why the others are none."""
    s.example("fork")
    s.tab("effect")
    s.write("dag { Z W X [exposure] Y [outcome] U [latent] D Z -> X -> Y U -> X U -> Y W -> Z W -> Y X -> D }")
    fold(s, "instruments")
    chips = lambda: [el.text for el in s.all("#instruments .chip")]
    s.soon("one, in strata", lambda: chips() == ["Z given W"], s.panel)
    s.check("as the program lists them", s.command(1) == "$ causal instruments diagram.dag --most 8" and s.printed(1) == "Z given {W}", s.panel())
    fold(s, "no instruments")
    others = lambda: [el.text for el in s.all("#instruments li")]
    s.soon("the others aren't, each for its reason", lambda: len(others()) == 2 and "D: the exposure acts on it" in " ".join(others())
           and "Y <- W" in " ".join(others()), others)
    fold(s, "no instruments", is_open=False)
    s.write("dag { Z X [exposure] Y [outcome] U [latent] A Z -> X -> Y U -> X U -> Y }")
    s.soon("one alone, and none that has nothing to do with the exposure", lambda: chips() == ["Z"], s.panel)
    fold(s, "no instruments")
    s.soon("which is told", lambda: others() == ["A: it doesn't go with the exposure."], others)
    fold(s, "no instruments", is_open=False)
    s.tab("data")
    over_tables.drop(s, "lots.csv", "Z,X,Y,count\n0,0,0,40\n0,1,1,10\n1,0,0,20\n1,1,1,25\n1,1,0,5\n")
    s.tab("effect")
    s.one("#instruments .chip").click()
    s.soon("taken for bounds", lambda: "--instrument Z" in s.command() and len(over_tables.bounded(s)) == 4, s.panel)
    s.tab("effect")
    fold(s, "instruments", is_open=False)


def compares_your_diagrams(s):
    """The second diagram of Compare: it is the first until it is chosen, and can be drawn."""
    s.example("hidden_cause")
    s.tab("compare")
    over_tables.press(s, "copy first")
    s.soon("hidden causes aren't taken, and that is said first", lambda: "Compare takes only diagrams without hidden causes" in s.panel(), s.panel)
    s.example("chain")
    s.soon("the second is the first", lambda: s.printed() == "equivalent", s.panel)
    s.write("dag {\nA\nB\nC\nA -> B -> C\n}\n")
    s.one("#new").click()
    s.write("dag {\nA\nB\nC\nA -> B <- C\n}\n")
    s.soon("one of the user's", lambda: s.all("#panel [data-key='take mine'] option"), s.panel)
    out = s.run("const panel = document.getElementById('panel'); return panel.scrollWidth - panel.clientWidth")
    high = s.run("return document.querySelector('#panel [data-key=\\'copy first\\']').offsetHeight")
    s.check("the list leaves room for the buttons", out <= 0 and high < 45, (out, high))
    s.run("""const el = document.querySelector('#panel [data-key="take mine"]');
        el.value = [...el.options].find((o) => o.textContent.includes('Chain')).value;
        el.dispatchEvent(new Event('change'))""")
    s.soon("is taken", lambda: "Not equivalent" in s.panel(), s.panel)
    over_tables.press(s, "swap")
    s.soon("the two are swapped", lambda: "A -> B -> C" in s.text() and "A -> B <- C" in s.one("textarea.second").get_attribute("value"), s.text)
    s.tab("effect")


PARTS = [
    reads_a_formula, chooses_a_form, chooses_sets, saves_a_certificate, adjusts_and_compares, shows_a_hedge, lists_what_is_implied, takes_trials,
    asks_under_a_condition, asks_for_a_direct_effect, asks_among_the_treated, asks_through_mediators, adjusts_with_what_is_marked, lists_separating_sets, colours_paths,
    tells_paths_apart, shows_other_views, tells_what_would_help, lists_instruments, compares_your_diagrams,
]
