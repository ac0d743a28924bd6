"""What the session does over tables of counts."""
import time

from selenium.webdriver.common.keys import Keys

import browser
import expected
from browser import wait

EXAMPLES = browser.WEB.parent / "examples"
NAPKIN_CSV = browser.WEB / "tests/napkin.csv"


def drop(s, name, table):
    """Drops a table on the page."""
    s.run("""const data = new DataTransfer();
        data.items.add(new File([arguments[1]], arguments[0], { type: "text/csv" }));
        document.body.dispatchEvent(new DragEvent("drop", { dataTransfer: data, bubbles: true, cancelable: true }));""", name, table)


def drop_on(s, css, name, text):
    """Drops a file on a part of the page."""
    s.run("""const data = new DataTransfer();
        data.items.add(new File([arguments[2]], arguments[1], { type: "text/plain" }));
        document.querySelector(arguments[0]).dispatchEvent(new DragEvent("drop", { dataTransfer: data, bubbles: true, cancelable: true }));""", css, name, text)


def by(s, way):
    """Chooses how the formula is found."""
    s.run("const el = document.getElementById('by'); el.value = arguments[0]; el.dispatchEvent(new Event('change'))", way)


def is_ticked(s):
    """Whether zero cells count for nothing."""
    return s.run("return document.getElementById('zero').checked")


def as_the_procedure_gives_it(s):
    """Takes the procedure's form of the formula, or leaves it."""
    s.one("#procedure").click()


def ways(s):
    return s.run("return [...document.querySelectorAll('#by option')].map((el) => el.textContent)")


def values(s):
    return s.run("return [...document.querySelectorAll('.values:not(.contrasts) tbody tr')].map((row) => [...row.cells].map((el) => el.textContent))")


def contrasts(s):
    return s.run("return [...document.querySelectorAll('.contrasts tbody tr')].map((row) => [...row.cells].map((el) => el.textContent))")


def has_intervals(s):
    """Whether the draws are made, in two minutes; they are asked for where they take long."""
    def drawn():
        if s.all("#draw"):
            s.one("#draw").click()
        return " to " in contrasts(s)[2][2]

    return wait(drawn, 120)


def contrast(s, **choice):
    """Chooses what is contrasted."""
    for key, value in choice.items():
        s.run("""const el = document.querySelector(`[data-key="contrast ${arguments[0]}"]`);
            el.value = arguments[1]; el.dispatchEvent(new Event('change'))""", key, value)
        time.sleep(0.4)


def drops_a_table(s):
    s.example("napkin")
    s.tab("data")
    s.one("#csv").send_keys(str(NAPKIN_CSV))
    s.soon("what is free is pinned", lambda: "Z=0" in s.panel(), s.panel)
    s.example("kidney_stones")
    drop(s, "kidney_stones.csv", (EXAMPLES / "kidney_stones.csv").read_text())
    s.soon("counts", lambda: "634983/762700" in s.one(".values").text, s.panel)
    s.check("warned", "without sampling error" in s.panel(), s.panel())
    s.check("with its command line", s.command() == "$ causal evaluate diagram.dag kidney_stones.csv --count=count "
            "--exact", s.command())
    s.one("summary[data-key='levels']").click()
    s.soon("levels", lambda: "small (357)" in s.panel(), s.panel)
    s.one("summary[data-key='bounds']").click()
    s.soon("bounds", lambda: len(s.all("#panel .source details")) > 1 and "0.832546217385603774" in s.printed(1), s.panel)


def reads_other_tables(s):
    s.example("kidney_stones")
    s.tab("data")
    table = (EXAMPLES / "kidney_stones.csv").read_text()
    drop(s, "mine.csv", table.lower().replace(",", ";"))
    s.soon("semicolons and other letters", lambda: "634983/762700" in s.one(".values").text, s.panel)
    s.check("are told", "semicolons as commas" in s.one("#read-notes").text, s.panel())
    s.check("in the command line", "mine.read.csv" in s.command(), s.command())
    s.check("the example's table is still offered", s.all("#sample"))
    header = table.split("\n")[0].split(",")
    rows = [",".join("1" if name == "count" else f"{i}.18" if name == "S" else str(i % 2) for name in header) for i in range(40)]
    drop(s, "mine.csv", "\n".join([",".join(header), *rows]) + "\n")
    s.soon("many levels are to be grouped", lambda: "Group S first" in s.panel(), s.panel)
    s.check("no raw code is seen", " node " not in s.panel(), s.panel())
    drop(s, "mine.csv", table + ",".join("1" if name == "count" else "NA" for name in header) + "\n")
    s.soon("missing values are told", lambda: "Missing values in 1 of 9 rows" in s.panel(), s.panel)
    s.run("""const data = new DataTransfer(), file = new File(["X"], "large.csv");
        Object.defineProperty(File.prototype, "size", { configurable: true, get() { return 90000000; } });
        data.items.add(file);
        document.body.dispatchEvent(new DragEvent("drop", { dataTransfer: data, bubbles: true, cancelable: true }));
        delete File.prototype.size;""")
    s.soon("what is too large isn't read", lambda: "64 MB at most" in s.one("#toast").text, lambda: s.one("#toast").text)
    s.run("""const chosen = new DataTransfer(), input = document.getElementById("csv");
        chosen.items.add(new File(["PK\\u0003\\u0004"], "study.xlsx"));
        input.files = chosen.files;
        input.dispatchEvent(new Event("change"));""")
    s.soon("a file of another kind says which are read", lambda: "study.xlsx can't be read here" in s.one("#toast").text and ".csv, .tsv" in s.one("#toast").text,
           lambda: s.one("#toast").text)
    s.check("and the table stays", "study.xlsx" not in s.panel(), s.panel())
    drop_on(s, "label.drop", "mine.txt", table.replace(",", "\t"))
    s.soon("a table with another ending", lambda: "mine.read.csv" in s.panel() and "634983/762700" in s.one(".values").text, s.panel)
    drop_on(s, "#drawing", "other.txt", table.replace(",", ";"))
    s.soon("and dropped anywhere", lambda: "other.read.csv" in s.panel() and "dag" in s.text(), s.panel)
    s.one("#sample").click()
    s.soon("the example's table comes back", lambda: "634983/762700" in s.one(".values").text, s.panel)


def contrasts_with_intervals(s):
    s.example("kidney_stones")
    s.tab("data")
    if s.all("#sample"):
        s.one("#sample").click()
    s.soon("a contrast", lambda: s.all(".contrasts"), s.panel)
    contrast(s, y="R=success", a="T=A", b="T=B")
    rows = lambda: contrasts(s)
    s.soon("the difference", lambda: ["risk difference", "0.0537"] == rows()[2][:2], rows)
    s.check("the ratio", ["risk ratio", "1.0689"] == rows()[3][:2], rows())
    s.check("their intervals", has_intervals(s), rows())
    low, high = map(float, rows()[2][2].split(" to "))
    s.check("as the packages give them", abs(low + 0.0115) < 0.008 and abs(high - 0.1196) < 0.008, rows())
    s.check("said to be computed", "not proved" in s.panel(), s.panel())
    by(s, "{S}")
    s.soon("the formula of a set", lambda: s.command() == "$ causal evaluate diagram.dag kidney_stones.csv --set S --count=count --exact", s.command)
    s.soon("has the same value here", lambda: rows()[2][1] == "0.0537", rows)
    s.check("its draws are made anew", has_intervals(s), rows())
    by(s, "")


def table_of(case):
    """The table of a worked case."""
    return next(kept for kept in expected.load()[0] if kept["case"] == case)["inputs"]["t"].decode()


HORMONES = "dag { HRT [exposure] CHD [outcome] SES -> HRT SES -> Smoking SES -> CHD Age -> HRT Age -> CHD Smoking -> CHD HRT -> CHD }"


def adjusts_for_less(s):
    """The procedure's formula conditions on what no record has; a short one doesn't, nor does that of the minimal set."""
    s.tab("data")
    s.example("kidney_stones")
    s.write(HORMONES)
    drop(s, "hormones.csv", table_of("the procedure conditions on more than the set that adjusts"))
    s.soon("a short formula", lambda: s.command() == "$ causal evaluate diagram.dag hormones.csv --short --count=n --exact", s.command)
    s.check("has a value", ["HRT=no", "CHD=no", "0.6500", "13/20"] in values(s) and len(values(s)) == 4, values(s))
    s.check("the draws too", has_intervals(s), contrasts(s))
    as_the_procedure_gives_it(s)
    wanted = ("No record has HRT = yes, SES = high, Smoking = yes and Age = young, so the table says nothing of "
              "P(CHD|HRT,SES,Smoking,Age) there.")
    s.soon("which condition has no record", lambda: s.one(".verdict").text == f"No value\n{wanted}", s.panel)
    s.check("what isn't conditioned on isn't named", "CHD =" not in s.panel(), s.panel())
    s.check("a formula that has a value is pointed to", "The formula of adjusting for SES and Age has a value over this table." in s.panel(), s.panel())
    s.check("zero cells are offered", "A product with a factor 0 is then 0" in s.panel() and not is_ticked(s), s.panel())
    s.one("#zero").click()
    s.soon("zero cells", lambda: s.command() == "$ causal evaluate diagram.dag hormones.csv --count=n --zero", s.command)
    s.check("don't help where nothing beside is 0", "Nothing that it is multiplied by is 0" in s.panel(), s.panel())
    s.one("#zero").click()
    s.soon("and are left again", lambda: s.command() == "$ causal evaluate diagram.dag hormones.csv --count=n", s.command)
    s.check("the ways", ways(s) == ["of the effect", "of adjusting for SES, Age", "under a condition", "among the treated", "none: at least and at most"], ways(s))
    s.one("#use").click()
    s.soon("the minimal set", lambda: s.command() == "$ causal evaluate diagram.dag hormones.csv --set SES,Age --count=n --exact", s.command)
    s.check("has the same value", ["HRT=no", "CHD=no", "0.6500", "13/20"] in values(s) and len(values(s)) == 4, values(s))
    s.check("a set has one form", not s.all("#procedure"))
    s.check("a contrast", ["risk difference", "-0.1500"] == contrasts(s)[2][:2], contrasts(s))
    s.check("and its marks", sorted(s.marked("chosen")) == ["Age", "SES"], s.marked("chosen"))
    s.check("and nothing is missing there", "No record has" not in s.panel(), s.panel())


def counts_zero_cells_for_nothing(s):
    s.tab("data")
    s.example("kidney_stones")
    drop(s, "stones.csv", table_of("a cell without records"))
    s.soon("a combination without records", lambda: "No record has T = B and S = large, so" in s.panel(), s.panel)
    s.check("no set is pointed to that has no value either", not s.all("#use") and s.all("#zero"), s.panel())
    s.write("dag { A -> B A -> X A -> Y B -> Y X -> Y X [exposure] Y [outcome] }")
    drop(s, "cells.csv", table_of("a cell that can't occur has no record"))
    s.soon("a short formula doesn't ask for it", lambda: [row[3] for row in values(s)] == ["27/40", "13/40", "23/60", "37/60"], s.panel)
    as_the_procedure_gives_it(s)
    s.soon("a cell without records", lambda: "No record has A = 1, B = 1 and X = 0, so" in s.panel(), s.panel)
    s.check("a set that has a value is pointed to", "The formula of adjusting for A has a value over this table." in s.panel(), s.panel())
    s.one("#zero").click()
    s.soon("counts for nothing", lambda: s.command() == "$ causal evaluate diagram.dag cells.csv --count=n --zero --exact", s.command)
    s.check("the values", [row[3] for row in values(s)] == ["2/3", "1/3", "3/8", "5/8"], values(s))
    s.check("it is seen that it does", is_ticked(s))
    s.check("the draws as well", has_intervals(s), contrasts(s))
    s.one("#zero").click()
    s.soon("and without there is none", lambda: "No value" in s.panel(), s.panel)
    s.one("#zero").click()
    s.soon("a table of its own", lambda: "2/3" in s.panel(), s.panel)
    drop(s, "cells.csv", table_of("a cell that can't occur has no record"))
    s.soon("asks again", lambda: "No value" in s.panel() and not is_ticked(s), s.panel)


def evaluates_under_a_condition(s):
    s.tab("data")
    s.example("kidney_stones")
    s.soon("the example's table", lambda: s.all("#sample") or values(s), s.panel)
    if s.all("#sample"):
        s.one("#sample").click()
    s.soon("the effect", lambda: len(values(s)) == 4, s.panel)
    by(s, "condition")
    s.soon("a condition may be chosen", lambda: s.all("[data-key='arm condition']"), s.panel)
    s.one("[data-key='arm condition']").click()
    s.click("S")
    s.soon("under a condition", lambda: s.command() == "$ causal evaluate diagram.dag kidney_stones.csv --given S --count=count --exact", s.command)
    s.check("each cell", values(s)[0] == ["T=A", "S=small", "R=success", "0.9310", "27/29"] and len(values(s)) == 8, values(s))
    s.soon("as it was printed", lambda: "P(R=success|do(T=A),S=small) = 27/29" in s.printed(), s.printed)
    s.check("is drawn", "R=success among S=small" in s.one(".plot").get_attribute("aria-label"), s.one(".plot").get_attribute("aria-label"))
    s.keys(Keys.ESCAPE)
    contrast(s, y="R=success", a="T=A", b="T=B", among="S=large")
    s.soon("a contrast in a group", lambda: contrasts(s)[2][:2] == ["risk difference", "0.0425"], lambda: contrasts(s))
    s.check("says in which", contrasts(s)[0][0] == "P(R=success|S=large) when T=A is set", contrasts(s))
    s.tab("effect")
    s.soon("Effect has the same condition", lambda: s.command() == "$ causal identify diagram.dag --given S", s.command)
    s.tab("data")
    s.write("dag { T [exposure] R [outcome] T -> R T <-> R R -> S }")
    s.soon("none is identified", lambda: "Not identifiable under this condition" in s.panel(), s.panel)
    s.example("napkin")
    s.soon("another diagram has none", lambda: not s.all("[data-key='arm condition']"), s.panel)


def evaluates_among_the_treated(s):
    """The effect among the treated: by its formula, by two values of the exposure, and why there is none."""
    s.example("kidney_stones")
    s.tab("data")
    drop(s, "kidney_stones.csv", (EXAMPLES / "kidney_stones.csv").read_text())
    s.soon("a table", lambda: s.all(".contrasts"), s.panel)
    by(s, "treated")
    s.soon("the treated", lambda: s.command() == "$ causal evaluate diagram.dag kidney_stones.csv --treated --count=count --exact", s.command)
    s.soon("each value that is set among those who had each", lambda: ["T=A", "T'=B", "R=success", "0.8851", "33753/38135"] in values(s), lambda: values(s))
    contrast(s, y="R=success", a="T=A", b="T=B", among="T'=B")
    s.soon("their contrast", lambda: contrasts(s)[2][:2] == ["risk difference", "0.0594"], lambda: contrasts(s))
    s.check("nothing crude beside it", len(contrasts(s)[2]) == 3, contrasts(s))
    s.check("zeros aren't asked about", not s.all("#zero"), s.panel())
    s.check("its intervals", has_intervals(s), contrasts(s))
    s.example("napkin")
    drop(s, "napkin.csv", (EXAMPLES / "napkin.csv").read_text())
    s.tab("data")
    by(s, "treated")
    s.soon("by two values", lambda: "at most two values of X" in s.panel() and ["X=0", "X'=1", "Y=1", "0.5208", "25/48"] in values(s), s.panel)
    s.check("what is free is pinned", "Z=0" in s.panel(), s.panel())
    s.check("the effect on those who had what is set first", contrasts(s)[0][0] == "P(Y=1|X'=1) when X=1 is set" and contrasts(s)[2][:2] == ["risk difference", "-0.0417"], contrasts(s))
    s.check("with its intervals", has_intervals(s), contrasts(s))
    head, *rows = (EXAMPLES / "napkin.csv").read_text().splitlines()
    drop(s, "three.csv", "\n".join([head, *rows, "0,0,2,0,5", ""]))
    s.soon("three values are too many", lambda: "Two values of X would do" in s.panel(), s.panel)
    drop(s, "below.csv", "W,Z,X,Y\n0,0,0,0\n0,0,1,1\n0,1,0,1\n0,1,1,0\n")
    s.soon("no model has such counts", lambda: "No model of this diagram has these counts" in s.panel(), s.panel)
    s.check("what can't be", "P(Y=1|do(X=0)) is less than P(X=0,Y=1), which can't be" in s.panel(), s.panel())
    s.soon("as it is printed", lambda: s.printed() == "no model of this diagram has these counts\nP(Y=1|do(X=0)) is less than P(X=0,Y=1)", s.printed)
    by(s, "")


def evaluates_the_marked_set(s):
    s.example("kidney_stones")
    s.write("dag { X [exposure] Y [outcome] Z [adjusted] W [adjusted] Z -> X Z -> Y W -> Y X -> Y }")
    drop(s, "marked.csv", "X,Y,Z,W\n" + "".join(f"{i % 2},{i // 2 % 2},{i // 4 % 2},{i // 8}\n" for i in range(16)))
    s.tab("data")
    s.soon("the set that is marked", lambda: "of adjusting for Z, W (marked)" in ways(s), lambda: ways(s))
    by(s, "marked")
    s.soon("its formula", lambda: s.command() == "$ causal evaluate diagram.dag marked.csv --set Z,W --exact", s.command)
    s.check("has a value", [row[3] for row in values(s)] == ["1/2"] * 4, values(s))
    s.tab("adjustment")
    s.one("[data-key='back-door']").click()
    s.tab("data")
    s.soon("by the criterion that is chosen there", lambda: s.command() == "$ causal evaluate diagram.dag marked.csv --set Z,W --back-door --exact", s.command)
    s.tab("adjustment")
    s.one("[data-key='back-door']").click()
    s.tab("data")
    s.write("dag { X [exposure] Y [outcome] M [adjusted] A -> X A -> M B -> M B -> Y X -> Y }")
    s.soon("one that isn't admissible", lambda: "Not admissible" in s.panel(), s.panel)
    s.soon("is told as by adjust", lambda: s.printed() == "not admissible: {M}\nopen: X <- A -> M <- B -> Y", s.printed)
    s.example("kidney_stones")
    s.soon("another diagram begins with the effect's formula", lambda: s.run("return document.getElementById('by').value") == "", s.panel)
    s.tab("effect")


def bounded(s):
    """The rows of what the effect is at least and at most: the levels, both ends, and the words of the bar."""
    return s.run("""return [...document.querySelectorAll('table.bounds tbody tr')].map((row) => [...row.cells].map((el) =>
        el.querySelector('svg')?.getAttribute('aria-label') ?? el.textContent))""")


def choose(s, key, name):
    """Takes a variable into a set, from its list."""
    s.one(f"[data-key='add {key}']")
    s.run("const el = document.querySelector(`[data-key='add ${arguments[0]}']`); el.value = arguments[1]; el.dispatchEvent(new Event('change'))", key, name)


def gives_bounds(s):
    """What an effect is at least and at most: without an instrument, by one, and why a set is none."""
    s.tab("data")
    s.example("noncompliance")
    s.soon("the example's table", lambda: s.all("#sample") or bounded(s), s.panel)
    if s.all("#sample"):
        s.one("#sample").click()
    s.soon("an effect without a formula", lambda: "Not identifiable" in s.panel() and len(bounded(s)) == 4, s.panel)
    s.check("the command line", s.command() == "$ causal bounds diagram.dag cholestyramine.csv --count=count --exact", s.command())
    s.check("is at least and at most", ["taken=yes", "improved=yes", "0.231478/337", "between 0.2314 and 0.9318", "0.9318314/337"] in bounded(s), bounded(s))
    s.check("proved, and no interval", "Proved, over the shares of this table: in every model" in s.panel() and "no confidence interval" in s.panel(), s.panel())
    choose(s, "instrument", "assigned")
    s.soon("by an instrument", lambda: s.command() == "$ causal bounds diagram.dag cholestyramine.csv --instrument assigned --count=count --exact", s.command)
    s.soon("it is less wide", lambda: ["taken=yes", "improved=yes", "0.472726/55", "between 0.4727 and 0.8607", "0.8607142/165"] in bounded(s), lambda: bounded(s))
    s.soon("as it is printed", lambda: "P(improved=yes|do(taken=yes)) at least 26/55, at most 142/165" in s.printed(), s.printed)
    s.check("the instrument is marked", s.marked("chosen") == ["assigned"], s.marked("chosen"))
    contrast(s, y="improved=yes", a="taken=yes", b="taken=no")
    s.soon("the difference", lambda: "at least 0.3913 and at most 0.7793" in s.one("#bounded-difference").text, lambda: s.one("#bounded-difference").text)
    s.write("dag { taken [exposure] improved [outcome] assigned -> taken -> improved taken <-> improved assigned -> improved }")
    s.soon("no instrument", lambda: "assigned is none for this effect" in s.panel() and "improved <- assigned" in s.panel(), s.panel)
    s.check("its path is drawn", len(s.all("#drawing .over path.open")) == 1, len(s.all("#drawing .over path.open")))
    s.write("dag { taken [exposure] improved [outcome] taken -> assigned taken -> improved taken <-> improved }")
    s.soon("what the exposure acts on is none", lambda: "The exposure acts on assigned" in s.panel() and s.marked("bad") == ["assigned"], s.panel)
    s.example("noncompliance")
    drop(s, "few.csv", "assigned,taken,improved,count\na,yes,yes,10\nb,yes,no,10\n")
    choose(s, "instrument", "assigned")
    s.soon("counts that no model has", lambda: "No model of this diagram has these counts" in s.panel(), s.panel)
    s.check("with the bounds that cross", "P(improved=yes|do(taken=yes)) would be at least 10/10 and at most 0/10" in s.panel(), s.panel())
    s.example("kidney_stones")
    drop(s, "kidney_stones.csv", (EXAMPLES / "kidney_stones.csv").read_text())
    s.soon("an effect with a formula", lambda: values(s), s.panel)
    by(s, "bounds")
    s.soon("bounds by choice", lambda: s.command() == "$ causal bounds diagram.dag kidney_stones.csv --count=count --exact" and len(bounded(s)) == 4, s.panel)
    s.check("with the formula's value beside", [row[-1] for row in bounded(s)] == ["0.8325", "0.1675", "0.7789", "0.2211"]
            and len(s.all("table.bounds circle")) == 4, bounded(s))
    choose(s, "instrument", "S")
    s.soon("a confounder is no instrument", lambda: "S is none for this effect" in s.panel(), s.panel)
    s.one("[data-key='instrument S']").click()
    by(s, "")
    s.soon("and the formula again", lambda: values(s), s.panel)


def gives_bounds_by_a_set(s):
    """Where a stratum has no record of an arm, the others still say something: bounds by the set that is adjusted for."""
    s.tab("data")
    s.example("kidney_stones")
    lines = (EXAMPLES / "kidney_stones.csv").read_text().split("\n")
    drop(s, "lost.csv", "\n".join(line for line in lines if not line.startswith("large,B")))
    s.soon("no value", lambda: s.one("#panel .verdict").text.startswith("No value"), s.panel)
    wanted = "$ causal bounds diagram.dag lost.csv --set S --count=count --exact"
    s.soon("but bounds by the set", lambda: s.all("#instead") and s.command(1) == wanted, s.panel)
    b = ["T=B", "R=success", "0.49901547/3100", "between 0.4990 and 0.9233", "0.92331431/1550"]
    s.check("which are these", b in bounded(s) and len(bounded(s)) == 4, bounded(s))
    s.check("and why", "Strata of S that have records of a value of the exposure count as usual" in s.one("#instead").text, s.one("#instead").text)
    s.check("the set is marked", s.marked("chosen") == ["S"], s.marked("chosen"))
    by(s, "bounds")
    s.soon("without a set", lambda: s.command() == "$ causal bounds diagram.dag lost.csv --count=count --exact", s.command)
    sets = "const el = document.getElementById('bound-set'); el.value = arguments[0]; el.dispatchEvent(new Event('change'))"
    s.run(sets, "{S}")
    s.soon("or by choice", lambda: s.command() == wanted and b in bounded(s), s.panel)
    s.run(sets, "")
    s.soon("and without again", lambda: s.command() == "$ causal bounds diagram.dag lost.csv --count=count --exact", s.command)
    by(s, "")
    s.tab("effect")


def ranges(s):
    """The intervals, where there are draws."""
    return s.run("return [...document.querySelectorAll('table.bounds .range + small')].map((el) => el.textContent)")


def has_range(s):
    """Whether the draws of bounds are made, in two minutes; they are asked for."""
    def drawn():
        if s.all("#draw"):
            s.one("#draw").click()
        return ranges(s) and all(" to " in text for text in ranges(s))

    return wait(drawn, 120)


def near(text, wanted):
    """Whether an interval is this one, but for what another thousand draws would change."""
    return all(abs(float(end) - about) < 0.02 for end, about in zip(text.split(" to "), wanted, strict=True))


WIDE = "assigned,taken,improved,count\na,yes,yes,120\na,yes,no,20\na,no,no,60\nb,yes,yes,60\nb,yes,no,60\nb,no,yes,80\n"
TRIAL = "dag { assigned -> taken [exposure] -> improved [outcome] taken <-> improved }"


def draws_over_bounds(s):
    """Intervals for the whole range, when they are asked for; expected is what draws in Python give, by the bounds' definition."""
    s.tab("data")
    s.example("noncompliance")
    s.write(TRIAL)
    drop(s, "trial.csv", (EXAMPLES / "cholestyramine.csv").read_text())
    choose(s, "instrument", "assigned")
    s.soon("bounds by an instrument", lambda: "--instrument assigned" in s.command() and len(bounded(s)) == 4, s.panel)
    contrast(s, y="improved=yes", a="taken=yes", b="taken=no")
    s.check("their intervals", has_range(s), s.panel())
    row = ["taken=yes", "improved=yes", "0.472726/55", "between 0.4727 and 0.8607", "0.8607142/165"]
    s.check("the ends stay", row in bounded(s), bounded(s))
    s.check("from the lower percentile of one to the upper of the other", near(ranges(s)[bounded(s).index(row)], (0.4037, 0.9091)), ranges(s))
    s.check("whiskers", len(s.all("table.bounds .whiskers")) == 4, len(s.all("table.bounds .whiskers")))
    difference = lambda: s.one("#bounded-difference").text.split(" 95% interval: ")
    s.check("the difference's too", near(difference()[1].rstrip("."), (0.2999, 0.8276)) and "at least 0.3913 and at most 0.7793" in difference()[0], difference())
    told = s.one("#interval").text
    s.check("said what it is", "for the whole range, computed in the page by the bootstrap, not proved" in told, told)
    s.check("draws that cross are counted", 320 < int(told.split("are left out: ")[1].rstrip(".")) < 460, told)
    s.one("[data-key='instrument assigned']").click()
    s.soon("other bounds have none before they are asked for", lambda: "--instrument" not in s.command() and s.all("#draw") and not s.all(".whiskers"), s.panel)
    s.check("nor is it told", not s.all("#interval"), s.panel())
    choose(s, "instrument", "assigned")
    drop(s, "wide.csv", WIDE)
    s.soon("where neither arm has one value", lambda: "at least -0.1000 and at most 0.3000" in difference()[0], s.panel)
    s.check("intervals again", has_range(s), s.panel())
    s.check("the difference goes from end to other end", near(difference()[1].rstrip("."), (-0.1436, 0.3651)), difference())
    s.one("[data-key='instrument assigned']").click()
    drop(s, "rare.csv", "assigned,taken,improved,count\nyes,yes,yes,30\nyes,no,no,20\nno,no,yes,1\n")
    by(s, "bounds")
    choose(s, "condition", "assigned")
    s.soon("bounds in a stratum of one record", lambda: "--given assigned" in s.command() and len(bounded(s)) == 8, s.panel)
    s.check("which many draws lack", has_range(s), s.panel())
    told = s.one("#interval").text
    s.check("and that is counted", 300 < int(told.split("are left out: ")[1].rstrip(".")) < 430, told)
    by(s, "")
    s.tab("effect")


SMOKING = "dag { Smoking [exposure] Cancer [outcome] Age -> Smoking Age -> Cancer Smoking -> Tar -> Cancer }"


def dirty_table():
    """Records with missing values, levels in several spellings, and ages in years."""
    rows, state = [], 7
    for i in range(600):
        state = (state * 1103515245 + 12345) % 2**31
        age, smoking = 30 + (state >> 8) % 40, ("yes", "no")[(state >> 16) % 2]
        tar = ("low", "high")[(state >> 18) % 2 if smoking == "no" else 1 - ((state >> 18) % 4 == 0)]
        cancer = ("no", "yes")[int((state >> 20) % 10 < (5 if tar == "high" else 2) + (age > 50))]
        if i % 50 == 0:
            smoking = ("NA", "", ".", " ")[i // 50 % 4]
        if i % 40 == 1:
            smoking = smoking.title() + " "
        rows.append(f"{age},{smoking},{tar},{cancer}")
    return "age_,Smoking,Tar,Cancer\n" + "\n".join(rows) + "\n"


def press(s, key):
    """Presses a button of the panel, as soon as the panel that has it is drawn."""
    def pressed():
        s.one(f"#panel [data-key='{key}']").click()
        return True

    if not wait(pressed):
        s.check(f"the button {key}", False, s.panel())


def cleans_a_table(s):
    """Missing values are left out by one button, levels joined, numbers cut; Implies says the same."""
    s.example("fork")
    s.write(SMOKING)
    s.tab("data")
    drop(s, "dirty.csv", dirty_table())
    notes = lambda: s.one("#read-notes").text
    s.soon("one line tells of missing values", lambda: notes().count("Missing values") == 1 and "in 12 of 600 rows" in notes(), s.panel)
    s.check("a column is guessed, and that is shown", "age_ as Age" in notes(), notes())
    s.check("spellings are told", "“no”, “No ”" in notes() or "“yes”, “Yes ”" in notes(), notes())
    s.check("many values are to be cut", "Age has 40 different values" in notes(), notes())
    s.tab("implications")
    s.soon("the same under Implies", lambda: s.all("table.pairs") and "Missing values in 12 of 600 rows" in notes(), s.panel)
    press(s, "missing")
    s.soon("left out there", lambda: "12 of 600 rows are left out" in notes(), s.panel)
    s.tab("data")
    s.soon("and here", lambda: "12 of 600 rows are left out" in notes(), s.panel)
    press(s, "join")
    s.soon("levels are joined", lambda: "Joined are levels" in notes(), notes)
    s.one("#panel [data-key='points Age']").send_keys("45, 60")
    press(s, "cut at Age")
    s.soon("ages are cut", lambda: "Age is cut at 45, 60" in notes(), notes)
    s.soon("then there are values", lambda: len(values(s)) == 4, s.panel)
    s.check("of two groups alone", {row[0] for row in values(s)} == {"Smoking=yes", "Smoking=no"}, values(s))
    s.check("without a word that reads as a comparison", "below" not in s.panel(), s.panel())
    press(s, "uncut Age")
    press(s, "cut Age")
    s.soon("or cut into groups of equal size", lambda: "Age is cut at" in notes() and notes().count(",") > 2, notes)
    rows = lambda: contrasts(s)
    s.soon("the odds ratio", lambda: rows()[4][0] == "odds ratio" and float(rows()[4][1]) > 0, rows)
    crude = rows()[2][3]
    s.check("the crude value beside it", float(crude) != float(rows()[2][1]) and "Crude:" in s.panel(), rows())


def matches_columns(s):
    """Columns are matched by hand; without one the tests that can be done are done."""
    s.example("fork")
    s.write("dag { Smoking [exposure] Cancer [outcome] Age -> Smoking Age -> Cancer Smoking -> Tar -> Cancer Tar -> Cough Age -> Sex }")
    s.tab("data")
    head, rest = dirty_table().split("\n", 1)
    drop(s, "other.csv", head.replace("Tar", "V3").replace("age_", "Age") + ",Sex,Cough\n"
         + "\n".join(f"{line},{'mf'[i % 2]},{i % 2}" for i, line in enumerate(rest.strip().split("\n"))) + "\n")
    s.soon("a column is missing", lambda: "No column for Tar" in s.panel(), s.panel)
    s.tab("implications")
    tested = lambda: [row.text for row in s.all("table.pairs tbody tr")]
    s.soon("some are tested", lambda: any("Holm" in row for row in tested()) and any("no column" in row for row in tested()), tested)
    s.check("and it is said how many aren't", "more name a variable without a column" in s.panel(), s.panel())
    press(s, "match")
    s.soon("columns are matched", lambda: s.all("[data-key='column Tar']"), s.panel)
    s.run("const el = document.querySelector('[data-key=\"column Tar\"]'); el.value = 'V3'; el.dispatchEvent(new Event('change'))")
    s.soon("by hand", lambda: "V3 as Tar" in s.panel() and "No column" not in s.one("#read-notes").text, s.panel)
    s.tab("implications")
    s.soon("then all are tested", lambda: tested() and all("Holm" in row for row in tested()), tested)
    p = [float(row.split("Holm")[0].split()[-1].replace("<", "")) for row in tested() if "Holm –" not in row]
    s.check("in the order of p", p == sorted(p), p)
    wide = s.run("const t = document.querySelector('table.pairs').parentElement; return t.scrollWidth - t.clientWidth")
    s.check("no column is cut off", wide <= 0, wide)


def tells_what_is_rejected(s):
    """The headline says how many tests are rejected, and the drawing shows them."""
    s.example("fork")
    s.write("dag { A -> B C -> D E -> F }")
    s.tab("implications")
    drop(s, "six.csv", "A,B,C,D,E,F\n" + "".join(f"{i % 2},{i % 2},{i % 2},{i // 2 % 2},{i // 4 % 2},{i // 8 % 2}\n" for i in range(64)))
    s.soon("how many are rejected", lambda: "of 12 tested independences are rejected" in s.panel(), s.panel)
    s.check("as a finding that isn't green", s.one("#panel .verdict").get_attribute("class") == "verdict no", s.panel())
    s.soon("they are marked in the drawing", lambda: len(s.all("#drawing .over path.rejected")) == int(s.one("#panel .verdict").text.split()[0]),
           lambda: len(s.all("#drawing .over path.rejected")))
    s.tab("effect")


def tests_many_columns(s):
    """A table whose columns have too many cells together is tested pair by pair."""
    s.example("fork")
    names = [f"V{i}" for i in range(21)]
    s.write("dag { " + " ".join(f"{a} -> {b}" for a, b in zip(names, names[1:])) + " }")
    s.tab("implications")
    drop(s, "many.csv", ",".join(names) + "\n" + "".join(",".join(str((i * 2654435761 >> (k + 3)) & 1) for k in range(21)) + "\n" for i in range(200)))
    s.soon("the tests are made", lambda: "tested independences" in s.one("#panel .verdict").text, s.panel)
    s.check("and what isn't is told", "2^20 cells. So the largest differences aren't printed" in s.panel(), s.panel())
    s.tab("effect")


def stops_the_draws(s):
    """Draws that take long show how far they are, and can be stopped."""
    s.example("fork")
    names = [f"W{i}" for i in range(6)]
    s.write("dag { X [exposure] Y [outcome] X -> Y " + " ".join(f"{w} -> X {w} -> Y" for w in names) + " }")
    s.tab("data")
    rows = [",".join(f"{i % 256:08b}") for i in range(20000)]
    drop(s, "long.csv", "X,Y," + ",".join(names) + "\n" + "\n".join(rows) + "\n")
    if not wait(lambda: s.all("#zero") or s.all(".contrasts"), 30):
        s.check("a table with many cells", False, s.panel())
    if s.all("#zero") and not s.all(".contrasts"):
        s.one("#zero").click()
    s.soon("the values", lambda: s.all(".contrasts"), s.panel)
    wait(lambda: s.all("#draw") or s.all("#stop") or " to " in contrasts(s)[2][2], 30)
    if s.all("#draw"):
        s.one("#draw").click()
    if wait(lambda: s.all("#stop"), 2):
        s.check("progress is shown", "of 1000 draws" in s.panel() and s.all("#panel progress"), s.panel())
        s.one("#stop").click()
        s.soon("and can be stopped", lambda: s.all("#draw") or " to " in contrasts(s)[2][2], s.panel)
    by(s, "bounds")
    s.soon("draws over bounds aren't made before they are asked for", lambda: s.all("table.bounds") and (s.all("#draw") or ranges(s)), s.panel)
    if s.all("#draw"):
        s.one("#draw").click()
    if wait(lambda: s.all("#stop"), 2):
        s.check("their progress is shown", "of 1000 draws" in s.panel() and s.all("#panel progress"), s.panel())
        s.one("#stop").click()
        s.soon("and they can be stopped", lambda: s.all("#draw") or s.all(".whiskers"), s.panel)
    s.check("they go on", has_range(s), s.panel())
    by(s, "")
    s.example("fork")
    s.tab("effect")


PARTS = [
    cleans_a_table, matches_columns, tells_what_is_rejected, tests_many_columns, stops_the_draws, drops_a_table, reads_other_tables, contrasts_with_intervals, adjusts_for_less, counts_zero_cells_for_nothing,
    evaluates_under_a_condition, evaluates_among_the_treated, evaluates_the_marked_set, gives_bounds,
    gives_bounds_by_a_set, draws_over_bounds,
]
