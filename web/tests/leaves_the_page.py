"""What leaves the page is what it shows: LaTeX that is copied, and reports."""
import pathlib
import shutil
import subprocess
import tempfile
import time

from selenium.webdriver.common.keys import Keys

import in_the_drawing
import over_tables
from browser import wait

ODD = ["Warm-up exercises", "CD4+ count", "a^b", "50%", "x_1 & y", "$ ~ #", "Übergewicht", "p|q<r>", "B", "Injury"]


def compiled(tex):
    """What LaTeX complains of, in a document of its own; nothing where it is content."""
    with tempfile.TemporaryDirectory() as folder:
        path = pathlib.Path(folder, "it.tex")
        path.write_text(tex)
        done = subprocess.run(["pdflatex", "-interaction=nonstopmode", "-halt-on-error", path.name], cwd=folder, capture_output=True, check=False)
        told = done.stdout.decode(errors="replace")
        return "" if done.returncode == 0 else told[-1500:]


def can_compile(*styles):
    """Whether LaTeX is here with these styles; what is missing is told, by name."""
    missing = [] if shutil.which("pdflatex") else ["pdflatex"]
    if not missing:
        missing = [it for it in styles if not subprocess.run(["kpsewhich", it], capture_output=True, check=False).stdout]
    if missing:
        print(f"skipped: page-session: LaTeX is compiled: no {', '.join(missing)}")
    return not missing


def copied(s):
    """What Copy LaTeX gives."""
    s.run("window.copiedText = null; navigator.clipboard.writeText = async (text) => { window.copiedText = text; }")
    s.one("[aria-label='Copy LaTeX']").click()
    wait(lambda: s.run("return window.copiedText"))
    return s.run("return window.copiedText")


def copies_latex(s):
    s.example("fork")
    s.tab("effect")
    lines = [f'"{name}" -> "Warm-up exercises" "{name}" -> Injury' for name in ODD[1:-1]]
    s.write('dag { "Warm-up exercises" [exposure] Injury [outcome] "Warm-up exercises" -> Injury ' + " ".join(lines) + " }")
    s.soon("a formula with odd names", lambda: s.all("#panel .formula .katex"), s.panel)
    tex = copied(s)
    s.check("names are text", r"P(\text{Injury} \mid \mathrm{do}(\text{Warm-up exercises})) = " in tex, tex)
    s.check("a letter stays one", ", B" in tex and r"\text{B}" not in tex, tex)
    s.check("signs are escaped", r"\text{CD4+ count}" in tex and r"\text{a\textasciicircum{}b}" in tex and r"\text{50\%}" in tex, tex)
    under = s.run("return document.querySelector('#panel .formula .op-limits').textContent").replace("\u00a0", " ")
    s.check("all stand under the sum as they are", '"' not in under and "CD4+ count" in under and "a^b" in under, under)
    shown = s.run("return document.querySelector('#panel .formula').textContent")
    s.check("it is what the page shows", "Warm-up exercises" in shown.replace("\u00a0", " ") and "CD4+ count" in shown.replace("\u00a0", " "), shown)
    if can_compile("amsmath.sty"):
        told = compiled("\\documentclass{article}\\usepackage{amsmath}\\begin{document}\n\\[" + tex + "\\]\n\\end{document}\n")
        s.check("it compiles", not told, told)
        s.example("napkin")
        time.sleep(0.4)
        told = compiled("\\documentclass{article}\\usepackage{amsmath}\\begin{document}\n\\[" + copied(s) + "\\]\n\\end{document}\n")
        s.check("so does one with named parts", not told, told)


def saves_a_report(s):
    """One report: picture, sets, formula with its derivation, assumptions, tests, effects with intervals."""
    s.example("fork")
    s.write(over_tables.SMOKING)
    s.tab("data")
    over_tables.drop(s, "dirty.csv", over_tables.dirty_table())
    s.soon("a table", lambda: s.all("#read-notes"), s.panel)
    for key in ("missing", "join", "cut Age"):
        over_tables.press(s, key)
        time.sleep(0.5)
    s.soon("values", lambda: s.all(".contrasts"), s.panel)
    for item, kind in (("Report, to print", "report.html"), ("Report, as LaTeX", "report.tex")):
        s.one("#export").click()
        s.item(item)
        s.check(f"a report: {kind}", s.saved_as(kind), list(s.downloads.iterdir()))
    html = s.saved_as("report.html").read_text()
    for part in ("<svg", "Adjustment", "Derivation by the rules of do-calculus", "Assumptions", "tested independences", "risk difference", "odds ratio",
                 "crude", "12 of 600 rows", "<math", "causal identify diagram.dag"):
        s.check(f"the report has {part}", part in html, html[:300])
    s.check("with intervals", html.count(" to ") > 4, "")
    s.check("without a request or a script", "<script" not in html and "http://" not in html.replace("http://www.w3.org", ""), "")
    if can_compile("tikz.sty", "booktabs.sty"):
        told = compiled(s.saved_as("report.tex").read_text())
        s.check("the LaTeX compiles", not told, told)
    s.tab("effect")


def reports_bounds(s):
    """A report has the bounds where there is no formula."""
    s.tab("data")
    s.example("noncompliance")
    s.soon("the example's table", lambda: s.all("#sample") or s.all("table.bounds"), s.panel)
    if s.all("#sample"):
        s.one("#sample").click()
    over_tables.choose(s, "instrument", "assigned")
    s.soon("bounds by an instrument", lambda: "--instrument assigned" in s.command(), s.panel)
    s.one("#export").click()
    s.item("Report, to print")
    file = s.saved_as("report.html")
    s.check("a report", file, list(s.downloads.iterdir()))
    html = file.read_text()
    for part in ("by the instrument assigned", "at least", "0.4727", "0.8607", "no confidence interval", "causal bounds diagram.dag cholestyramine.csv --instrument assigned"):
        s.check(f"the report has {part}", part in html, html[-3000:])
    s.check("and no interval", "95% interval" not in html, html[-3000:])
    s.write(over_tables.TRIAL.replace("}", "assigned }"))
    s.soon("the same bounds", lambda: "--instrument assigned" in s.command() and len(over_tables.bounded(s)) == 4, s.panel)
    s.check("with intervals", over_tables.has_range(s), s.panel())
    html = saved_report(s)
    for part in ("95% interval", "for the whole range, computed in the page by the bootstrap, not proved", *over_tables.ranges(s)):
        s.check(f"the report has {part}", part in html, html[-3000:])
    s.check("in place of a sentence", "no confidence interval" not in html, html[-3000:])
    s.tab("effect")


def saved_report(s):
    """The report as HTML, made now."""
    s.downloads.joinpath(f"{s.called()}.report.html").unlink(missing_ok=True)
    s.one("#export").click()
    s.item("Report, to print")
    file = s.saved_as("report.html")
    s.check("a report", file, list(s.downloads.iterdir()))
    return file.read_text()


def reports_what_is_chosen(s):
    """Beside the total effect a report has the one that is chosen; and where a table gives no value, what its records still say."""
    s.example("front_door")
    s.tab("effect")
    for key, title in (("direct", "Direct effect, where M is set too"), ("treated", "Effect among the treated"), ("through", "Effects through M")):
        s.one(f"#panel [data-key='{key}']").click()
        s.soon(f"the effect {key}", lambda key=key: s.all(f"#panel [data-key='{key}'][aria-checked=true]") and s.all("#panel .source"), s.panel)
        html = saved_report(s)
        s.check(f"the report has it: {key}", f"<h2>{title}</h2>" in html and html.count("<h2>") > 5, html[:2000])
        s.check("beside the total one", "<h2>Effect</h2>" in html and "causal identify diagram.dag<" in html, html[:2000])
    if can_compile("tikz.sty", "booktabs.sty"):
        s.one("#export").click()
        s.item("Report, as LaTeX")
        told = compiled(s.saved_as("report.tex").read_text())
        s.check("the LaTeX of a natural effect compiles", not told, told)
    s.one("#panel [data-key='total']").click()
    s.example("kidney_stones")
    s.tab("data")
    lines = (over_tables.EXAMPLES / "kidney_stones.csv").read_text().split("\n")
    over_tables.drop(s, "lost.csv", "\n".join(line for line in lines if not line.startswith("large,B")))
    s.soon("no value", lambda: s.all("#instead"), s.panel)
    html = saved_report(s)
    for part in ("gives no value", "adjusting for S", "0.4990", "0.9233", "causal bounds diagram.dag lost.csv --set S"):
        s.check(f"the report has {part}", part in html, html[-2500:])
    s.tab("effect")


PLACES = {
    "Coach": (300, 150), "Genetics": (520, 150), "Team motivation": (150, 250), "Fitness level": (420, 240), "Contact sport": (70, 350),
    "Pre-game proprioception": (330, 340), "Neuromuscular fatigue": (480, 350), "Connective tissue disorder": (600, 260), "Previous injury": (90, 470),
    "Warm-up exercises": (230, 440), "Tissue weakness": (600, 460), "Intra-game proprioception": (380, 520), "Injury": (520, 600),
}
ARROWS = [
    ("Coach", "Team motivation"), ("Coach", "Fitness level"), ("Team motivation", "Warm-up exercises"), ("Team motivation", "Previous injury"),
    ("Contact sport", "Previous injury"), ("Fitness level", "Pre-game proprioception"), ("Fitness level", "Neuromuscular fatigue"),
    ("Pre-game proprioception", "Warm-up exercises"), ("Genetics", "Fitness level"), ("Genetics", "Neuromuscular fatigue"),
    ("Genetics", "Connective tissue disorder"), ("Connective tissue disorder", "Neuromuscular fatigue"), ("Connective tissue disorder", "Tissue weakness"),
    ("Neuromuscular fatigue", "Intra-game proprioception"), ("Neuromuscular fatigue", "Injury"), ("Warm-up exercises", "Intra-game proprioception"),
    ("Intra-game proprioception", "Injury"), ("Tissue weakness", "Injury"),
]


def study_table(rows=1500):
    """Records of the thirteen variables, each more often yes where its causes are, some with missing values."""
    lines, state = [",".join(PLACES)], 11
    for _ in range(rows):
        values = {}
        for name in PLACES:
            state = (state * 6364136223846793005 + 1442695040888963407) % 2**64
            causes = [values.get(a, False) for a, b in ARROWS if b == name]
            values[name] = (state >> 33) % 100 < (30 + 40 * sum(causes) // len(causes) if causes else 50)
        cells = ["yes" if yes else "no" for yes in values.values()]
        if (state >> 40) % 25 == 0:
            cells[(state >> 20) % len(cells)] = ("NA", "", ".")[(state >> 50) % 3]
        lines.append(",".join(cells))
    return "\n".join(lines) + "\n"


def studies_in_one_sitting(s):
    """A study from an empty page to its report: thirteen variables drawn by mouse, sets, data with missing values, an effect with its interval."""
    in_the_drawing.empty(s)
    for name, (x, y) in PLACES.items():
        in_the_drawing.twice(s, x, y)
        s.keys(name, Keys.ENTER)
        s.soon(f"{name} is drawn", lambda name=name: name in s.names(), s.names)
    pane = s.run("const b = document.getElementById('drawing').getBoundingClientRect(); return [b.x, b.y]")
    seen = in_the_drawing.places(s)
    far = {name: seen[name] for name, (x, y) in PLACES.items() if abs(seen[name][0] - pane[0] - x) > 2 or abs(seen[name][1] - pane[1] - y) > 2}
    s.check("each stands where it was placed", not far, far)
    s.one("#arrow").click()
    for a, b in ARROWS:
        s.click(a)
        s.click(b)
    s.keys(Keys.ESCAPE)
    s.soon("all arrows in two clicks each", lambda: s.text().count("->") == len(ARROWS), s.text)
    for name, role in (("Warm-up exercises", "Exposure"), ("Injury", "Outcome")):
        s.click(name)
        s.item(role)
        s.soon(f"{name} is marked", lambda role=role: f"[{role.lower()}" in s.text(), s.text)
    s.tab("adjustment")
    s.soon("seven minimal sets", lambda: "7 minimal sets" in s.panel(), s.panel)
    s.tab("data")
    over_tables.drop(s, "study.csv", study_table())
    s.soon("missing values are told in one line", lambda: s.one("#read-notes").text.count("Missing values in ") == 1, s.panel)
    over_tables.press(s, "missing")
    s.soon("and left out", lambda: "rows are left out" in s.one("#read-notes").text, s.panel)
    s.soon("an effect", lambda: s.all(".contrasts"), s.panel)
    if s.all("#draw"):
        s.one("#draw").click()
    s.soon("with its interval", lambda: over_tables.has_intervals(s), s.panel)
    s.one("#diagrams").click()
    s.one("#diagram-name").send_keys("Study", Keys.TAB, Keys.ESCAPE)
    s.one("#export").click()
    s.item("Report, to print")
    s.check("the diagram has its name", s.called().startswith("Study"), s.called())
    file = s.saved_as("report.html")
    s.check("a report, called by the diagram's name", file, list(s.downloads.iterdir()))
    html = file.read_text()
    for part in ("<svg", "Coach, Fitness level", "<math", "tested independences", "risk difference", "rows with missing values left out", "95% interval"):
        s.check(f"it has {part}", part in html, html[:300])
    s.tab("effect")


PARTS = [copies_latex, saves_a_report, reports_bounds, reports_what_is_chosen, studies_in_one_sitting]
