"""A report on an effect, as HTML, Markdown or LaTeX."""
from __future__ import annotations

import hashlib
import html
import os
from dataclasses import dataclass
from typing import TYPE_CHECKING, Any, List, Mapping, Optional, Sequence, Tuple, Union

from causal.bounds import EffectBounds
from causal.columns import Data
from causal.display import shown
from causal.errors import CausalError, RequestError
from causal.files import refusals_of
from causal.formula import Formula, Term
from causal.names import Names, printed_set
from causal.tables import lacking_values, table_of
from causal.typeset import escaped, latex_of
from causal.version import VERSION

if TYPE_CHECKING:
    from causal.diagram import Diagram

# So many strata and tests are shown.
MOST_ROWS = 40


@dataclass(frozen=True)
class Text:
    """A paragraph."""

    text: str


@dataclass(frozen=True)
class Code:
    """A text as it stands."""

    text: str


@dataclass(frozen=True)
class Formulated:
    """A formula in LaTeX."""

    latex: str
    text: str


@dataclass(frozen=True)
class Rows:
    """A table."""

    heads: Sequence[str]
    rows: Sequence[Sequence[Any]]


@dataclass(frozen=True)
class Drawing:
    """A drawing as SVG, with the text that it is drawn of."""

    svg: Optional[str]
    text: str


Block = Union[Text, Code, Formulated, Rows, Drawing]


@dataclass(frozen=True)
class Report:
    """A report: a title, and sections of paragraphs, formulas and tables."""

    title: str
    sections: Tuple[Tuple[str, Tuple[Block, ...]], ...]

    @property
    def html(self) -> str:
        """The report as one page of HTML, which needs nothing beside it."""
        lines = ["<!DOCTYPE html>", '<html lang="en"><head><meta charset="utf-8">', f"<title>{html.escape(self.title)}</title>", STYLE, "</head><body>"]
        lines.append(f"<h1>{html.escape(self.title)}</h1>")
        for title, blocks in self.sections:
            lines += [f"<h2>{html.escape(title)}</h2>", *map(html_of, blocks)]
        return "\n".join([*lines, "</body></html>", ""])

    @property
    def markdown(self) -> str:
        """The report as Markdown."""
        lines = [f"# {self.title}", ""]
        for title, blocks in self.sections:
            lines += [f"## {title}", ""]
            for block in blocks:
                lines += [markdown_of(block), ""]
        return "\n".join(lines)

    @property
    def latex(self) -> str:
        """The report as a document of LaTeX, for pdflatex, with amsmath and longtable."""
        lines = [PREAMBLE, rf"\title{{{escaped(self.title)}}}", r"\date{}", r"\begin{document}", r"\maketitle"]
        for title, blocks in self.sections:
            lines += [rf"\section*{{{escaped(title)}}}", *map(latex_text_of, blocks)]
        return "\n".join([*lines, r"\end{document}", ""])

    def save(self, path: Union[str, "os.PathLike[str]"]) -> None:
        """Writes the report to a file: by its ending .html, .md or .tex."""
        kinds = {".html": "html", ".htm": "html", ".md": "markdown", ".tex": "latex"}
        kind = kinds.get(os.path.splitext(os.fspath(path))[1].lower())
        if kind is None:
            raise RequestError(f"a report is written to a file that ends with {', '.join(kinds)}, and not to {os.fspath(path)!r}")
        with refusals_of(path, "written"), open(path, "w", encoding="utf-8") as file:
            file.write(getattr(self, kind))

    def _repr_html_(self) -> str:
        parts = [f"<h1>{html.escape(self.title)}</h1>"]
        for title, blocks in self.sections:
            parts += [f"<h2>{html.escape(title)}</h2>", *map(html_of, blocks)]
        return "\n".join(parts)

    def __str__(self) -> str:
        return self.markdown


STYLE = "<style>body{font-family:sans-serif;max-width:60em;margin:2em auto;padding:0 1em}table{border-collapse:collapse}"
STYLE += "td,th{padding:.2em .8em;border-bottom:1px solid #ccc;text-align:left}pre{background:#f5f5f5;padding:.6em;overflow-x:auto}"
STYLE += "svg{max-width:100%;height:auto}</style>"
PREAMBLE = r"""\documentclass{article}
\usepackage[utf8]{inputenc}
\usepackage[T1]{fontenc}
\usepackage{amsmath,longtable}
\usepackage[margin=2.5cm]{geometry}"""


def html_of(block: Block) -> str:
    """A block as HTML."""
    if isinstance(block, Text):
        return f"<p>{html.escape(block.text)}</p>"
    if isinstance(block, Code):
        return f"<pre>{html.escape(block.text)}</pre>"
    if isinstance(block, Formulated):
        return f"<pre>{html.escape(block.text)}</pre>\n<details><summary>LaTeX</summary><pre>{html.escape(block.latex)}</pre></details>"
    if isinstance(block, Drawing):
        drawn = block.svg[block.svg.index("<svg") :] if block.svg else ""
        return f"{drawn}\n<details><summary>text</summary><pre>{html.escape(block.text)}</pre></details>"
    head = "".join(f"<th>{html.escape(it)}</th>" for it in block.heads)
    rows = ["<tr>" + "".join(f"<td>{html.escape(shown(cell))}</td>" for cell in row) + "</tr>" for row in block.rows]
    return "\n".join([f"<table><thead><tr>{head}</tr></thead><tbody>", *rows, "</tbody></table>"])


def markdown_of(block: Block) -> str:
    """A block as Markdown."""
    if isinstance(block, Text):
        return block.text
    if isinstance(block, Formulated):
        return f"$$\n{block.latex}\n$$"
    if isinstance(block, Rows):
        cells = [[shown(cell).replace("|", "\\|") for cell in row] for row in block.rows]
        lines = [list(block.heads), ["---"] * len(block.heads), *cells]
        return "\n".join(f"| {' | '.join(row)} |" for row in lines)
    return f"```\n{block.text}\n```"


def latex_text_of(block: Block) -> str:
    """A block as LaTeX."""
    if isinstance(block, Text):
        return f"{escaped(block.text)}\n"
    if isinstance(block, Formulated):
        return f"\\[\n{block.latex}\n\\]"
    if isinstance(block, Rows):
        lines = [" & ".join(escaped(shown(cell)) for cell in row) + r" \\" for row in (block.heads, *block.rows)]
        return "\n".join([rf"\begin{{longtable}}{{{'l' * len(block.heads)}}}", lines[0], r"\hline", *lines[1:], r"\end{longtable}"])
    lines = [escaped(line).replace(" ", r"\ ") for line in block.text.split("\n")]
    return "\\begin{flushleft}\\ttfamily\\small\n" + " \\\\\n".join(line or "~" for line in lines) + "\n\\end{flushleft}"


def report_on(
    diagram: "Diagram",
    data: Optional[Data],
    x: Optional[Names],
    y: Optional[Names],
    arms: Mapping[str, Any],
    title: str,
    most: int,
    model: Any,
    tests: bool,
    options: Mapping[str, Any],
) -> Report:
    """The report: see `Diagram.report`."""
    answer = diagram.identify(x, y, short=True)
    target = answer.target
    sections: List[Tuple[str, Tuple[Block, ...]]] = [("The diagram", (Drawing(diagram._repr_svg_(), str(diagram)),))]
    sections.append(("The effect", tuple(effect_blocks(diagram, answer, most))))
    shared = {name: options[name] for name in ("count", "missing") if name in options}
    pairs = diagram.implications()
    if data is None or not tests:
        listed: List[Block] = [Text("It implies no independence.")]
        if pairs:
            listed = [Text(IMPLIED), Code("\n".join(map(str, pairs)))]
        sections.append(("What the diagram implies", tuple(listed)))
    else:
        sections.append(("Tests of the diagram", tuple(test_blocks(diagram, data, shared))))
    if data is not None and isinstance(answer, Formula):
        sections.append(("The data", tuple(data_blocks(diagram, data, answer, shared))))
        if arms["treated"] is not None and arms["outcome"] is not None:
            asked_x, asked_y = (target.x if x is None else x), (target.y if y is None else y)
            found = diagram.compare(data, asked_x, asked_y, **arms, most=most, model=model, **options)
            sections.append(("Crude and adjusted", tuple(comparison_blocks(found))))
    if data is not None and not isinstance(answer, Formula):
        sections.append(("What is known without a formula", tuple(bounds_blocks(diagram, data, target, shared))))
    sections.append(("What is proved", (Text(PROVED), Text(f"Made by causal {VERSION}."))))
    return Report(title, tuple(sections))


PROVED = (
    "The answers on the diagram, and each value over the counts, are proved to be what they are said to be, on the premise that the diagram"
    " is right. A value that the formula has only where a factor 0 makes its product 0 (`zero`) is its value by that rule. Intervals, tests and estimates by models are computed, and nothing about them is proved."
)
IMPLIED = "If the diagram is right, each of these is independent, and data can speak against it:"


def effect_blocks(diagram: "Diagram", answer: Any, most: int) -> List[Block]:
    """What is said of the effect: its formula with the certificate, and the sets; or the hedge."""
    if not isinstance(answer, Formula):
        return [Text("Under this diagram the effect isn't identified from observations. A hedge shows it:"), Code(str(answer))]
    found: List[Block] = [Text("Under this diagram the effect is identified, by the formula"), Formulated(latex_of(answer), answer.text)]
    certificate = answer.certificate
    if certificate is not None:
        steps = answer.steps
        digest = hashlib.sha256(certificate.encode()).hexdigest()
        verdict = "accepts" if steps or diagram.check_certificate(certificate) else "refuses"
        found += [Text(f"Its derivation is a certificate of {len(certificate)} bytes, which causal check {verdict}. Its SHA-256:"), Code(digest)]
        if steps is not None:
            found += [Text("Its steps, each with what stands there behind it:"), Code(str(steps))]
    sets = diagram.adjustment_sets(answer.target.x, answer.target.y, most=most)
    if sets:
        listed = ", ".join(map(printed_set, sets)) + (" and more" if sets.more else "")
        found.append(Text(f"The minimal sets that may be adjusted for: {listed}."))
    else:
        found.append(Text("No set may be adjusted for."))
    return found


def test_blocks(diagram: "Diagram", data: Data, shared: Mapping[str, Any]) -> List[Block]:
    """The tests of what the diagram implies."""
    try:
        tests = diagram.test_implications(data, **shared)
    except CausalError as error:
        return [Text(f"The diagram wasn't tested: {error}")]
    if not tests:
        return [Text("The diagram implies no independence that could be tested.")]
    heads = ("independence", "G2", "df", "p_value", "p_holm", "note")
    rows = [[test.pair, test.statistic, test.df, test.p_value, test.p_holm, test.note] for test in tests[:MOST_ROWS]]
    rejected = len(tests.rejected())
    return [Text(f"{len(tests)} independencies are implied; {rejected} are rejected at 5 % after Holm's correction."), Rows(heads, rows)]


def data_blocks(diagram: "Diagram", data: Data, formula: Formula, shared: Mapping[str, Any]) -> List[Block]:
    """How many records there are, how many were left out and why, and the support."""
    used = [name for name in diagram.vertices if name in formula.variables]
    table = table_of(data, used, shared.get("count"), shared.get("missing", "error"))
    records = sum(table.counts.values())
    found: List[Block] = [Text(f"{records} records were read, of the columns {', '.join(used)}.")]
    if table.dropped:
        lack = "; ".join(f"{name} in {number}" for name, number in lacking_values(data, used, shared.get("count")).items())
        found.append(Text(f"{table.dropped} records were left out, since they lack a value: {lack}."))
    try:
        support = diagram.support(data, formula.target.x, formula.target.y, **shared)
    except RequestError:
        return found
    heads, rows = support._cells()
    found += [Text(f"Records by arm, in the strata of {printed_set(support.members)}: {'; '.join(support.notes)}."), Rows(heads, rows[:MOST_ROWS])]
    return found


def bounds_blocks(diagram: "Diagram", data: Data, target: Term, shared: Mapping[str, Any]) -> List[Block]:
    """The natural bounds, where the effect has no formula."""
    try:
        found = diagram.bounds(data, target.x, target.y, **shared)
    except CausalError as error:
        return [Text(f"Bounds weren't computed: {error}")]
    if not isinstance(found, EffectBounds):
        return [Text("No model of this diagram has these counts:"), Code(str(found))]
    heads = (*target.x, *target.y, "at least", "at most")
    rows = [[*it.x.values(), *it.y.values(), float(it.at_least), float(it.at_most)] for it in found]
    return [Text("These bounds hold in every model of the diagram that has these counts:"), Rows(heads, rows[:MOST_ROWS])]


def comparison_blocks(found: Any) -> List[Block]:
    """The crude effect beside the adjusted ones."""
    blocks: List[Block] = [Rows(*found._table()), *map(Text, found.notes)]
    for way in found.ways[:2]:
        if way.answer is not None:
            blocks += [Text(way.name), Code(str(way.answer))]
            value = way.answer.e_value
            blocks += [Text(str(value))] if value is not None and way.name != "crude" else []
    return blocks
