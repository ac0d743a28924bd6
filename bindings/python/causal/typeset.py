"""Formulas in LaTeX as a paper sets them: from their trees, names of more than one letter as text, in lines that fit."""
from __future__ import annotations

import re
from typing import List, Sequence

from causal.formula import Formula, Term
from causal.objects import Told

# The lines below a sum.
STACKED = re.compile(r"\\substack\{((?:[^{}]|\{[^{}]*\})*)\}")
SIGNS = {
    "\\": r"\textbackslash{}", "{": r"\{", "}": r"\}", "$": r"\$", "&": r"\&", "#": r"\#", "_": r"\_", "%": r"\%",
    "~": r"\textasciitilde{}", "^": r"\textasciicircum{}", "<": r"\textless{}", ">": r"\textgreater{}",
}  # fmt: skip
# A line of a formula has about so many letters at most, where it can be broken; the names below a sum, and a condition, have less.
WIDTH, WIDTH_OF_SUM, WIDTH_OF_CONDITION = 60, 30, 42


def escaped(text: str) -> str:
    """A text as LaTeX has it.

    >>> from causal.typeset import escaped
    >>> escaped("50 % of a_b")
    '50 \\\\% of a\\\\_b'
    """
    return "".join(SIGNS.get(sign, sign) for sign in text)


def named(name: str) -> str:
    """A name in a formula.

    >>> from causal.typeset import named
    >>> named("X"), named("décès à 30 jours")
    ('X', '\\\\text{décès à 30 jours}')
    """
    return name if len(name) == 1 and name.isascii() and name.isalpha() else rf"\text{{{escaped(name)}}}"


def listed(names: Sequence[str]) -> str:
    """Names with commas."""
    return ", ".join(map(named, names))


def in_lines(names: Sequence[str], most: int) -> List[str]:
    """Names with commas, in lines of about so many letters.

    >>> from causal.typeset import in_lines
    >>> in_lines(["X", "Y", "Z"], 4)
    ['X, Y,', 'Z']
    """
    lines: List[str] = []
    for place, name in enumerate(names):
        text = named(name) + ("," if place + 1 < len(names) else "")
        if lines and width(lines[-1]) + width(text) <= most:
            lines[-1] += f" {text}"
        else:
            lines.append(text)
    return lines


def summed(names: Sequence[str]) -> str:
    """The sign of a sum, with many names in lines one below the other."""
    lines = in_lines(names, WIDTH_OF_SUM)
    stacked = r" \\ ".join(lines)
    return rf"\sum_{{{lines[0]}}}" if len(lines) == 1 else rf"\sum_{{\substack{{{stacked}}}}}"


def parts_of_term(term: Term) -> List[str]:
    """A probability, in parts where it is long."""
    whole = probability(term)
    if width(whole) <= WIDTH - 10:
        return [whole]
    found = in_lines([*term.y], WIDTH_OF_CONDITION)
    if term.x or term.given:
        found[-1] += r" \mid" + (rf" \mathrm{{do}}({listed(term.x)}){',' if term.given else ''}" if term.x else "")
        found += in_lines(term.given, WIDTH_OF_CONDITION)
    found[0], found[-1] = f"P({found[0]}", f"{found[-1]})"
    return found


def probability(term: Term) -> str:
    """A probability.

    >>> from causal.formula import Term
    >>> from causal.typeset import probability
    >>> probability(Term(("Y",), ("X",), ("age",)))
    'P(Y \\\\mid \\\\mathrm{do}(X), \\\\text{age})'
    """
    conditions = [*([rf"\mathrm{{do}}({listed(term.x)})"] if term.x else []), *map(named, term.given)]
    return f"P({listed(term.y)}{f' {chr(92)}mid ' if conditions else ''}{', '.join(conditions)})"


def parts_in_lines(tree: Told) -> List[str]:
    """An expression in parts, between which a line may end: a sum with its first factor, and the other factors."""
    if "sum" in tree:
        first, *rest = parts_in_lines(tree["of"])
        return [f"{summed(tree['sum'])} {first}", *rest]
    if "product" in tree:
        return [part for it in tree["product"] for part in parts_of_factor(it)]
    if "quotient" in tree:
        above, below = (" ".join(parts_in_lines(part)) for part in tree["quotient"])
        return [rf"\frac{{{above}}}{{{below}}}"]
    if "definition" in tree:
        return [rf"q_{{{tree['definition']}}}"]
    return parts_of_term(Term(tuple(tree["term"]), tuple(tree["do"]), tuple(tree["given"])))


def parts_of_factor(tree: Told) -> List[str]:
    """A factor of a product in parts: a sum in brackets, in one part where it is short."""
    parts = parts_in_lines(tree)
    if "sum" not in tree:
        return parts
    text = " ".join(parts)
    if width(text) <= WIDTH:
        return [rf"\left( {text} \right)"]
    return [rf"\bigl( {parts[0]}", *parts[1:-1], rf"{parts[-1]} \bigr)"] if len(parts) > 1 else [rf"\bigl( {text} \bigr)"]


def width(text: str) -> int:
    """About how many letters a part is wide."""
    text = STACKED.sub(lambda it: max(it.group(1).split(r"\\"), key=len), text)
    for word in (r"\text", r"\left", r"\right", r"\bigl", r"\bigr", r"\mathrm", r"\sum_", r"\frac", r"\mid", "{", "}", "\\"):
        text = text.replace(word, "")
    return len(text.replace(" ", ""))


def lines_of(left: str, tree: Told) -> List[str]:
    """The right side of an equation, in lines; the first has the room that the left side leaves, and is empty where that is too little."""
    lines, used = [""], width(left)
    for part in parts_in_lines(tree):
        if used + width(part) > WIDTH:
            lines.append(part)
            used = width(part)
        else:
            lines[-1] += f" {part}" if lines[-1] else part
            used += width(part)
    return lines


def latex_of(formula: Formula) -> str:
    """The formula and its definitions, as `aligned` of amsmath: at the signs of equality, or where some equation has more lines at the left.

    >>> from causal import Diagram
    >>> from causal.typeset import latex_of
    >>> print(latex_of(Diagram("dag { age -> X -> Y <- age }").identify("X", "Y")))
    \\begin{aligned}
    P(Y \\mid \\mathrm{do}(X)) ={}& \\sum_{\\text{age}} P(\\text{age}) P(Y \\mid \\text{age}, X)
    \\end{aligned}
    """
    *definitions, tree = formula._known()
    sides = [(probability(formula.target), tree)]
    sides += [(rf"q_{{{number}}}", definition) for number, definition in enumerate(definitions)]
    equations = [(left, lines_of(left, right)) for left, right in sides]
    if all(len(lines) == 1 for _, lines in equations):
        rows = [f"{left} ={{}}& {line}" for left, (line,) in equations]
    else:
        rows = [row for left, lines in equations for row in (f"&{left} = {lines[0]}".rstrip(), *(rf"&\quad {line}" for line in lines[1:]))]
    return "\n".join([r"\begin{aligned}", " \\\\\n".join(rows), r"\end{aligned}"])
