"""Reads the object in which the library says why it refuses."""
from __future__ import annotations

import re
from typing import Any, Callable, Dict, NamedTuple, NoReturn, Optional, Sequence, Type

from causal.doubts import EDGES
from causal.errors import (
    CausalError,
    CertificateError,
    CountsError,
    DiagramError,
    EvaluationError,
    EvaluationPlace,
    RequestError,
    TargetError,
    TextPlace,
    caret_under,
)
from causal.formula import Formula
from causal.names import printed_level
from causal.objects import Told, name_in, read_line
from causal.vocabulary import meant

ERRORS: Dict[str, Type[CausalError]] = {
    kind.stage: kind for kind in (DiagramError, TargetError, CertificateError, CountsError, EvaluationError)
}
# What is said of texts of other kinds, by the word with which they begin, and of a comment.
KINDS = {
    "pdag": "it is a pdag, which stands for several diagrams; give one of them, as a dag",
    "mag": "it is a mag, whose edges say less than those of a dag",
    "pag": "it is a pag, which stands for several diagrams",
    "graph": "it is a graph without directions",
    "digraph": "it is DOT, as Graphviz has it, which Diagram.from_dot reads",
}
COMMENT = "it is a comment, which isn't read"
# What helps where a number is too wide, and where a divisor is too fine.
OTHERWISE = {2: "; bounds (exact=False) need less wide numbers", 3: "; exact fractions (exact=True) have no least divisor"}
_WORD = re.compile(rb"(?:strict\s+)?([a-z]+)", re.IGNORECASE)


class Sources(NamedTuple):
    """The texts and names that a run was about, so that a refusal can be shown in them."""

    text: bytes = b""
    second: bytes = b""
    level_of: Callable[[str, str], Any] = lambda name, level: level
    formula: Optional[Formula] = None
    # The names of the diagram, and those of the columns.
    names: Sequence[str] = ()


def hint_in(fault: Told, text: bytes) -> str:
    """What the package adds to the sentence on a diagram's text: that it is of another kind, or that a comment stands there.

    >>> from causal.faults import hint_in
    >>> hint_in({"stage": "graph", "number": 4}, b"pdag { A -- B }")
    'it is a pdag, which stands for several diagrams; give one of them, as a dag'
    """
    if not fault["stage"].endswith("graph"):
        return ""
    if fault["number"] == 2 and text[fault["byte"] :].startswith((b"//", b"/*", b"#")):
        return COMMENT
    if fault["number"] == 2 and text[fault["byte"] :].startswith(b"-"):
        return EDGES
    word = _WORD.match(text.strip()) if fault["number"] == 4 else None
    return KINDS.get(word.group(1).decode().lower(), "") if word else ""


def place_in(fault: Told, named: Sequence[str]) -> Any:
    """The place of a fault, as its kind of exception has it."""
    if "byte" in fault:
        return TextPlace(fault["byte"], fault["line"], fault["column"])
    if "version" in fault:
        return int(fault["version"])
    if fault["stage"].endswith("target"):
        return tuple(named)
    if fault["stage"].endswith("graph"):
        return tuple(named) or None
    return named[0] if named else fault.get("row")


def error_of(fault: Told, sources: Sources) -> CausalError:
    """The exception for a fault.

    >>> from causal.faults import Sources, error_of
    >>> print(error_of({"stage": "counts", "number": 4, "message": "the count is no whole number", "row": 7}, Sources()))
    counts fault 4: the count is no whole number: record 7
    """
    stage = fault["stage"]
    if stage == "evaluation":
        return _evaluation_error(fault, sources)
    text = sources.second if stage.startswith("second") else sources.text
    named = [name_in(name) for name in fault.get("names", [fault[key] for key in ("name", "key", "version") if key in fault])]
    detail = f"record {fault['row']}" if "row" in fault else ", ".join(named) or hint_in(fault, text)
    sentence = f"{fault['message']}: {detail}" if detail else fault["message"]
    if stage.endswith("target") and fault["number"] == 1 and named:
        sentence += meant(named[0], sources.names).replace("; there are", "; the diagram has")
    excerpt = caret_under(text, fault["byte"])[1] if "byte" in fault else ""
    error = ERRORS[stage.split()[-1]](sentence, fault["number"], place_in(fault, named), excerpt)
    error.stage = stage
    return error


def _evaluation_error(fault: Told, sources: Sources) -> CausalError:
    definition, node = fault["definition"], fault["node"]
    cell = {name: sources.level_of(name, name_in(level)) for name, level in fault.get("cell", ())} or None
    divisor = sources.formula.divisor_at(definition, node) if sources.formula and cell else None
    if divisor and cell:
        at = _told({name: level for name, level in cell.items() if name in divisor.names})
        sentence = f"no record has {at}, which {divisor.term} is given" if divisor.term else f"a divisor is 0 at {at}"
    else:
        sentence = fault["message"] + (f", at {_told(cell)}" if cell else OTHERWISE.get(fault["number"], ""))
    return EvaluationError(sentence, fault["number"], EvaluationPlace(definition, node, cell))


def _told(cell: Dict[str, Any]) -> str:
    return ", ".join(f"{name}={printed_level(str(level))}" for name, level in cell.items())


def as_text(word: object) -> str:
    """A word of what was asked, as text."""
    return word.decode("utf-8", "replace") if isinstance(word, bytes) else str(word)


def raise_refusal(status: int, out: bytes, err: bytes, words: Sequence[object], sources: Sources) -> NoReturn:
    """Raises the exception for a run with a status of 2 or more, of which the object is told where it is 3 to 5, and the line.

    >>> from causal.errors import TargetError
    >>> from causal.faults import Sources, raise_refusal
    >>> told = b'{"fault":{"stage":"target","number":1,"message":"the name is not in the graph","name":"Q"}}\\n'
    >>> try:
    ...     raise_refusal(3, told, b"causal: target fault 1: Q\\n", [], Sources())
    ... except TargetError as error:
    ...     print(error)
    target fault 1: the name is not in the graph: Q
    """
    printed = err.decode("utf-8", "surrogateescape").rstrip("\n")
    if status == 2:
        told = " ".join(as_text(word) for word in words if word not in ("diagram", "second"))
        raise RequestError(f"what was asked isn't understood: {told}", printed=printed)
    if status not in (3, 4, 5):
        raise CausalError(f"the library ended with status {status}: {printed}", printed=printed)
    error = read_line(lambda told: error_of(told["fault"], sources), out)
    error.printed = printed
    raise error
