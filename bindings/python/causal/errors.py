"""What the package raises: each refusal with its number, a sentence in plain words, its place, and the line of the text."""
from __future__ import annotations

from typing import Any, Dict, NamedTuple, Optional, Tuple


class Refusal(Exception):
    """What all refusals of the package are: whatever it raises itself is one, of the class that says what was wrong.

    `number` is the fault's number, or None; `sentence` says it in words; `place` is where it is, of a kind that each
    subclass tells; `excerpt` is the line of the text with a caret, or empty; `printed` is the line that the library wrote.

    >>> from causal import CausalError, Diagram
    >>> try:
    ...     Diagram("dag { a ->")
    ... except CausalError as error:
    ...     print(error)
    graph fault 3 at line 1, column 11: what stands here does not fit the grammar, or the text ends too early
    dag { a ->
              ^
    """

    stage = ""

    def __init__(
        self, sentence: str, number: Optional[int] = None, place: Any = None, excerpt: str = "", printed: str = ""
    ) -> None:
        super().__init__(sentence, number, place, excerpt, printed)
        self.sentence = sentence
        self.number = number
        self.place = place
        self.excerpt = excerpt
        self.printed = printed

    def __str__(self) -> str:
        head = f"{self.stage} fault {self.number}" if self.number is not None else ""
        if isinstance(self.place, TextPlace):
            head += f" at line {self.place.line}, column {self.place.column}"
        text = f"{head}: {self.sentence}" if head else self.sentence
        return f"{text}\n{self.excerpt}" if self.excerpt else text


class CausalError(Refusal):
    """The refusals, by the name that their class had first. `Refusal` is above it."""


class DiagramWarning(UserWarning):
    """A text that is read as a diagram, though something in it may be a typing error that has cost an edge.

    >>> import warnings
    >>> from causal import Diagram, DiagramWarning
    >>> with warnings.catch_warnings(record=True) as caught:
    ...     warnings.simplefilter("always")
    ...     diagram = Diagram("dag { X Y == Z }")
    >>> issubclass(caught[0].category, DiagramWarning), str(caught[0].message)
    (True, "'Y ==' at line 1, column 9 says nothing of the diagram, and was dropped; an edge is written ->, <- or <->")
    """


class DataWarning(UserWarning):
    """A number that rests on less than it seems: resamples that have no value, an interval of width 0, few events, weights of a model
    that are extreme. What it says stands in the answer's `notes` too.

    >>> import warnings
    >>> from causal import DataWarning, Diagram
    >>> with warnings.catch_warnings(record=True) as caught:
    ...     warnings.simplefilter("always")
    ...     data = {"X": [0, 1] * 20, "Y": [0] * 39 + [1]}
    ...     found = Diagram("dag { X -> Y }").contrast(data, "X", "Y", treated=1, control=0, outcome=1, resamples=100)
    >>> issubclass(caught[0].category, DataWarning), str(caught[0].message)
    (True, 'the interval of the risk under control has width 0: none of the records there has the outcome')
    """


class TextPlace(NamedTuple):
    """A place in a text: the number of bytes before it, and its line and column, counted in characters from 1."""

    byte: int
    line: int
    column: int


class DiagramError(CausalError):
    """A text that is no diagram. The place is a `TextPlace`, a tuple of names (the vertex, or the cycle), or None.

    >>> from causal import Diagram, DiagramError
    >>> try:
    ...     Diagram("dag { a -> b b -> a }")
    ... except DiagramError as error:
    ...     print(error.number, error.place)
    11 ('a', 'b')
    """

    stage = "graph"


class TargetError(CausalError):
    """Sets of vertices that can't be asked about. The place is a tuple of the names that are at fault.

    >>> from causal import Diagram, TargetError
    >>> try:
    ...     Diagram("dag { X -> Y }").identify("X", "Q")
    ... except TargetError as error:
    ...     print(error)
    target fault 1: the name is not in the graph: Q; the diagram has X, Y
    """

    stage = "target"


class CertificateError(CausalError):
    """A certificate that can't be read. The place is the key, the number of the version or the name at fault, or None.

    >>> from causal import CertificateError, Diagram
    >>> try:
    ...     Diagram("dag { X -> Y }").check_certificate("{}")
    ... except CertificateError as error:
    ...     print(error)
    certificate fault 2: the value of this key is missing or has another form: version
    """

    stage = "certificate"


class CountsError(CausalError):
    """Data that can't be read as counts. The place is the number of a record (from 1), the name of a column, or None.

    >>> from causal import CountsError, Diagram
    >>> try:
    ...     Diagram("dag { X -> Y }").effects({"X": ["a"], "Z": ["b"]}, "X", "Y")
    ... except CountsError as error:
    ...     print(error)
    counts fault 2: there is no column Y; there are X, Z
    """

    stage = "counts"


class MissingValues(CountsError):
    """A used column has missing values. The place is a tuple of its name and of how many records lack a value.

    >>> from causal import Diagram, MissingValues
    >>> try:
    ...     Diagram("dag { X -> Y }").effects({"X": ["a", None], "Y": ["b", "b"]}, "X", "Y")
    ... except MissingValues as error:
    ...     print(error)
    the column X has no value in 1 of 2 records; give missing="drop" to leave such records out
    """


class EvaluationError(CausalError):
    """The formula has no value over the counts. The place is an `EvaluationPlace`.

    >>> from causal import Diagram, EvaluationError
    >>> data = {"S": ["s", "s", "t"], "T": ["a", "b", "a"], "R": ["r", "r", "r"]}
    >>> try:
    ...     Diagram("dag { S -> T S -> R T -> R }").effects(data, "T", "R")
    ... except EvaluationError as error:
    ...     print(error)
    evaluation fault 1: no record has S=t, T=b, which P(R|S,T) is given; support(data) shows the combinations that lack records, estimate(data, ..) gives a value by models, and bounds(data, set=['S']) what it is at least and at most
    """

    stage = "evaluation"


class EvaluationPlace(NamedTuple):
    """Where a formula has no value: the number of the definition (None for the formula itself), the number of the node in it,
    and the level of each used vertex there (None where it isn't told, or can't be told). `Formula.divisor_at` has what is divided by
    there."""

    definition: Optional[int]
    node: int
    cell: Optional[Dict[str, Any]]


class NotIdentifiable(CausalError):
    """The effect can't be computed from observations. The place is the `Hedge` that shows it, or among the treated a `Confounded`.

    >>> from causal import Diagram, NotIdentifiable
    >>> try:
    ...     Diagram("dag { X -> Y X <-> Y }").effects({"X": ["a"], "Y": ["b"]}, "X", "Y")
    ... except NotIdentifiable as error:
    ...     print(error, error.place.big)
    P(Y|do(X)) is not identifiable: the error's place has the hedge, and bounds(data, ..) says what the effect is at least and at most ('X', 'Y')
    """


class NoModelError(CausalError):
    """No model of the diagram has the counts of the data, which is proved: an effect among the treated would be below 0. The place is a
    `LessThanObserved`. In a sample chance alone can bring this about.

    >>> from causal import Diagram, NoModelError
    >>> napkin = Diagram("dag { W -> Z -> X -> Y W <-> X W <-> Y }")
    >>> try:
    ...     napkin.effects({"W": [0] * 4, "Z": [0, 0, 1, 1], "X": [0, 1, 0, 1], "Y": [0, 1, 1, 0]}, "X", "Y", treated=True)
    ... except NoModelError as error:
    ...     print(error)
    no model of this diagram has these counts: P(Y=1|do(X=0)) is less than P(X=0,Y=1)
    """


class RequestError(CausalError, ValueError):
    """What was asked isn't understood."""


class WrongType(RequestError, TypeError):
    """What was given is of a type that can't be asked about."""


class PackageMissing(CausalError, ImportError):
    """A package that an answer needs isn't there."""


class FileRefused(CausalError, OSError):
    """A file that can't be read or written. The place is its path."""


class FileMissing(FileRefused, FileNotFoundError):
    """A file that isn't there.

    >>> from causal import Diagram, FileMissing
    >>> try:
    ...     Diagram.from_file("no/such.dag")
    ... except FileMissing as error:
    ...     print(error)
    there is no file no/such.dag
    """


class UnreadableAnswer(CausalError):
    """An answer that this package doesn't read: that of a library of another version."""


class LibraryMissing(CausalError, ImportError):
    """The shared library isn't there, or can't be used."""


def caret_under(text: bytes, at: int) -> Tuple[TextPlace, str]:
    """The place of a byte of the text, and its line with a caret below.

    >>> from causal.errors import caret_under
    >>> caret_under("dag {\\n\\tå -- b }".encode(), 10)
    (TextPlace(byte=10, line=2, column=4), '\\tå -- b }\\n\\t  ^')
    """
    start = text.rfind(b"\n", 0, at) + 1
    end = text.find(b"\n", at)
    line = text[start : end if end >= 0 else len(text)].rstrip(b"\r").decode("utf-8", "replace")
    before = text[start:at].decode("utf-8", "replace")
    under = "".join(c if c == "\t" else " " for c in before)
    return TextPlace(at, text.count(b"\n", 0, start) + 1, len(before) + 1), f"{line}\n{under}^"
