"""What a diagram says of data: the pairs of variables that some set separates, and how far counts are from each."""
from __future__ import annotations

from dataclasses import dataclass
from typing import TYPE_CHECKING, Dict, Iterator, Optional, Sequence, Tuple, Union, overload

from causal.columns import Data, may_have_blanks, path_of
from causal.display import Printed, html_table
from causal.effects import Level, LevelOf, levels_text
from causal.files import read_bytes
from causal.frequencies import doubt_frequencies
from causal.names import printed_name, printed_set
from causal.objects import Told, name_in
from causal.tables import Table, check_request, table_of, table_of_file

if TYPE_CHECKING:
    import pandas

    from causal.diagram import Diagram


@dataclass(frozen=True)
class Difference(Printed):
    """How far counts are from an independence of a and b given w.

    `value` is the difference `N(a,b,w) * N(w) - N(a,w) * N(b,w)` that is greatest in size over all levels, N being sums of counts,
    and `cell` has the levels where it comes first. It is 0 exactly where the counts have the independence.

    >>> from causal import Difference
    >>> print(Difference(-5, {"A": 0, "C": 0, "B": 1}))
    largest difference -5 at A=0,C=0,B=1
    """

    value: int
    cell: Dict[str, Level]

    @property
    def place(self) -> str:
        """The levels, as they are printed."""
        return levels_text(self.cell)

    def __str__(self) -> str:
        return f"largest difference {self.value} at {self.place}"


@dataclass(frozen=True)
class Implication(Printed):
    """A pair of variables that the diagram has independent given a set, and their largest difference where data was given.

    >>> from causal import Implication
    >>> print(Implication("A", "C", ("B",)))
    A from C given {B}
    """

    a: str
    b: str
    given: Tuple[str, ...]
    difference: Optional[Difference] = None

    def __hash__(self) -> int:
        return hash((self.a, self.b, self.given))

    def __str__(self) -> str:
        pair = f"{printed_name(self.a)} from {printed_name(self.b)} given {printed_set(self.given)}"
        return pair if self.difference is None else f"{pair}\n{self.difference}"


@dataclass(frozen=True)
class Implications(Sequence[Implication]):
    """The testable independences of a diagram: each pair of variables that some set separates, with one such set. A diagram may
    have other testable constraints, which aren't listed.

    It is proved that the pairs are exactly those that some set separates, each once, and that the two are independent given
    their set in every finite model that fits the diagram; and that each difference is the largest one over the counts, and is 0
    where a model that fits the diagram matches the counts. How far the counts of a sample are from those of the population isn't
    in it: a difference is no test, and has no p-value.

    `dropped` says how many records were left out since they lacked a value.

    >>> from causal import Diagram
    >>> implications = Diagram("dag { A -> B -> C -> D B <-> D }").implications()
    >>> print(implications)
    A from C given {B}
    >>> len(implications), implications[0].given
    (1, ('B',))
    """

    implications: Tuple[Implication, ...]
    dropped: int = 0

    def __len__(self) -> int:
        return len(self.implications)

    @overload
    def __getitem__(self, index: int) -> Implication: ...

    @overload
    def __getitem__(self, index: slice) -> Tuple[Implication, ...]: ...

    def __getitem__(self, index: Union[int, slice]) -> Union[Implication, Tuple[Implication, ...]]:
        return self.implications[index]

    def __iter__(self) -> Iterator[Implication]:
        return iter(self.implications)

    def __str__(self) -> str:
        return "\n".join(map(str, self.implications)) or "none"

    @property
    def variables(self) -> Tuple[str, ...]:
        """The names in the pairs and in their sets, each once.

        >>> from causal import Diagram
        >>> Diagram("dag { A -> B -> C -> D }").implications().variables
        ('A', 'C', 'B', 'D')
        """
        return tuple(dict.fromkeys(name for it in self.implications for name in (it.a, it.b, *it.given)))

    def frame(self) -> "pandas.DataFrame":
        """A DataFrame with a row for each pair (it needs pandas): `a`, `b` and `given`, and with data `difference` and `cell`.

        >>> import pandas
        >>> from causal import Difference, Implication, Implications
        >>> print(Implications((Implication("A", "C", ("B",), Difference(-5, {"A": 0, "C": 0, "B": 1})),)).frame())
           a  b given  difference                      cell
        0  A  C  (B,)          -5  {'A': 0, 'C': 0, 'B': 1}
        """
        import pandas

        has_data = any(it.difference is not None for it in self.implications)
        rows = [[it.a, it.b, it.given, *([it.difference.value, it.difference.cell] if it.difference else [])] for it in self]
        frame = pandas.DataFrame(rows, columns=["a", "b", "given", *(["difference", "cell"] if has_data else [])])
        frame.attrs.update(dropped=self.dropped)
        return frame

    def to_frame(self) -> "pandas.DataFrame":
        """The same as `frame`."""
        return self.frame()

    def _repr_html_(self) -> str:
        has_data = any(it.difference is not None for it in self.implications)
        rows = [[it.a, it.b, it.given, *([it.difference.value, it.difference.place] if it.difference else [])] for it in self]
        return html_table(["a", "b", "given", *(["largest difference", "at"] if has_data else [])], rows)


def read_implications(told: Told, level_of: LevelOf = lambda name, level: level, dropped: int = 0) -> Implications:
    """Reads the answer of `implications`.

    >>> from causal.implications import read_implications
    >>> print(read_implications({"pairs": [{"x": "A", "y": "b c", "given": []}]}))
    A from "b c" given {}
    """

    def difference(pair: Told) -> Optional[Difference]:
        if "difference" not in pair:
            return None
        return Difference(int(pair["difference"]), {name: level_of(name, name_in(level)) for name, level in pair["cell"]})

    found = [Implication(pair["x"], pair["y"], tuple(pair["given"]), difference(pair)) for pair in told["pairs"]]
    return Implications(tuple(found), dropped)


class _Counts:
    """How the library is asked of the counts of a diagram's pairs."""

    def __init__(self, diagram: "Diagram", pairs: Implications, count: Optional[str], missing: str) -> None:
        self.diagram, self.pairs, self.count, self.missing = diagram, pairs, count, missing
        self.names = [name for name in diagram.vertices if name in pairs.variables]
        check_request(self.names, count, missing)

    def over_text(self, text: bytes) -> Implications:
        """The pairs with their differences over the text of a CSV file, which is sent as it is."""
        words = [] if self.count is None else [f"--count={self.count}"]
        return self.diagram._ask(read_implications, "implications", *words, second=text)

    def over_table(self, table: Table) -> Implications:
        """The pairs with their differences over a table."""
        words = [f"--count={table.count_column}"]

        def read(told: Told) -> Implications:
            return read_implications(told, table.level, table.dropped)

        return self.diagram._ask(read, "implications", *words, second=table.text())

    def table(self, data: Data) -> Table:
        """The table of the data."""
        if self.count is not None:
            doubt_frequencies(data, self.count)
        path = path_of(data)
        if path is None:
            return table_of(data, self.names, self.count, self.missing)
        return table_of_file(read_bytes(path), self.names, self.count, self.missing, self.over_text, self.over_table)


def implications_of(diagram: "Diagram", data: Optional[Data], count: Optional[str], missing: str) -> Implications:
    """The implications of a diagram, with their differences where there is data: see `Diagram.implications`."""
    pairs = diagram._ask(read_implications, "implications")
    if data is None or not pairs:
        return pairs
    counts = _Counts(diagram, pairs, count, missing)
    path = path_of(data)
    if path is not None:
        text = read_bytes(path)
        if missing == "level" or not may_have_blanks(text):
            return counts.over_text(text)
    return counts.over_table(counts.table(data))


def table_for(diagram: "Diagram", pairs: Implications, data: Data, count: Optional[str], missing: str) -> Table:
    """The table of the variables of the pairs."""
    return _Counts(diagram, pairs, count, missing).table(data)
