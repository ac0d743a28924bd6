"""Tests of what a diagram implies of data: whether counts are far from an independence by more than chance.

Which pairs are independent given which set the library tells. The tests are computed here, and nothing about them is proved.
"""
from __future__ import annotations

import math
from dataclasses import dataclass, replace
from typing import TYPE_CHECKING, Iterator, List, Optional, Sequence, Tuple, Union, overload

from causal.bootstrap import Progress
from causal.columns import Data
from causal.contingency import chi_squared, shift_at, strata_of
from causal.display import Printed, html_table
from causal.draws import seed_of
from causal.errors import DataWarning, RequestError
from causal.implications import Implication, read_implications, table_for
from causal.names import printed_name, printed_set
from causal.strata import Cells, Strata, cells_of, strata_in
from causal.tables import Table
from causal.vocabulary import Renamed, check_progress, check_whole, needed, warn

if TYPE_CHECKING:
    import matplotlib.axes
    import pandas

    from causal.diagram import Diagram

METHODS = ("auto", "chi-squared", "permutation")
# A variable with fewer records for each of its levels on average can't be tested, or only with little power.
UNTESTED, SPARSE = 2, 5


@dataclass(frozen=True)
class IndependenceTest(Printed):
    """A test of one independence that a diagram implies. It is computed, and nothing about it is proved.

    `statistic` is G² over the levels of what is given, and `df` its degrees of freedom; `p_value` is by the `method`
    ("chi-squared" or "permutation"), and `p_holm` after Holm's correction for all tests. Where no level has two levels of both
    variables, or a variable has nearly a level for each record, nothing can be tested: then `p_value`, `method` and `p_holm` are None,
    and `note` says why. Where there is a test, `note` may say that it has little power.

    Four sizes say how far the counts are from the independence. `largest_difference` is the largest difference, as a probability:
    how far the part of the records that a cell has is from the one that the independence gives it, at most. `rmsea` is the root
    mean square error of approximation, and `rmsea_low` and `rmsea_high` are the ends of its interval of 95%, by the noncentral
    chi-squared distribution (in thin tables it says little). `effect_size` is Cramér's V over the
    same levels: 0 where the counts are independent, 1 where the one variable tells the other.
    """

    a: str
    b: str
    given: Tuple[str, ...]
    statistic: float
    df: int
    effect_size: float
    p_value: Optional[float] = None
    method: Optional[str] = None
    p_holm: Optional[float] = None
    largest_difference: float = 0.0
    rmsea: float = 0.0
    rmsea_low: float = 0.0
    rmsea_high: float = 0.0
    note: Optional[str] = None

    degrees = Renamed("df")
    p = Renamed("p_value")
    adjusted = Renamed("p_holm")
    rmsea_lower = Renamed("rmsea_low")
    rmsea_upper = Renamed("rmsea_high")

    @property
    def pair(self) -> str:
        """The pair with its set, as it is printed."""
        return f"{printed_name(self.a)} from {printed_name(self.b)} given {printed_set(self.given)}"

    def __str__(self) -> str:
        if self.p_value is None or self.p_holm is None:
            return f"{self.pair}: no test" + (f": {self.note}" if self.note else "")
        tested = f"G2 = {self.statistic:.4g}, df = {self.df}, p = {self.p_value:.3g} ({self.method}), Holm {self.p_holm:.3g}"
        rmsea = f"RMSEA = {self.rmsea:.3g} [{self.rmsea_low:.3g}, {self.rmsea_high:.3g}]"
        sizes = f"largest difference {self.largest_difference:.3g}, {rmsea}, V = {self.effect_size:.3g}"
        return f"{self.pair}: {tested}, {sizes}" + (f" ({self.note})" if self.note else "")


@dataclass(frozen=True)
class IndependenceTests(Sequence[IndependenceTest]):
    """Tests of all pairs that a diagram has independent given a set: see `Diagram.test_implications`.

    A small p says that the data has a dependence that the diagram excludes. Large ones say nothing for it: other diagrams imply
    the same, and small samples show little. `dropped` says how many records were left out since they lacked a value.
    """

    tests: Tuple[IndependenceTest, ...]
    permutations: int
    seed: int
    dropped: int = 0

    def __len__(self) -> int:
        return len(self.tests)

    @overload
    def __getitem__(self, index: int) -> IndependenceTest: ...

    @overload
    def __getitem__(self, index: slice) -> Tuple[IndependenceTest, ...]: ...

    def __getitem__(self, index: Union[int, slice]) -> Union[IndependenceTest, Tuple[IndependenceTest, ...]]:
        return self.tests[index]

    def __iter__(self) -> Iterator[IndependenceTest]:
        return iter(self.tests)

    def rejected(self, level: float = 0.05) -> Tuple[IndependenceTest, ...]:
        """The tests whose p after Holm's correction is below the level."""
        return tuple(test for test in self.tests if test.p_holm is not None and test.p_holm < level)

    @property
    def notes(self) -> Tuple[str, ...]:
        """What the tests rest on: how many records were left out."""
        return (f"{self.dropped} records left out that lack a value",) if self.dropped else ()

    def __str__(self) -> str:
        return "\n".join([*map(str, self.tests), *self.notes]) or "none"

    HEADS = (
        *("a", "b", "given", "statistic", "df", "p_value", "p_holm", "effect_size", "method"),
        *("largest_difference", "rmsea", "rmsea_low", "rmsea_high", "note"),
    )

    def plot(self, ax: Optional["matplotlib.axes.Axes"] = None) -> "matplotlib.axes.Axes":
        """Draws the size of each difference, the RMSEA with its interval, with matplotlib. Pairs without a test are left out.

        >>> import matplotlib
        >>> matplotlib.use("Agg")
        >>> from causal import Diagram
        >>> tests = Diagram("dag { A -> B -> C }").test_implications({"A": [0, 1] * 9, "B": [0, 0, 1] * 6, "C": [0, 1, 1] * 6})
        >>> axes = tests.plot()
        """
        from causal.plotting import plot_intervals

        known = [test for test in self.tests if test.p_value is not None]
        rows = [(test.pair, test.rmsea, test.rmsea_low, test.rmsea_high) for test in known]
        return plot_intervals(rows, "RMSEA, with its 95% interval", ax)

    def frame(self) -> "pandas.DataFrame":
        """A DataFrame with a row for each test (it needs pandas)."""
        pandas = needed("pandas", "a DataFrame")
        rows = [[getattr(test, head) for head in self.HEADS] for test in self.tests]
        frame = pandas.DataFrame(rows, columns=list(self.HEADS))
        frame.attrs.update(dropped=self.dropped, permutations=self.permutations, seed=self.seed)
        return frame

    def to_frame(self) -> "pandas.DataFrame":
        """The same as `frame`."""
        return self.frame()

    def _repr_html_(self) -> str:
        return html_table(self.HEADS, [[getattr(test, head) for head in self.HEADS] for test in self.tests], self.notes)


def holm(values: Sequence[float]) -> List[float]:
    """The values after Holm's correction, in the same order.

    >>> from causal.independence import holm
    >>> holm([0.25, 0.125, 0.5])
    [0.5, 0.375, 0.5]
    """
    order = sorted(range(len(values)), key=values.__getitem__)
    found, largest = [0.0] * len(values), 0.0
    for rank, place in enumerate(order):
        largest = max(largest, min((len(values) - rank) * values[place], 1.0))
        found[place] = largest
    return found


def uncut(pair: Implication, table: Table) -> Tuple[bool, Optional[str]]:
    """Whether a variable of a pair, or of its set, has nearly a level for each record, and what is to be said of that.

    >>> from causal import Implication
    >>> from causal.independence import uncut
    >>> from causal.tables import table_of
    >>> uncut(Implication("A", "B", ()), table_of({"A": [0.5, 1.5, 2.5, 3.5], "B": [0, 1, 0, 1]}, ["A", "B"]))
    (True, 'A has 4 levels in 4 records, which says nothing of chance; cut it into classes')
    """
    records = sum(table.counts.values())
    for name in (pair.a, pair.b, *pair.given):
        place = table.names.index(name)
        levels = len({cell[place] for cell, count in table.counts.items() if count})
        if levels > 2 and levels * UNTESTED > records:
            return True, f"{name} has {levels} levels in {records} records, which says nothing of chance; cut it into classes"
        if levels > 2 and levels * SPARSE > records:
            return False, f"{name} has {levels} levels in {records} records, which leaves the test little power; cut it into classes"
    return False, None


def tested(pair: Implication, table: Table, method: str, permutations: int, seed: int, cells: Optional[Cells] = None) -> IndependenceTest:
    """The test of one pair."""
    strata = strata_in(cells, pair.a, pair.b, pair.given) if cells else Strata.of(strata_of(table, pair.a, pair.b, pair.given))
    is_uncut, note = uncut(pair, table)
    degrees, statistic = strata.degrees, strata.deviance
    if not degrees or is_uncut:
        note = note or f"no level of {printed_set(pair.given)} has two levels of both"
        return IndependenceTest(pair.a, pair.b, pair.given, statistic, degrees, 0.0, note=note)
    sides = [len({cell[table.names.index(name)] for cell, count in table.counts.items() if count}) for name in (pair.a, pair.b)]
    records = sum(table.counts.values())
    size = math.sqrt(strata.pearson / (records * (min(sides) - 1)))

    def rmsea(shift: float) -> float:
        return math.sqrt(max(shift, 0.0) / (degrees * (records - 1)))

    tail = None if method == "permutation" or method == "auto" and strata.is_thin else chi_squared()
    if method == "chi-squared" and tail is None:
        raise RequestError("the chi-squared distribution needs scipy; by permutation the tests need nothing")
    p = tail(statistic, degrees) if tail else strata.permutation_p(permutations, seed)
    if note is not None:
        warn(f"{pair}: {note}", DataWarning)
    return IndependenceTest(
        *(pair.a, pair.b, pair.given, statistic, degrees, size, p, "chi-squared" if tail else "permutation", p),
        largest_difference=strata.largest / records,
        rmsea=rmsea(statistic - degrees),
        rmsea_low=rmsea(shift_at(statistic, degrees, 0.975)),
        rmsea_high=rmsea(shift_at(statistic, degrees, 0.025)),
        note=note,
    )


def tests_of(
    diagram: "Diagram",
    data: Data,
    count: Optional[str],
    missing: str,
    method: str,
    permutations: int,
    seed: Optional[int],
    progress: Optional[Progress] = None,
) -> IndependenceTests:
    """The tests of all implications of a diagram: see `Diagram.test_implications`."""
    if method not in METHODS:
        raise RequestError(f"the method is {', '.join(METHODS[:-1])} or {METHODS[-1]}, and not {method!r}")
    check_whole("permutations", permutations)
    check_progress(progress)
    first = seed_of(seed)
    pairs = diagram._ask(read_implications, "implications")
    if not pairs:
        return IndependenceTests((), permutations, first)
    table = table_for(diagram, pairs, data, count, missing)
    cells, tests = cells_of(table), []
    for done, pair in enumerate(pairs):
        tests.append(tested(pair, table, method, permutations, first + done, cells))
        if progress is not None:
            progress(done + 1, len(pairs))
    adjusted = iter(holm([test.p_value for test in tests if test.p_value is not None]))
    tests = [test if test.p_value is None else replace(test, p_holm=next(adjusted)) for test in tests]
    return IndependenceTests(tuple(tests), permutations, first, table.dropped)
