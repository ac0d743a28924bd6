"""Bounds of effects over data: what is known where an effect may have no formula."""
from __future__ import annotations

import random
import re
from dataclasses import dataclass, field, replace
from fractions import Fraction
from typing import TYPE_CHECKING, Any, Callable, Dict, Iterator, List, Mapping, Optional, Sequence, Set, Tuple, Union, overload

from causal.answers import Adjustment, Path
from causal.columns import Data, path_of
from causal.display import Printed, html_table
from causal.draws import drawn_numbers, seed_of
from causal.effects import Level, LevelOf, Value, cell_text, digits, levels_at, levels_there, typed_order
from causal.errors import CausalError, DataWarning, RequestError
from causal.events import many_lost
from causal.files import read_bytes
from causal.framed import Shown
from causal.frequencies import doubt_frequencies
from causal.intervals import Interval, check_asked, range_interval
from causal.names import Names, list_word, names_of, printed_name, printed_set
from causal.no_model import NoModel
from causal.objects import Told, name_in
from causal.reading import read_adjustment
from causal.tables import Table, check_request, table_of, table_of_file
from causal.vocabulary import check_progress, needed, warn

if TYPE_CHECKING:
    import pandas

    from causal.bootstrap import Progress
    from causal.diagram import Diagram

# What each effect of a draw is at least and at most, in the order of the effects.
Ends = Tuple[Tuple[float, float], ...]
CONF = ("conf_low", "conf_high")
LOST = "bounds cross there, or records are few at some levels"
# The ends in the object of an answer.
END = re.compile(rb'"at_(?:least|most)":"([0-9.]+)"')
# Statuses of the library: an answer that isn't no, one that is, and a condition without a record.
YES, NO, NO_VALUE = 0, 1, 5


@dataclass(frozen=True)
class EffectBound(Printed):
    """What one probability `P(y | do(x), given)` is at least and at most, with the levels of y, of x and of what is given. The `interval`, where
    resamples were asked for, is for the whole range between both ends: see `EffectBounds`."""

    y: Dict[str, Level]
    x: Dict[str, Level]
    given: Dict[str, Level]
    at_least: Fraction
    at_most: Fraction
    # Exact fractions, and not numbers of 18 digits.
    exact: bool = False
    interval: Optional[Interval] = None

    def __hash__(self) -> int:
        return hash((self.at_least, self.at_most))

    @property
    def cell(self) -> str:
        """The probability, as it is printed."""
        return cell_text(self.y, self.x, self.given)

    @property
    def under(self) -> Dict[str, Level]:
        """The levels of x and of what is given."""
        return {**self.x, **self.given}

    @property
    def value(self) -> Value:
        """Both ends as a value, which is exact where they are equal."""
        return Value(self.at_least, self.at_most)

    def __str__(self) -> str:
        ends = f"at least {end_text(self.at_least, self.exact)}, at most {end_text(self.at_most, self.exact)}"
        return f"{self.cell} {with_interval(ends, self.interval)}"


def end_text(end: Fraction, exact: bool) -> str:
    """An end as the program prints it.

    >>> from fractions import Fraction
    >>> from causal.bounds import end_text
    >>> end_text(Fraction(1, 2), True), end_text(Fraction(1, 2), False)
    ('1/2', '0.500000000000000000')
    """
    return f"{end.numerator}/{end.denominator}" if exact else digits(end)


def with_interval(ends: str, interval: Optional[Interval]) -> str:
    """Ends with their interval behind them, where there is one.

    >>> from causal.bounds import with_interval
    >>> from causal.intervals import Interval
    >>> with_interval("at least 1/2, at most 3/4", Interval(0.25, 0.875, 100))
    'at least 1/2, at most 3/4 [0.25, 0.875]'
    """
    return ends if interval is None else f"{ends} {interval}"


@dataclass(frozen=True)
class BoundsDraws:
    """The ends of bounds over tables of counts that were drawn anew, and None for a draw that has no bounds: some condition has no record, or
    bounds cross. They are computed from pseudorandom draws, and nothing about them is proved.

    >>> from causal.bounds import BoundsDraws
    >>> drawn = BoundsDraws((((0.25, 0.5),), None, ((0.5, 0.75),)), 0.5, 0)
    >>> drawn.resamples, drawn.without_value, drawn.interval(lambda ends: ends[0])
    (3, 1, Interval(lower=0.3125, upper=0.6875, draws=2))
    """

    draws: Tuple[Optional[Ends], ...]
    level: float
    seed: int

    @property
    def resamples(self) -> int:
        """How many draws were made."""
        return len(self.draws)

    @property
    def without_value(self) -> int:
        """How many draws had no bounds."""
        return sum(draw is None for draw in self.draws)

    def interval(self, ends_of: Callable[[Ends], Tuple[float, float]]) -> Optional[Interval]:
        """The interval for a range, of which the ends are computed of those of a draw."""
        ends = [ends_of(draw) for draw in self.draws if draw is not None]
        return range_interval([least for least, _ in ends], [most for _, most in ends], self.level)

    @property
    def notes(self) -> Tuple[str, ...]:
        """What the intervals rest on."""
        drawn = f"{self.resamples} resamples, of which {self.without_value} had no value; seed {self.seed}"
        whole = "each interval is for the whole range from the lower to the upper bound: computed, and not proved"
        return (f"{100 * self.level:g}% percentile intervals of {drawn}", whole, *self.doubts)

    @property
    def doubts(self) -> Tuple[str, ...]:
        """That many draws had no bounds, where they hadn't."""
        return many_lost(self.without_value, self.resamples, LOST)


@dataclass(frozen=True)
class AskedBounds:
    """The sets that bounds are asked for."""

    x: Tuple[str, ...]
    y: Tuple[str, ...]
    given: Tuple[str, ...] = ()
    instrument: Tuple[str, ...] = ()
    strata: Tuple[str, ...] = ()
    # The set to adjust for, where bounds are asked for by one.
    set: Optional[Tuple[str, ...]] = None


@dataclass(frozen=True)
class EffectBounds(Sequence[EffectBound]):
    """Bounds of the effects at each level of the exposures and the outcomes.

    Each is proved to hold in every model of the diagram, hidden variables included, whose observed probabilities are the shares of the
    records, positive or not. It isn't claimed that no better bounds can be had. How far the shares of a sample are from those of the
    population isn't in them.

    That is in the intervals, where `resamples` were asked for: from the lower percentile of what `at_least` is over the draws to the upper
    one of what `at_most` is. Each is for the whole range: it covers that from the true lower to the true upper bound in about `level` of large
    samples. It does so far less often where an end is the tightest of several numbers that are nearly equal, as where an instrument hardly
    goes with x, and less often where many draws have no bounds (`without_value`). This is computed, and not proved. `drawn` has the draws.

    >>> from causal import Diagram
    >>> trial = {"Z": [0] * 4 + [1] * 4, "X": [0, 0, 0, 0, 0, 1, 1, 1], "Y": [0, 0, 0, 1, 0, 1, 1, 0]}
    >>> bounds = Diagram("dag { Z -> X -> Y X <-> Y }").bounds(trial, "X", "Y", instrument="Z", exact=True)
    >>> print(bounds)
    P(Y=0|do(X=0)) at least 3/4, at most 3/4
    P(Y=1|do(X=0)) at least 1/4, at most 1/4
    P(Y=0|do(X=1)) at least 1/4, at most 1/2
    P(Y=1|do(X=1)) at least 1/2, at most 3/4
    >>> print(bounds.difference(1, 1, 0))
    at least 1/4, at most 1/2
    """

    asked: AskedBounds
    bounds: Tuple[EffectBound, ...]
    exact: bool = False
    dropped: int = 0
    # The exposures and the outcomes in the order in which they were typed.
    typed: Tuple[Optional[Tuple[str, ...]], Optional[Tuple[str, ...]]] = field(default=(None, None), repr=False, compare=False)
    # The draws that the intervals are of.
    drawn: Optional[BoundsDraws] = field(default=None, repr=False)

    def __hash__(self) -> int:
        return hash(str(self))

    def __len__(self) -> int:
        return len(self.bounds)

    @overload
    def __getitem__(self, index: int) -> EffectBound: ...

    @overload
    def __getitem__(self, index: slice) -> Tuple[EffectBound, ...]: ...

    def __getitem__(self, index: Union[int, slice]) -> Union[EffectBound, Tuple[EffectBound, ...]]:
        return self.bounds[index]

    def __iter__(self) -> Iterator[EffectBound]:
        return iter(self.bounds)

    def __str__(self) -> str:
        return "\n".join([*self._left_out, *map(str, self.bounds), *(self.drawn.notes if self.drawn else ())])

    @property
    def notes(self) -> Tuple[str, ...]:
        """How many records were left out, and what the intervals rest on."""
        return (*self._left_out, *(self.drawn.notes if self.drawn else ()))

    @property
    def _left_out(self) -> Tuple[str, ...]:
        return (f"{self.dropped} records left out that lack a value",) if self.dropped else ()

    @property
    def resamples(self) -> int:
        """How many draws the intervals are of: 0 where none were asked for."""
        return self.drawn.resamples if self.drawn else 0

    @property
    def without_value(self) -> int:
        """How many of the draws had no bounds."""
        return self.drawn.without_value if self.drawn else 0

    def with_draws(self, drawn: BoundsDraws) -> "EffectBounds":
        """The same bounds, with intervals of these draws."""

        def with_ends(place: int, bound: EffectBound) -> EffectBound:
            return replace(bound, interval=drawn.interval(lambda ends: ends[place]))

        return replace(self, bounds=tuple(with_ends(*it) for it in enumerate(self.bounds)), drawn=drawn)

    def at(self, y: Any, x: Any, given: Optional[Mapping[str, Level]] = None) -> EffectBound:
        """The bounds at these levels, which are given as in `Diagram.contrast`."""
        return self.bounds[self._place(y, x, given)]

    def _place(self, y: Any, x: Any, given: Optional[Mapping[str, Level]]) -> int:
        wanted = levels_at(self.asked.y, y, self.typed[1]), levels_at(self.asked.x, x, self.typed[0]), dict(given or {})
        for place, bound in enumerate(self.bounds):
            if (bound.y, bound.x, bound.given) == wanted:
                return place
        levels: Dict[str, Dict[Level, None]] = {}
        for bound in self.bounds:
            for name, level in (*bound.y.items(), *bound.under.items()):
                levels.setdefault(name, {})[level] = None
        there = levels_there({name: list(held) for name, held in levels.items()}, {**wanted[0], **wanted[1], **wanted[2]})
        raise RequestError(f"there are no bounds of {cell_text(*wanted)}; {there}")

    def difference(self, y: Any, treated: Any, control: Any, given: Optional[Mapping[str, Level]] = None) -> EffectDifference:
        """What the difference of two effects is at least and at most: of the lower end and the other's upper one. Its interval is of the
        same numbers over the draws."""
        one, other = self._place(y, treated, given), self._place(y, control, given)
        first, second = self.bounds[one], self.bounds[other]

        def apart(ends: Ends) -> Tuple[float, float]:
            return ends[one][0] - ends[other][1], ends[one][1] - ends[other][0]

        interval = self.drawn.interval(apart) if self.drawn else None
        return EffectDifference(first, second, first.at_least - second.at_most, first.at_most - second.at_least, interval)

    def frame(self) -> "pandas.DataFrame":
        """A DataFrame with a row for each effect (it needs pandas): the levels, `at_least` and `at_most`, and with resamples `conf_low` and
        `conf_high`."""
        pandas = needed("pandas", "a DataFrame")
        frame = pandas.DataFrame(self._rows(float("nan")), columns=[*self._names, "at_least", "at_most", *(CONF if self.drawn else ())])
        frame.attrs.update(dropped=self.dropped, notes=list(self.notes))
        if self.drawn:
            frame.attrs.update(level=self.drawn.level, interval="percentile", resamples=self.resamples, seed=self.drawn.seed)
            frame.attrs.update(without_value=self.without_value)
        return frame

    def to_frame(self) -> "pandas.DataFrame":
        """The same as `frame`."""
        return self.frame()

    @property
    def _names(self) -> List[str]:
        return [*self.asked.x, *self.asked.given, *self.asked.y]

    def _ends(self, bound: EffectBound) -> Tuple[Any, Any]:
        return (bound.at_least, bound.at_most) if self.exact else bound.value.floats()

    def _rows(self, none: Optional[float], shown: Callable[[Any], Any] = lambda end: end) -> List[List[Any]]:
        """The levels, the ends and with resamples those of the interval, or `none` where there is none."""
        found: List[List[Any]] = []
        for it in self.bounds:
            ends: List[Any] = [it.interval.lower, it.interval.upper] if it.interval else [none, none]
            found.append([*it.under.values(), *it.y.values(), *map(shown, self._ends(it)), *(ends if self.drawn else ())])
        return found

    def _repr_html_(self) -> str:
        return html_table([*self._names, "at least", "at most", *(CONF if self.drawn else ())], self._rows(None, str), self.notes)


@dataclass(frozen=True)
class EffectDifference(Printed):
    """What the difference of two effects is at least and at most, by the bounds of each. It holds wherever these do. The `interval`, where
    resamples were asked for, is for the whole range between both ends: see `EffectBounds`."""

    treated: EffectBound
    control: EffectBound
    at_least: Fraction
    at_most: Fraction
    interval: Optional[Interval] = None

    def __str__(self) -> str:
        if self.treated.exact:
            ends = f"at least {end_text(self.at_least, True)}, at most {end_text(self.at_most, True)}"
        else:
            ends = f"at least {float(self.at_least):.6g}, at most {float(self.at_most):.6g}"
        return with_interval(ends, self.interval)


@dataclass(frozen=True)
class NoInstrument(Shown):
    """Why a set is no instrument for the effect, in these strata; it counts as false.

    `moved` is a member of the set, of the strata or of what is given that the exposures act on; else `path` is open from the outcomes to the
    set once the edges into the exposures are cut. Both are proved.

    >>> from causal import Diagram
    >>> trial = {"Z": [0, 1, 0, 1], "X": [0, 1, 1, 0], "Y": [0, 1, 0, 1]}
    >>> print(Diagram("dag { Z -> X -> Y Z -> Y X <-> Y }").bounds(trial, "X", "Y", instrument="Z"))
    no instrument: {Z} given {}
    open: Y <- Z
    """

    asked: AskedBounds
    moved: Optional[str] = None
    path: Optional[Path] = None

    def __bool__(self) -> bool:
        return False

    def __str__(self) -> str:
        fixed = sorted({*self.asked.given, *self.asked.strata}, key=[*self.asked.given, *self.asked.strata].index)
        head = f"no instrument: {printed_set(self.asked.instrument)} given {printed_set(fixed)}"
        return f"{head}\nmoved: {printed_name(self.moved)}" if self.moved is not None else f"{head}\nopen: {self.path}"


@dataclass(frozen=True)
class CrossedBounds(NoModel):
    """That no model of the diagram has these counts, which is proved; it counts as false.

    `crossed` has the effect whose bounds cross: it would have to be at least more than what it is at most. In a sample small strata can
    make bounds cross by chance alone. `ends` has these two as fractions of counts, as they are printed.
    """

    asked: AskedBounds
    crossed: EffectBound
    ends: Tuple[str, str]

    @property
    def why(self) -> str:
        """What can't be, as it is printed."""
        return f"{self.crossed.cell} at least {self.ends[0]}, at most {self.ends[1]}"


Bounded = Union[EffectBounds, NoInstrument, CrossedBounds, Adjustment]


class BoundsQuestion:
    """A question for bounds, of a diagram: its words, and how it is asked over each form of data."""

    def __init__(
        self,
        diagram: "Diagram",
        x: Optional[Names] = None,
        y: Optional[Names] = None,
        given: Optional[Names] = None,
        instrument: Optional[Names] = None,
        strata: Optional[Names] = None,
        count: Optional[str] = None,
        exact: bool = False,
        set: Optional[Names] = None,
    ) -> None:
        if set is not None and any(it is not None for it in (given, instrument, strata)):
            raise RequestError("bounds are asked for by a set to adjust for, or under a condition or by an instrument, and not both")
        if strata is not None and instrument is None:
            raise RequestError("strata are those of an instrument: instrument names it")
        listed = (("given", given), ("instrument", instrument), ("strata", strata), ("set", set))
        sets: Dict[str, Optional[Tuple[str, ...]]] = {"x": None if x is None else names_of(x), "y": None if y is None else names_of(y)}
        sets.update({name: names_of(it) for name, it in listed if it is not None})
        self.diagram, self.count = diagram, count
        self.words = [word for name, held in sets.items() if held is not None for word in (f"--{name}", list_word(held))]
        self.ending = ["--exact"] if exact else []
        self.typed = typed_order(x), typed_order(y)
        marked = {"x": "exposure", "y": "outcome"}
        roles = diagram._content.roles
        members = {it for name, held in sets.items() for it in (held if held is not None else [v for v in roles if roles[v] == marked[name]])}
        self.used = tuple(name for name in diagram.vertices if name in members)
        self.outcomes = sets["y"] or ()

    def over_text(self, text: bytes, words: Sequence[str], level_of: LevelOf, dropped: int = 0) -> Bounded:
        """The answer over a text of counts."""

        def read(told: Told) -> Bounded:
            return read_bounds(told, level_of, dropped, self.typed)

        return self.diagram._ask(read, "bounds", *self.words, *words, second=text, level_of=level_of)

    def over_file(self, text: bytes) -> Bounded:
        """The answer over the text of a CSV file, which is sent as it is."""
        words = [] if self.count is None else [f"--count={self.count}"]
        return self.over_text(text, [*words, *self.ending], lambda name, level: level)

    def over_table(self, table: Table) -> Bounded:
        """The answer over a table."""
        table.check_size()
        return self.over_text(table.text(), [f"--count={table.count_column}", *self.ending], table.level, table.dropped)

    def table(self, data: Data, missing: str) -> Table:
        """The table of data of any form."""
        check_request(self.used, self.count, missing)
        path = path_of(data)
        if path is None:
            return table_of(data, self.used, self.count, missing, self.outcomes)
        return table_of_file(
            read_bytes(path),
            self.used,
            self.count,
            missing,
            lambda it: _told(self.over_file(it)),
            lambda table: _told(self.over_table(table)),
        )

    def over(
        self, data: Data, missing: str, resamples: int = 0, level: float = 0.95, seed: Optional[int] = 0, progress: Optional["Progress"] = None
    ) -> Bounded:
        """The answer over data of any form, with intervals of resamples where it is bounds."""
        check_asked(resamples, level, "percentile", least=0)
        check_progress(progress)
        if resamples and self.count is not None:
            doubt_frequencies(data, self.count)
        table = self.table(data, missing)
        found = self.over_table(table)
        if not resamples or not isinstance(found, EffectBounds):
            return found
        drawn = self.over_draws(table, found, resamples, level, seed_of(seed), progress)
        for doubt in drawn.doubts:
            warn(doubt, DataWarning)
        return found.with_draws(drawn)

    def over_draws(
        self, table: Table, found: EffectBounds, resamples: int, level: float, seed: int, progress: Optional["Progress"]
    ) -> BoundsDraws:
        """The ends over draws of as many records as the table has."""
        counts, source = list(table.counts.values()), random.Random(seed)
        draws: List[Optional[Ends]] = []
        shapes: Set[bytes] = set()
        while len(draws) < resamples:
            draws.append(self.ends_over(table, found, drawn_numbers(source, counts), shapes))
            if progress is not None:
                progress(len(draws), resamples)
        return BoundsDraws(tuple(draws), level, seed)

    def ends_over(self, table: Table, found: EffectBounds, numbers: Sequence[int], shapes: Set[bytes]) -> Optional[Ends]:
        """The ends over other counts of a table, or None where there are no bounds. The levels of x, y and what is given are the table's; of
        any other variable there are those that have a record.

        Answers are alike but for their ends: of one whose rest is among `shapes`, which have the effects of the data, the ends alone are read.
        """
        counts = {cell: number for cell, number in zip(table.counts, numbers) if number}
        text = table.text(counts, {*found.asked.x, *found.asked.y, *found.asked.given})
        words = [f"--count={table.count_column}"]
        reply = self.diagram._reply("bounds", *self.words, *words, second=text)
        if reply.status in (NO, NO_VALUE):
            return None
        shape = END.sub(b"", reply.out)
        if reply.status == YES and shape in shapes:
            ends = iter([float(end) for end in END.findall(reply.out)])
            return tuple(zip(ends, ends))
        other = self.over_text(text, words, table.level)
        if not isinstance(other, EffectBounds):
            return None
        if [it.cell for it in other] != [it.cell for it in found]:
            raise CausalError("a resample has other effects than the data")
        shapes.add(shape)
        return tuple((float(it.at_least), float(it.at_most)) for it in other)


def _told(answer: Bounded) -> object:
    """What two readings of one file have in common."""
    return answer.bounds if isinstance(answer, EffectBounds) else answer


def read_bounds(
    told: Told,
    level_of: LevelOf = lambda name, level: level,
    dropped: int = 0,
    typed: Tuple[Optional[Tuple[str, ...]], Optional[Tuple[str, ...]]] = (None, None),
) -> Bounded:
    """Reads the answer of `bounds`.

    >>> from causal.bounds import read_bounds
    >>> sets = {"x": ["X"], "y": ["Y"], "given": [], "instrument": [], "strata": []}
    >>> cell = {"x": [["X", "a"]], "y": [["Y", "b"]], "given": [], "at_least": "1/3", "at_most": "1/2"}
    >>> print(read_bounds({"answer": "bounds", "exact": True, **sets, "cells": [cell]}))
    P(Y=b|do(X=a)) at least 1/3, at most 1/2
    """

    def levels(pairs: Sequence[Tuple[str, Any]]) -> Dict[str, Level]:
        return {name: level_of(name, name_in(level)) for name, level in pairs}

    def bound(cell: Told, exact: bool) -> EffectBound:
        ends = Fraction(cell["at_least"]), Fraction(cell["at_most"])
        return EffectBound(levels(cell["y"]), levels(cell["x"]), levels([*cell["given"], *cell.get("strata", ())]), *ends, exact)

    if told["answer"] == "not admissible":
        return read_adjustment(told)
    sets = {name: tuple(told[name]) for name in ("x", "y", "given", "instrument", "strata", "set") if name in told}
    asked = AskedBounds(**sets)
    if told["answer"] == "bounds":
        return EffectBounds(asked, tuple(bound(cell, told["exact"]) for cell in told["cells"]), told["exact"], dropped, typed)
    if told["answer"] == "no model":
        crossed = told["crossed"]
        return CrossedBounds(asked, bound(crossed, True), (crossed["at_least"], crossed["at_most"]))
    if told["answer"] != "no instrument":
        raise CausalError(f"the library answered {told['answer']!r}")
    path = Path(tuple(told["open"]["vertices"]), tuple(told["open"]["marks"])) if "open" in told else None
    return NoInstrument(asked, told.get("moved"), path)
