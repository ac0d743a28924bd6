"""How much of an effect goes through mediators, and how much past them, in data: natural effects, with intervals by the bootstrap.

The formula is proved, and its values over the counts are, in the three worlds that are compared. Differences and intervals are computed,
and so are values by models: nothing about them is proved.
"""
from __future__ import annotations

import random
from dataclasses import dataclass, field, replace
from fractions import Fraction
from itertools import islice
from typing import TYPE_CHECKING, Any, Dict, Iterator, List, Mapping, Optional, Sequence, Tuple

from causal.bootstrap import Progress, beside
from causal.columnwise import Columns, Factor, Numbers
from causal.columns import Data
from causal.contrasts import arm_level
from causal.display import Printed, html_table
from causal.draws import drawn_numbers, seed_of
from causal.effects import Level, Value, check_arms, levels_at, levels_text, typed_order, value_of
from causal.errors import CausalError, DataWarning, EvaluationError, NotIdentifiable, RequestError, WrongType
from causal.events import lost_text, many_lost
from causal.framed import Framed
from causal.frequencies import doubt_frequencies
from causal.intervals import Interval, check_asked, interval_of
from causal.names import Names, list_word, printed_set
from causal.models import Fit
from causal.natural import NaturalFormula
from causal.natural_estimates import Modelled, ModelWords, modelled
from causal.objects import Told, name_in
from causal.tables import Table, check_request, table_of
from causal.values import NEAR
from causal.vocabulary import check_progress, warn

if TYPE_CHECKING:
    from causal.diagram import Diagram

MEASURES = ("treated", "control", "between", "total", "direct", "indirect", "proportion")
TEXTS = {
    "treated": "under treated",
    "control": "under control",
    "between": "under treated, the mediators as under control",
    "total": "total effect",
    "direct": "natural direct effect",
    "indirect": "natural indirect effect",
    "proportion": "proportion mediated",
}
CAUTION = "the proportion says little: the direct and the indirect effect have opposite signs, or the total may be near 0"
# A world: the arm of the exposures, and that of the exposures as the mediators have them.
WORLDS = ((0, 0), (1, 1), (0, 1))


@dataclass(frozen=True)
class MediatedNumber(Printed):
    """A number of a mediation, with its interval."""

    measure: str
    estimate: Optional[float]
    interval: Optional[Interval] = None
    note: str = ""

    def __float__(self) -> float:
        if self.estimate is None:
            raise RequestError(f"there is no {TEXTS[self.measure]}")
        return self.estimate

    def __str__(self) -> str:
        value = "none" if self.estimate is None else f"{self.estimate:.6g}"
        return beside(f"{TEXTS[self.measure]}: {value}" + (f" {self.interval}" if self.interval else ""), self.note)


@dataclass(frozen=True)
class Mediation(Framed):
    """Two arms compared, through mediators and past them: the risks (or means), the total effect, and its natural parts.

    `between` is the risk were x as treated, and the mediators as they would be under control. The direct effect is that less the risk under
    control, the indirect one the risk under treated less that; they add up to the total. The risks are the values of `formula`, which is
    proved to be the effect, over the counts: `values` has them as the program proved them. All else is computed, and the risks too where
    they are by models of its terms, of which `fits` has each. A natural effect speaks of two values of x in one person, which no
    experiment shows.
    """

    formula: NaturalFormula
    arms: Tuple[Dict[str, Level], Dict[str, Level]]
    outcome: Dict[str, Level]
    rows: Tuple[MediatedNumber, ...]
    level: float
    resamples: int
    without_value: int
    seed: int
    dropped: int = 0
    pinned: Dict[str, Level] = field(default_factory=dict)
    # Where the values are by models: each with how it fits, the variables that enter them as numbers, and how many records there are.
    fits: Tuple[Fit, ...] = ()
    as_numbers: Tuple[str, ...] = ()
    records: int = 0
    interval_kind: str = "percentile"
    # The values in the three worlds over the counts, as the program gives them: exactly, or within bounds. None by models, and where the
    # formula has a value by the rule alone that a product with a factor 0 is 0.
    values: Optional[Tuple[Value, ...]] = field(default=None, repr=False, compare=False)

    def __hash__(self) -> int:
        return hash(self.rows)

    def number(self, measure: str) -> MediatedNumber:
        """One of the numbers, by its name."""
        return self.rows[MEASURES.index(measure)]

    @property
    def total(self) -> MediatedNumber:
        """The total effect: the risk under treated less that under control."""
        return self.number("total")

    @property
    def direct(self) -> MediatedNumber:
        """The natural direct effect: with the mediators as under control."""
        return self.number("direct")

    @property
    def indirect(self) -> MediatedNumber:
        """The natural indirect effect: of the mediators' change alone, with x as treated."""
        return self.number("indirect")

    @property
    def proportion(self) -> MediatedNumber:
        """The indirect effect over the total one; it means something where both effects have one sign and the total isn't near 0."""
        return self.number("proportion")

    @property
    def head(self) -> str:
        """What is compared, in words."""
        target = f"; outcome: {levels_text(self.outcome)}" if self.outcome else f"; mean of {self.formula.sets.y[0]}"
        arms = f"treated: {levels_text(self.arms[0])}; control: {levels_text(self.arms[1])}"
        return f"{arms}{target}; through {printed_set(self.formula.sets.through)}"

    @property
    def notes(self) -> Tuple[str, ...]:
        """What the numbers rest on."""
        told = "computed" if self.fits else "formula"
        found = [f"{told}: {self.formula.sets.effect} = {self.formula.expression}", *self.formula.sets.nil]
        found += ["by these models of its terms", *map(str, self.fits)] if self.fits else []
        found += [f"as numbers: {', '.join(self.as_numbers)}"] if self.as_numbers else []
        found += [f"pinned {levels_text(self.pinned)}"] if self.pinned else []
        if self.interval_kind == "influence":
            found += [f"{100 * self.level:g}% intervals by influence functions; {self.records} records"]
        if self.resamples:
            drawn = f"{self.resamples} resamples, of which {self.without_value} had no value; seed {self.seed}"
            found += [f"{100 * self.level:g}% percentile intervals of {drawn}"]
        found += [f"{self.dropped} records left out that lack a value"] if self.dropped else []
        return (*found, *self.doubts)

    @property
    def doubts(self) -> Tuple[str, ...]:
        """What is wrong with the models, or with the resamples."""
        fits = [f"{fit.term}: {note}" for fit in self.fits for note in fit.notes]
        return (*fits, *many_lost(self.without_value, self.resamples))

    HEADS = ("treated", "control", "measure", "estimate", "conf_low", "conf_high", "note")

    def _table(self) -> Tuple[Sequence[str], List[List[Any]]]:
        ends = [(it.interval.lower, it.interval.upper) if it.interval else (None, None) for it in self.rows]
        return self.HEADS, [[*map(arm_level, self.arms), it.measure, it.estimate, *end, it.note] for it, end in zip(self.rows, ends)]

    def __str__(self) -> str:
        return "\n".join([self.head, *map(str, self.rows), *self.notes])

    def _repr_html_(self) -> str:
        return html_table(self.HEADS[2:], [row[2:] for row in self._table()[1]], [self.head, *self.notes])


class Worlds:
    """The values of a natural effect's formula over many tables at once, in three worlds: both arms, and x as treated where the mediators
    are as under control."""

    def __init__(
        self, formula: NaturalFormula, table: Table, arms: Sequence[Mapping[str, int]], weights: Sequence[float], exact: bool = False
    ) -> None:
        sets = formula.sets
        self.formula, self.arms, self.weights, self.exact = formula, arms, weights, exact
        first = dict(zip(sets.second, sets.x))
        sizes = {name: len(levels) for name, levels in zip(table.names, table.levels)}
        self.kept = [*sets.x, *sets.y, *formula.free]
        self.parts = []
        for factor in formula.factors:
            reads_second = [name for name, read in zip(sets.x, factor.reads) if read != name]
            trees = [in_first(tree, first) for tree in factor.trees] if reads_second else factor.trees
            self.parts.append((Columns(trees, sizes, self.kept, True), reads_second))
        self.size = 1
        for size in sizes.values():
            self.size *= size

    def over(self, counts: Sequence[Numbers]) -> List[Optional[Tuple[Any, ...]]]:
        """The values in the three worlds for each table; None where one is unknown."""
        found = [(columns, columns.over(counts), reads_second) for columns, reads_second in self.parts]
        worlds = []
        for arm, through in WORLDS:
            whole: Optional[Factor] = None
            for columns, factor, reads_second in found:
                own = at_levels(factor, {**self.arms[arm], **{name: self.arms[through][name] for name in reads_second}})
                whole = own if whole is None else columns.multiplied(whole, own)
            if whole is None:
                raise RequestError("the formula has no factor")
            worlds.append(self._of_outcome(found[0][0].summed(whole, self.formula.summed)))
        return [row if all(value == value for value in row) else None for row in zip(*worlds)]

    def _of_outcome(self, factor: Factor) -> Numbers:
        """The chance of the outcome's level, or its mean: what each level weighs is told. What is free is at its first level."""
        name = self.formula.sets.y[0]
        total: Optional[Numbers] = None
        for level, weight in enumerate(self.weights):
            if weight:
                own = factor.cells[tuple(level if it == name else 0 for it in factor.names)]
                part = [number * weight for number in own]
                total = part if total is None else [a + b for a, b in zip(total, part)]
        return total if total is not None else [0.0] * len(next(iter(factor.cells.values())))


def values_in_worlds(
    diagram: "Diagram", formula: NaturalFormula, table: Table, arms: Sequence[Mapping[str, Level]], weights: Sequence[Fraction], exact: bool
) -> Optional[Tuple[Value, ...]]:
    """The values in the three worlds as the program gives them over the counts; None where it gives none. What each level of the outcome
    weighs is told.

    >>> from fractions import Fraction
    >>> from causal import Diagram
    >>> from causal.mediation import values_in_worlds
    >>> from causal.tables import table_of
    >>> diagram, arms = Diagram("dag { X -> M -> Y X -> Y }"), ({"X": 1}, {"X": 0})
    >>> data = {"X": [0, 0, 0, 0, 1, 1, 1, 1], "M": [0, 0, 0, 1] * 2, "Y": [0, 1, 1, 1, 0, 0, 1, 1]}
    >>> table = table_of(data, ["X", "M", "Y"])
    >>> print(*values_in_worlds(diagram, diagram.natural("X", "Y", "M"), table, arms, [Fraction(0), Fraction(1)], exact=True))
    = 1/2 = 3/4 = 1/2
    """
    sets = formula.sets
    first = dict(zip(sets.second, sets.x))
    words = [word for name, held in (("x", sets.x), ("y", sets.y), ("through", sets.through)) for word in (f"--{name}", list_word(held))]
    words += ["--natural", f"--count={table.count_column}", *(["--exact"] if exact else [])]
    weight_of = dict(zip(table.levels_of(sets.y[0]), weights))

    def level_of(name: str, number: str) -> Level:
        return table.level(first.get(name, name), number)

    def read(told: Told) -> Tuple[Value, ...]:
        found = [Value(Fraction(0), Fraction(0))] * len(WORLDS)
        for cell in told["cells"]:
            at, under = ({first.get(name, name): level_of(name, name_in(level)) for name, level in cell[key]} for key in ("x", "second"))
            weight = weight_of[level_of(*cell["y"][0])]
            for place, (arm, through) in enumerate(WORLDS):
                if at == arms[arm] and under == arms[through]:
                    found[place] = found[place].plus(value_of(cell).times(weight))
        return tuple(found)

    try:
        return diagram._ask(read, "evaluate", *words, second=table.text(), level_of=level_of)
    except EvaluationError:
        return None


def in_first(tree: Told, first: Mapping[str, str]) -> Told:
    """A tree with the first names of x in place of the second ones.

    >>> from causal.mediation import in_first
    >>> in_first({"sum": ["X'"], "of": {"term": ["M"], "do": [], "given": ["X'"]}}, {"X'": "X"})
    {'sum': ['X'], 'of': {'term': ['M'], 'do': [], 'given': ['X']}}
    """
    found: Dict[str, Any] = {}
    for key, held in tree.items():
        if key in ("term", "do", "given", "sum"):
            found[key] = [first.get(name, name) for name in held]
        elif key == "of":
            found[key] = in_first(held, first)
        else:
            found[key] = [in_first(part, first) for part in held] if isinstance(held, list) else held
    return found


def at_levels(factor: Factor, levels: Mapping[str, int]) -> Factor:
    """A factor at levels of some of its names.

    >>> from causal.columnwise import Factor
    >>> from causal.mediation import at_levels
    >>> at_levels(Factor(("X", "M"), {(0, 0): [0.1], (1, 0): [0.2]}), {"X": 1})
    Factor(names=('M',), cells={(0,): [0.2]})
    """
    kept = [place for place, name in enumerate(factor.names) if name not in levels]
    wanted = [(place, levels[name]) for place, name in enumerate(factor.names) if name in levels]
    cells = {
        tuple(at[place] for place in kept): numbers
        for at, numbers in factor.cells.items()
        if all(at[place] == level for place, level in wanted)
    }
    return Factor(tuple(factor.names[place] for place in kept), cells)


def numbers_of(treated: Any, control: Any, between: Any) -> List[Optional[float]]:
    """The measures, of the values in the three worlds.

    >>> from causal.mediation import numbers_of
    >>> numbers_of(0.75, 0.25, 0.5)
    [0.75, 0.25, 0.5, 0.5, 0.25, 0.25, 0.5]
    """
    treated, control, between = map(float, (treated, control, between))
    total, direct, indirect = treated - control, between - control, treated - between
    return [treated, control, between, total, direct, indirect, indirect / total if total else None]


def mediated(
    diagram: "Diagram",
    data: Data,
    x: Optional[Names],
    y: Optional[Names],
    through: Names,
    *,
    treated: Any,
    control: Any,
    outcome: Any,
    count: Optional[str],
    missing: str,
    resamples: int,
    level: float,
    seed: Optional[int],
    progress: Optional[Progress],
    words: Optional[ModelWords] = None,
    exact: bool = False,
) -> Mediation:
    """The effect of two arms in its natural parts: see `Diagram.mediate`."""
    check_asked(resamples, level, "percentile", least=0)
    check_progress(progress)
    formula = diagram.natural(x, y, through)
    if not isinstance(formula, NaturalFormula):
        raise NotIdentifiable(str(formula).partition("\n")[0], place=formula)
    sets = formula.sets
    if len(sets.y) != 1:
        raise RequestError("a mediation is of one outcome")
    arms = levels_at(sets.x, treated, typed_order(x)), levels_at(sets.x, control, typed_order(x))
    check_arms(*arms)
    if words is not None:
        told = None if outcome is None else levels_at(sets.y, outcome, typed_order(y))
        return of_models(formula, arms, level, modelled(diagram, formula, data, arms, told, words, count, missing, resamples, level, seed, progress))
    table = mediation_table(diagram, formula, data, count, missing)
    coded = [{name: place_of(table, name, held) for name, held in arm.items()} for arm in arms]
    told, weights = outcome_weights(table, sets.y[0], outcome)
    worlds = Worlds(formula, table, coded, weights)
    (own,) = worlds.over(dense(table, worlds.size, [list(table.counts.values())]))
    if own is None:
        raise EvaluationError("no record has some condition of the formula, so that the natural effects have no value over these data; model='logistic' gives values by models", 1)
    values = values_in_worlds(diagram, formula, table, arms, [Fraction(weight) for weight in weights], exact)
    if values is not None:
        check_near(own, values)
        own = values
    seed = seed_of(seed)
    draws = resampled(worlds, table, resamples, random.Random(seed), progress)
    rows = told_numbers(own, draws, level)
    pinned = {name: table.levels_of(name)[0] for name in formula.free}
    without = sum(it is None for it in draws)
    return warned(Mediation(formula, arms, told, rows, level, resamples, without, seed, table.dropped, pinned, values=values))


def check_near(computed: Sequence[Any], proved: Sequence[Value]) -> None:
    """Refuses intervals by an arithmetic that gives over the counts another value than the program does.

    >>> from fractions import Fraction
    >>> from causal.effects import Value
    >>> from causal.mediation import check_near
    >>> check_near([0.5], [Value(Fraction(1, 2), Fraction(1, 2))])
    """
    if any(abs(a - float(b)) > NEAR * (1 + abs(float(b))) for a, b in zip(computed, proved)):
        raise CausalError("the package computes another value of the formula than the program gives")


def of_models(formula: NaturalFormula, arms: Tuple[Dict[str, Level], Dict[str, Level]], level: float, by: Modelled) -> Mediation:
    """The same by models."""
    is_influence = by.by_moves is not None
    rows = cautioned(by.values, by.intervals()) if is_influence else told_numbers(by.values, by.draws, level)
    without = sum(it is None for it in by.draws)
    found = Mediation(formula, arms, by.outcome, rows, level, len(by.draws), without, by.seed, by.dropped, by.pinned)
    kind = "influence" if is_influence else "percentile"
    return warned(replace(found, fits=by.fits, as_numbers=by.as_numbers, records=by.records, interval_kind=kind))


def warned(found: Mediation) -> Mediation:
    """Warns of what speaks against the numbers."""
    for doubt in found.doubts:
        warn(doubt, DataWarning)
    return found


def mediation_table(diagram: "Diagram", formula: NaturalFormula, data: Data, count: Optional[str], missing: str) -> Table:
    """The table of what the formula reads."""
    first = dict(zip(formula.sets.second, formula.sets.x))
    read = {*formula.sets.x, *formula.sets.y}
    for factor in formula.factors:
        for tree in factor.trees:
            read |= names_in(tree)
    names = {first.get(name, name) for name in read}
    used = [name for name in diagram.vertices if name in names]
    check_request(used, count, missing)
    if count is not None:
        doubt_frequencies(data, count)
    table = table_of(data, used, count, missing, formula.sets.y).ordered()
    table.check_size()
    return table


def names_in(tree: Told) -> "set[str]":
    """The names of a tree.

    >>> from causal.mediation import names_in
    >>> sorted(names_in({"product": [{"term": ["M"], "do": [], "given": ["X"]}, {"term": ["Y"], "do": [], "given": ["M"]}]}))
    ['M', 'X', 'Y']
    """
    found = {name for key in ("term", "given", "sum") for name in tree.get(key, ())}
    parts = [*([tree["of"]] if "of" in tree else []), *tree.get("product", ()), *tree.get("quotient", ())]
    return found.union(*map(names_in, parts))


def place_of(table: Table, name: str, level: Level) -> int:
    """The place of a level of the data."""
    levels = table.levels_of(name)
    if level not in levels:
        raise RequestError(f"{name} has no level {level!r} in the data; it has {', '.join(map(repr, levels))}")
    return levels.index(level)


def outcome_weights(table: Table, name: str, outcome: Any) -> Tuple[Dict[str, Level], List[float]]:
    """What each level of the outcome weighs: 1 for the one that is asked for, or its number, for a mean."""
    levels = table.levels_of(name)
    if outcome is not None:
        level = levels_at((name,), outcome, None)[name]
        place = place_of(table, name, level)
        return {name: level}, [float(k == place) for k in range(len(levels))]
    try:
        return {}, [float(level) for level in levels]  # type: ignore[arg-type]
    except (TypeError, ValueError):
        raise WrongType(f"{name} has levels that are no numbers: outcome names the one whose chance is wanted") from None


def dense(table: Table, size: int, numbers: Sequence[Sequence[int]]) -> List[Numbers]:
    """The numbers of each combination of levels, a list for each with a number for each table."""
    found: List[Numbers] = [[0.0] * len(numbers)] * size
    for cell, own in zip(table.counts, zip(*numbers)):
        place = 0
        for code, levels in zip(cell, table.levels):
            place = place * len(levels) + code
        found[place] = list(own)
    return found


def resampled(
    worlds: Worlds, table: Table, resamples: int, source: random.Random, progress: Optional[Progress]
) -> List[Optional[Tuple[float, ...]]]:
    """The values over resamples."""
    counts = list(table.counts.values())
    numbers: Iterator[List[int]] = (drawn_numbers(source, counts) for _ in range(resamples))
    at_once, found = max(1, (1 << 20) // worlds.size), []  # type: int, List[Optional[Tuple[float, ...]]]
    while len(found) < resamples:
        found += worlds.over(dense(table, worlds.size, list(islice(numbers, at_once))))
        if progress is not None:
            progress(len(found), resamples)
    return found


def told_numbers(own: Tuple[Any, ...], draws: Sequence[Optional[Tuple[float, ...]]], level: float) -> Tuple[MediatedNumber, ...]:
    """The measures with their intervals, and with what has to be known beside them."""
    columns = list(zip(*(numbers_of(*draw) for draw in draws if draw is not None))) or [()] * len(MEASURES)
    lost = lost_text(sum(it is None for it in draws), len(draws))
    return cautioned(own, [interval_of([it for it in column if it is not None], level) for column in columns], lost)


def cautioned(own: Sequence[Any], intervals: Sequence[Optional[Interval]], lost: str = "") -> Tuple[MediatedNumber, ...]:
    """The measures with their intervals; that the proportion says little stands beside it, where it does."""
    found = [MediatedNumber(*it, lost) for it in zip(MEASURES, numbers_of(*own), intervals)]
    total, direct, indirect = (found[MEASURES.index(measure)] for measure in ("total", "direct", "indirect"))
    is_open = total.interval is not None and total.interval.lower <= 0 <= total.interval.upper
    if float(direct) * float(indirect) < 0 or is_open or not float(total):
        last = found[-1]
        found[-1] = MediatedNumber(last.measure, last.estimate, last.interval, "; ".join(filter(None, [lost, CAUTION])))
    return tuple(found)
