"""An effect asked for in data: which counts are sent, and what becomes of the answer."""
from __future__ import annotations

import random
from collections import Counter
from dataclasses import replace
from itertools import chain, islice, product
from typing import TYPE_CHECKING, Any, Container, Dict, Iterable, Iterator, List, Mapping, Optional, Sequence, Tuple, Union

from causal._library import Text
from causal.bootstrap import Bootstrap, Progress
from causal.columnwise import ColumnEvaluator
from causal.columns import Data, in_order, may_have_blanks, path_of
from causal.draws import drawn_numbers, seed_of
from causal.effects import Effect, Effects, Level, LevelOf, Spread, levels_at, read_effects, typed_order
from causal.errors import CausalError, DataWarning, EvaluationError, NoModelError, NotIdentifiable, RequestError, WrongType
from causal.estimators import pattern_of
from causal.events import Support
from causal.files import read_bytes
from causal.formula import Formula, Hedge
from causal.frequencies import doubt_frequencies
from causal.intervals import check_asked
from causal.names import Names, list_word
from causal.no_model import read_less
from causal.objects import Told
from causal.occurring import Occurring, occurring_in
from causal.samples import Design, Sample, sample_of
from causal.tables import Cell, Table, check_request, table_of, table_of_file
from causal.treated import TwoLevels, ValuedBy, primed, read_treated, values_among_treated, without_formula
from causal.values import Evaluator, evaluator_of
from causal.vocabulary import check_progress, warn

if TYPE_CHECKING:
    from causal.diagram import Diagram

Pins = Optional[Mapping[str, Level]]
# Names where all levels are wanted, levels by name where one is.
Given = Union[Names, Mapping[str, Level]]
Values = Optional[Tuple[float, ...]]
# So many of the minimal sets are tried where a formula has no value.
MOST_TRIED = 12
# What a refusal says of an effect without a formula.
WITHOUT = ": the error's place has the hedge, and bounds(data, ..) says what the effect is at least and at most"
OTHERWISE = (
    "support(data) shows the combinations that lack records, estimate(data, ..) gives a value by models, and bounds(data{}) what it is at"
    " least and at most"
)


class Evaluation:
    """The effect of x on y in a diagram, which has a formula: that of `identify`, also under a condition or a short one, that of a set
    to adjust for, or that of `treated`, or two levels in its place; and how data is read for it.

    >>> from causal import Diagram
    >>> from causal.evaluation import Evaluation
    >>> Evaluation(Diagram("dag { Z -> X Z -> Y X -> Y }"), "X", "Y").used
    ('Z', 'X', 'Y')
    >>> Evaluation(Diagram("dag { W -> X -> Y W -> Z }"), "X", "Y", given="Z", short=False).words
    ['--x', '"X"', '--y', '"Y"', '--given', '"Z"', '--zero']
    >>> Evaluation(Diagram("dag { X -> Z -> Y <- X Z <-> Y }"), "X", "Y").used
    ('X', 'Y')
    >>> among = Evaluation(Diagram("dag { Z -> X Z -> Y X -> Y }"), "X", "Y", treated=True)
    >>> among.primes, among.used
    ({"X'": 'X'}, ('Z', 'X', 'Y'))
    """

    def __init__(
        self,
        diagram: "Diagram",
        x: Optional[Names],
        y: Optional[Names],
        count: Optional[str] = None,
        missing: str = "error",
        *,
        set: Optional[Names] = None,
        back_door: bool = False,
        given: Optional[Given] = None,
        zero: bool = True,
        short: bool = True,
        treated: bool = False,
        observed: Any = None,
        design: Design = Design(),
    ) -> None:
        self.diagram, self.design, self.zero, self.short = diagram, design, zero, short
        # Whether the strata that occur had to be taken.
        self.is_narrowed = False
        self.levels_given = dict(given) if isinstance(given, Mapping) else {}
        names = list(given) if isinstance(given, Mapping) else given
        self.members: Optional[Tuple[str, ...]] = None
        self.is_treated = treated or observed is not None
        if self.is_treated:
            if set is not None or back_door:
                raise RequestError("an effect among the treated has a formula of its own: it is asked for without set and back_door")
            self.zero = self.short = False
            self.formula: ValuedBy = values_among_treated(diagram, x, y, names)
        elif set is None:
            if back_door:
                raise RequestError("the back-door criterion is asked of a set: set names it")
            self.formula = identified(diagram, x, y, names, short)
        else:
            if names:
                raise RequestError("an effect is asked for by a set to adjust for, or under a condition, and not both")
            self.short = False
            self.formula, self.members = adjusted(diagram, x, y, set, back_door)
        target = self.formula.target
        self.typed = typed_order(x), typed_order(y)
        # The names of observed values of the exposures, each with its exposure, of an effect among the treated.
        self.primes = primed(diagram, self.formula)
        if observed is not None:
            had = levels_at(target.x, observed, self.typed[0])
            self.levels_given.update((prime, had[name]) for prime, name in self.primes.items())
        under = tuple(name for name in target.given if name not in self.primes)
        self.words: List[Text] = []
        for name, held in {"x": target.x, "y": target.y, "set": self.members, "given": under or None}.items():
            self.words += [] if held is None else [f"--{name}", list_word(held)]
        asked = ("back-door", back_door), ("zero", self.zero), ("short", self.short), ("treated", self.is_treated)
        self.words += [f"--{name}" for name, is_asked in asked if is_asked]
        # The variables that the formula reads, in the order of the vertices, as answers list them.
        read = self.formula.variables.union(self.primes.values())
        self.used = tuple(name for name in self.diagram.vertices if name in read)
        self.count = count
        self.missing = missing
        check_request(self.used, count, missing)
        design.check(self.used, count)

    def effects(self, data: Data, exact: bool, at: Pins) -> Effects:
        """The effects over the data: see `Diagram.effects`."""
        try:
            return self.wanted(self.plain_effects(data, exact, at))
        except EvaluationError as error:
            raise self.remedied(error, data) from None

    def plain_effects(self, data: Data, exact: bool, at: Pins) -> Effects:
        """The effects over the data, or why there is no value, as the library tells it."""
        path = path_of(data)
        if path is not None and not self.formula.free and not at and not self.design:
            text = read_bytes(path)
            if self.missing == "level" or not may_have_blanks(text):
                if self.count is not None:
                    doubt_frequencies(data, self.count)
                return in_order_of_levels(self.over_file(text, exact))
        return self.over_table(self.pinned(self.table(data), at), exact)

    def wanted(self, effects: Effects) -> Effects:
        """The effects at the levels of what is given, where these were told."""
        if not self.levels_given:
            return effects
        return replace(effects, effects=tuple(effects[place] for place in effects.only(self.levels_given)))

    def spread(self, data: Data, exact: bool) -> Spread:
        """The effects at each level of what is pinned: see `Diagram.pin_spread`."""
        if not self.formula.free:
            raise RequestError("the formula reads no variable beside x and y that could have another level")
        table = self.table(data)
        found, without = [], []
        for pins in self.all_pins(table):
            try:
                found.append(self.wanted(self.over_table(table.pinned(pins), exact)))
            except EvaluationError:
                without.append({name: table.levels_of(name)[place] for name, place in pins.items()})
        return Spread(tuple(found), tuple(without))

    def bootstrap(
        self,
        data: Data,
        resamples: int,
        level: float,
        seed: Optional[int],
        at: Pins,
        kind: str,
        progress: Optional[Progress] = None,
        exact: bool = False,
    ) -> Bootstrap:
        """The effects with intervals: see `Diagram.bootstrap`."""
        check_asked(resamples, level, kind)
        check_progress(progress)
        seed = seed_of(seed)
        if self.design and kind == "bca":
            raise RequestError("with weights, clusters or strata intervals are percentiles: interval='percentile'")
        sample = self.sample(data) if self.design else None
        table = self.pinned(sample.table if sample else self.table(data), at)
        narrow = self.narrowed(table)
        inner, own = (self, table) if narrow is None else (narrow[0], narrow[1].table)
        if narrow is not None and sample is not None:
            sample = narrow[1].sample(sample, table)
        try:
            found = inner.bootstrap_over(own, sample, resamples, level, seed, kind, progress, exact)
        except EvaluationError as error:
            raise self.remedied(error if narrow is None else narrow[1].retold(error, self.formula, table), data) from None
        return told_doubts(found if narrow is None else replace(found, effects=narrow[1].told(found.effects, self.formula)))

    def bootstrap_over(
        self,
        table: Table,
        sample: Optional[Sample],
        resamples: int,
        level: float,
        seed: int,
        kind: str,
        progress: Optional[Progress],
        exact: bool,
    ) -> Bootstrap:
        """The effects over a table, with intervals of its resamples, or of those of the sample that it is of."""
        whole = self.over_table(table, exact)
        estimate = self.wanted(whole)
        if sample is not None:
            draws = self.over_sample(sample, table, estimate, resamples, seed, progress)
            support = support_of(estimate, table, sample.records_in(table), self.primes)
            return Bootstrap(estimate, draws, level, seed, kind, (), support, f"; {self.design}")
        counted = "" if self.count is None else f"{self.count} holds frequencies: {sum(table.counts.values())} records"
        cells = [place for place, count in enumerate(table.counts.values()) if count] if kind == "bca" else []
        counts, source = list(table.counts.values()), random.Random(seed)
        numbers = chain((drawn_numbers(source, counts) for _ in range(resamples)), without_one(counts, cells))
        values = tuple(self.over_numbers(table, whole, estimate, numbers, resamples + len(cells), progress))
        left_out = tuple((counts[place], value) for place, value in zip(cells, values[resamples:]))
        support = support_of(estimate, table, table.counts, self.primes)
        return Bootstrap(estimate, values[:resamples], level, seed, kind, left_out, support, counted=counted)

    # How data is read.

    def table(self, data: Data) -> Table:
        """The table of the data. The library reads a file itself too, and both readings have to give the same."""
        if self.design:
            return self.sample(data).table
        if self.count is not None:
            doubt_frequencies(data, self.count)
        path = path_of(data)
        if path is None:
            return table_of(data, self.used, self.count, self.missing, self.formula.target.y).with_names(self.primes)
        found = table_of_file(read_bytes(path), self.used, self.count, self.missing, self.outcome_over_file, self.outcome_over_table)
        return found.with_names(self.primes)

    def sample(self, data: Data) -> Sample:
        """The records of the data, with their weights, clusters and strata."""
        return sample_of(data, self.used, self.design, self.missing, self.formula.target.y).with_names(self.primes)

    def outcome_over_file(self, text: bytes) -> object:
        """What the library makes of a text of counts: its values, or the place where there is none."""
        try:
            direct = self.over_file(text, exact=False)
            return direct.effects, direct.pinned
        except (EvaluationError, NoModelError, NotIdentifiable) as error:
            return error.number, error.place

    def outcome_over_table(self, table: Table) -> object:
        """The same of a table."""
        try:
            found = self.over_table(table, exact=False)
            return found.effects, found.pinned
        except (EvaluationError, NoModelError, NotIdentifiable) as error:
            return error.number, error.place

    def pinned(self, table: Table, at: Pins) -> Table:
        """The table in which the level comes first that each free variable is pinned at: the first in order unless it is given."""
        check_pins(at)
        pins = {name: order[0] for name, order in zip(table.names, table.ranked) if name in self.formula.free and order}
        for name, level in (at or {}).items():
            pins[name] = self.place_of(table, name, level)
        return table.pinned(pins)

    def place_of(self, table: Table, name: str, level: Level) -> int:
        """The place of a level of a free variable."""
        if name not in self.formula.free:
            free = f"a level of {', '.join(self.formula.free)}" if self.formula.free else "no such"
            raise RequestError(f"no level can be given for {name}: the formula reads {free}")
        levels = table.levels_of(name)
        if level not in levels:
            there = ", ".join(repr(levels[place]) for place in table.ranked_of(name))
            raise RequestError(f"{name} has no level {level!r} in the data; it has {there or 'none'}")
        return levels.index(level)

    def all_pins(self, table: Table) -> Iterator[Dict[str, int]]:
        """Each choice of a level of each free variable."""
        orders = [table.ranked_of(name) for name in self.formula.free]
        return (dict(zip(self.formula.free, places)) for places in product(*orders))

    # How the library is asked.

    def over_file(self, text: bytes, exact: bool) -> Effects:
        """The effects over the text of a CSV file, which is sent as it is."""
        words = [*([] if self.count is None else [f"--count={self.count}"]), *(["--exact"] if exact else [])]
        return self.over_text(text, words, lambda name, level: level)

    def over_table(self, table: Table, exact: bool, text: Optional[bytes] = None) -> Effects:
        """The effects over a table, or over another text of counts with the same levels."""
        narrow = self.narrowed(table)
        if narrow is not None:
            try:
                return narrow[1].told(narrow[0].over_table(narrow[1].table, exact), self.formula)
            except EvaluationError as error:
                raise narrow[1].retold(error, self.formula, table) from None
        table.check_size()
        words = [f"--count={table.count_column}", *(["--exact"] if exact else [])]
        return self.over_text(table.text() if text is None else text, words, table.level, table.dropped, table.orders)

    def narrowed(self, table: Table) -> Optional[Tuple["Evaluation", Occurring]]:
        """The same question over the strata that occur, where the table has more combinations of levels than a formula reads; None where it
        hasn't, or the formula is no sum over a set."""
        found = occurring_in(self.formula, table, self.zero) if table.is_wide and not self.is_treated else None
        if found is None:
            return None
        self.is_narrowed = True
        target = self.formula.target
        inner = Evaluation(type(self.diagram).from_edges(found.edges), target.x, target.y, self.count, set=[found.name])
        inner.typed, inner.design = self.typed, self.design
        return inner, found

    def over_text(
        self, text: bytes, words: Sequence[Text], level_of: LevelOf, dropped: int = 0, orders: Mapping[str, Sequence[Level]] = {}
    ) -> Effects:
        """The effects over a text of counts."""

        def own_level(name: str, level: str) -> Level:
            return level_of(self.primes.get(name, name), level)

        def read(told: Told) -> Effects:
            remarks = (self.formula.note,) if isinstance(self.formula, TwoLevels) else ()
            self.check_answer(told, own_level)
            return read_effects(told, self.formula, own_level, dropped, orders, self.typed, remarks)

        # (the cell of a fault among the treated has the exposures' own names, which the divisor needn't have)
        formula = self.formula if isinstance(self.formula, Formula) and not self.is_treated else None
        return self.diagram._ask(read, "evaluate", *self.words, *words, second=text, level_of=own_level, formula=formula)

    def check_answer(self, told: Told, level_of: LevelOf) -> None:
        """Refuses the answers of two levels that have no values: that there are more than two, and that no model has the counts."""
        if told.get("answer") == "path":
            answer = read_treated(told)
            if not isinstance(answer, Formula):
                raise without_formula(answer, f": {answer.treatment} has more than two levels in the data")
        if told.get("answer") == "no model":
            less = read_less(told, self.diagram.vertices, level_of)
            raise NoModelError(str(less).replace("\n", ": "), place=less)

    def over_counts(self, table: Table, numbers: Sequence[int]) -> Optional[Effects]:
        """The effects over other counts of a table, or None where some cell has no value."""
        target = self.formula.target
        kept = {*target.x, *target.y, *target.given, *self.formula.free}
        text = table.text({cell: number for cell, number in zip(table.counts, numbers) if number}, kept)
        try:
            return self.over_table(table, exact=False, text=text)
        except (EvaluationError, NoModelError):
            return None

    def over_numbers(
        self,
        table: Table,
        whole: Effects,
        wanted: Effects,
        numbers: Iterator[List[int]],
        total: int,
        progress: Optional[Progress],
    ) -> Iterator[Values]:
        """The wanted values over other counts of a table, each in turn: many at once where that can be, and else by the library."""
        evaluator = self.evaluator(table, wanted)
        cells = [place_in(cell, table) for cell in table.counts]
        places = [whole.effects.index(effect) for effect in wanted] if evaluator is None and len(wanted) < len(whole) else None
        done = 0
        while done < total:
            some = list(islice(numbers, evaluator.at_once if evaluator else 1))
            if evaluator is not None:
                found = evaluator.over(cells, some)
            else:
                other = self.over_counts(table, some[0])
                values = None if other is None else [float(effect.value) for effect in other]
                found = [None if values is None else tuple(values if places is None else [values[place] for place in places])]
            for value in found:
                done += 1
                if progress is not None:
                    progress(done, total)
                yield value

    def evaluator(self, table: Table, effects: Effects) -> Union[Evaluator, ColumnEvaluator, None]:
        """What evaluates many tables at once; None where that can't be."""
        counts = {place_in(cell, table): count for cell, count in table.counts.items()}
        return evaluator_of(effects, table.names, table.levels, counts, self.zero)

    def over_sample(
        self, sample: Sample, table: Table, effects: Effects, resamples: int, seed: int, progress: Optional[Progress]
    ) -> Tuple[Values, ...]:
        """The values over records that are drawn anew with their weights."""
        evaluator = self.evaluator(table, effects)
        if not isinstance(evaluator, Evaluator):
            raise RequestError("an interval with weights, clusters or strata needs numpy, and at most 2^14 combinations of levels")
        found: List[Values] = []
        for counts in sample.draws(table, resamples, seed, evaluator.at_once):
            values, known = evaluator.values(counts)
            for row, is_known in zip(values.tolist(), known.all(axis=1).tolist()):
                found.append(tuple(row) if is_known else None)
                if progress is not None:
                    progress(len(found), resamples)
        return tuple(found)

    # What helps where there is no value.

    def remedied(self, error: EvaluationError, data: Data) -> EvaluationError:
        """The error with what would answer, in the user's words."""
        if error.number != 1 or isinstance(self.formula, TwoLevels):
            return error
        if self.is_treated:
            sentence = f"{error.sentence}; estimate(data, .., observed=..) gives a value by models"
            return EvaluationError(sentence, error.number, error.place, error.excerpt, error.printed)
        hint = next((words for words, way in self.other_ways() if self.answers(way, data)), None)
        # (bounds over a set read all combinations of its levels, which are too many here)
        members = None if self.is_narrowed else self.set_of_formula()
        otherwise = OTHERWISE.format("" if members is None else f", set={list(members)}")
        sentence = f"{error.sentence}; {otherwise if hint is None else f'{hint} gives a value'}"
        return EvaluationError(sentence, error.number, error.place, error.excerpt, error.printed)

    def set_of_formula(self) -> Optional[Tuple[str, ...]]:
        """The set to adjust for that the formula sums over, where it does."""
        target, given = self.formula.target, pattern_of(self.formula)
        if self.members is not None or given is None or target.given or not target.x:
            return self.members
        members = tuple(name for name in given if name not in target.x)
        return members if self.diagram.adjusts(members, target.x, target.y) else None

    def other_ways(self) -> Iterator[Tuple[str, Dict[str, Any]]]:
        """Other ways to ask for the effect."""
        target = self.formula.target
        if not self.zero:
            yield "zero=True", {"set": self.members, "given": target.given or None, "short": self.short}
        if not self.short:
            yield "short=True" if self.members is None else "the formula of identify (without set)", {"given": target.given or None}
        if target.given or not target.x:
            return
        for members in self.diagram.adjustment_sets(target.x, target.y, most=MOST_TRIED):
            if members != self.members:
                yield f"set={list(members)}", {"set": members}

    def answers(self, way: Mapping[str, Any], data: Data) -> bool:
        """Whether another way of asking has a value."""
        target = self.formula.target
        try:
            Evaluation(self.diagram, target.x, target.y, self.count, self.missing, design=self.design, **way).plain_effects(data, False, None)
        except CausalError:
            return False
        return True


def check_pins(at: Any) -> None:
    """Refuses what names no levels.

    >>> from causal.evaluation import check_pins
    >>> check_pins(3)
    Traceback (most recent call last):
        ...
    causal.errors.WrongType: at names levels, as in at={'Z': 1}, and is no int
    """
    if at is not None and not isinstance(at, Mapping):
        raise WrongType(f"at names levels, as in at={{'Z': 1}}, and is no {type(at).__name__}")


def in_order_of_levels(effects: Effects) -> Effects:
    """The effects over a file, whose levels are texts, in the order of the levels."""
    ranks = {name: {level: rank for rank, level in enumerate(in_order(held, is_text=True))} for name, held in effects.levels.items()}

    def key(effect: Effect) -> Tuple[int, ...]:
        return tuple(ranks[name][level] for name, level in (*effect.under.items(), *effect.y.items()))

    return replace(effects, effects=tuple(sorted(effects, key=key)))


def place_in(cell: Cell, table: Table) -> int:
    """The place of a cell among all combinations of a table's levels."""
    place = 0
    for code, levels in zip(cell, table.levels):
        place = place * max(len(levels), 1) + code
    return place


def support_of(effects: Effects, table: Table, records: Mapping[Cell, int], primes: Container[str] = ()) -> Tuple[Support, ...]:
    """How many records there are with the exposures and the condition of each effect, and with its outcome."""
    under: Counter[Tuple[Level, ...]] = Counter()
    events: Counter[Tuple[Level, ...]] = Counter()
    target = effects.formula.target
    # (among the treated: with the exposures as they are done, from which the risk is read)
    names, outcomes = [*target.x, *(name for name in target.given if name not in primes)], list(target.y)
    for cell, number in records.items():
        at = {name: held[code] for name, held, code in zip(table.names, table.levels, cell)}
        key = tuple(at[name] for name in names)
        under[key] += number
        events[(*key, *(at[name] for name in outcomes))] += number
    found = []
    for effect in effects:
        key = tuple(effect.under[name] for name in names)
        found.append(Support(events[(*key, *(effect.y[name] for name in outcomes))], under[key]))
    return tuple(found)


def told_doubts(found: Bootstrap) -> Bootstrap:
    """The answer, after a warning of what speaks against it."""
    for doubt in found.doubts:
        warn(doubt, DataWarning)
    return found


def identified(
    diagram: "Diagram", x: Optional[Names], y: Optional[Names], given: Optional[Names], short: bool = False
) -> Formula:
    """The formula of `identify`, or its hedge raised.

    >>> from causal import Diagram
    >>> from causal.evaluation import identified
    >>> print(identified(Diagram("dag { X -> Y X <- Z -> Y }"), "X", "Y", "Z"))
    P(Y|do(X),Z) = P(Y|X,Z)
    """
    answer = diagram.identify(x, y, given, short)
    if isinstance(answer, Hedge):
        raise NotIdentifiable(f"{answer.conditional or answer.target} is not identifiable{WITHOUT}", place=answer)
    return answer


def adjusted(
    diagram: "Diagram", x: Optional[Names], y: Optional[Names], members: Names, back_door: bool
) -> Tuple[Formula, Tuple[str, ...]]:
    """The formula of a set to adjust for, with its members, or why it isn't one raised.

    >>> from causal import Diagram
    >>> from causal.evaluation import adjusted
    >>> print(adjusted(Diagram("dag { X -> Y X <- Z -> Y W -> Y Z -> W }"), "X", "Y", ["Z", "W"], back_door=True)[0])
    P(Y|do(X)) = sum{Z,W} P(Z,W) * P(Y|X,Z,W)
    """
    answer = diagram.adjusts(members, x, y, back_door)
    if answer.formula is None:
        raise RequestError(f"this set can't be adjusted for: {answer}", place=answer)
    return answer.formula, answer.members


def without_one(counts: Sequence[int], places: Iterable[int]) -> Iterator[List[int]]:
    """The counts without one record of each of these cells in turn.

    >>> from causal.evaluation import without_one
    >>> list(without_one([3, 2], [1]))
    [[3, 1]]
    """
    return ([*counts[:place], counts[place] - 1, *counts[place + 1 :]] for place in places)
