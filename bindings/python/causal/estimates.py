"""Estimates by models over a proved formula: where tables are thin, or variables are numbers.

What is proved stays what it is: the formula. What is estimated is computed by models, and nothing about it is proved.
"""
from __future__ import annotations

import math
from dataclasses import dataclass, field, replace
from statistics import NormalDist
from typing import TYPE_CHECKING, Any, Callable, Dict, FrozenSet, List, Mapping, Optional, Sequence, Tuple, Union

from causal.columns import Data
from causal.contrasts import IN_COLUMNS, MEASURES, arm_level
from causal.display import Printed, html_table
from causal.draws import seed_of
from causal.effects import Level, check_arms, levels_at, levels_text, typed_order
from causal.errors import DataWarning, NotIdentifiable, RequestError
from causal.estimators import Asked, DoublyRobust, Estimator, Standardized, Weighted, pattern_of
from causal.evaluation import adjusted, check_pins, identified
from causal.events import many_lost
from causal.formula import Formula
from causal.framed import Framed
from causal.intervals import Interval, check_level, interval_of
from causal.models import Fit
from causal.names import Names, names_of, printed_set
from causal.objects import Told
from causal.rows import Rows, alias, is_number, rows_of, unified
from causal.samples import Design
from causal.sensitivity import EValue, e_value
from causal.treated import among_treated, primed
from causal.trees import ByTree, Joined
from causal.vocabulary import check_progress, check_whole, meant, needed, warn
from causal.weighting import Weighting, weighting_of

if TYPE_CHECKING:
    import matplotlib.axes

    from causal.bootstrap import Progress
    from causal.diagram import Diagram

METHODS = {"formula": "the formula's terms", "ipw": "inverse probability weights", "aipw": "the doubly robust estimator"}
MEANS = ("mean under treated", "mean under control", "mean difference", "mean ratio")
MEANS_IN_COLUMNS = dict(zip(MEANS, ("mean_treated", "mean_control", "difference", "ratio")))
INTERVALS = {"influence": "intervals by influence functions", "percentile": "percentile intervals"}


@dataclass(frozen=True)
class Estimate(Printed):
    """A number with its interval, computed by models."""

    measure: str
    estimate: Optional[float]
    interval: Optional[Interval] = None

    def __float__(self) -> float:
        if self.estimate is None:
            raise RequestError(f"there is no {self.measure}")
        return self.estimate

    def __str__(self) -> str:
        value = "none" if self.estimate is None else f"{self.estimate:.6g}"
        return f"{self.measure}: {value}" + (f" {self.interval}" if self.interval else "")


@dataclass(frozen=True)
class Estimates(Framed):
    """Estimates of two arms by models: their risks (or means), the difference and ratios, with intervals.

    **Computed: by these models.** `formula` is proved to be the effect; what the models make of its terms isn't. `fits` say of each model
    how it fits, and `doubts` what is wrong; `weighting` has the diagnostics of weights, where there are some.
    """

    formula: Formula
    method: str
    arms: Tuple[Dict[str, Level], Dict[str, Level]]
    outcome: Dict[str, Level]
    rows: Tuple[Estimate, ...]
    fits: Tuple[Fit, ...]
    interval_kind: str
    level: float
    records: int
    dropped: int = 0
    given: Dict[str, Level] = field(default_factory=dict)
    pinned: Dict[str, Level] = field(default_factory=dict)
    resamples: int = 0
    without_value: int = 0
    seed: Optional[int] = None
    design: str = ""
    weighting: Optional[Weighting] = None
    # The variables that enter the models as numbers.
    as_numbers: Tuple[str, ...] = ()
    # The levels of the exposures that were observed, where the effect is that among the treated.
    observed: Dict[str, Level] = field(default_factory=dict)

    def __hash__(self) -> int:
        return hash((self.method, self.rows))

    @property
    def treated(self) -> Estimate:
        """The risk, or the mean, under the treated level."""
        return self.rows[0]

    @property
    def control(self) -> Estimate:
        """The same under the control level."""
        return self.rows[1]

    @property
    def difference(self) -> Estimate:
        """Treated less control."""
        return self.rows[2]

    @property
    def ratio(self) -> Estimate:
        """Treated over control."""
        return self.rows[3]

    @property
    def odds_ratio(self) -> Estimate:
        """The odds ratio; a mean has none."""
        return self.rows[4] if len(self.rows) > 4 else Estimate("odds ratio", None)

    @property
    def e_value(self) -> Optional[EValue]:
        """The E-value of the risk ratio: see `e_value`."""
        if self.ratio.estimate is None or self.ratio.estimate <= 0 or len(self.rows) < 5:
            return None
        interval = self.ratio.interval
        return e_value(self.ratio.estimate, *((interval.lower, interval.upper) if interval else ()))

    @property
    def head(self) -> str:
        """What is estimated, in words."""
        arms = f"treated: {levels_text(self.arms[0])}; control: {levels_text(self.arms[1])}"
        outcome = f"; outcome: {levels_text(self.outcome)}" if self.outcome else f"; mean of {self.formula.target.y[0]}"
        among = f"; among those for whom {levels_text(self.observed)} was observed" if self.observed else ""
        return arms + outcome + (f"; among: {levels_text(self.given)}" if self.given else "") + among

    @property
    def notes(self) -> Tuple[str, ...]:
        """What the estimates rest on."""
        kind = f"{100 * self.level:g}% {INTERVALS[self.interval_kind]}"
        if self.interval_kind == "percentile":
            kind += f" of {self.resamples} resamples, of which {self.without_value} had no value; seed {self.seed}"
        found = [f"computed: by {METHODS[self.method]}, with these models", *map(str, self.fits)]
        found += [f"as numbers: {', '.join(self.as_numbers)}"] if self.as_numbers else []
        found += [f"{kind}; {self.records} records" + (f"; {self.design}" if self.design else "")]
        found += [f"pinned {levels_text(self.pinned)}"] if self.pinned else []
        found += [f"{self.dropped} records left out that lack a value"] if self.dropped else []
        return tuple(found)

    @property
    def doubts(self) -> Tuple[str, ...]:
        """What is wrong with the models, with the weights, or with the resamples."""
        found = [f"{fit.term}: {note}" for fit in self.fits for note in fit.notes]
        return (*found, *(self.weighting.doubts if self.weighting else ()), *many_lost(self.without_value, self.resamples))

    HEADS = ("treated", "control", "measure", "estimate", "conf_low", "conf_high", "note")

    def _cells(self) -> List[List[Any]]:
        ends = [(it.interval.lower, it.interval.upper) if it.interval else (None, None) for it in self.rows]
        return [[it.measure, it.estimate, *end, "; ".join(self.doubts)] for it, end in zip(self.rows, ends)]

    def _table(self) -> Tuple[Sequence[str], List[List[Any]]]:
        names = {**IN_COLUMNS, **MEANS_IN_COLUMNS}
        return self.HEADS, [[*map(arm_level, self.arms), names[measure], *cells] for measure, *cells in self._cells()]

    def frame(self) -> Any:
        """A DataFrame with a row for each measure (it needs pandas), with what speaks against it as `note`. What they rest on stands in its
        `attrs`, as `notes` and `doubts`."""
        frame = super().frame()
        frame.attrs.update(notes=list(self.notes), doubts=list(self.doubts))
        return frame

    def __str__(self) -> str:
        weighting = [str(self.weighting)] if self.weighting else []
        return "\n".join([self.head, *map(str, self.rows), *self.notes, *weighting, *self.doubts])

    def _repr_html_(self) -> str:
        return html_table(self.HEADS[2:], self._cells(), [self.head, *self.notes, *self.doubts])

    def plot(self, ax: Optional["matplotlib.axes.Axes"] = None) -> "matplotlib.axes.Axes":
        """Draws the arms and their difference with their intervals: a forest plot. It needs matplotlib."""
        from causal.plotting import plot_intervals

        known = [(it, it.interval) for it in self.rows[:3] if it.estimate is not None and it.interval is not None]
        return plot_intervals([(it.measure, float(it), own.lower, own.upper) for it, own in known if own], "estimate, with its interval", ax)


def estimated_by(
    diagram: "Diagram",
    data: Optional[Data],
    x: Optional[Names],
    y: Optional[Names],
    *,
    treated: Any,
    control: Any,
    outcome: Any,
    method: str,
    model: Any,
    smoothing: float,
    factors: Names,
    set: Optional[Names],
    back_door: bool,
    given: Optional[Mapping[str, Level]],
    observed: Any,
    trials: Optional[Mapping[Any, Data]],
    at: Optional[Mapping[str, Level]],
    short: bool,
    count: Optional[str],
    missing: str,
    interval: Optional[str],
    resamples: int,
    level: float,
    seed: Optional[int],
    progress: Optional[Progress],
    design: Design,
) -> Estimates:
    """The estimates of two arms: see `Diagram.estimate`."""
    numpy = needed("numpy", "an estimate by models")
    check_words(method, interval, level, smoothing, at, progress)
    for role, listed in (("factors", names_of(factors)), ("model", tuple(model) if isinstance(model, Mapping) else ())):
        check_named(role, listed, diagram.vertices)
    formula, members = formula_of(diagram, x, y, method, set, back_door, given, short, observed, trials)
    target = formula.target
    if len(target.y) != 1:
        raise RequestError("an estimate by models is of one outcome")
    arms = levels_at(target.x, treated, typed_order(x)), levels_at(target.x, control, typed_order(x))
    check_arms(*arms)
    primes = primed(diagram, formula)
    had = levels_at(target.x, observed, typed_order(x)) if primes else {}
    reading = Reading(diagram, formula, names_of(factors), count, missing, design, primes)
    rows = reading.rows(numpy, data, trials)
    pinned = pins_of(rows, formula, at)
    told = None if outcome is None else levels_at(target.y, outcome, typed_order(y))
    fixed = {**(given or {}), **pinned, **{prime: had[name] for prime, name in primes.items()}}
    asked = asked_of(rows, formula, arms, fixed, told, model, smoothing)
    estimator = estimator_of(rows, asked, formula, reading.names, method, members, primes)
    estimator.fit(rows.weights)
    estimator.examine()
    kind = interval or ("influence" if estimator.has_moves else "percentile")
    if kind == "influence" and not estimator.has_moves:
        raise RequestError("influence functions are known of the package's own models, of few coefficients; interval='percentile' draws records anew")
    numbers = estimator.numbers(rows.weights)
    if not all(map(math.isfinite, numbers)):
        raise RequestError("by these models there is no value: no record has some condition; give smoothing, or another model")
    fits = tuple(it.told(rows.records) for it in estimator.models)
    weighting = weighting_of(estimator, members) if isinstance(estimator, Weighted) else None
    kept: Dict[str, int] = {}
    if kind == "influence":
        intervals = by_influence(rows, estimator, numbers, level, told is None)
    else:
        first = seed_of(seed)
        drawn = by_draws(rows, estimator, resamples, first, progress)
        intervals = of_draws(drawn, level, told is None)
        kept = {"resamples": len(drawn), "without_value": sum(it is None for it in drawn), "seed": first}
    measures = tuple(Estimate(*it) for it in zip(MEANS if told is None else MEASURES, values_of(numbers, told is None), intervals))
    found = Estimates(
        *(formula, method, arms, told or {}, measures, fits, kind, level, rows.records, rows.dropped, dict(given or {}), pinned),
        **kept,  # type: ignore[arg-type]
        design=str(design),
        weighting=weighting,
        as_numbers=reading.as_numbers,
        observed=had,
    )
    for doubt in found.doubts:
        warn(doubt, DataWarning)
    return found


def check_words(method: str, interval: Optional[str], level: float, smoothing: float, at: Any, progress: Any) -> None:
    """Refuses words that there aren't."""
    if method not in METHODS:
        raise RequestError(f"method is {', '.join(map(repr, METHODS))}, and not {method!r}")
    if interval not in (None, *INTERVALS):
        raise RequestError(f"interval is {', '.join(map(repr, INTERVALS))} or None, and not {interval!r}")
    check_level(level)
    check_progress(progress)
    check_pins(at)
    if not isinstance(smoothing, (int, float)) or not 0 <= smoothing < math.inf:
        raise RequestError(f"smoothing is a number of records from 0 on, and not {smoothing!r}")


class Reading:
    """How the rows of a formula are read: from the data that were observed, and from trials."""

    def __init__(
        self, diagram: "Diagram", formula: Formula, factors: Names, count: Optional[str], missing: str, design: Design, primes: Mapping[str, str]
    ) -> None:
        self.formula, self.factors, self.count, self.missing, self.design, self.primes = formula, factors, count, missing, design, primes
        self.vertices = diagram.vertices
        self.names = [*(name for name in diagram.vertices if name in formula.variables), *primes]
        design.check(self.names, count)
        self.as_numbers: Tuple[str, ...] = ()

    def rows(self, numpy: Any, data: Optional[Data], trials: Optional[Mapping[Any, Data]]) -> Union[Rows, Joined]:
        """The rows of each source that the formula reads."""
        sources: Dict[Any, Rows] = {}
        done_in = {frozenset(names_of(names)): own for names, own in (trials or {}).items()}
        for done in dict.fromkeys(frozenset(node["do"]) for node in self.formula._nodes() if "term" in node):
            own = done_in[done] if done else data
            if own is None:
                raise RequestError("the formula reads observed terms: data has their records")
            sources[done] = self.source(numpy, own, done)
        parts = unified(numpy, list(sources.values())) if len(sources) > 1 else list(sources.values())
        for part in parts:
            for prime, name in self.primes.items():
                alias(part, prime, name)
        self.done = tuple(sources)
        held = {name: variable for part in parts for name, variable in part.variables.items()}
        numbers = {name for name, variable in held.items() if variable.numbers is not None and len(variable.levels) > 2}
        self.as_numbers = tuple(name for name in self.names if name in numbers and name not in (*self.formula.target.y, *self.primes))
        return parts[0] if self.done == (frozenset(),) else Joined(tuple(parts), self.done)

    def source(self, numpy: Any, data: Data, done: FrozenSet[str]) -> Rows:
        """The rows of one source."""
        target = self.formula.target
        if not done and not any(node.get("do") for node in self.formula._nodes()):
            names = [name for name in self.names if name not in self.primes]
        else:
            inside = {name for node in self.formula._nodes() if frozenset(node.get("do", ())) == done for name in self.read(node)}
            names = [name for name in self.vertices if name in inside]
        design = Design() if done else self.design
        return rows_of(numpy, data, names, target.x, names_of(self.factors), self.count, self.missing, design, target.y)

    def read(self, node: Told) -> List[str]:
        """The names of a term."""
        return [name for kind in ("term", "do", "given") for name in node.get(kind, ())] if "term" in node else []


def asked_of(
    rows: Union[Rows, Joined],
    formula: Formula,
    arms: Sequence[Mapping[str, Level]],
    fixed: Mapping[str, Level],
    told: Optional[Mapping[str, Level]],
    model: Any,
    smoothing: float,
) -> Asked:
    """What is estimated, by the numbers of the levels."""
    y = formula.target.y[0]
    if told is None and rows.variables[y].numbers is None:
        raise RequestError(f"{y} isn't a number: give the level whose risk is estimated, as outcome")
    codes = [{name: code_of(rows, name, own, may_be_new=True) for name, own in arm.items()} for arm in arms]
    held = {name: code_of(rows, name, own) for name, own in fixed.items()}
    return Asked(y, None if told is None else code_of(rows, y, told[y]), (codes[0], codes[1]), held, model, smoothing)


def check_named(role: str, names: Sequence[str], vertices: Sequence[str]) -> None:
    """Refuses a name that no vertex has, where it says how a variable is modelled.

    >>> from causal.estimates import check_named
    >>> check_named("factors", ["Age"], ["age"])
    Traceback (most recent call last):
        ...
    causal.errors.RequestError: factors names Age, which is no vertex; did you mean age?
    """
    for name in names:
        if name not in vertices:
            raise RequestError(f"{role} names {name}, which is no vertex{meant(name, vertices)}")


def formula_of(
    diagram: "Diagram",
    x: Optional[Names],
    y: Optional[Names],
    method: str,
    set: Optional[Names],
    back_door: bool,
    given: Optional[Mapping[str, Level]],
    short: bool,
    observed: Any,
    trials: Optional[Mapping[Any, Data]],
) -> Tuple[Formula, Tuple[str, ...]]:
    """The formula, and the set where it is that of one. Weights are over a set that the program calls admissible."""
    if given is not None and not isinstance(given, Mapping):
        raise RequestError("an estimate is at levels of what is given, as in given={'sex': 'f'}")
    if observed is not None or trials is not None:
        if method != "formula" or set is not None or (trials is not None and (given or observed is not None)):
            raise RequestError("an effect among the treated, or from trials, is estimated by its formula alone: method='formula', without set")
        return special(diagram, x, y, given, trials), ()
    if set is None and method == "formula":
        return identified(diagram, x, y, list(given) if given else None, short), ()
    if given:
        raise RequestError("an effect is estimated by a set to adjust for, or under a condition, and not both")
    if set is None:
        sets = diagram.adjustment_sets(x, y, most=1)
        if not sets:
            raise RequestError(f"no set may be adjusted for, which method={method!r} needs; method='formula' takes the formula of identify")
        set = sets[0]
    return adjusted(diagram, x, y, set, back_door)


def special(
    diagram: "Diagram", x: Optional[Names], y: Optional[Names], given: Optional[Mapping[str, Level]], trials: Optional[Mapping[Any, Data]]
) -> Formula:
    """The formula of an effect among the treated, or from trials."""
    if trials is None:
        return among_treated(diagram, x, y, list(given) if given else None)
    if not isinstance(trials, Mapping):
        raise RequestError("trials has the records of each trial by what was set in it, as in trials={'Z': frame, ('A', 'B'): other}")
    answer = diagram.surrogate(x, y, experiments=[names_of(names) for names in trials])
    if not isinstance(answer, Formula):
        raise NotIdentifiable(str(answer).partition("\n")[0], place=answer)
    return answer


def code_of(rows: Union[Rows, Joined], name: str, level: Level, may_be_new: bool = False) -> int:
    """The number of a level. A number between the others may be new, where the model takes it as a number."""
    variable = rows.variables[name]
    levels = list(variable.levels)
    if level in levels:
        return levels.index(level)
    if may_be_new and variable.numbers is not None and is_number(level):
        numbers = variable.numbers[: len(levels)]
        if not numbers.min() <= level <= numbers.max():
            raise RequestError(f"{name} lies between {numbers.min():g} and {numbers.max():g} in the data, and {level} beyond it")
        rows.replaced(name, replace(variable, numbers=rows.numpy.append(variable.numbers, float(level))))  # type: ignore[arg-type]
        return len(variable.numbers)
    shown = ", ".join(map(repr, levels[:12])) + (" .." if len(levels) > 12 else "")
    raise RequestError(f"{name} has no level {level!r} in the data, but {shown}{meant(str(level), map(str, levels)) if len(levels) < 13 else ''}")


def pins_of(rows: Union[Rows, Joined], formula: Formula, at: Optional[Mapping[str, Level]]) -> Dict[str, Level]:
    """The levels at which the formula's further variables are pinned."""
    wrong = [name for name in at or {} if name not in formula.free]
    if wrong:
        raise RequestError(f"no level can be given for {', '.join(wrong)}: the formula reads a level of {printed_set(formula.free)} alone")
    return {name: (at or {}).get(name, rows.variables[name].levels[0]) for name in formula.free}


def estimator_of(
    rows: Union[Rows, Joined],
    asked: Asked,
    formula: Formula,
    names: Sequence[str],
    method: str,
    members: Sequence[str],
    primes: Mapping[str, str],
) -> Estimator:
    """The estimator."""
    if isinstance(rows, Joined):
        return ByTree(dict(zip(rows.done, rows.parts)), asked, formula._known(), names)
    if method == "ipw":
        return Weighted(rows, asked, formula.target.x, members)
    if method == "aipw":
        return DoublyRobust(rows, asked, formula.target.x, members)
    given = pattern_of(formula)
    if given is None:
        return ByTree({frozenset(): rows}, asked, formula._known(), names, tuple(primes))
    return Standardized(rows, asked, given)


def values_of(numbers: Sequence[float], is_mean: bool) -> List[Optional[float]]:
    """The measures of two numbers.

    >>> from causal.estimates import values_of
    >>> values_of((0.5, 0.25), is_mean=False), values_of((3.0, 0.0), is_mean=True)
    ([0.5, 0.25, 0.25, 2.0, 3.0], [3.0, 0.0, 3.0, None])
    """
    first, second = numbers
    found: List[Optional[float]] = [first, second, first - second, first / second if second > 0 else None]
    if not is_mean:
        is_known = first < 1 and 0 < second < 1
        found.append(first * (1 - second) / ((1 - first) * second) if is_known else None)
    return found


class ByMoves:
    """Intervals of numbers by how they move with each record."""

    def __init__(self, rows: Union[Rows, Joined], level: float) -> None:
        self.rows, self.width = rows, NormalDist().inv_cdf((1 + level) / 2)

    def on_scale(self, value: float, moves: Any, there: Callable[[float], float], back: Callable[[float], float], slope: float) -> Interval:
        """That of a number, made on another scale."""
        half = self.width * math.sqrt(self.rows.variance(moves * slope))
        return Interval(back(there(value) - half), back(there(value) + half))

    def plain(self, value: float, moves: Any) -> Interval:
        """That of a difference, or of a mean."""
        return self.on_scale(value, moves, lambda it: it, lambda it: it, 1.0)

    def risk(self, value: float, moves: Any) -> Interval:
        """That of a risk, on the scale of the logit."""
        if not 0 < value < 1:
            return self.plain(value, moves)
        return self.on_scale(value, moves, logit, lambda it: 1 / (1 + math.exp(-it)), 1 / (value * (1 - value)))

    def ratio(self, value: float, moves: Any) -> Interval:
        """That of a ratio, on the scale of the logarithm: `moves` are those of the logarithm."""
        return self.on_scale(value, moves, math.log, math.exp, 1.0)


def by_influence(rows: Union[Rows, Joined], estimator: Estimator, numbers: Sequence[float], level: float, is_mean: bool) -> List[Optional[Interval]]:
    """Intervals by how the numbers move with each record: of risks on the scale of the logit, of ratios on that of the logarithm."""
    (first, second), (a, b) = estimator.moves(rows.weights), numbers
    by = ByMoves(rows, level)
    arm = by.plain if is_mean else by.risk
    found: List[Optional[Interval]] = [arm(a, first), arm(b, second), by.plain(a - b, first - second)]
    found.append(by.ratio(a / b, first / a - second / b) if a > 0 and b > 0 else None)
    if not is_mean:
        is_inside = 0 < a < 1 and 0 < b < 1
        moves = first / (a * (1 - a)) - second / (b * (1 - b)) if is_inside else None
        found.append(by.ratio(a * (1 - b) / ((1 - a) * b), moves) if is_inside else None)
    return found


def logit(value: float) -> float:
    """The logarithm of the odds."""
    return math.log(value / (1 - value))


def by_draws(
    rows: Union[Rows, Joined], estimator: Estimator, resamples: int, seed: int, progress: Optional[Progress]
) -> List[Optional[Tuple[float, ...]]]:
    """The numbers of the arms over records that are drawn anew, with the models fitted to each draw."""
    check_whole("resamples", resamples)
    source, members = rows.numpy.random.RandomState(seed % 2**32), rows.members
    found: List[Optional[Tuple[float, ...]]] = []
    for done in range(resamples):
        weights = rows.drawn(source, members)
        try:
            estimator.fit(weights)
            numbers = estimator.numbers(weights)
            found.append(numbers if all(map(math.isfinite, numbers)) else None)
        except (RequestError, ArithmeticError, rows.numpy.linalg.LinAlgError):
            found.append(None)
        if progress is not None:
            progress(done + 1, resamples)
    return found


def of_draws(drawn: Sequence[Optional[Tuple[float, ...]]], level: float, is_mean: bool) -> List[Optional[Interval]]:
    """The percentile intervals of each measure."""
    columns = zip(*(values_of(numbers, is_mean) for numbers in drawn if numbers is not None))
    found = [interval_of(column, level) for column in columns]
    return list(found) or [None] * (4 if is_mean else 5)
