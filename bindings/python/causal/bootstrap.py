"""Intervals by the bootstrap: the table of counts is drawn anew, and each draw's effects are asked for.

The draws and the interval are computed here, and nothing about them is proved.
"""
from __future__ import annotations

from dataclasses import dataclass, field
from operator import itemgetter
from typing import TYPE_CHECKING, Any, Callable, Dict, List, Mapping, Optional, Sequence, Tuple

from causal.contrasts import ContrastInterval
from causal.display import Printed, html_table
from causal.effects import Effects, Level, Value, level_text, levels_at
from causal.events import Support, doubt_of, in_one, lost_text, many_lost
from causal.intervals import KINDS, Interval, Measure, corrected_interval, estimated, interval_of, told
from causal.vocabulary import Renamed

if TYPE_CHECKING:
    import matplotlib.axes
    import pandas

# Is told how many tables have been asked about, and of how many.
Progress = Callable[[int, int], object]


@dataclass(frozen=True)
class MeanInterval(Printed):
    """The mean of a numeric outcome under levels of the exposures, or the difference of two, with its interval. Both are computed.

    `note` is what has to be known beside the numbers: resamples that had no value, or an interval of width 0.
    """

    value: Value
    interval: Optional[Interval]
    x: Dict[str, Level] = field(default_factory=dict)
    given: Dict[str, Level] = field(default_factory=dict)
    note: str = ""

    def __hash__(self) -> int:
        return hash((self.value, self.interval))

    def __str__(self) -> str:
        at = "".join(f"{name}={level_text(level)}, " for name, level in (*self.x.items(), *self.given.items()))
        return beside(f"{at}mean {told(self.value, self.interval)}", self.note)


def beside(text: str, note: str) -> str:
    """A text with what has to be known beside it."""
    return f"{text} ({note})" if note else text


@dataclass(frozen=True)
class Bootstrap:
    """Effects with intervals by the bootstrap: percentiles of the draws, or percentiles that are corrected for bias and accelerated
    (BCa), as `kind` says ("percentile" or "bca").

    The values of the data are those of `Diagram.effects`, which says what is proved of them. Those of the draws are computed, and the
    interval isn't proved to cover anything: it is computed from pseudorandom draws, and covers the effect in about `level` of large samples, as
    the bootstrap's theory has it for a formula that is smooth where the counts are positive.

    `effects` are those of the data; `resamples` is how many draws were made, with the seed `seed`; `without_value` of them had no
    value at some cell (a draw that lacks the records that a term needs), and are left out of the intervals. `left_out` has for BCa
    the values without one record, with how many records each is of. `design` says what was drawn, where it wasn't single records.

    >>> from causal import Diagram
    >>> data = {"X": ["a", "b"] * 50, "Y": [0, 0, 1, 1] * 25}
    >>> answer = Diagram("dag{ X -> Y }").bootstrap(data, "X", "Y", resamples=200, seed=1)
    >>> answer.without_value, answer.intervals[0].lower < 0.5 < answer.intervals[0].upper
    (0, True)
    """

    effects: Effects
    draws: Tuple[Optional[Tuple[float, ...]], ...]
    level: float
    seed: int
    kind: str = "percentile"
    left_out: Tuple[Tuple[int, Optional[Tuple[float, ...]]], ...] = ()
    # How many records there are at each effect.
    support: Tuple[Support, ...] = ()
    design: str = ""
    # What `count` counts, in words.
    counted: str = ""

    def __hash__(self) -> int:
        return hash((self.effects, self.draws, self.level, self.seed, self.kind))

    @property
    def resamples(self) -> int:
        """How many draws were made."""
        return len(self.draws)

    @property
    def without_value(self) -> int:
        """How many draws had no value."""
        return sum(draw is None for draw in self.draws)

    def interval(self, measure: Measure) -> Optional[Interval]:
        """The interval of any number that is computed of the values of all effects, in their order.

        >>> from causal import Diagram
        >>> data = {"X": ["a", "b"] * 50, "Y": [0, 0, 1, 1] * 25}
        >>> answer = Diagram("dag{ X -> Y }").bootstrap(data, "X", "Y", resamples=200, seed=1)
        >>> answer.interval(lambda values: values[0]) == answer.intervals[0]
        True
        """
        values = [measure(draw) for draw in self.draws if draw is not None]
        if self.kind == "percentile":
            return interval_of(values, self.level)
        estimate = measure(tuple(float(effect.value) for effect in self.effects))
        left_out = [(count, None if held is None else measure(held)) for count, held in self.left_out]
        return corrected_interval(values, estimate, left_out, self.level)

    @property
    def intervals(self) -> List[Optional[Interval]]:
        """The interval of each effect, in the order of `effects`."""
        return [self.interval(itemgetter(place)) for place in range(len(self.effects))]

    def contrast(self, outcome: Any, treated: Any, control: Any, given: Optional[Mapping[str, Level]] = None) -> ContrastInterval:
        """The contrast of two levels of the exposures, at levels of what is given, with intervals from the same draws. Levels are given
        as in `Diagram.contrast`.

        >>> from causal import Diagram
        >>> data = {"X": ["a", "b"] * 50, "Y": [0, 0, 1, 1] * 25}
        >>> answer = Diagram("dag{ X -> Y }").bootstrap(data, "X", "Y", resamples=200, seed=1)
        >>> contrast = answer.contrast(1, "a", "b")
        >>> contrast.difference.lower < 0 < contrast.difference.upper
        True
        """
        first, second = [self.effects.place(outcome, x, given) for x in (treated, control)]

        def ratio(above: float, below: float) -> Optional[float]:
            return above / below if below > 0 else None

        def odds_ratio(a: float, b: float) -> Optional[float]:
            return a * (1 - b) / ((1 - a) * b) if a < 1 and 0 < b < 1 else None

        return ContrastInterval(
            self.effects.contrast(outcome, treated, control, given),
            self.interval(lambda values: values[first] - values[second]),
            self.interval(lambda values: ratio(values[first], values[second])),
            self.interval(lambda values: odds_ratio(values[first], values[second])),
            self.interval(itemgetter(first)),
            self.interval(itemgetter(second)),
            self.notes,
            tuple(self.support[place] for place in (first, second)) if self.support else (),
            self.resamples,
            self.resamples - self.without_value,
        )

    def effect_means(self) -> Tuple[MeanInterval, ...]:
        """The mean of a numeric outcome under each level of the exposures, with its interval: see `Effects.effect_means`.

        >>> from causal import Diagram
        >>> data = {"X": ["a", "b"] * 50, "Y": [0, 0, 10, 20] * 25}
        >>> answer = Diagram("dag{ X -> Y }").bootstrap(data, "X", "Y", resamples=200, seed=1)
        >>> [float(mean.value) for mean in answer.effect_means()], answer.effect_means()[0].interval.lower < 5 < answer.effect_means()[0].interval.upper
        ([5.0, 10.0], True)
        """
        means = self.effects.effect_means()
        return tuple(self._told_mean(mean.value, self.interval(self._mean_at(mean.x, mean.given)), mean.x, mean.given) for mean in means)

    def _told_mean(
        self, value: Value, interval: Optional[Interval], x: Mapping[str, Level] = {}, given: Mapping[str, Level] = {}
    ) -> MeanInterval:
        """A mean with what has to be known beside it."""
        flat = "width 0: no resample differs" if interval is not None and interval.is_point else ""
        return MeanInterval(value, interval, dict(x), dict(given), in_one([self.lost, flat]))

    means = Renamed("effect_means")

    def mean_difference(self, treated: Any, control: Any, given: Optional[Mapping[str, Level]] = None) -> MeanInterval:
        """The difference of the means of a numeric outcome under two levels of the exposures.

        >>> from causal import Diagram
        >>> data = {"X": ["a", "b"] * 50, "Y": [0, 0, 10, 20] * 25}
        >>> answer = Diagram("dag{ X -> Y }").bootstrap(data, "X", "Y", resamples=200, seed=1)
        >>> float(answer.mean_difference({"X": "b"}, {"X": "a"}).value)
        5.0
        """
        names, under = self.effects.formula.target.x, self.effects._given(given)
        treated, control = (levels_at(names, x, self.effects.typed[0]) for x in (treated, control))
        first, second = [self._mean_at(x, under) for x in (treated, control)]
        value = self.effects.mean(treated, given).minus(self.effects.mean(control, given))
        return self._told_mean(value, self.interval(lambda values: first(values) - second(values)))

    def _mean_at(self, x: Mapping[str, Level], given: Mapping[str, Level]) -> Callable[[Sequence[float]], float]:
        """What computes a mean of the values of all effects."""
        of, name = self.effects.numbers, self.effects.formula.target.y[0]
        at = dict(x), dict(given)
        weights = [float(of[effect.y[name]]) if (effect.x, effect.given) == at else 0.0 for effect in self.effects]
        return lambda values: sum(weight * value for weight, value in zip(weights, values))

    HEADS = ("estimate", "conf_low", "conf_high", "draws", "note")

    @property
    def lost(self) -> str:
        """How many resamples had no value, where some hadn't."""
        return lost_text(self.without_value, self.resamples)

    @property
    def row_notes(self) -> Tuple[str, ...]:
        """What has to be known beside each effect: an interval of width 0, and few events."""
        support = self.support or (None,) * len(self.effects)
        return tuple(doubt_of(interval, own) for interval, own in zip(self.intervals, support))

    def frame(self) -> "pandas.DataFrame":
        """A DataFrame with a row for each effect (it needs pandas): the levels, `estimate`, `conf_low`, `conf_high`, `draws` and `note`.

        >>> import pandas
        >>> from causal import Diagram
        >>> data = pandas.DataFrame({"X": ["a", "b"] * 50, "Y": [0, 0, 1, 1] * 25})
        >>> list(Diagram("dag{ X -> Y }").bootstrap(data, "X", "Y", resamples=20).frame().columns)
        ['X', 'Y', 'estimate', 'conf_low', 'conf_high', 'draws', 'note']
        """
        nan = float("nan")
        rows = [(i.lower, i.upper, i.draws) if i else (nan, nan, self.resamples - self.without_value) for i in self.intervals]
        notes = [in_one([self.lost, note]) for note in self.row_notes]
        values = [(float(effect.value), *row, note) for effect, row, note in zip(self.effects, rows, notes)]
        frame = self.effects.frame_with(self.HEADS, values)
        frame.attrs.update(level=self.level, interval=self.kind, notes=list(self.notes), resamples=self.resamples, seed=self.seed)
        frame.attrs.update(without_value=self.without_value)
        return frame

    def to_frame(self) -> "pandas.DataFrame":
        """The same as `frame`."""
        return self.frame()

    def plot(self, ax: Optional["matplotlib.axes.Axes"] = None) -> "matplotlib.axes.Axes":
        """Draws each effect with its interval, with matplotlib: a forest plot.

        >>> import matplotlib
        >>> matplotlib.use("Agg")
        >>> from causal import Diagram
        >>> answer = Diagram("dag{ X -> Y }").bootstrap({"X": [0, 1] * 9, "Y": [0, 0, 1] * 6}, "X", "Y", resamples=50)
        >>> axes = answer.plot()
        """
        from causal.plotting import plot_intervals

        known = [(effect, it) for effect, it in zip(self.effects, self.intervals) if it is not None]
        return plot_intervals([(effect.cell, float(effect.value), it.lower, it.upper) for effect, it in known], "probability", ax)

    @property
    def notes(self) -> Tuple[str, ...]:
        """What the intervals rest on."""
        drawn = f"{100 * self.level:g}% {KINDS[self.kind]} intervals of {self.resamples} resamples, of which {self.without_value} had no value"
        return (*self.effects.notes, *([self.counted] if self.counted else []), f"{drawn}; seed {self.seed}{self.design}", *self.doubts)

    @property
    def doubts(self) -> Tuple[str, ...]:
        """That many resamples had no value, where they had: what is left of them says less."""
        return many_lost(self.without_value, self.resamples)

    def __str__(self) -> str:
        rows = [f"{effect.cell} {told(effect.value, interval)}" for effect, interval in zip(self.effects, self.intervals)]
        return "\n".join([*map(beside, rows, self.row_notes), *self.notes])

    def _repr_html_(self) -> str:
        heads = [*self.effects.names, *self.HEADS]
        rows = [
            [*effect.under.values(), *effect.y.values(), *estimated(effect.value, interval), note]
            for effect, interval, note in zip(self.effects, self.intervals, self.row_notes)
        ]
        return html_table(heads, rows, self.notes)
