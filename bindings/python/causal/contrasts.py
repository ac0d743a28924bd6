"""Contrasts of two arms: risks, their difference, ratio and odds ratio, with intervals where records were drawn anew."""
from __future__ import annotations

from dataclasses import dataclass, field, replace
from typing import TYPE_CHECKING, Any, Dict, Iterator, List, Mapping, Optional, Sequence, Tuple, Union, overload

from causal.display import html_table
from causal.effects import Level, Value, level_text, levels_text
from causal.events import Support, doubt_of, in_one, lost_text, many_lost
from causal.framed import Framed
from causal.intervals import Interval, estimated, told
from causal.sensitivity import EValue, e_value

if TYPE_CHECKING:
    import matplotlib.axes

MEASURES = ("risk under treated", "risk under control", "risk difference", "risk ratio", "odds ratio")
# The same in the column `measure` of a DataFrame.
IN_COLUMNS = dict(zip(MEASURES, ("risk_treated", "risk_control", "difference", "ratio", "odds_ratio")))


def arm_level(levels: Mapping[str, Level]) -> Level:
    """The levels of an arm as one column has them: the level of a single exposure, and else a text.

    >>> from causal.contrasts import arm_level
    >>> arm_level({"T": 1}), arm_level({"A": 1, "B": 0})
    (1, 'A=1,B=0')
    """
    return next(iter(levels.values())) if len(levels) == 1 else levels_text(levels)


def no_arms() -> Tuple[Dict[str, Level], Dict[str, Level]]:
    """Arms that aren't told."""
    return {}, {}


@dataclass(frozen=True)
class ContrastInterval(Framed):
    """The intervals of a contrast: of both risks, the risk difference, the risk ratio and the odds ratio. They are only computed, as in
    `Bootstrap`.

    An interval is None where fewer than two draws have a value; `draws` in it says how many have one. `notes` say what they rest on,
    and `doubts` what speaks against them: resamples without a value, intervals of width 0, and few events.
    """

    contrast: Contrast
    difference: Optional[Interval]
    ratio: Optional[Interval]
    odds_ratio: Optional[Interval]
    treated: Optional[Interval] = None
    control: Optional[Interval] = None
    notes: Tuple[str, ...] = ()
    support: Tuple[Support, ...] = ()
    # How many resamples were drawn, and how many of them had a value.
    resamples: int = 0
    with_value: int = 0

    @property
    def rows(self) -> Tuple[Tuple[str, Optional[Value], Optional[Interval]], ...]:
        """Each measure with its name, its value and its interval."""
        intervals = (self.treated, self.control, self.difference, self.ratio, self.odds_ratio)
        return tuple((name, value, interval) for (name, value), interval in zip(self.contrast.measures, intervals))

    @property
    def doubts(self) -> Tuple[str, ...]:
        """What speaks against the intervals."""
        found = [
            doubt_of(interval, support, name, name[5:])
            for name, interval, support in zip(MEASURES, (self.treated, self.control), self.support)
        ]
        return tuple(doubt for doubt in found if doubt)

    @property
    def lost(self) -> Tuple[str, ...]:
        """That many resamples had no value, where they had."""
        return many_lost(self.resamples - self.with_value, self.resamples)

    @property
    def row_notes(self) -> Tuple[str, ...]:
        """What has to be known beside each measure: resamples that had no value, a width of 0, and few events of its arms."""
        risks = zip((self.treated, self.control), (self._support(0), self._support(1)), MEASURES)
        arms = [doubt_of(interval, support, where=name[5:]) for interval, support, name in risks]
        found = list(arms)
        for interval in (self.difference, self.ratio, self.odds_ratio):
            own = "" if interval is None else lost_text(self.with_value - interval.draws, self.resamples, "ratio")
            found.append(in_one([own, *(f"{name}: {doubt}" for name, doubt in zip(("treated", "control"), arms) if doubt)]))
        lost = lost_text(self.resamples - self.with_value, self.resamples)
        return tuple(in_one([lost, own]) for own in found)

    def _support(self, place: int) -> Optional[Support]:
        return self.support[place] if self.support else None

    HEADS = ("treated", "control", "measure", "estimate", "conf_low", "conf_high", "draws", "note")

    def _cells(self) -> List[List[Any]]:
        return [[name, *estimated(value, interval), note] for (name, value, interval), note in zip(self.rows, self.row_notes)]

    def _table(self) -> Tuple[Sequence[str], List[List[Any]]]:
        return self.HEADS, [[*map(arm_level, self.contrast.arms), IN_COLUMNS[name], *cells] for name, *cells in self._cells()]

    def __str__(self) -> str:
        lines = [f"{name}: {told(value, interval)}" for name, value, interval in self.rows]
        return "\n".join([*self.contrast.head, *lines, *self.notes, *self.doubts])

    def frame(self) -> Any:
        """A DataFrame with a row for each measure (it needs pandas): the arms, `measure`, `estimate`, `conf_low`, `conf_high`, `draws`,
        and `note`, what has to be known beside the numbers. What they rest on stands in its `attrs`, as `notes` and `doubts`."""
        frame = super().frame()
        frame.attrs.update(notes=list(self.notes), doubts=list(self.doubts))
        return frame

    def _repr_html_(self) -> str:
        return html_table(self.HEADS[2:], self._cells(), [*self.contrast.head, *self.notes, *self.doubts])

    def plot(self, ax: Optional["matplotlib.axes.Axes"] = None) -> "matplotlib.axes.Axes":
        """Draws the risks and their difference with their intervals: a forest plot. It needs matplotlib.

        >>> import matplotlib
        >>> matplotlib.use("Agg")
        >>> from causal import Diagram
        >>> found = Diagram("dag { X -> Y }").contrast({"X": [0, 1] * 9, "Y": [0, 0, 1] * 6}, treated=1, control=0, outcome=1, x="X", y="Y")
        >>> axes = found.plot()
        """
        from causal.plotting import plot_intervals

        known = [row for row in self.rows[:3] if row[1] is not None and row[2] is not None]
        rows = [(name, float(value or 0), *((it.lower, it.upper) if it else (0.0, 0.0))) for name, value, it in known]
        return plot_intervals(rows, "probability, with its interval", ax)


@dataclass(frozen=True)
class Contrast(Framed):
    """Two effects compared: the risk difference, the risk ratio and the odds ratio of `treated` and `control`.

    `Effects` says what is proved of both; the difference and the ratios are computed here from their fractions, exactly or outward. `arms` are the
    levels of both, `outcome` and `given` those of the outcome and of what is given; `interval` has the intervals, which are computed,
    and is None where no records were drawn anew.

    >>> from fractions import Fraction
    >>> from causal import Contrast, Value
    >>> contrast = Contrast(Value(Fraction(1, 2), Fraction(1, 2)), Value(Fraction(1, 4), Fraction(1, 4)))
    >>> contrast.difference.exact, contrast.ratio.exact
    (Fraction(1, 4), Fraction(2, 1))
    """

    treated: Value
    control: Value
    arms: Tuple[Dict[str, Level], Dict[str, Level]] = field(default_factory=no_arms)
    outcome: Dict[str, Level] = field(default_factory=dict)
    given: Dict[str, Level] = field(default_factory=dict)
    notes: Tuple[str, ...] = ()
    interval: Optional[ContrastInterval] = field(default=None, repr=False, compare=False)

    def __hash__(self) -> int:
        return hash((self.treated, self.control))

    @property
    def difference(self) -> Value:
        """The risk difference: treated less control."""
        return self.treated.minus(self.control)

    @property
    def ratio(self) -> Optional[Value]:
        """The risk ratio: treated over control, or None where control may be 0."""
        return self.treated.over(self.control)

    @property
    def odds_ratio(self) -> Optional[Value]:
        """The odds ratio: the odds of treated over those of control, or None where one may have no odds or control's may be 0.

        >>> from fractions import Fraction
        >>> from causal import Contrast, Value
        >>> Contrast(Value(Fraction(1, 2), Fraction(1, 2)), Value(Fraction(1, 4), Fraction(1, 4))).odds_ratio.exact
        Fraction(3, 1)
        """
        treated, control = self.treated.odds(), self.control.odds()
        return treated.over(control) if treated and control else None

    @property
    def e_value(self) -> Optional[EValue]:
        """The E-value of the risk ratio: see `e_value`. None where there is no ratio.

        >>> from fractions import Fraction
        >>> from causal import Contrast, Value
        >>> print(Contrast(Value(Fraction(1, 2), Fraction(1, 2)), Value(Fraction(1, 4), Fraction(1, 4))).e_value)
        E-value 3.41421
        """
        if self.ratio is None or float(self.ratio) <= 0:
            return None
        interval = self.interval.ratio if self.interval else None
        return e_value(float(self.ratio), *((interval.lower, interval.upper) if interval else ()))

    @property
    def measures(self) -> Tuple[Tuple[str, Optional[Value]], ...]:
        """Each measure by its name."""
        return tuple(zip(MEASURES, (self.treated, self.control, self.difference, self.ratio, self.odds_ratio)))

    @property
    def head(self) -> Tuple[str, ...]:
        """What is contrasted, in words."""
        arms = [f"{name}: {levels_text(levels)}" for name, levels in zip(("treated", "control"), self.arms) if levels]
        arms += [f"outcome: {levels_text(self.outcome)}"] if self.outcome else []
        arms += [f"among: {levels_text(self.given)}"] if self.given else []
        return ("; ".join(arms),) if arms else ()

    def with_interval(self, interval: ContrastInterval) -> "Contrast":
        """The contrast with its intervals."""
        return replace(self, interval=interval)

    def __str__(self) -> str:
        if self.interval is not None:
            return str(self.interval)
        lines = [f"{name}: {'none' if value is None else f'{float(value):.6g}'}" for name, value in self.measures]
        return "\n".join([*self.head, *lines, *self.notes])

    def _table(self) -> Tuple[Sequence[str], List[List[Any]]]:
        if self.interval is not None:
            return self.interval._table()
        arms = [arm_level(levels) if levels else None for levels in self.arms]
        rows = [[*arms, IN_COLUMNS[name], *_ends(value)] for name, value in self.measures]
        return ("treated", "control", "measure", "estimate", "from", "to"), rows

    def frame(self) -> Any:
        """A DataFrame with a row for each measure (it needs pandas): see `ContrastInterval.frame`. Without intervals `from` and `to` are
        the bounds of what is computed, for rounding."""
        return super().frame() if self.interval is None else self.interval.frame()

    def _repr_html_(self) -> str:
        if self.interval is not None:
            return self.interval._repr_html_()
        rows = [[name, *_ends(value)] for name, value in self.measures]
        return html_table(self._table()[0][2:], rows, [*self.head, *self.notes])

    def plot(self, ax: Optional["matplotlib.axes.Axes"] = None) -> "matplotlib.axes.Axes":
        """Draws the risks and their difference, with their intervals: see `ContrastInterval.plot`."""
        return (self.interval or ContrastInterval(self, None, None, None)).plot(ax)


def _ends(value: Optional[Value]) -> List[Optional[float]]:
    return [None] * 3 if value is None else [float(value), *value.floats()]


@dataclass(frozen=True)
class Contrasts(Framed, Sequence[Contrast]):
    """The contrast in each group that the condition tells apart.

    >>> from causal import Diagram
    >>> data = {"X": [0, 0, 1, 1] * 3, "Y": [0, 1] * 6, "S": ["f"] * 8 + ["m"] * 4}
    >>> found = Diagram("dag { X -> Y S -> Y }").contrast(data, "X", "Y", treated=1, control=0, outcome=1, given="S", resamples=0)
    >>> [(contrast.given, float(contrast.difference)) for contrast in found]
    [({'S': 'f'}, 0.0), ({'S': 'm'}, 0.0)]
    """

    contrasts: Tuple[Contrast, ...]

    def __len__(self) -> int:
        return len(self.contrasts)

    @overload
    def __getitem__(self, index: int) -> Contrast: ...

    @overload
    def __getitem__(self, index: slice) -> Tuple[Contrast, ...]: ...

    def __getitem__(self, index: Union[int, slice]) -> Union[Contrast, Tuple[Contrast, ...]]:
        return self.contrasts[index]

    def __iter__(self) -> Iterator[Contrast]:
        return iter(self.contrasts)

    def __str__(self) -> str:
        return "\n\n".join(map(str, self.contrasts))

    def _table(self) -> Tuple[Sequence[str], List[List[Any]]]:
        names = list(self.contrasts[0].given) if self.contrasts else []
        heads: Sequence[str] = self.contrasts[0]._table()[0] if self.contrasts else ()
        return [*names, *heads], [[*it.given.values(), *row] for it in self.contrasts for row in it._table()[1]]

    def _repr_html_(self) -> str:
        heads, rows = self._table()
        notes = dict.fromkeys(note for it in self.contrasts for note in (*it.head[:1], *(it.interval.notes if it.interval else it.notes)))
        return html_table(heads, [[level_text(cell) if k < 2 else cell for k, cell in enumerate(row)] for row in rows], list(notes))
