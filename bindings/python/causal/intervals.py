"""Intervals between percentiles of draws. They are computed, and nothing about them is proved."""
from __future__ import annotations

from dataclasses import dataclass
from statistics import NormalDist
from typing import Any, Callable, List, Optional, Sequence, Tuple

from causal.effects import Value
from causal.errors import RequestError
from causal.vocabulary import check_whole

# What computes a number of the values of all effects, or gives None where there is none.
Measure = Callable[[Sequence[float]], Optional[float]]
KINDS = {"percentile": "percentile", "bca": "BCa"}


@dataclass(frozen=True)
class Interval:
    """An interval between two percentiles, and of how many draws.

    >>> from causal.intervals import Interval
    >>> Interval(0.25, 0.75, 1000)
    Interval(lower=0.25, upper=0.75, draws=1000)
    >>> print(Interval(0.25, 0.75, 1000))
    [0.25, 0.75]
    """

    lower: float
    upper: float
    draws: int = 0

    @property
    def is_point(self) -> bool:
        """Whether its width is 0."""
        return self.lower == self.upper

    def __str__(self) -> str:
        return f"[{self.lower:.6g}, {self.upper:.6g}]"

    def _repr_html_(self) -> str:
        return str(self)


def percentile(ordered: Sequence[float], part: float) -> float:
    """The value at a part of the ordered values, between two of them in proportion.

    >>> from causal.intervals import percentile
    >>> percentile([0.0, 1.0, 2.0], 0.25)
    0.5
    """
    place = part * (len(ordered) - 1)
    low = int(place)
    high = min(low + 1, len(ordered) - 1)
    return ordered[low] + (ordered[high] - ordered[low]) * (place - low)


def interval_of(values: Sequence[Optional[float]], level: float) -> Optional[Interval]:
    """The percentile interval of the draws that have a value, or None where fewer than two have one.

    >>> from causal.intervals import interval_of
    >>> interval_of([0.0, 1.0, None, 2.0], 0.5)
    Interval(lower=0.5, upper=1.5, draws=3)
    """
    ordered = sorted(value for value in values if value is not None)
    if len(ordered) < 2:
        return None
    tail = (1 - level) / 2
    return Interval(percentile(ordered, tail), percentile(ordered, 1 - tail), len(ordered))


def range_interval(least: Sequence[float], most: Sequence[float], level: float) -> Optional[Interval]:
    """The interval for a range, of the lower and the upper end that each draw has: from the lower percentile of the lower ends to the upper
    one of the upper ends; None where fewer than two draws have them.

    >>> from causal.intervals import range_interval
    >>> range_interval([0.0, 1.0, 2.0], [4.0, 5.0, 6.0], 0.5)
    Interval(lower=0.5, upper=5.5, draws=3)
    """
    low, high = interval_of(least, level), interval_of(most, level)
    return None if low is None or high is None else Interval(low.lower, high.upper, low.draws)


def corrected_interval(
    values: Sequence[Optional[float]], estimate: Optional[float], left_out: Sequence[Tuple[int, Optional[float]]], level: float
) -> Optional[Interval]:
    """The interval that is corrected for bias and accelerated (BCa), or None where it can't be computed.

    `left_out` has the values without one record, with how many records each is of.

    >>> from causal.intervals import corrected_interval
    >>> corrected_interval([0.0, 1.0, 2.0, 3.0], 1.5, [(1, 1.0), (1, 2.0)], 0.5)
    Interval(lower=0.75, upper=2.25, draws=4)
    """
    ordered = sorted(value for value in values if value is not None)
    if len(ordered) < 2 or estimate is None:
        return None
    below = sum(value < estimate for value in ordered) + sum(value == estimate for value in ordered) / 2
    if not 0 < below < len(ordered):
        return None
    normal = NormalDist()
    bias, rate = normal.inv_cdf(below / len(ordered)), acceleration(left_out)

    def part(tail: float) -> float:
        shifted = bias + normal.inv_cdf(tail)
        return normal.cdf(bias + shifted / (1 - rate * shifted)) if rate * shifted < 1 else float(shifted > 0)

    lower, upper = part((1 - level) / 2), part((1 + level) / 2)
    return Interval(percentile(ordered, lower), percentile(ordered, upper), len(ordered))


def acceleration(left_out: Sequence[Tuple[int, Optional[float]]]) -> float:
    """How fast the spread changes with the value, by what one record makes of it. One without which there is no value is left out.

    >>> from causal.intervals import acceleration
    >>> acceleration([(2, 1.0), (2, 2.0), (1, None)]), acceleration([])
    (0.0, 0.0)
    """
    known = [(count, value) for count, value in left_out if value is not None]
    size = sum(count for count, _ in known)
    if not size:
        return 0.0
    mean = sum(count * value for count, value in known) / size
    squares = sum(count * (mean - value) ** 2 for count, value in known)
    cubes = sum(count * (mean - value) ** 3 for count, value in known)
    return float(cubes / (6 * squares**1.5)) if squares else 0.0


def estimated(value: Optional[Value], interval: Optional[Interval]) -> List[Any]:
    ends: List[Any] = [interval.lower, interval.upper, interval.draws] if interval else [None, None, None]
    return [None if value is None else float(value), *ends]


def told(value: Optional[Value], interval: Optional[Interval]) -> str:
    estimate = "none" if value is None else f"{float(value):.6g}"
    return f"{estimate}, no interval" if interval is None else f"{estimate} [{interval.lower:.6g}, {interval.upper:.6g}]"


def check_level(level: float) -> None:
    """Refuses a level of intervals that there isn't.

    >>> from causal.intervals import check_level
    >>> check_level(95)
    Traceback (most recent call last):
        ...
    causal.errors.RequestError: level lies between 0 and 1, as 0.95, and is not 95
    """
    if not isinstance(level, (int, float)) or not 0 < level < 1:
        raise RequestError(f"level lies between 0 and 1, as 0.95, and is not {level!r}")


def check_asked(resamples: int, level: float, interval: str, least: int = 1) -> None:
    """Refuses numbers of resamples, levels and kinds of intervals that there aren't.

    >>> from causal.intervals import check_asked
    >>> check_asked(100, 0.95, "normal")
    Traceback (most recent call last):
        ...
    causal.errors.RequestError: interval is 'percentile' or 'bca', and not 'normal'
    """
    check_whole("resamples", resamples, least)
    check_level(level)
    if interval not in KINDS:
        raise RequestError(f"interval is {' or '.join(map(repr, KINDS))}, and not {interval!r}")
