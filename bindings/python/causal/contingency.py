"""Counts of two variables at the levels of others: how far they are from independence, and what chance makes of them."""
from __future__ import annotations

import math
import random
from collections import Counter
from dataclasses import dataclass
from statistics import NormalDist
from typing import Callable, Dict, List, Optional, Sequence, Tuple

from causal.tables import Table

# A table is too thin for the chi-squared distribution where more than this part of its cells is expected to have fewer than FEW
# records, or one fewer than 1.
FEW, THIN_PART = 5, 0.2
# From here on a noncentral chi-squared distribution is approximated.
LARGE = 500


@dataclass(frozen=True)
class Stratum:
    """The counts of two variables at one level of what is given, without rows and columns that have no records.

    >>> from causal.contingency import Stratum
    >>> Stratum(((10, 20), (30, 60))).degrees, Stratum(((10, 20), (30, 60))).expected()
    (1, [[10.0, 20.0], [30.0, 60.0]])
    """

    rows: Tuple[Tuple[int, ...], ...]

    @property
    def sums(self) -> Tuple[List[int], List[int]]:
        """The sums of the rows and of the columns."""
        return [sum(row) for row in self.rows], [sum(column) for column in zip(*self.rows)]

    @property
    def degrees(self) -> int:
        """The degrees of freedom."""
        return (len(self.rows) - 1) * (len(self.rows[0]) - 1)

    def expected(self) -> List[List[float]]:
        """What the cells are expected to have, were the variables independent."""
        across, down = self.sums
        whole = sum(across)
        return [[row * column / whole for column in down] for row in across]

    def pearson(self) -> float:
        """Pearson's statistic."""
        pairs = [pair for row in zip(self.rows, self.expected()) for pair in zip(*row)]
        return sum((count - mean) ** 2 / mean for count, mean in pairs)

    def deviance(self) -> float:
        """The statistic G², twice the logarithm of the ratio of likelihoods."""
        across, down = self.sums
        cells = sum(_weighted_log(count) for row in self.rows for count in row)
        return max(2 * (cells + _weighted_log(sum(across)) - sum(map(_weighted_log, [*across, *down]))), 0.0)

    def largest(self) -> float:
        """How many records a cell has more or less than expected, at most.

        >>> from causal.contingency import Stratum
        >>> Stratum(((2, 0), (0, 2))).largest()
        1.0
        """
        pairs = [pair for row in zip(self.rows, self.expected()) for pair in zip(*row)]
        return max(abs(count - mean) for count, mean in pairs)


def _weighted_log(count: int) -> float:
    return count * math.log(count) if count else 0.0


def strata_of(table: Table, a: str, b: str, given: Sequence[str]) -> List[Stratum]:
    """The counts of a and b at each level of what is given.

    >>> from causal.contingency import strata_of
    >>> from causal.tables import table_of
    >>> strata_of(table_of({"A": [0, 1, 1, 0], "B": [0, 1, 0, 0], "C": [0, 0, 0, 1]}, ["A", "B", "C"]), "A", "B", ["C"])[0].rows
    ((1, 0), (1, 1))
    """
    places = [table.names.index(name) for name in (a, b, *given)]
    strata: Dict[Tuple[int, ...], Counter[Tuple[int, int]]] = {}
    for cell, count in table.counts.items():
        if count:
            first, second, *rest = (cell[place] for place in places)
            strata.setdefault(tuple(rest), Counter())[first, second] += count
    found = []
    for _, counts in sorted(strata.items()):
        across, down = [sorted({pair[side] for pair in counts}) for side in (0, 1)]
        found.append(Stratum(tuple(tuple(counts[row, column] for column in down) for row in across)))
    return found


def is_thin(strata: Sequence[Stratum]) -> bool:
    """Whether too few records are expected in too many cells for the chi-squared distribution.

    >>> from causal.contingency import Stratum, is_thin
    >>> is_thin([Stratum(((10, 20), (30, 60)))]), is_thin([Stratum(((1, 2), (3, 6)))])
    (False, True)
    """
    means = [mean for stratum in strata if stratum.degrees for row in stratum.expected() for mean in row]
    return any(mean < 1 for mean in means) or sum(mean < FEW for mean in means) > THIN_PART * len(means)


def hypergeometric(source: random.Random, good: int, bad: int, drawn: int) -> int:
    """How many of the drawn ones are good, where as many are drawn of good and bad ones without putting any back.

    A uniform number is used up by the probabilities, the most likely numbers first.

    >>> import random
    >>> from causal.contingency import hypergeometric
    >>> hypergeometric(random.Random(1), 5, 0, 3), hypergeometric(random.Random(1), 0, 5, 3)
    (3, 0)
    """
    least, most = max(0, drawn - bad), min(good, drawn)
    low = high = min(max((drawn + 1) * (good + 1) // (good + bad + 2), least), most)
    at_low = at_high = math.exp(_log_choose(good, low) + _log_choose(bad, drawn - low) - _log_choose(good + bad, drawn))
    left = source.random() - at_low
    found = low
    while left > 0 and (low > least or high < most):
        above = at_high * (good - high) * (drawn - high) / ((high + 1) * (bad - drawn + high + 1)) if high < most else -1.0
        below = at_low * low * (bad - drawn + low) / ((good - low + 1) * (drawn - low + 1)) if low > least else -1.0
        if above >= below:
            high, at_high, found = high + 1, above, high + 1
        else:
            low, at_low, found = low - 1, below, low - 1
        left -= max(above, below)
    return found


def _log_choose(n: int, k: int) -> float:
    return math.lgamma(n + 1) - math.lgamma(k + 1) - math.lgamma(n - k + 1)


def shuffled(source: random.Random, stratum: Stratum) -> Stratum:
    """A table with the same sums of rows and columns, as it comes where the records are paired by chance.

    >>> import random
    >>> from causal.contingency import Stratum, shuffled
    >>> shuffled(random.Random(2), Stratum(((3, 1), (2, 4)))).sums
    ([4, 6], [5, 5])
    """
    across, down = stratum.sums
    left, rows = list(down), []
    for size in across[:-1]:
        row, rest = [], sum(left)
        for column, there in enumerate(left):
            number = hypergeometric(source, there, rest - there, size) if rest else 0
            row.append(number)
            rest -= there
            size -= number
            left[column] -= number
        rows.append(tuple(row))
    return Stratum((*rows, tuple(left)))


def permutation_p(strata: Sequence[Stratum], statistic: float, permutations: int, seed: int) -> float:
    """How often G² is as large by chance: the part of tables that are drawn with the same sums, the observed one among them."""
    source = random.Random(seed)
    moving = [stratum for stratum in strata if stratum.degrees]
    least = statistic - 1e-9 * max(statistic, 1.0)
    drawn = (sum(shuffled(source, stratum).deviance() for stratum in moving) for _ in range(permutations))
    return (1 + sum(value >= least for value in drawn)) / (1 + permutations)


def chi_squared() -> Optional[Callable[[float, int], float]]:
    """The upper tail of the chi-squared distribution, where scipy is there."""
    try:
        from scipy.stats import chi2
    except ImportError:
        return None
    return lambda statistic, degrees: float(chi2.sf(statistic, degrees))


def noncentral_below(statistic: float, degrees: int, shift: float) -> float:
    """How likely a noncentral chi-squared statistic is smaller: a sum over a Poisson distribution, or for large ones Sankaran's
    approximation.

    >>> from causal.contingency import noncentral_below
    >>> round(noncentral_below(10.0, 4, 5.0), 4), round(noncentral_below(1000.0, 4, 1000.0), 3)
    (0.6382, 0.481)
    """
    if statistic > LARGE:
        return sankaran_below(statistic, degrees, shift)
    if statistic <= 0:
        return 0.0
    half, mean = statistic / 2, shift / 2
    below = total = 0.0
    for n in range(int(half + 12 * math.sqrt(half) + 40)):
        below += math.exp(n * math.log(mean) - mean - math.lgamma(n + 1)) if mean else float(n == 0)
        a = degrees / 2 + n
        total += below * math.exp(a * math.log(half) - half - math.lgamma(a + 1))
    return min(total, 1.0)


def sankaran_below(statistic: float, degrees: int, shift: float) -> float:
    """The same by Sankaran's approximation with a normal distribution."""
    mean, half = degrees + shift, degrees + 2 * shift
    power = 1 - 2 * mean * (degrees + 3 * shift) / (3 * half**2)
    spread, bend = half / mean**2, (power - 1) * (1 - 3 * power)
    middle = 1 + power * spread * (power - 1 - 0.5 * (2 - power) * bend * spread)
    wide = power * math.sqrt(2 * spread) * (1 + 0.5 * bend * spread)
    return NormalDist().cdf(((statistic / mean) ** power - middle) / wide)


def shift_at(statistic: float, degrees: int, part: float) -> float:
    """How far the statistic's distribution is shifted where this part of it lies below the statistic; 0 where none is so low.

    >>> from causal.contingency import shift_at
    >>> shift_at(3.0, 4, 0.5), round(shift_at(30.0, 4, 0.5), 1)
    (0.0, 27.0)
    """
    low, high = 0.0, 1.0
    if statistic <= 0 or noncentral_below(statistic, degrees, 0.0) <= part:
        return 0.0
    while noncentral_below(statistic, degrees, high) > part:
        high *= 2
    for _ in range(45):
        middle = (low + high) / 2
        low, high = (middle, high) if noncentral_below(statistic, degrees, middle) > part else (low, middle)
    return low
