"""Counts of two variables over all levels of others at once: as they are listed, or by numpy where it is there."""
from __future__ import annotations

from dataclasses import dataclass
from typing import Any, Optional, Sequence, Tuple

from causal.contingency import FEW, THIN_PART, Stratum, is_thin, permutation_p
from causal.tables import Table

# Counts from here on are drawn one by one, and so many numbers are drawn at once at most.
TOO_LARGE, AT_ONCE = 10**8, 1 << 20


class Strata:
    """What a test asks of the counts: G² and its degrees of freedom, Pearson's statistic, the largest difference, whether the counts are
    too thin for the chi-squared distribution, and the p of permutations.

    >>> from causal.contingency import Stratum
    >>> from causal.strata import Strata
    >>> strata = Strata.of([Stratum(((10, 20), (30, 60)))])
    >>> strata.degrees, strata.deviance, strata.is_thin
    (1, 0.0, False)
    """

    degrees: int
    deviance: float
    pearson: float
    largest: float
    is_thin: bool

    @staticmethod
    def of(strata: Sequence[Stratum]) -> "Strata":
        """Those of a list."""
        return Listed(strata)

    def permutation_p(self, permutations: int, seed: int) -> float:
        """How often G² is as large by chance."""
        raise NotImplementedError


class Listed(Strata):
    """The strata of a list."""

    def __init__(self, strata: Sequence[Stratum]) -> None:
        self.strata = strata
        self.degrees = sum(stratum.degrees for stratum in strata)
        self.deviance = sum(stratum.deviance() for stratum in strata)
        self.pearson = sum(stratum.pearson() for stratum in strata if stratum.degrees)
        self.largest = max((stratum.largest() for stratum in strata), default=0.0)
        self.is_thin = is_thin(strata)

    def permutation_p(self, permutations: int, seed: int) -> float:
        return permutation_p(self.strata, self.deviance, permutations, seed)


@dataclass(frozen=True)
class Cells:
    """The cells of a table that have records, as arrays: a column for each variable, and the counts."""

    numpy: Any
    names: Tuple[str, ...]
    codes: Any
    counts: Any


def cells_of(table: Table) -> Optional[Cells]:
    """The cells as arrays, where numpy is there and counts aren't too large.

    >>> from causal.strata import cells_of
    >>> from causal.tables import table_of
    >>> cells = cells_of(table_of({"A": [0, 1, 1]}, ["A"]))
    >>> cells is None or cells.counts.tolist() == [1, 2]
    True
    """
    counts = {cell: count for cell, count in table.counts.items() if count}
    if sum(counts.values()) > TOO_LARGE:
        return None
    try:
        import numpy
    except ImportError:
        return None
    codes = numpy.array(list(counts), dtype=numpy.int64).reshape(len(counts), len(table.names))
    return Cells(numpy, table.names, codes, numpy.array(list(counts.values()), dtype=numpy.int64))


def strata_in(cells: Cells, a: str, b: str, given: Sequence[str]) -> Strata:
    """The counts of a and b at each level of what is given."""
    numpy = cells.numpy

    def column(name: str) -> Any:
        return numpy.unique(cells.codes[:, cells.names.index(name)], return_inverse=True)[1]

    stratum = numpy.zeros(len(cells.counts), dtype=numpy.int64)
    for name in given:
        own = column(name)
        stratum = numpy.unique(stratum * (int(own.max(initial=0)) + 1) + own, return_inverse=True)[1]
    rows, columns = column(a), column(b)
    shape = tuple(int(it.max(initial=0)) + 1 for it in (stratum, rows, columns))
    place = (stratum * shape[1] + rows) * shape[2] + columns
    counts = numpy.bincount(place, cells.counts, shape[0] * shape[1] * shape[2]).reshape(shape)
    return Arrays(numpy, counts)


class Arrays(Strata):
    """The strata as an array of counts, with axes for the levels of what is given and for those of both variables."""

    def __init__(self, numpy: Any, counts: Any) -> None:
        across, down, whole = counts.sum(axis=2), counts.sum(axis=1), counts.sum(axis=(1, 2))
        degrees = ((across > 0).sum(axis=1) - 1) * ((down > 0).sum(axis=1) - 1)
        self.numpy, self.degrees = numpy, int(degrees.sum())
        logs = self._logs(counts), self._logs(whole), -self._logs(across), -self._logs(down)
        self.deviance = max(2 * float(sum(it.sum() for it in logs)), 0.0)
        self.moving = counts[degrees > 0]
        across, down, whole = across[degrees > 0], down[degrees > 0], whole[degrees > 0]
        means = across[:, :, None] * down[:, None, :] / whole[:, None, None]
        held = means[means > 0]
        off = self.moving[means > 0] - held
        self.pearson = float((off**2 / held).sum())
        self.largest = float(abs(off).max(initial=0.0))
        self.is_thin = bool((held < 1).any()) or int((held < FEW).sum()) > THIN_PART * len(held)

    def _logs(self, counts: Any) -> Any:
        return counts * self.numpy.log(self.numpy.where(counts > 0, counts, 1.0))

    def permutation_p(self, permutations: int, seed: int) -> float:
        numpy, source = self.numpy, self.numpy.random.RandomState(seed % 2**32)
        counts = self.moving.astype(numpy.int64)
        # (what the sums of rows and columns give stays the same)
        fixed = float(self._logs(counts.sum(axis=(1, 2))).sum() - self._logs(counts.sum(axis=2)).sum() - self._logs(counts.sum(axis=1)).sum())
        observed = 2 * (float(self._logs(counts).sum()) + fixed)
        least, above, done = observed - 1e-9 * max(observed, 1.0), 0, 0
        table = self._logs(numpy.arange(int(counts.sum(axis=(1, 2)).max(initial=0)) + 1, dtype=float))
        while done < permutations:
            number = min(permutations - done, max(1, AT_ONCE // max(counts.size, 1)))
            above += int((2 * (self._shuffled(source, counts, table, number) + fixed) >= least).sum())
            done += number
        return (1 + above) / (1 + permutations)

    def _shuffled(self, source: Any, counts: Any, table: Any, number: int) -> Any:
        """The sum of the weighted logarithms of tables with the same sums, as they come where the records are paired by chance."""
        numpy, (strata, rows, columns) = self.numpy, counts.shape
        left = numpy.broadcast_to(counts.sum(axis=1), (number, strata, columns)).copy()
        total = numpy.zeros(number)
        for row in range(rows - 1):
            size = numpy.broadcast_to(counts[:, row].sum(axis=1), (number, strata)).copy()
            rest = left.sum(axis=2)
            for column in range(columns - 1):
                rest = rest - left[:, :, column]
                # (where none is drawn it is asked for one of none that are good)
                is_some = size > 0
                good, bad = numpy.where(is_some, left[:, :, column], 0), numpy.where(is_some, rest, 1)
                drawn = source.hypergeometric(good, bad, numpy.maximum(size, 1))
                total += table[drawn].sum(axis=1)
                left[:, :, column] -= drawn
                size -= drawn
            total += table[size].sum(axis=1)
            left[:, :, columns - 1] -= size
        return total + table[left].sum(axis=(1, 2))
