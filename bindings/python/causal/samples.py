"""Records with weights, clusters and strata, as a survey has them: their table, and how they are drawn anew.

What is drawn is clusters within strata: one fewer than there are, with weights as much larger (Rao and Wu, 1988). It is computed, and
nothing about it is proved.
"""
from __future__ import annotations

import math
from collections import Counter
from dataclasses import dataclass, replace
from typing import Any, Dict, Hashable, Iterable, Iterator, List, Mapping, Optional, Sequence, Tuple

from causal.columns import Column, Data, columns_of
from causal.databases import database_of
from causal.errors import CountsError, RequestError
from causal.frames import frame_of
from causal.tables import Cell, Table, kept_records
from causal.vocabulary import needed

# Sums of weights are rounded to whole numbers of this many in all.
FINE = 10**12
WHOLE = 10**15


@dataclass(frozen=True)
class Design:
    """The columns that hold the weights, the clusters and the strata of records."""

    weights: Optional[str] = None
    clusters: Optional[str] = None
    strata: Optional[str] = None

    def __bool__(self) -> bool:
        return bool(self.columns)

    @property
    def columns(self) -> List[str]:
        """The columns that are named."""
        return [name for name in (self.weights, self.clusters, self.strata) if name is not None]

    def check(self, names: Sequence[str], count: Optional[str]) -> None:
        """Refuses what isn't the name of a column, and counts beside it.

        >>> from causal.samples import Design
        >>> Design(weights="w").check(["X"], "n")
        Traceback (most recent call last):
            ...
        causal.errors.RequestError: count says how many records a row stands for, and weights are those of single records: give one
        """
        for name in self.columns:
            if not isinstance(name, str):
                raise RequestError(f"weights, clusters and strata are names of columns, and no {type(name).__name__}")
            if name in names and name == self.weights:
                raise RequestError(f"the column {name} can't hold the weights: it is a variable that the answer needs")
        if self and count is not None:
            raise RequestError("count says how many records a row stands for, and weights are those of single records: give one")

    def __str__(self) -> str:
        told = {"weights": self.weights, "clusters": self.clusters, "strata": self.strata}
        return ", ".join(f"{kind} {name}" for kind, name in told.items() if name is not None)


@dataclass(frozen=True)
class Sample:
    """Records with their weights: `table` has the sums of the weights, rounded to whole numbers, in the order of its levels."""

    table: Table
    codes: Tuple[Sequence[int], ...]
    levels: Tuple[Sequence[Hashable], ...]
    weights: Sequence[float]
    units: Sequence[int]
    # The stratum of each unit.
    strata: Sequence[int]

    def with_names(self, names: Mapping[str, str]) -> "Sample":
        """The records where some variables have a second name: see `Table.with_names`."""
        places = [self.table.names.index(name) for name in names.values()]
        codes, levels = ((*held, *(held[place] for place in places)) for held in (self.codes, self.levels))
        return replace(self, table=self.table.with_names(names), codes=codes, levels=levels)

    def places_in(self, table: Table) -> List[Cell]:
        """The cell of each record in a table with the same levels in another order."""
        maps = []
        for held, there in zip(self.levels, table.levels):
            places = {level: place for place, level in enumerate(there)}
            maps.append([places[level] for level in held])
        return [tuple(own[code] for own, code in zip(maps, cell)) for cell in zip(*self.codes)]

    def records_in(self, table: Table) -> Dict[Cell, int]:
        """How many records each cell has."""
        return dict(Counter(self.places_in(table)))

    def draws(self, table: Table, resamples: int, seed: int, at_once: int) -> Iterator[Any]:
        """The sums of weights of records that are drawn anew, by cells; as many tables at once as are wanted."""
        numpy = needed("numpy", "an interval with weights, clusters or strata")
        sizes = [max(len(held), 1) for held in table.levels]
        cells = numpy.ravel_multi_index(numpy.array(self.places_in(table)).T, sizes)
        weights, units, strata = numpy.array(self.weights, dtype=float), numpy.array(self.units), numpy.array(self.strata)
        members = [numpy.flatnonzero(strata == stratum) for stratum in sorted(set(self.strata))]
        source = numpy.random.RandomState(seed % 2**32)
        for start in range(0, resamples, at_once):
            number = min(at_once, resamples - start)
            found = numpy.zeros((number, math.prod(sizes)))
            for row in range(number):
                times = unit_weights(numpy, source, members, len(strata))
                found[row] = numpy.bincount(cells, weights * times[units], math.prod(sizes))
            yield found


def unit_weights(numpy: Any, source: Any, members: Sequence[Any], number: int) -> Any:
    """How often each unit is drawn, times the factor of its stratum: one unit fewer is drawn than a stratum has; the only one stays."""
    times = numpy.ones(number)
    for units in members:
        size = len(units)
        if size > 1:
            drawn = numpy.bincount(source.randint(0, size, size - 1), minlength=size)
            times[units] = drawn * (size / (size - 1))
    return times


def sample_of(data: Data, names: Sequence[str], design: Design, missing: str, declared: Iterable[str] = ()) -> Sample:
    """The records of data, by the columns of a design.

    >>> from causal.samples import Design, sample_of
    >>> sample = sample_of({"X": ["b", "a"], "w": [0.5, 1.5]}, ["X"], Design(weights="w"), "error")
    >>> sample.table.levels, sample.table.counts
    ((['a', 'b'],), {(0,): 750000000000, (1,): 250000000000})
    """
    if database_of(data) or frame_of(data):
        raise RequestError("weights, clusters and strata need the single records: fetch these columns as a DataFrame")
    columns = columns_of(data, [*names, *design.columns])
    kept, dropped = kept_records(columns, None, missing)
    weights = _weights(columns[design.weights], kept) if design.weights else [1.0] * len(kept)
    factors = [columns[name].factor(kept, name in set(declared)) for name in names]
    clusters = columns[design.clusters].factor(kept)[0] if design.clusters else list(range(len(kept)))
    strata = columns[design.strata].factor(kept)[0] if design.strata else [0] * len(kept)
    numbers: Dict[Tuple[int, int], int] = {}
    units = [numbers.setdefault(pair, len(numbers)) for pair in zip(strata, clusters)]
    summed: Dict[Cell, List[float]] = {}
    for cell, weight in zip(zip(*(codes for codes, _ in factors)), weights):
        summed.setdefault(cell, []).append(weight)
    counts = whole_numbers({cell: math.fsum(own) for cell, own in summed.items()})
    ranked = tuple(columns[name].ranked(levels) for name, (_, levels) in zip(names, factors))
    orders = {name: list(columns[name].order or ()) for name in names if columns[name].is_ordered}
    table = Table(tuple(names), tuple(levels for _, levels in factors), counts, ranked, dropped, orders).ordered()
    held = tuple(codes for codes, _ in factors), tuple(levels for _, levels in factors)
    return Sample(table, *held, weights, units, [stratum for stratum, _ in numbers])


def _weights(column: Column, kept: Sequence[int]) -> List[float]:
    found = []
    for record in kept:
        try:
            weight = float(column.values[record])
        except (TypeError, ValueError):
            weight = -1.0
        if not 0 <= weight < math.inf:
            raise CountsError(f"the weight of record {record + 1} isn't a number from 0 on", 4, record + 1)
        found.append(weight)
    if not any(found):
        raise CountsError("the weights sum to 0", 7)
    return found


def whole_numbers(sums: Dict[Cell, float]) -> Dict[Cell, int]:
    """The sums of weights as whole numbers: as they are where they are whole, and else rounded to parts of a million of a million.

    >>> from causal.samples import whole_numbers
    >>> whole_numbers({(0,): 3.0, (1,): 1.0}), whole_numbers({(0,): 0.25, (1,): 0.75})
    ({(0,): 3, (1,): 1}, {(0,): 250000000000, (1,): 750000000000})
    """
    total = math.fsum(sums.values())
    if all(weight.is_integer() for weight in sums.values()) and total <= WHOLE:
        return {cell: int(weight) for cell, weight in sums.items()}
    return {cell: max(round(weight * (FINE / total)), 1) if weight else 0 for cell, weight in sums.items()}
