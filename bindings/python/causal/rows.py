"""Data as arrays for models: the codes of the levels of each variable, row by row, with how often or how heavily each row counts."""
from __future__ import annotations

import numbers
from dataclasses import dataclass, replace
from typing import Any, Dict, List, Optional, Sequence, Tuple

from causal.columns import _NUMBER, Column, Data, columns_of, in_order
from causal.databases import database_of
from causal.errors import CountsError
from causal.frames import frame_of
from causal.frequencies import doubt_frequencies
from causal.models import Variable
from causal.samples import Design, _weights, unit_weights
from causal.tables import kept_records, record_counts

# An exposure with more levels than this is taken as a number.
MOST_ARMS = 10


@dataclass(frozen=True)
class Rows:
    """Rows of data: `codes` has the levels of each variable by their numbers, `weights` how much each row counts.

    Where the records have no design, equal ones are one row, `weights` are frequencies and `units` is None; else each record is a row,
    and belongs to a unit, which belongs to a stratum.
    """

    numpy: Any
    variables: Dict[str, Variable]
    codes: Dict[str, Any]
    weights: Any
    units: Optional[Any] = None
    strata: Optional[Any] = None
    dropped: int = 0

    @property
    def records(self) -> int:
        """How many records there are."""
        return int(self.weights.sum()) if self.units is None else len(self.weights)

    def replaced(self, name: str, variable: Variable) -> None:
        """Puts another variable in the place of one."""
        self.variables[name] = variable

    def drawn(self, source: Any, members: Sequence[Any]) -> Any:
        """The weights of records that are drawn anew."""
        if self.units is None:
            total = self.weights.sum()
            return source.multinomial(int(total), self.weights / total).astype(float)
        return self.weights * unit_weights(self.numpy, source, members, len(self.strata if self.strata is not None else ()))[self.units]

    @property
    def members(self) -> List[Any]:
        """The units of each stratum."""
        if self.strata is None:
            return []
        return [self.numpy.flatnonzero(self.strata == stratum) for stratum in sorted(set(self.strata.tolist()))]

    def variance(self, moves: Any) -> float:
        """The variance of a number, by how it moves with the weight of each row."""
        numpy = self.numpy
        if self.units is None:
            total = self.weights.sum()
            return float((self.weights * moves**2).sum() * total / max(total - 1, 1))
        found = 0.0
        units = numpy.bincount(self.units, self.weights * moves, len(self.strata if self.strata is not None else ()))
        for stratum in self.members:
            own = units[stratum]
            if len(own) > 1:
                found += float(((own - own.mean()) ** 2).sum() * len(own) / (len(own) - 1))
        return found


def is_number(level: Any) -> bool:
    """Whether a level is a number, and no truth value."""
    return isinstance(level, numbers.Real) and not isinstance(level, bool)


def variable_of(numpy: Any, column: Column, levels: Sequence[Any], is_factor: bool) -> Variable:
    """A variable: its numbers are those of its levels, where all of them are some and it isn't taken as a factor."""
    known = [level for level in levels if level is not None]
    is_text = column.is_text and all(isinstance(level, str) and _NUMBER.fullmatch(level) for level in known)
    if is_factor or column.order is not None or len(known) < len(levels) or not (is_text or all(map(is_number, known))):
        return Variable(column.name, levels)
    return Variable(column.name, levels, numpy.array([float(level) for level in levels]))


def rows_of(
    numpy: Any,
    data: Data,
    names: Sequence[str],
    exposures: Sequence[str],
    factors: Sequence[str],
    count: Optional[str],
    missing: str,
    design: Design,
    declared: Sequence[str] = (),
) -> Rows:
    """The rows of data of any kind.

    >>> import numpy
    >>> from causal.rows import rows_of
    >>> from causal.samples import Design
    >>> rows = rows_of(numpy, {"X": ["b", "a", "b"], "Z": [3, 2, 3]}, ["X", "Z"], ["X"], [], None, "error", Design())
    >>> rows.codes["X"].tolist(), rows.weights.tolist(), rows.variables["Z"].numbers.tolist()
    ([0, 1], [1.0, 2.0], [2.0, 3.0])
    """
    if count is not None:
        doubt_frequencies(data, count)
    source = None if design else database_of(data) or frame_of(data)
    if source is not None:
        columns, stand_for = source.grouped(list(names), count)
        count = list(columns)[-1]
    else:
        columns, stand_for = columns_of(data, [*names, *([] if count is None else [count]), *design.columns]), None
    kept, dropped = kept_records(columns, count, missing, stand_for)
    if not len(kept):
        raise CountsError("there are no records", 7)
    variables, codes = {}, {}
    for name in names:
        places, levels = columns[name].factor(kept, name in declared)
        order = columns[name].ranked(levels)
        rank = numpy.empty(len(levels), dtype=numpy.int64)
        rank[list(order)] = numpy.arange(len(levels))
        codes[name] = rank[numpy.array(places, dtype=numpy.int64)]
        is_factor = name in factors or name in exposures and len(levels) <= MOST_ARMS
        variables[name] = variable_of(numpy, columns[name], [levels[place] for place in order], is_factor)
    if design:
        return designed(numpy, columns, kept, variables, codes, design, dropped)
    weights = numpy.array(record_counts(columns[count].values, kept) if count is not None else [1] * len(kept), dtype=float)
    codes, weights = merged(numpy, variables, codes, weights)
    return Rows(numpy, variables, codes, weights, dropped=dropped)


def unified(numpy: Any, sources: Sequence[Rows]) -> List[Rows]:
    """Rows of several sources, with one list of levels for each variable.

    >>> import numpy
    >>> from causal.rows import rows_of, unified
    >>> from causal.samples import Design
    >>> rows = [rows_of(numpy, {"X": held}, ["X"], [], ["X"], None, "error", Design()) for held in (["a", "c"], ["b", "c"])]
    >>> [it.codes["X"].tolist() for it in unified(numpy, rows)], rows[0].variables["X"].levels
    ([[0, 2], [1, 2]], ['a', 'c'])
    """
    found = [Rows(numpy, dict(it.variables), dict(it.codes), it.weights, it.units, it.strata, it.dropped) for it in sources]
    for name in dict.fromkeys(name for it in sources for name in it.variables):
        having = [it for it in found if name in it.variables]
        levels: List[Any] = in_order(list(dict.fromkeys(level for it in having for level in it.variables[name].levels)))
        are_numbers = all(it.variables[name].numbers is not None for it in having)
        variable = Variable(name, levels, numpy.array([float(level) for level in levels]) if are_numbers else None)
        places = {level: place for place, level in enumerate(levels)}
        for it in having:
            moved = numpy.array([places[level] for level in it.variables[name].levels], dtype=numpy.int64)
            it.codes[name], it.variables[name] = moved[it.codes[name]], variable
    return found


def alias(rows: Rows, name: str, of: str) -> None:
    """Lets a variable have another name as well."""
    rows.variables[name], rows.codes[name] = replace(rows.variables[of], name=name), rows.codes[of]


def merged(numpy: Any, variables: Dict[str, Variable], codes: Dict[str, Any], weights: Any) -> Tuple[Dict[str, Any], Any]:
    """Equal rows as one, without those that count 0."""
    place = numpy.zeros(len(weights), dtype=numpy.int64)
    for name, variable in variables.items():
        place = place * len(variable.levels) + codes[name]
        # (so that the numbers stay small)
        place = numpy.unique(place, return_inverse=True)[1]
    sums = numpy.bincount(place, weights)
    first = numpy.unique(place, return_index=True)[1]
    some = sums > 0
    return {name: held[first][some] for name, held in codes.items()}, sums[some]


def designed(
    numpy: Any,
    columns: Dict[str, Column],
    kept: Sequence[int],
    variables: Dict[str, Variable],
    codes: Dict[str, Any],
    design: Design,
    dropped: int,
) -> Rows:
    """The records of a survey, each a row."""
    weights = _weights(columns[design.weights], kept) if design.weights else [1.0] * len(kept)
    clusters = columns[design.clusters].factor(kept)[0] if design.clusters else range(len(kept))
    strata = columns[design.strata].factor(kept)[0] if design.strata else [0] * len(kept)
    numbered: Dict[Tuple[int, int], int] = {}
    units = numpy.array([numbered.setdefault(pair, len(numbered)) for pair in zip(strata, clusters)])
    return Rows(
        numpy, variables, codes, numpy.array(weights, dtype=float), units, numpy.array([stratum for stratum, _ in numbered]), dropped
    )
