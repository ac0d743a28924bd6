"""Tables of counts: data as levels and counts, and the text of counts that the program reads.

Levels are sent as their numbers, so that any value may be a level; the answer's levels are looked up again.
"""
from __future__ import annotations

import math
from collections import Counter
from dataclasses import dataclass, field, replace
from operator import index
from typing import Any, Callable, Dict, Hashable, Iterable, List, Mapping, Optional, Sequence, Tuple, Union

from causal.columns import Column, Data, columns_of, csv_columns
from causal.databases import MOST_ROWS, DatabaseTable, database_of
from causal.errors import CausalError, CountsError, MissingValues, RequestError, WrongType
from causal.frames import Frame, counted_rows, frame_of

Cell = Tuple[int, ...]
MISSING = ("error", "drop", "level")


@dataclass(frozen=True)
class Table:
    """Counts by the levels of the used variables.

    `levels` has the levels of each variable in order; `counts` the count of each cell, a tuple of places in these lists;
    `ranked` the places of the levels in the order of their size, of their text or of the categories; `dropped` says how many records
    were left out since they lacked a value; `orders` has the categories of each ordered `Categorical`.

    >>> from causal.tables import table_of
    >>> table = table_of({"X": ["a", "b", "a"], "Y": [1, 1, 1]}, ["X", "Y"])
    >>> table.levels, table.counts
    ((['a', 'b'], [1]), {(0, 0): 2, (1, 0): 1})
    """

    names: Tuple[str, ...]
    levels: Tuple[List[Hashable], ...]
    counts: Dict[Cell, int]
    ranked: Tuple[Tuple[int, ...], ...]
    dropped: int = 0
    orders: Mapping[str, Sequence[Hashable]] = field(default_factory=dict)

    @property
    def is_wide(self) -> bool:
        """Whether there are more combinations of levels than a formula reads."""
        return math.prod(map(len, self.levels)) > MOST_ROWS

    def check_size(self) -> None:
        """Refuses more combinations of levels than a formula reads."""
        sizes = {name: len(levels) for name, levels in zip(self.names, self.levels)}
        if self.is_wide:
            told = ", ".join(f"{name} {size}" for name, size in sorted(sizes.items(), key=lambda pair: -pair[1]))
            raise CountsError(
                f"the used columns have {math.prod(sizes.values())} combinations of levels, more than 2^20 (levels: {told}); group levels,"
                " take a smaller set (adjustment_sets() lists them), or a model: estimate(data, ..)",
                5,
            )

    @property
    def count_column(self) -> str:
        """A name for the column of counts that no variable has."""
        name = "count"
        while name in self.names:
            name += "_"
        return name

    def level(self, name: str, number: str) -> Hashable:
        """The level that a printed number stands for."""
        return self.levels[self.names.index(name)][int(number)]

    def levels_of(self, name: str) -> List[Hashable]:
        """The levels of a variable."""
        return self.levels[self.names.index(name)]

    def ranked_of(self, name: str) -> Tuple[int, ...]:
        """The places of a variable's levels, in order."""
        return self.ranked[self.names.index(name)]

    def pinned(self, pins: Mapping[str, int]) -> "Table":
        """The table with another order of the levels of some variables: that at the given place comes first.

        >>> from causal.tables import table_of
        >>> table = table_of({"X": ["b", "a", "b"], "Y": [1, 1, 1]}, ["X", "Y"]).pinned({"X": 1})
        >>> table.levels, table.counts
        ((['b', 'a'], [1]), {(1, 0): 1, (0, 0): 2})
        """
        places = [pins.get(name, 0) for name in self.names]
        levels = tuple([held[at], *held[:at], *held[at + 1 :]] if held else held for held, at in zip(self.levels, places))

        def moved(code: int, at: int) -> int:
            return 0 if code == at else code + (code < at)

        counts = {tuple(map(moved, cell, places)): count for cell, count in self.counts.items()}
        ranked = tuple(tuple(moved(place, at) for place in order) for order, at in zip(self.ranked, places))
        return replace(self, levels=levels, counts=counts, ranked=ranked)

    def ordered(self) -> "Table":
        """The table with its levels in order, and its cells in the order of these.

        >>> from causal.columns import columns_of
        >>> from causal.tables import table_from
        >>> table = table_from(columns_of({"X": ["b", "a", "b"], "Y": [1, 1, 1]}, ["X", "Y"]), ["X", "Y"]).ordered()
        >>> table.levels, table.counts
        ((['a', 'b'], [1]), {(0, 0): 1, (1, 0): 2})
        """
        places = [{old: new for new, old in enumerate(order)} for order in self.ranked]
        levels = tuple([held[place] for place in order] for held, order in zip(self.levels, self.ranked))
        counts = {tuple(place[code] for place, code in zip(places, cell)): count for cell, count in self.counts.items()}
        ranked = tuple(tuple(range(len(order))) for order in self.ranked)
        return replace(self, levels=levels, counts=dict(sorted(counts.items())), ranked=ranked)

    def with_names(self, names: Mapping[str, str]) -> "Table":
        """The table in which some variables have a second name, as a column of its own.

        >>> from causal.tables import table_of
        >>> table = table_of({"X": ["a", "b", "a"], "Y": [1, 1, 1]}, ["X", "Y"]).with_names({"X'": "X"})
        >>> table.names, table.counts
        (('X', 'Y', "X'"), {(0, 0, 0): 2, (1, 0, 1): 1})
        """
        places = [self.names.index(name) for name in names.values()]
        levels, ranked = ((*held, *(held[place] for place in places)) for held in (self.levels, self.ranked))
        counts = {(*cell, *(cell[place] for place in places)): count for cell, count in self.counts.items()}
        orders = {**self.orders, **{other: self.orders[name] for other, name in names.items() if name in self.orders}}
        return replace(self, names=(*self.names, *names), levels=levels, counts=counts, ranked=ranked, orders=orders)

    def text(self, counts: Optional[Mapping[Cell, int]] = None, kept: Optional[Iterable[str]] = None) -> bytes:
        """The counts as CSV: this table's, or those given in its place.

        Records with the count 0 come first, which set the order of the levels of the variables `kept` (all unless given); of
        another variable there are the levels alone that the counts have.

        >>> from causal.tables import table_of
        >>> table_of({"X": ["a", "b", "a"], "Y": [1, 1, 1]}, ["X", "Y"]).text()
        b'"X","Y","count"\\n0,0,0\\n1,0,0\\n0,0,2\\n1,0,1\\n'
        """
        counts = self.counts if counts is None else counts
        head = ",".join('"' + name.replace('"', '""') + '"' for name in (*self.names, self.count_column))
        rows = [*self._order(counts, kept), *counts.items()]
        lines = [",".join(map(str, (*cell, count))) for cell, count in rows]
        return "\n".join([head, *lines, ""]).encode("utf-8", "surrogatepass")

    def _order(self, counts: Mapping[Cell, int], kept: Optional[Iterable[str]]) -> List[Tuple[Cell, int]]:
        names = set(self.names if kept is None else kept)
        base = next(iter(counts), None)
        if base is None:
            return []
        sizes = [len(levels) if name in names else 0 for name, levels in zip(self.names, self.levels)]
        return [(tuple(min(k, n - 1) if n else b for n, b in zip(sizes, base)), 0) for k in range(max(sizes, default=0))]


def check_request(names: Sequence[str], count: Optional[str], missing: str) -> None:
    """Refuses what can't be asked of any data: a wrong word for missing values, or a column of counts that is a variable too.

    >>> from causal.tables import check_request
    >>> check_request(["X", "Y"], "Y", "error")
    Traceback (most recent call last):
        ...
    causal.errors.RequestError: the column Y can't hold the counts: it is a variable that the answer needs
    """
    if missing not in MISSING:
        raise RequestError(f"missing is {', '.join(map(repr, MISSING[:-1]))} or {MISSING[-1]!r}, and not {missing!r}")
    if count is not None and not isinstance(count, str):
        raise WrongType(f"count is the name of a column, and no {type(count).__name__}")
    if count in names:
        raise RequestError(f"the column {count} can't hold the counts: it is a variable that the answer needs")


def table_of(
    data: Data, names: Sequence[str], count: Optional[str] = None, missing: str = "error", declared: Iterable[str] = ()
) -> Table:
    """The table of the named variables in data of any kind: see `table_from`. Its levels are in order."""
    check_request(names, count, missing)
    source = database_of(data) or frame_of(data)
    if source is not None:
        return table_of_source(source, names, count, missing)
    counted = counted_rows(data, names, count)
    if counted is not None:
        return table_from(counted[0], names, list(counted[0])[-1], missing, counted[1], declared).ordered()
    columns = columns_of(data, [*names, *([count] if count is not None else [])])
    return table_from(columns, names, count, missing, declared=declared).ordered()


def table_of_source(source: Union[DatabaseTable, Frame], names: Sequence[str], count: Optional[str], missing: str) -> Table:
    """The table of what a database or a data frame has counted. Its levels are in order, since an engine gives its rows in any."""
    columns, records = source.grouped(names, count)
    return table_from(columns, names, list(columns)[-1], missing, records).ordered()


def table_of_file(
    text: bytes,
    names: Sequence[str],
    count: Optional[str],
    missing: str,
    over_text: Callable[[bytes], object],
    over_table: Callable[[Table], object],
) -> Table:
    """The table of a CSV text. The library reads it itself too, and both readings have to give the same answer."""
    direct = over_text(text)
    columns = csv_columns(text, [*names, *([count] if count is not None else [])])
    if over_table(table_from(columns, names, count, "level")) != direct:
        raise CausalError("the file isn't plain CSV: Python reads it otherwise than the library does; give a DataFrame instead")
    return table_from(columns, names, count, missing).ordered()


def table_from(
    columns: Mapping[str, Column],
    names: Sequence[str],
    count: Optional[str] = None,
    missing: str = "error",
    rows: Optional[Sequence[int]] = None,
    declared: Iterable[str] = (),
) -> Table:
    """The table of the named variables in columns.

    The levels of a `Categorical` are its categories that occur, in their order, or all of them for the variables `declared`; of any
    other column its values in order of first appearance. A missing value (None, NaN, NaT, NA, an empty field of a file) in a used
    column is refused; with `missing="drop"` its record is left out, and with "level" it is a level. `rows` says how many rows of a
    database each row stands for, where it isn't one.

    >>> from causal.columns import columns_of
    >>> from causal.tables import table_from
    >>> table_from(columns_of({"X": ["a", None], "n": [100, 500]}, ["X", "n"]), ["X"], "n", "drop").dropped
    500
    """
    kept, dropped = kept_records(columns, count, missing, rows)
    counts = record_counts(columns[count].values, kept) if count is not None else [1] * len(kept)
    whole = set(declared)
    factors = [columns[name].factor(kept, name in whole) for name in names]
    summed: Counter[Cell] = Counter()
    for cell, number in zip(zip(*(codes for codes, _ in factors)), counts):
        summed[cell] += number
    ranked = tuple(columns[name].ranked(levels) for name, (_, levels) in zip(names, factors))
    orders = {name: list(columns[name].order or ()) for name in names if columns[name].is_ordered}
    return Table(tuple(names), tuple(levels for _, levels in factors), dict(summed), ranked, dropped, orders)


def kept_records(
    columns: Mapping[str, Column], count: Optional[str], missing: str, rows: Optional[Sequence[int]] = None
) -> Tuple[Sequence[int], int]:
    """The rows that are kept, and how many records the others stand for: by their counts, where these are told."""
    size = max((len(column.values) for column in columns.values()), default=0)
    lacking = [column for column in columns.values() if any(column.missing)]
    if not lacking or missing == "level":
        return range(size), 0
    weights = list(rows) if rows is not None else [1] * size
    if count is not None:
        counts = [_whole(value) for value in columns[count].values]
        weights = [weight if number is None else number for weight, number in zip(weights, counts)]
    if missing == "error":
        first = lacking[0]
        without = sum(weights[k] for k in range(size) if first.missing[k])
        others = ", ".join(column.name for column in lacking[1:])
        told = f"the column {first.name} has no value in {without} of {sum(weights)} records" + (f"; {others} lack some too" if others else "")
        raise MissingValues(f'{told}; give missing="drop" to leave such records out', place=(first.name, without))
    kept = [k for k in range(size) if not any(column.missing[k] for column in lacking)]
    return kept, sum(weights) - sum(weights[k] for k in kept)


def lacking_values(data: Data, names: Sequence[str], count: Optional[str] = None) -> Dict[str, int]:
    """How many records lack a value, for each column in which some do.

    >>> from causal.tables import lacking_values
    >>> lacking_values({"X": [None, 1], "Y": [2, 2], "n": [30, 1]}, ["X", "Y"], "n")
    {'X': 30}
    """
    source = database_of(data) or frame_of(data)
    columns: Mapping[str, Column]
    if source is not None:
        columns, rows = source.grouped(list(names), count)
        count = list(columns)[-1]
    else:
        columns, rows = columns_of(data, [*names, *([count] if count is not None else [])]), None
    size = max((len(column.values) for column in columns.values()), default=0)
    numbers = list(rows) if rows is not None else [1] * size
    if count is not None:
        numbers = [number if _whole(value) is None else int(value) for number, value in zip(numbers, columns[count].values)]
    found = {name: sum(number for number, lacks in zip(numbers, columns[name].missing) if lacks) for name in names}
    return {name: number for name, number in found.items() if number}


def record_counts(values: Sequence[Any], kept: Sequence[int]) -> List[int]:
    counts = []
    for record in kept:
        number = _whole(values[record])
        if number is None:
            told = f"the count of record {record + 1} isn't a whole number from 0 to 10^15"
            hint = f"{told}; the weights of a survey are named by weights" if isinstance(values[record], float) else told
            raise CountsError(hint, 4, record + 1)
        counts.append(number)
    return counts


def _whole(value: Any) -> Optional[int]:
    """The value as a whole number that isn't negative, or None. A text of digits is one."""
    if isinstance(value, str):
        return int(value) if value.isascii() and value.isdigit() else None
    if isinstance(value, float):
        return int(value) if value.is_integer() and value >= 0 else None
    try:
        number = index(value)
    except TypeError:
        return None
    return number if number >= 0 else None
