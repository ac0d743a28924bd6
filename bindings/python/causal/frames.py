"""Data frames that count their own records: those of Spark, of Dask and of polars.

Each does it by its own group-by, and only the counts come here: a row for each combination of levels.
"""
from __future__ import annotations

from dataclasses import dataclass
from typing import Any, Callable, Dict, List, Optional, Sequence, Tuple

from causal.columns import Column, column_of, only_place
from causal.databases import MOST_ROWS, TOO_MANY, count_name
from causal.errors import CountsError

# Columns of levels, then that of the sums of counts and that of the numbers of records.
Columns = List[Any]
# A DataFrame of pandas with as many rows counts its own records as well.
MANY_ROWS = 20_000
WRONG = "the column {} has a count that isn't a whole number from 0 to 10^15"


@dataclass(frozen=True)
class Frame:
    """A data frame that counts its own records: see `frame_of`."""

    frame: Any
    names: Tuple[str, ...]
    count_columns: Callable[[Any, List[str], Optional[str]], Columns]

    def grouped(self, names: Sequence[str], count: Optional[str] = None) -> Tuple[Dict[str, Column], List[int]]:
        """The columns of a table of counts, with how many records each of its rows stands for, as `DatabaseTable.grouped`."""
        for name in [*names, *([] if count is None else [count])]:
            only_place([place for place, held in enumerate(self.names) if held == name], name, self.names)
        *columns, records = self.count_columns(self.frame, list(names), count)
        if len(records) > MOST_ROWS:
            raise CountsError(TOO_MANY, 5)
        heads = [*names, count_name(names) if count is None else count]
        return {name: column_of(name, values) for name, values in zip(heads, columns)}, [int(number) for number in records]


def _columns(rows: Sequence[Sequence[Any]], width: int) -> Columns:
    return [list(values) for values in zip(*rows)] if rows else [[] for _ in range(width)]


def _refuse_counts(count: Optional[str], wrong: int) -> None:
    """Refuses a column of counts of which some are none: a sum would hide them."""
    if wrong:
        raise CountsError(WRONG.format(count), 4, count)


def dask_columns(frame: Any, names: List[str], count: Optional[str]) -> Columns:
    """The counts of a DataFrame of Dask."""
    records = count_name([*names, *([] if count is None else [count])])
    frame = frame[[*names, *([] if count is None else [count])]]
    frame = frame.astype({name: object for name in names if str(frame[name].dtype) == "category"})
    if count is None:
        found = frame.assign(**{records: 1}).groupby(names, dropna=False)[[records]].sum().reset_index().compute()
        return [*(found[name].tolist() for name in names), *[found[records].tolist()] * 2]
    numbers = frame[count]
    if getattr(numbers.dtype, "kind", "") not in ("i", "u", "f", "b"):
        _refuse_counts(count, 1)
    _refuse_counts(count, int(((numbers < 0) | ((numbers != numbers.round()) & ~numbers.isna())).sum().compute()))
    # (a sum passes over counts that are missing, so that these are kept apart)
    lacks = count_name([*names, count, records])
    grouped = frame.assign(**{records: 1, lacks: numbers.isna()}).groupby([*names, lacks], dropna=False)
    found = grouped[[count, records]].sum().reset_index().compute()
    sums = [None if lacking else number for number, lacking in zip(found[count].tolist(), found[lacks].tolist())]
    return [*(found[name].tolist() for name in names), sums, found[records].tolist()]


def polars_columns(frame: Any, names: List[str], count: Optional[str]) -> Columns:
    """The counts of a DataFrame or a LazyFrame of polars."""
    import polars

    frame = frame.lazy()
    records = polars.len() if hasattr(polars, "len") else polars.count()
    if count is None:
        found = frame.group_by(names).agg(records.alias(count_name(names))).collect()
        return [*(found.get_column(name) for name in names), *[found.get_column(count_name(names))] * 2]
    numbers = polars.col(count)
    wrong = (numbers < 0) | (numbers != numbers.cast(polars.Int64, strict=False))
    _refuse_counts(count, frame.filter(wrong).select(records.alias("wrong")).collect().item())
    lacks = count_name([*names, count])
    grouped = frame.group_by([*names, numbers.is_null().alias(lacks)])
    found = grouped.agg(numbers.sum().alias(count), records.alias(count_name([*names, count, lacks]))).collect()
    *levels, lacking, sums, number = found.get_columns()
    return [*levels, [None if it else value for value, it in zip(sums.to_list(), lacking.to_list())], number]


def spark_columns(frame: Any, names: List[str], count: Optional[str]) -> Columns:
    """The counts of a DataFrame of Spark, of which at most one row more is fetched than a formula may read."""
    from pyspark.sql import functions

    columns = [functions.col(_spark_name(name)) for name in names]
    records = functions.count(functions.lit(1)).alias(count_name(names))
    if count is None:
        found = frame.groupBy(*columns).agg(records).limit(MOST_ROWS + 1).collect()
        return _columns([(*row, row[-1]) for row in map(tuple, found)], len(names) + 2)
    numbers = functions.col(_spark_name(count))
    _refuse_counts(count, frame.filter((numbers < 0) | (numbers != functions.round(numbers))).count())
    lacks = numbers.isNull().alias(count_name([*names, count]))
    grouped = frame.groupBy(*columns, lacks).agg(functions.sum(numbers), records)
    rows = map(tuple, grouped.limit(MOST_ROWS + 1).collect())
    return _columns([(*row[: len(names)], None if row[-3] else row[-2], row[-1]) for row in rows], len(names) + 2)


def _spark_name(name: str) -> str:
    """A name as Spark reads one, in which a point would lead into a part of a column."""
    return "`" + name.replace("`", "``") + "`"


def counted_rows(data: Any, names: Sequence[str], count: Optional[str]) -> Optional[Tuple[Dict[str, Column], List[int]]]:
    """The columns of a DataFrame of pandas with many rows, equal ones as one, with how many each stands for; None where it is no such frame,
    or where its own groups don't have all of its rows.

    >>> import pandas
    >>> from causal.frames import counted_rows
    >>> columns, rows = counted_rows(pandas.DataFrame({"X": [True, False] * 20000}), ["X"], None)
    >>> columns["X"].values, columns["X"].order, rows
    ([True, False], [False, True], [20000, 20000])
    """
    kind = type(data)
    if kind.__module__.partition(".")[0] != "pandas" or kind.__name__ != "DataFrame" or len(data) < MANY_ROWS or not names:
        return None
    there = list(data.columns)
    if any(there.count(name) != 1 for name in [*names, *([] if count is None else [count])]):
        return None
    if count is not None and (getattr(data[count].dtype, "kind", "") not in ("i", "u") or bool((data[count] < 0).any())):
        return None
    try:
        groups = data.groupby(list(names), sort=False, dropna=False, observed=True)
        records = groups.size()
        sums = records if count is None else groups[count].sum()
    except (TypeError, ValueError):
        return None
    if int(records.sum()) != len(data):
        return None
    levels = records.index.to_frame(index=False)
    columns = {name: column_of(name, levels[name].astype(data[name].dtype)) for name in names}
    head = count_name(names) if count is None else count
    return {**columns, head: column_of(head, sums.tolist())}, records.tolist()


# By the package and the name of the class.
KINDS = {
    ("dask", "DataFrame"): dask_columns,
    ("polars", "DataFrame"): polars_columns,
    ("polars", "LazyFrame"): polars_columns,
    ("pyspark", "DataFrame"): spark_columns,
}


def frame_of(data: Any) -> Optional[Frame]:
    """The frame, where the data is one that counts its own records.

    >>> from causal.frames import frame_of
    >>> frame_of({"X": [1]}) is None
    True
    """
    if isinstance(data, Frame):
        return data
    for kind in type(data).__mro__:
        counting = KINDS.get((kind.__module__.partition(".")[0], kind.__name__))
        if counting is not None:
            names = data.collect_schema().names() if hasattr(data, "collect_schema") else data.columns
            return Frame(data, tuple(map(str, names)), counting)
    return None
