"""Whether what is given as frequencies looks like the weights of records."""
from __future__ import annotations

import csv
import io
from typing import Any, List, Sequence

from causal.columns import Data, columns_of, names_of_columns, path_of
from causal.databases import database_of
from causal.errors import CausalError, DataWarning
from causal.files import read_bytes
from causal.frames import frame_of
from causal.tables import record_counts
from causal.vocabulary import warn

# Fewer rows than these say nothing, and more than these, or longer files, aren't looked at; fewer than so many different frequencies aren't
# like weights.
LEAST_ROWS, MOST_ROWS, MOST_BYTES, LEAST_LEVELS = 20, 100_000, 1 << 22, 3


def doubt_frequencies(data: Data, count: str) -> None:
    """Warns where most rows are like another one in all but their frequencies: frequencies of a table stand in rows that differ, and
    each of these is likely a record with its weight.

    >>> import warnings
    >>> from causal.frequencies import doubt_frequencies
    >>> with warnings.catch_warnings(record=True) as caught:
    ...     warnings.simplefilter("always")
    ...     doubt_frequencies({"X": [0, 1] * 20, "n": [50, 70, 90, 60] * 10}, "n")
    >>> print(caught[0].message)
    n holds frequencies, so that 40 rows stand for 2700 records; but 38 rows are like another in all else: the weights of a survey are named by weights
    """
    try:
        rows, counts = rows_of_data(data, count)
    except (CausalError, TypeError):
        # (what is wrong with the data is refused where it is read)
        return
    if not LEAST_ROWS <= len(rows) <= MOST_ROWS or len(set(counts)) < LEAST_LEVELS:
        return
    alike = len(rows) - len(set(rows))
    if 2 * alike > len(rows):
        stand = f"{count} holds frequencies, so that {len(rows)} rows stand for {sum(counts)} records"
        warn(f"{stand}; but {alike} rows are like another in all else: the weights of a survey are named by weights", DataWarning)


def rows_of_data(data: Data, count: str) -> "tuple[List[Any], Sequence[int]]":
    """The rows without their frequencies, and these; none of what isn't in this process, or is long."""
    if database_of(data) is not None or frame_of(data) is not None:
        return [], []
    path = path_of(data)
    if path is None:
        names: Sequence[str] = names_of_columns(data)
    else:
        text = read_bytes(path)
        if len(text) > MOST_BYTES:
            return [], []
        names = next(csv.reader(io.StringIO(text.decode("utf-8", "replace"), newline="")), [])
    columns = columns_of(data, names)
    if count not in columns or len(columns[count].values) > MOST_ROWS:
        return [], []
    codes = [column.factor(range(len(column.values)))[0] for name, column in columns.items() if name != count]
    return list(zip(*codes)), record_counts(columns[count].values, range(len(columns[count].values)))
