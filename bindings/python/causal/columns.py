"""Columns of data: of a DataFrame of pandas or polars, of a table of pyarrow, of a mapping of columns, or of a CSV file."""
from __future__ import annotations

import csv
import io
import os
import re
from dataclasses import dataclass
from typing import Any, Callable, Dict, Hashable, Iterable, List, Mapping, Optional, Sequence, Tuple, Union

from causal.errors import CountsError, RequestError
from causal.files import read_bytes
from causal.vocabulary import meant

# A DataFrame or a table, a mapping of columns, the path of a CSV file, or a connection with the name of a table.
Data = Union[str, "os.PathLike[str]", Mapping[str, Any], Any]

_NUMBER = re.compile(r"\s*[-+]?([0-9]+\.?[0-9]*|\.[0-9]+)([eE][-+]?[0-9]+)?\s*")
# An empty field, quoted or not: one between two commas, or at an end of a line.
# What stands in a file of R, or of pandas, where there is no value.
NOT_THERE = "NA"
_BLANK = re.compile(rb'(?:\A|[,\r\n])(?:"")?(?=[,\r\n]|\Z)')


@dataclass(frozen=True)
class Column:
    """A column: its values, which of them are missing, and the order of its levels where it has one: the categories of a
    `Categorical`, false before true.

    >>> from causal.columns import column_of
    >>> column_of("X", ["b", None, "a"]).missing
    [False, True, False]
    """

    name: str
    values: Sequence[Any]
    missing: Sequence[bool]
    order: Optional[Sequence[Any]] = None
    is_text: bool = False
    # Whether it is an ordered `Categorical`.
    is_ordered: bool = False

    def factor(self, kept: Sequence[int], is_declared: bool = False) -> Tuple[List[int], List[Hashable]]:
        """The number of each kept value among the levels, and the levels: those that occur, or all that are declared.

        >>> from causal.columns import Column
        >>> declared = Column("Y", [0, 0], [False] * 2, [0, 1])
        >>> declared.factor(range(2)), declared.factor(range(2), is_declared=True)
        (([0, 0], [0]), ([0, 0], [0, 1]))
        """
        numbers: Dict[Hashable, int] = {}
        values = [None if self.missing[k] and not self.is_text else self.values[k] for k in kept]
        try:
            if self.order is not None:
                occurring = set(values)
                levels = [level for level in self.order if is_declared or level in occurring]
                numbers = {level: k for k, level in enumerate(levels)}
            codes = [numbers.setdefault(value, len(numbers)) for value in values]
        except TypeError as cause:
            raise RequestError(f"the column {self.name} has a value that can't be a level: {cause}") from cause
        return codes, list(numbers)

    def ranked(self, levels: Sequence[Hashable]) -> Tuple[int, ...]:
        """The places of the levels, as `factor` gives them, in order."""
        if self.order is not None:
            return tuple(range(len(levels)))
        places = {level: place for place, level in enumerate(levels)}
        return tuple(places[level] for level in in_order(levels, self.is_text))


def in_order(levels: Sequence[Hashable], is_text: bool = False) -> List[Hashable]:
    """The levels in order: numbers by size, texts by their characters, and others as they compare, or else by their text.

    The levels of a file are texts; where all of them are written numbers, they have the order of the numbers. What stands for a
    missing value comes last.

    >>> from causal.columns import in_order
    >>> in_order([10, None, 2]), in_order(["b", "B", "a"]), in_order(["10", "2"]), in_order(["10", "2", ""], is_text=True)
    ([2, 10, None], ['B', 'a', 'b'], ['10', '2'], ['2', '10', ''])
    """
    last = [level for level in levels if level is None or is_text and level == ""]
    return [*_sorted([level for level in levels if level not in last], is_text), *last]


def _sorted(levels: List[Any], is_text: bool) -> List[Any]:
    if is_text and all(_NUMBER.fullmatch(level) for level in levels):
        return sorted(levels, key=lambda level: (float(level), level))
    try:
        found = sorted(levels)
        if all(a < b for a, b in zip(found, found[1:])):
            return found
    except TypeError:
        pass
    return sorted(levels, key=lambda level: (type(level).__name__, str(level)))


def is_missing(value: Any) -> bool:
    """Whether a value is none: None, NaN, NaT or NA.

    >>> from causal.columns import is_missing
    >>> is_missing(None), is_missing(float("nan")), is_missing("")
    (True, True, False)
    """
    if value is None:
        return True
    differs = value != value
    try:
        return bool(differs)
    except (TypeError, ValueError):
        # NA of pandas: a comparison with it is NA again
        return type(value).__name__ == "NAType"


def column_of(name: str, values: Any) -> Column:
    """A column of a list, an array or a series of values."""
    if isinstance(values, (str, bytes, Mapping)) or not isinstance(values, Iterable):
        raise RequestError(f"the column {name} is no list of values, but of the type {type(values).__name__}")
    shape = getattr(values, "shape", (0,))
    if len(shape) != 1:
        raise RequestError(f"the column {name} is no list of values: it has {len(shape)} dimensions")
    kind = getattr(values, "dtype", None)
    categories = getattr(kind, "categories", None)
    order = _listed(categories) if isinstance(categories, Iterable) else None
    held = _listed(values) or []
    is_ordered = order is not None and bool(getattr(kind, "ordered", False))
    if getattr(kind, "kind", "") == "b":
        order = [False, True]
    return Column(name, held, [is_missing(value) for value in held], order, is_ordered=is_ordered)


def _listed(values: Any) -> Optional[List[Any]]:
    """The values of a list, a series or an array, as values of Python where the array has a list of such."""
    if values is None:
        return None
    # (an array of dates gives numbers)
    if getattr(getattr(values, "dtype", None), "kind", "") not in ("m", "M"):
        for give in ("tolist", "to_list", "to_pylist"):
            if hasattr(values, give):
                return list(getattr(values, give)())
    return list(values)


def path_of(data: Data) -> Optional[str]:
    """The path, where the data is one.

    >>> from causal.columns import path_of
    >>> path_of("counts.csv"), path_of({"X": []})
    ('counts.csv', None)
    """
    return os.fspath(data) if isinstance(data, (str, os.PathLike)) else None


def columns_of(data: Data, used: Sequence[str]) -> Dict[str, Column]:
    """The columns of these names.

    >>> from causal.columns import columns_of
    >>> columns_of({"X": ["a"], "Y": [1]}, ["Y"])["Y"].values
    [1]
    >>> columns_of(None, ["Y"])
    Traceback (most recent call last):
        ...
    causal.errors.RequestError: data is a DataFrame, a mapping of columns, a list of records, the path of a file or (connection, table), and no NoneType
    """
    path = path_of(data)
    if path is not None:
        return csv_columns(read_bytes(path), used)
    names, column = _reader_of(data)
    places: Dict[str, List[int]] = {}
    for place, label in enumerate(names):
        places.setdefault(str(label), []).append(place)
    columns = {name: column_of(name, column(only_place(places.get(name, []), name, places))) for name in used}
    if len({len(it.values) for it in columns.values()}) > 1:
        raise RequestError("the columns have different lengths")
    return columns


def names_of_columns(data: Data) -> List[str]:
    """The names of all columns of data that is no path.

    >>> from causal.columns import names_of_columns
    >>> names_of_columns([{"X": 0}, {"Y": 1}])
    ['X', 'Y']
    """
    return [str(label) for label in _reader_of(data)[0]]


def _reader_of(data: Any) -> Tuple[List[Any], Callable[[int], Any]]:
    """The names of the columns, and what gives the column at a place."""
    if isinstance(data, Mapping):
        labels = list(data)
        return labels, lambda place: data[labels[place]]
    if isinstance(data, (list, tuple)) and data and all(isinstance(record, Mapping) for record in data):
        heads = list(dict.fromkeys(label for record in data for label in record))
        return heads, lambda place: [record.get(heads[place]) for record in data]
    fields: Sequence[str] = getattr(getattr(data, "dtype", None), "names", None) or ()
    if fields:
        return list(fields), lambda place: data[fields[place]]
    if hasattr(data, "columns") and hasattr(data, "iloc"):
        return list(data.columns), lambda place: data.iloc[:, place]
    if hasattr(data, "columns") and hasattr(data, "to_series"):
        return list(data.columns), data.to_series
    if hasattr(data, "column_names") and hasattr(data, "column"):
        return list(data.column_names), data.column
    hint = "; collect() gives the DataFrame of a lazy one" if hasattr(data, "collect") else ""
    hint = "; an array has no names of columns" if hasattr(data, "shape") and not hint else hint
    kinds = "data is a DataFrame, a mapping of columns, a list of records, the path of a file or (connection, table)"
    raise RequestError(f"{kinds}, and no {type(data).__name__}{hint}")


def only_place(places: Sequence[int], name: str, names: Iterable[str]) -> int:
    """The only place of a column; that it is there twice or not at all is refused."""
    if len(places) != 1:
        sentence = f"the column {name} is there twice" if places else f"there is no column {name}{meant(name, names)}"
        raise CountsError(sentence, 3 if places else 2, name)
    return places[0]


def may_have_blanks(text: bytes) -> bool:
    """Whether a CSV text may have an empty field, or the `NA` that R and pandas write, in whatever column; where not, it has none.

    >>> from causal.columns import may_have_blanks
    >>> may_have_blanks(b'X,Y\\n1,2\\n'), may_have_blanks(b'X,Y\\n1,""\\n'), may_have_blanks(b'X,Y\\n1,\\n'), may_have_blanks(b'X,Y\\n1,NA\\n')
    (False, True, True, True)
    """
    return NOT_THERE.encode() in text or _BLANK.search(text.replace(b"\r\n", b"\n").rstrip(b"\r\n")) is not None


def csv_columns(text: bytes, used: Sequence[str]) -> Dict[str, Column]:
    """The columns of a CSV text. An empty field is a missing value, and so is `NA`.

    >>> from causal.columns import csv_columns
    >>> csv_columns(b"X,Y\\na,1\\n,2\\nNA,3\\n", ["X"])["X"].missing
    [False, True, True]
    """
    content = text[3:] if text.startswith(b"\xef\xbb\xbf") else text
    reader = csv.reader(io.StringIO(content.decode("utf-8", "surrogateescape"), newline=""))
    rows = [row for row in reader if row]
    head = rows.pop(0) if rows else []
    columns = {}
    for name in used:
        place = only_place([k for k, label in enumerate(head) if label == name], name, head)
        values = [row[place] for row in rows]
        columns[name] = Column(name, values, [value in ("", NOT_THERE) for value in values], is_text=True)
    return columns
