"""Tables of a database: the SQL that counts records by their levels, and its answer as columns.

What an effect needs of data is how many records have each combination of levels. Any engine tells it by one GROUP BY, however many
records there are.
"""
from __future__ import annotations

from dataclasses import dataclass
from decimal import Decimal
from typing import Any, Dict, List, Optional, Sequence, Tuple, Union

from causal.columns import Column, column_of, only_place
from causal.errors import CountsError, RequestError

# The name of a table, or that of a schema and further ones before it.
TableName = Union[str, Sequence[str]]

# As many combinations of levels a formula reads at most.
MOST_ROWS = 1 << 20
TOO_MANY = "the used columns have more than 2^20 combinations of levels"
QUOTES = ('"', "`")
# The name of the table within a query. A column behind it is never taken for a text, as SQLite takes a lone name in quotes that no
# column has.
_ALIAS = "r"


def identifier(name: str, quote: str = '"') -> str:
    """A name as an identifier of SQL, in quotes, so that nothing of it is read as SQL.

    >>> from causal.databases import identifier
    >>> identifier('a "b"; --'), identifier("a b", quote="`")
    ('"a ""b""; --"', '`a b`')
    """
    if quote not in QUOTES:
        raise RequestError(f"""the quote of a name is '"' or '`', and not {quote!r}""")
    # (engines differ in what a backslash or another quote says between backticks)
    if not isinstance(name, str) or not name or "\0" in name or quote == "`" and ("\\" in name or "`" in name):
        raise RequestError(f"the name {name!r} can't be quoted as an identifier of SQL")
    return quote + name.replace(quote, 2 * quote) + quote


def table_identifier(table: TableName, quote: str = '"') -> str:
    """The name of a table as SQL has it.

    >>> from causal.databases import table_identifier
    >>> table_identifier("all records"), table_identifier(("main", "records"))
    ('"all records"', '"main"."records"')
    """
    parts = list(table) if isinstance(table, (list, tuple)) else [table]
    if not parts:
        raise RequestError("a table has a name")
    return ".".join(identifier(part, quote) for part in parts)


def count_name(names: Sequence[str]) -> str:
    """A name for the column of counts that no variable has, however its letters are written.

    >>> from causal.databases import count_name
    >>> count_name(["X", "Y"]), count_name(["X", "Count"])
    ('count', 'count_')
    """
    taken, name = {other.lower() for other in names}, "count"
    while name in taken:
        name += "_"
    return name


def counts_sql(
    names: Sequence[str], table: TableName, count: Optional[str] = None, missing: str = "error", quote: str = '"'
) -> str:
    """The query for how many records have each combination of levels: a row for each, with its count last.

    The column of counts is named `count`, or as the table's own one, whose counts are summed then.

    >>> from causal.databases import counts_sql
    >>> print(counts_sql(["X", "Y"], "records", missing="drop"))
    SELECT r."X" AS "X", r."Y" AS "Y", COUNT(*) AS "count"
    FROM "records" r
    WHERE r."X" IS NOT NULL AND r."Y" IS NOT NULL
    GROUP BY r."X", r."Y"
    """
    used = [*names, *([] if count is None else [count])]
    columns = {name: f"{_ALIAS}.{identifier(name, quote)}" for name in used}
    number = "COUNT(*)" if count is None else f"SUM({columns[count]})"
    chosen = [f"{columns[name]} AS {identifier(name, quote)}" for name in names]
    lines = [
        f"SELECT {', '.join(chosen)}, {number} AS {identifier(count_name(names) if count is None else count, quote)}",
        f"FROM {table_identifier(table, quote)} {_ALIAS}",
    ]
    if missing == "drop":
        lines.append(f"WHERE {' AND '.join(f'{columns[name]} IS NOT NULL' for name in used)}")
    groups = [columns[name] for name in names]
    # (a sum passes over counts that are missing, so that these are kept apart)
    groups += [f"CASE WHEN {columns[count]} IS NULL THEN 1 ELSE 0 END"] if count is not None and missing != "drop" else []
    return "\n".join([*lines, f"GROUP BY {', '.join(groups)}"])


@dataclass(frozen=True)
class DatabaseTable:
    """A table, or a view, that a connection of the DB-API reads.

    >>> import sqlite3
    >>> from causal.databases import DatabaseTable
    >>> connection = sqlite3.connect(":memory:")
    >>> held = connection.execute("CREATE TABLE records (X, Y)")
    >>> DatabaseTable(connection, "records").columns()
    ['X', 'Y']
    """

    connection: Any
    table: TableName

    def grouped(self, names: Sequence[str], count: Optional[str] = None) -> Tuple[Dict[str, Column], List[int]]:
        """The columns of a table of counts, with how many records each of its rows stands for.

        The column of counts comes last: it is that of the name `count`, or else one that no variable has.

        >>> import sqlite3
        >>> from causal.databases import DatabaseTable
        >>> connection = sqlite3.connect(":memory:")
        >>> held = connection.execute("CREATE TABLE records AS SELECT 'a' AS X UNION ALL SELECT 'a' UNION ALL SELECT 'b'")
        >>> columns, records = DatabaseTable(connection, "records").grouped(["X"])
        >>> sorted(zip(columns["X"].values, columns["count"].values))
        [('a', 2), ('b', 1)]
        """
        self._check(names, count)
        select, rest = counts_sql(names, self.table, count).split("\n", 1)
        rows = self._rows(f"{select}, COUNT(*)\n{rest}", MOST_ROWS + 1)
        if len(rows) > MOST_ROWS:
            raise CountsError(TOO_MANY, 5)
        heads = [*names, count_name(names) if count is None else count]
        held = [[_plain(row[place]) for row in rows] for place in range(len(heads) + 1)]
        self._check_texts(names, held)
        return {name: column_of(name, values) for name, values in zip(heads, held)}, held[-1]

    def columns(self) -> List[str]:
        """The names of the columns."""
        cursor = self._execute(f"SELECT * FROM {table_identifier(self.table)} {_ALIAS} WHERE 1 = 0")
        return [str(column[0]) for column in cursor.description]

    def _check(self, names: Sequence[str], count: Optional[str]) -> None:
        """Refuses a column that isn't there or is there twice, and counts that aren't whole numbers."""
        there = self.columns()
        for name in [*names, *([] if count is None else [count])]:
            only_place([place for place, held in enumerate(there) if held == name], name, there)
        if count is None:
            return
        column, table = f"{_ALIAS}.{identifier(count)}", table_identifier(self.table)
        wrong = f"{column} < 0 OR {column} <> CAST({column} AS BIGINT)"
        if self._rows(f"SELECT COUNT(*) FROM {table} {_ALIAS} WHERE {wrong}", 1)[0][0]:
            raise CountsError(f"the column {count} has a count that isn't a whole number from 0 to 10^15", 4, count)

    def _check_texts(self, names: Sequence[str], held: Sequence[Sequence[Any]]) -> None:
        """Refuses texts that the engine takes for one, as a collation without case does: a row has one of them for all."""
        texts = {name: {value for value in values if isinstance(value, str)} for name, values in zip(names, held)}
        asked = [name for name in names if texts[name]]
        if not asked:
            return
        chosen = ", ".join(f"COUNT(DISTINCT {_ALIAS}.{identifier(name)})" for name in asked)
        numbers = self._rows(f"SELECT {chosen} FROM {table_identifier(self.table)} {_ALIAS}", 1)[0]
        for name, number in zip(asked, numbers):
            if len(texts[name]) > number:
                raise RequestError(
                    f"the database takes several texts of the column {name} for one, as a collation without case does;"
                    " give a view that writes each level in one way"
                )

    def _rows(self, query: str, most: int) -> List[Sequence[Any]]:
        return list(self._execute(query).fetchmany(most))

    def _execute(self, query: str) -> Any:
        # (a cursor of duckdb is a further connection, without the temporary tables of the first)
        of = self.connection if hasattr(self.connection, "execute") else self.connection.cursor()
        found = of.execute(query)
        return of if found is None or not hasattr(found, "fetchmany") else found


def _plain(value: Any) -> Any:
    """The value, or a whole number where an engine gives a sum as a decimal one.

    >>> from causal.databases import _plain
    >>> _plain(Decimal("5.0")), _plain(Decimal("0.5")), _plain("5")
    (5, Decimal('0.5'), '5')
    """
    return int(value) if isinstance(value, Decimal) and value.is_finite() and value == value.to_integral_value() else value


def database_of(data: Any) -> Optional[DatabaseTable]:
    """The table, where the data is a pair of a connection and the name of a table.

    >>> import sqlite3
    >>> from causal.databases import database_of
    >>> database_of((sqlite3.connect(":memory:"), "records")).table, database_of("counts.csv")
    ('records', None)
    """
    if isinstance(data, DatabaseTable):
        return data
    if not isinstance(data, tuple) or len(data) != 2 or not hasattr(data[0], "cursor"):
        return None
    table_identifier(data[1])
    return DatabaseTable(*data)
