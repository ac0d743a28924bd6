"""The SQL for what an answer reads of data, for a person to run where the records are."""
from __future__ import annotations

from typing import Optional, Sequence, Tuple, Union

from causal.answers import Adjustment
from causal.databases import TableName, counts_sql
from causal.diagram import Diagram
from causal.errors import RequestError
from causal.evaluation import Evaluation
from causal.formula import Formula, HedgeSets
from causal.implications import Implications
from causal.names import Names
from causal.tables import check_request

Asked = Union[Diagram, Formula, Adjustment, Implications, HedgeSets]


def counts_query(
    asked: Asked,
    table: TableName,
    x: Optional[Names] = None,
    y: Optional[Names] = None,
    *,
    count: Optional[str] = None,
    missing: str = "error",
    quote: str = '"',
) -> str:
    """The SQL query for the counts that an answer reads: a row for each combination of levels, with how many records have it.

    What is asked is a diagram (then it is the formula of `identify`, for x and y), a formula, as that of `identify` with `short`, an
    adjustment set that is admissible, as `adjusts` answers, or implications. The rows are at most 2^20, however many records there are: what they are handed to as
    data, with `count="count"`, gives the same as the records. (The column of counts has another name where a variable has this.)

    Names are quoted as identifiers, by `quote`: '"', or '`' where an engine wants that. The table is named by one name, or with
    its schema as in `("schema", "table")`. `count` names a column of counts of the table itself, which are summed, under its name.
    With `missing="drop"` records that lack a value are left out; else they are counted by themselves, and it is for what reads the
    counts to refuse them or to make them a level. Levels are those that the engine holds apart: where a collation takes several
    texts for one, each level has to be written in one way first.

    >>> from causal import Diagram, counts_query
    >>> kidney = Diagram("dag { T [exposure] R [outcome]  S -> T -> R <- S }")
    >>> print(counts_query(kidney, "patients"))
    SELECT r."T" AS "T", r."R" AS "R", r."S" AS "S", COUNT(*) AS "count"
    FROM "patients" r
    GROUP BY r."T", r."R", r."S"
    >>> print(counts_query(kidney.adjusts("S"), ("clinic", "patients"), missing="drop"))
    SELECT r."R" AS "R", r."T" AS "T", r."S" AS "S", COUNT(*) AS "count"
    FROM "clinic"."patients" r
    WHERE r."R" IS NOT NULL AND r."T" IS NOT NULL AND r."S" IS NOT NULL
    GROUP BY r."R", r."T", r."S"
    """
    if not isinstance(asked, Diagram) and (x is not None or y is not None):
        raise RequestError("x and y are given with a diagram; an answer has its own")
    names = Evaluation(asked, x, y).used if isinstance(asked, Diagram) else names_read(asked)
    check_request(names, count, missing)
    return counts_sql(names, table, count, missing, quote)


def names_read(answer: Union[Formula, Adjustment, Implications, HedgeSets]) -> Sequence[str]:
    """The variables that an answer reads, those of its target first.

    >>> from causal import Diagram
    >>> from causal.queries import names_read
    >>> names_read(Diagram("dag { X -> M -> Y X <-> Y }").identify("X", "Y"))
    ('Y', 'X', 'M')
    """
    if isinstance(answer, Implications):
        return _some(answer.variables, "the diagram implies nothing of data")
    formula = answer.formula if isinstance(answer, Adjustment) else answer
    if not isinstance(formula, Formula):
        raise RequestError(f"no formula reads any counts: {str(answer).splitlines()[0]}")
    if formula.experiments:
        raise RequestError("the formula reads experiments too, which no counts of one table hold")
    target = (*formula.target.y, *formula.target.x, *formula.target.given)
    return tuple(dict.fromkeys([*target, *sorted(formula.variables)]))


def _some(names: Tuple[str, ...], otherwise: str) -> Tuple[str, ...]:
    if not names:
        raise RequestError(otherwise)
    return names
