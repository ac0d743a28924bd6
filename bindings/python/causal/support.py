"""Positivity: how many records each arm has in each stratum of a set."""
from __future__ import annotations

from collections import Counter
from dataclasses import dataclass
from itertools import chain
from typing import TYPE_CHECKING, Any, Dict, List, Optional, Sequence, Tuple

from causal.columns import Data
from causal.display import html_table
from causal.effects import Level, level_text, levels_text
from causal.errors import RequestError
from causal.framed import Framed
from causal.names import Names, names_of, printed_set
from causal.tables import Table, table_of

if TYPE_CHECKING:
    from causal.diagram import Diagram

# So many rows are printed; all of them stand in the DataFrame.
MOST_SHOWN = 60


@dataclass(frozen=True)
class SupportTable(Framed):
    """How many records each arm has in each stratum: a row for each stratum that has records.

    `members` is the set, `arms` the levels of the exposures, `strata` the levels of the set, and `records` for each stratum the number
    of records of each arm.
    """

    members: Tuple[str, ...]
    arms: Tuple[Dict[str, Level], ...]
    strata: Tuple[Dict[str, Level], ...]
    records: Tuple[Tuple[int, ...], ...]
    dropped: int = 0

    def __hash__(self) -> int:
        return hash((self.members, self.records))

    @property
    def lacking(self) -> Tuple[Dict[str, Level], ...]:
        """The strata that lack an arm."""
        return tuple(stratum for stratum, row in zip(self.strata, self.records) if not all(row))

    @property
    def records_lacking(self) -> int:
        """How many records are in them."""
        return sum(sum(row) for row in self.records if not all(row))

    @property
    def notes(self) -> Tuple[str, ...]:
        """What the table says, in words."""
        records = sum(sum(row) for row in self.records)
        lack = f"{len(self.lacking)} of {len(self.strata)} strata, with {self.records_lacking} of {records} records, lack an arm"
        return (lack, *([f"{self.dropped} records left out that lack a value"] if self.dropped else []))

    def __bool__(self) -> bool:
        """Whether each stratum has each arm."""
        return not self.lacking

    def _cells(self) -> Tuple[List[str], List[List[Any]]]:
        heads = [*self.members, *map(levels_text, self.arms)]
        return heads, [[*stratum.values(), *row] for stratum, row in zip(self.strata, self.records)]

    def __str__(self) -> str:
        heads, rows = self._cells()
        texts = [heads, *([level_text(cell) for cell in row] for row in rows[:MOST_SHOWN])]
        widths = [max(map(len, column)) for column in zip(*texts)]
        lines = ["  ".join(text.rjust(width) for text, width in zip(row, widths)) for row in texts]
        lines += [f"and {len(rows) - MOST_SHOWN} more strata"] if len(rows) > MOST_SHOWN else []
        return "\n".join([*lines, *self.notes])

    def _table(self) -> Tuple[Sequence[str], List[List[Any]]]:
        rows = []
        for stratum, row in zip(self.strata, self.records):
            rows += [[*stratum.values(), *arm.values(), number] for arm, number in zip(self.arms, row)]
        return [*self.members, *dict.fromkeys(chain(*self.arms)), "records"], rows

    def _repr_html_(self) -> str:
        return html_table(*self._cells(), self.notes)


def support_table(
    diagram: "Diagram", data: Data, x: Optional[Names], y: Optional[Names], members: Optional[Names], count: Optional[str], missing: str
) -> SupportTable:
    """The support of a set's strata: see `Diagram.support`."""
    exposures = names_of(x) if x is not None else tuple(name for name, role in diagram.roles.items() if role == "exposure")
    if not exposures:
        raise RequestError("no vertex is marked exposure: give x")
    if members is None:
        sets = diagram.adjustment_sets(x, y, most=1)
        if not sets:
            raise RequestError("no set may be adjusted for; give the set whose strata are counted: set=[..]")
        chosen = tuple(sets[0])
    else:
        chosen = names_of(members)
    if set(chosen) & set(exposures):
        raise RequestError(f"the set {printed_set(chosen)} has an exposure in it")
    table = table_of(data, [*chosen, *exposures], count, missing)
    return counted(table, chosen, exposures)


def counted(table: Table, chosen: Sequence[str], exposures: Sequence[str]) -> SupportTable:
    """The table of strata and arms."""
    table = table.ordered()
    strata: Dict[Tuple[int, ...], Counter[Tuple[int, ...]]] = {}
    arms = set()
    for cell, number in table.counts.items():
        if number:
            stratum, arm = cell[: len(chosen)], cell[len(chosen) :]
            strata.setdefault(stratum, Counter())[arm] += number
            arms.add(arm)

    def levels(names: Sequence[str], places: Tuple[int, ...]) -> Dict[str, Level]:
        return {name: table.levels_of(name)[place] for name, place in zip(names, places)}

    order = sorted(arms)
    return SupportTable(
        tuple(chosen),
        tuple(levels(exposures, arm) for arm in order),
        tuple(levels(chosen, stratum) for stratum in sorted(strata)),
        tuple(tuple(strata[stratum][arm] for arm in order) for stratum in sorted(strata)),
        table.dropped,
    )
