"""Instruments for an effect, and the sets of strata in which they are."""
from __future__ import annotations

from dataclasses import dataclass
from typing import Any, Iterator, List, Sequence, Tuple, Union, overload

from causal.display import html_table
from causal.framed import Shown
from causal.names import printed_name, printed_set
from causal.objects import Told


@dataclass(frozen=True)
class Instrument(Shown):
    """A vertex with the minimal sets of `strata` in which it is an instrument, and whether there are `more` than were asked for."""

    vertex: str
    strata: Tuple[Tuple[str, ...], ...]
    more: bool = False

    @property
    def lines(self) -> List[str]:
        """A line for each set, as they are printed."""
        name = printed_name(self.vertex)
        return [*(f"{name} given {printed_set(names)}" for names in self.strata), *([f"more of {name}"] if self.more else [])]

    def __str__(self) -> str:
        return "\n".join(self.lines)

    def _table(self) -> Tuple[Sequence[str], List[List[Any]]]:
        return HEADS, [[self.vertex, printed_set(names)] for names in self.strata]


HEADS = ("instrument", "strata")


@dataclass(frozen=True)
class Instruments(Shown, Sequence[Instrument]):
    """The vertices that are instruments for an effect in some strata, in their order.

    It is proved that each vertex outside x and y that isn't listed is an instrument in no strata, and that the sets of each that is are
    exactly the minimal ones, each once: all of them, or as many as were asked for. That an instrument goes with x, without which its bounds
    are no tighter, isn't asked.

    >>> from causal import Diagram
    >>> found = Diagram("dag { W -> Z -> X -> Y W -> Y X <-> Y }").instruments("X", "Y")
    >>> print(found)
    Z given {W}
    >>> found[0].vertex, found[0].strata, found[0].more
    ('Z', (('W',),), False)
    >>> bool(Diagram("dag { X -> Y X <-> Y }").instruments("X", "Y"))
    False
    """

    instruments: Tuple[Instrument, ...]

    def __len__(self) -> int:
        return len(self.instruments)

    @overload
    def __getitem__(self, index: int) -> Instrument: ...

    @overload
    def __getitem__(self, index: slice) -> Tuple[Instrument, ...]: ...

    def __getitem__(self, index: Union[int, slice]) -> Union[Instrument, Tuple[Instrument, ...]]:
        return self.instruments[index]

    def __iter__(self) -> Iterator[Instrument]:
        return iter(self.instruments)

    def __str__(self) -> str:
        return "\n".join(map(str, self.instruments)) or "none"

    def _table(self) -> Tuple[Sequence[str], List[List[Any]]]:
        return HEADS, [row for it in self.instruments for row in it._table()[1]]

    def _repr_html_(self) -> str:
        rows = [[it.vertex, names] for it in self.instruments for names in it.strata]
        more = [f"there are more of {printed_name(it.vertex)}" for it in self.instruments if it.more]
        return html_table(HEADS, rows, more if rows else ["no vertex is an instrument"])


def read_instruments(told: Told) -> Instruments:
    """Reads the answer of `instruments`, which also has the vertices without a set.

    >>> from causal.instruments import read_instruments
    >>> told = [{"vertex": "a b", "strata": [[], ["W"]], "more": True}, {"vertex": "W", "strata": [], "more": False}]
    >>> print(read_instruments({"answer": "instruments", "instruments": told}))
    "a b" given {}
    "a b" given {W}
    more of "a b"
    """
    found = [Instrument(it["vertex"], tuple(map(tuple, it["strata"])), it["more"]) for it in told["instruments"]]
    return Instruments(tuple(it for it in found if it.strata))
