"""The paths of a diagram between two vertices. They are read off the edges, and nothing about them is proved."""
from __future__ import annotations

from collections import deque
from dataclasses import dataclass
from typing import TYPE_CHECKING, Any, Deque, Iterator, List, Sequence, Set, Tuple, Union, overload

from causal.answers import Path
from causal.display import html_table
from causal.framed import Framed

if TYPE_CHECKING:
    from causal.diagram import Diagram


@dataclass(frozen=True)
class Paths(Framed, Sequence[Path]):
    """The paths between two vertices, shortest first; `opened` says of each whether it is open given the set, and `more` whether there
    are more than were asked for."""

    paths: Tuple[Path, ...]
    opened: Tuple[bool, ...]
    more: bool = False

    def __len__(self) -> int:
        return len(self.paths)

    @overload
    def __getitem__(self, index: int) -> Path: ...

    @overload
    def __getitem__(self, index: slice) -> Tuple[Path, ...]: ...

    def __getitem__(self, index: Union[int, slice]) -> Union[Path, Tuple[Path, ...]]:
        return self.paths[index]

    def __iter__(self) -> Iterator[Path]:
        return iter(self.paths)

    def __str__(self) -> str:
        lines = [f"{'open    ' if is_open else 'closed  '}{path}" for path, is_open in zip(self.paths, self.opened)]
        return "\n".join([*lines, *(["more"] if self.more else [])]) or "none"

    def _table(self) -> Tuple[Sequence[str], List[List[Any]]]:
        return ("path", "open"), [[str(path), is_open] for path, is_open in zip(self.paths, self.opened)]

    def _repr_html_(self) -> str:
        return html_table(*self._table(), ["there are more"] if self.more else [])


def paths_of(diagram: "Diagram", start: str, end: str, given: Sequence[str], most: int) -> Paths:
    """The paths between two vertices: see `Diagram.paths`."""
    steps = {name: [] for name in diagram.vertices}  # type: dict[str, List[Tuple[str, str]]]
    for a, b in diagram.edges:
        steps[a].append(("->", b))
        steps[b].append(("<-", a))
    for a, b in diagram.bidirected:
        steps[a].append(("<->", b))
        steps[b].append(("<->", a))
    conditioned = set(diagram.ancestors(given)) if given else set()
    found: List[Path] = []
    ahead: Deque[Tuple[Tuple[str, ...], Tuple[str, ...]]] = deque([((start,), ())])
    while ahead and len(found) <= most:
        vertices, marks = ahead.popleft()
        if vertices[-1] == end and marks:
            found.append(Path(vertices, marks))
            continue
        ahead.extend(((*vertices, b), (*marks, mark)) for mark, b in steps[vertices[-1]] if b not in vertices)
    kept = tuple(found[:most])
    return Paths(kept, tuple(is_open(path, set(given), conditioned) for path in kept), len(found) > most)


def is_open(path: Path, given: Set[str], conditioned: Set[str]) -> bool:
    """Whether each collider of a path is an ancestor of the set, or in it, and no other inner vertex is in it.

    >>> from causal.answers import Path
    >>> from causal.walks import is_open
    >>> collider = Path(("A", "B", "C"), ("->", "<-"))
    >>> is_open(collider, set(), set()), is_open(collider, {"D"}, {"B", "D"})
    (False, True)
    """
    for before, vertex, after in zip(path.marks, path.vertices[1:], path.marks[1:]):
        is_collider = before in ("->", "<->") and after in ("<-", "<->")
        if vertex not in conditioned if is_collider else vertex in given:
            return False
    return True
