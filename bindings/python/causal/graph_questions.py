"""What a diagram is made of: parents, ancestors, paths and direct effects by name, and data that are drawn from it.

What is computed here is read off the edges. Nothing about it is proved: what the diagram implies is asked of the library.
"""
from __future__ import annotations

from typing import TYPE_CHECKING, Dict, List, Optional, Sequence, Tuple, Union, cast

from causal.errors import RequestError, TargetError, WrongType
from causal.names import Name, Names, names_of
from causal.vocabulary import check_whole, meant

if TYPE_CHECKING:
    from causal.diagram import Diagram
    from causal.formula import Formula, Hedge
    from causal.walks import Paths

Pairs = Sequence[Tuple[str, str]]


def reached(names: Sequence[str], edges: Pairs, order: Sequence[str]) -> Tuple[str, ...]:
    """The vertices that edges lead to from these, themselves among them, in order.

    >>> from causal.graph_questions import reached
    >>> reached(["A"], [("A", "B"), ("B", "C"), ("D", "A")], "ABCD")
    ('A', 'B', 'C')
    """
    found = set(names)
    ahead = list(names)
    while ahead:
        at = ahead.pop()
        for a, b in edges:
            if a == at and b not in found:
                found.add(b)
                ahead.append(b)
    return tuple(name for name in order if name in found)


class GraphQuestions:
    """The questions of a `Diagram` about its own edges."""

    def _whole(self) -> Diagram:
        return cast("Diagram", self)

    def _named(self, names: Names) -> Tuple[str, ...]:
        """The names, which have to be vertices."""
        there = self._whole().vertices
        for name in names_of(names):
            if name not in there:
                raise TargetError(f"the name is not in the graph: {name}{meant(name, there)}", 1, (name,))
        return names_of(names)

    def parents(self, names: Names) -> Tuple[str, ...]:
        """The vertices from which an edge leads to one of these.

        >>> from causal import Diagram
        >>> Diagram("dag { A -> B -> C <- D }").parents("C")
        ('B', 'D')
        """
        of, whole = self._named(names), self._whole()
        found = {a for a, b in whole.edges if b in of}
        return tuple(name for name in whole.vertices if name in found)

    def children(self, names: Names) -> Tuple[str, ...]:
        """The vertices to which an edge leads from one of these.

        >>> from causal import Diagram
        >>> Diagram("dag { A -> B -> C <- D }").children(["A", "D"])
        ('B', 'C')
        """
        of, whole = self._named(names), self._whole()
        found = {b for a, b in whole.edges if a in of}
        return tuple(name for name in whole.vertices if name in found)

    def ancestors(self, names: Names) -> Tuple[str, ...]:
        """The vertices from which edges lead to these, themselves among them.

        >>> from causal import Diagram
        >>> Diagram("dag { A -> B -> C <- D }").ancestors("B")
        ('A', 'B')
        """
        whole = self._whole()
        return reached(self._named(names), [(b, a) for a, b in whole.edges], whole.vertices)

    def descendants(self, names: Names) -> Tuple[str, ...]:
        """The vertices to which edges lead from these, themselves among them.

        >>> from causal import Diagram
        >>> Diagram("dag { A -> B -> C <- D }").descendants("A")
        ('A', 'B', 'C')
        """
        whole = self._whole()
        return reached(self._named(names), whole.edges, whole.vertices)

    def mediators(self, x: Name, y: Name) -> Tuple[str, ...]:
        """The vertices on directed paths from x to y, without both.

        >>> from causal import Diagram
        >>> Diagram("dag { X -> M -> Y X -> Y }").mediators("X", "Y")
        ('M',)
        """
        between = set(self.descendants(x)) & set(self.ancestors(y))
        return tuple(name for name in self._whole().vertices if name in between - {*names_of(x), *names_of(y)})

    def direct_effect(self, x: Name, y: Name) -> Union[Formula, Hedge]:
        """A formula for the direct effect of x on y, the mediators held at values from outside (the controlled direct effect), or a hedge.

        It is what `identify` answers for x and the mediators together; `effects` with these as x has its values.

        >>> from causal import Diagram
        >>> print(Diagram("dag { X -> M -> Y X -> Y }").direct_effect("X", "Y"))
        P(Y|do(X,M)) = P(Y|X,M)
        """
        return self._whole().identify([*names_of(x), *self.mediators(x, y)], y, short=True)

    def paths(self, x: Name, y: Name, given: Names = (), most: int = 100) -> Paths:
        """The paths between two vertices, shortest first, and which of them are open given a set.

        Whether one is open is read off its edges here; that none is, and so that x and y are separated, `separated` proves.

        >>> from causal import Diagram
        >>> print(Diagram("dag { X -> Y  X <- Z -> Y  X -> C <- Y }").paths("X", "Y"))
        open    X -> Y
        closed  X -> C <- Y
        open    X <- Z -> Y
        """
        from causal.walks import paths_of

        ends = self._named(x), self._named(y)
        if [len(end) for end in ends] != [1, 1]:
            raise RequestError("paths lead from one vertex to another: x and y are one name each")
        check_whole("most", most)
        return paths_of(self._whole(), ends[0][0], ends[1][0], self._named(given), most)

    def simulate(self, records: int, seed: Optional[int] = 0, levels: int = 2, strength: float = 1.0) -> Dict[str, List[int]]:
        """Records of a model of the diagram that is drawn by chance: a column of whole numbers for each observed vertex.

        Each vertex has `levels` levels, whose chances are a logistic function of its parents and hidden causes, with coefficients drawn
        from a normal distribution with this `strength`; each bidirected edge is a hidden cause. The same seed gives the same.

        >>> from causal import Diagram
        >>> data = Diagram("dag { X -> Y X <-> Y }").simulate(1000, seed=1)
        >>> sorted(data), len(data["X"]), set(data["Y"])
        (['X', 'Y'], 1000, {0, 1})
        """
        from causal.simulation import simulated

        check_whole("records", records)
        check_whole("levels", levels, 2)
        if not isinstance(strength, (int, float)):
            raise WrongType(f"strength is a number, and no {type(strength).__name__}")
        return simulated(self._whole(), records, seed, levels, strength)
