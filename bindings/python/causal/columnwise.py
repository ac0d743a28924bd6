"""The value of a formula over many tables of counts at once, in plain Python: what `causal.values` does by numpy, where that isn't there.

A factor has a list for each combination of its names' levels, with a number for each table; NaN where there is no value. It is computed
with floats, and nothing about it is proved: it is used for what is drawn anew, after it has given on the table itself what the program gives.
"""
from __future__ import annotations

from itertools import product
from typing import Callable, Dict, FrozenSet, List, NamedTuple, Optional, Sequence, Tuple

from causal.effects import Effects
from causal.objects import Told

NAN = float("nan")
Numbers = List[float]
Levels = Tuple[int, ...]
Joined = Callable[[Numbers, Numbers], Numbers]


class Factor(NamedTuple):
    """Numbers by the levels of some names, in their order."""

    names: Tuple[str, ...]
    cells: Dict[Levels, Numbers]

    def at(self, names: Sequence[str], levels: Levels) -> Numbers:
        """The numbers at the levels of these names, of which it has some."""
        places = {name: level for name, level in zip(names, levels)}
        return self.cells[tuple(places[name] for name in self.names)]


class Columns:
    """A formula over tables of counts, as `causal.values.Formulas`: `sizes` says how many levels each name has.

    >>> from causal import Diagram
    >>> from causal.columnwise import Columns
    >>> formula = Diagram("dag { X -> Y }").identify("X", "Y")
    >>> found = Columns(formula._known(), {"X": 2, "Y": 2}, ("X", "Y"), True).over([[3.0], [1.0], [2.0], [2.0]])
    >>> found.names, found.cells[0, 1], found.cells[1, 1]
    (('X', 'Y'), [0.25], [0.5])
    """

    def __init__(self, trees: Sequence[Told], sizes: Dict[str, int], kept: Sequence[str], zero: bool) -> None:
        self.trees, self.sizes, self.kept, self.zero = trees, sizes, frozenset(kept), zero
        self.names = tuple(sizes)

    def over(self, counts: Sequence[Numbers]) -> Factor:
        """The value at each level of what it depends on; `counts` has the numbers of each combination of levels, in order."""
        whole = dict(zip(self._levels(self.names), counts))
        self.sums: Dict[FrozenSet[str], Factor] = {frozenset(self.names): Factor(self.names, whole)}
        self.definitions: List[Factor] = []
        for tree in self.trees[:-1]:
            self.definitions.append(self._value(tree))
        return self._value(self.trees[-1])

    def _levels(self, names: Sequence[str]) -> List[Levels]:
        return list(product(*(range(self.sizes[name]) for name in names)))

    def _value(self, tree: Told) -> Factor:
        if "definition" in tree:
            return self.definitions[tree["definition"]]
        if "term" in tree:
            return self._share(tree["term"], tree["given"])
        if "sum" in tree:
            return self._sum(self._value(tree["of"]), tree["sum"])
        if "quotient" in tree:
            above, below = map(self._value, tree["quotient"])
            return self._both(above, below, lambda a, b: [u / v if v else NAN for u, v in zip(a, b)])
        found = self._value(tree["product"][0])
        for part in tree["product"][1:]:
            found = self._both(found, self._value(part), self._products)
        return found

    def _products(self, a: Numbers, b: Numbers) -> Numbers:
        # (a factor 0 makes a product 0, also where the other one has no value)
        if self.zero:
            return [u * v if u and v else 0.0 for u, v in zip(a, b)]
        return [u * v for u, v in zip(a, b)]

    def _both(self, a: Factor, b: Factor, joined: Joined) -> Factor:
        names = (*a.names, *(name for name in b.names if name not in a.names))
        return Factor(names, {levels: joined(a.at(names, levels), b.at(names, levels)) for levels in self._levels(names)})

    def multiplied(self, a: Factor, b: Factor) -> Factor:
        """The product of two factors."""
        return self._both(a, b, self._products)

    def summed(self, part: Factor, names: Sequence[str]) -> Factor:
        """The sum of a factor over some names, over the tables that were evaluated last."""
        return self._sum(part, names)

    def _sums(self, names: Sequence[str]) -> Factor:
        """The counts by these variables."""
        key = frozenset(names)
        if key not in self.sums:
            kept = [place for place, name in enumerate(self.names) if name in key]
            parts: Dict[Levels, List[Numbers]] = {}
            for levels, numbers in self.sums[frozenset(self.names)].cells.items():
                parts.setdefault(tuple(levels[place] for place in kept), []).append(numbers)
            self.sums[key] = Factor(tuple(self.names[place] for place in kept), {at: list(map(sum, zip(*own))) for at, own in parts.items()})
        return self.sums[key]

    def _share(self, term: Sequence[str], given: Sequence[str]) -> Factor:
        return self._both(self._sums([*term, *given]), self._sums(given), lambda a, b: [u / v if v else NAN for u, v in zip(a, b)])

    def _sum(self, part: Factor, names: Sequence[str]) -> Factor:
        for name in names:
            there = None if name in self.kept else self._sums([name]).cells
            kept = tuple(it for it in part.names if it != name)
            wide = part.names if name in part.names else (*part.names, name)
            place = wide.index(name)
            parts: Dict[Levels, List[Numbers]] = {}
            for levels in self._levels(wide):
                numbers = part.at(wide, levels)
                if there is not None:
                    numbers = [number if count else 0.0 for number, count in zip(numbers, there[(levels[place],)])]
                parts.setdefault((*levels[:place], *levels[place + 1 :]), []).append(numbers)
            part = Factor(kept, {at: list(map(sum, zip(*own))) for at, own in parts.items()})
        return part


class ColumnEvaluator:
    """The values of all effects over many tables with the levels of one, in the order of the effects, as `causal.values.Evaluator`."""

    def __init__(self, effects: Effects, names: Sequence[str], levels: Sequence[Sequence[object]], zero: bool) -> None:
        formula, target = effects.formula, effects.formula.target
        sizes = dict(zip(names, map(len, levels)))
        self.size = 1
        for size in sizes.values():
            self.size *= size
        self.columns = Columns(formula._known(), sizes, [*target.x, *target.y, *target.given, *formula.free], zero)
        places = {name: {level: k for k, level in enumerate(held)} for name, held in zip(names, levels)}
        self.chosen = [{name: places[name][level] for name, level in (*it.x.items(), *it.y.items(), *it.given.items())} for it in effects]

    @property
    def at_once(self) -> int:
        """How many tables are evaluated at once."""
        return max(1, (1 << 20) // self.size)

    def over(self, places: Sequence[int], numbers: Sequence[Sequence[int]]) -> List[Optional[Tuple[float, ...]]]:
        """The values over tables that have these numbers at some places, and else 0; None where one is unknown."""
        counts: List[Numbers] = [[0.0] * len(numbers)] * self.size
        for place, own in zip(places, zip(*numbers)):
            counts[place] = list(own)
        found = self.columns.over(counts)
        wanted = [found.cells[tuple(at.get(name, 0) for name in found.names)] for at in self.chosen]
        return [row if all(value == value for value in row) else None for row in zip(*wanted)]
