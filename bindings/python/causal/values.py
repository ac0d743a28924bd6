"""The value of a formula over many tables of counts at once, by numpy.

It is computed with floats, and nothing about it is proved: it is used for what is drawn anew, after it has given on the table itself
what the program gives.
"""
from __future__ import annotations

from typing import TYPE_CHECKING, Any, Dict, List, Mapping, Optional, Sequence, Tuple, Union

from causal.columnwise import ColumnEvaluator
from causal.treated import TwoLevels

if TYPE_CHECKING:
    from causal.effects import Effects
    from causal.objects import Told

# Tables of more cells are asked of the library one by one; and as many numbers are held at once.
MOST_CELLS, AT_ONCE = 1 << 14, 1 << 21
# And without numpy.
MOST_PLAIN = 1 << 11
# How far what is computed may be from what the program says.
NEAR = 1e-9


class Partial:
    """Numbers, of which some are unknown: an axis for the tables, and one for each variable."""

    def __init__(self, value: Any, known: Any) -> None:
        self.value, self.known = value, known


class Formulas:
    """A formula over tables of counts: an axis for each variable, in the order of `names`. `kept` are the variables whose levels all
    count; of another one those that a table has records of.

    >>> import numpy
    >>> from causal import Diagram
    >>> from causal.values import Formulas
    >>> formula = Diagram("dag { X -> Y }").identify("X", "Y")
    >>> counts = numpy.array([[[3.0, 1.0], [2.0, 2.0]]])
    >>> Formulas(numpy, formula._known(), ("X", "Y"), ("X", "Y"), True).over(counts).value.tolist()
    [[[0.75, 0.25], [0.5, 0.5]]]
    """

    def __init__(self, numpy: Any, trees: Sequence["Told"], names: Sequence[str], kept: Sequence[str], zero: bool) -> None:
        self.numpy, self.trees, self.names, self.zero = numpy, trees, tuple(names), zero
        self.kept = set(kept)
        self.axes = {name: place + 1 for place, name in enumerate(names)}

    def over(self, counts: Any) -> Partial:
        """The value at each level of what it depends on, for each table of counts."""
        self.counts, self.sums, self.definitions = counts, {}, []  # type: Any, Dict[frozenset[str], Any], List[Partial]
        for tree in self.trees[:-1]:
            self.definitions.append(self._value(tree))
        return self._value(self.trees[-1])

    def _value(self, tree: "Told") -> Partial:
        if "definition" in tree:
            return self.definitions[tree["definition"]]
        if "term" in tree:
            return self._share(tree["term"], tree["given"])
        if "sum" in tree:
            return self._sum(self._value(tree["of"]), tree["sum"])
        if "quotient" in tree:
            above, below = map(self._value, tree["quotient"])
            return self._over(above, below)
        return self._product([self._value(part) for part in tree["product"]])

    def _sums(self, names: Sequence[str]) -> Any:
        """The counts by these variables."""
        key = frozenset(names)
        if key not in self.sums:
            others = tuple(axis for name, axis in self.axes.items() if name not in key)
            self.sums[key] = self.counts.sum(axis=others, keepdims=True)
        return self.sums[key]

    def _share(self, term: Sequence[str], given: Sequence[str]) -> Partial:
        below = self._sums(given)
        known = below > 0
        return Partial(self._sums([*term, *given]) / self.numpy.where(known, below, 1.0), known)

    def _over(self, above: Partial, below: Partial) -> Partial:
        known = above.known & below.known & (below.value > 0)
        return Partial(above.value / self.numpy.where(known, below.value, 1.0), known)

    def _product(self, parts: Sequence[Partial]) -> Partial:
        value, known = parts[0].value, parts[0].known
        none = known & (value == 0)
        for part in parts[1:]:
            value, none = value * part.value, none | (part.known & (part.value == 0))
            known = known & part.known
        if not self.zero:
            return Partial(value, known)
        return Partial(self.numpy.where(none, 0.0, value), known | none)

    def _sum(self, part: Partial, names: Sequence[str]) -> Partial:
        numpy, value, known = self.numpy, part.value, part.known
        for name in names:
            axis = self.axes[name]
            there = self.numpy.ones_like(self._sums([name]), dtype=bool) if name in self.kept else self._sums([name]) > 0
            value, known = numpy.where(there & known, value, 0.0), known | ~there
            size = self.counts.shape[axis]
            if value.shape[axis] == 1 and size > 1:
                value, known = numpy.where(there, value, 0.0), numpy.broadcast_to(known, numpy.broadcast_shapes(known.shape, there.shape))
            value, known = value.sum(axis=axis, keepdims=True), known.all(axis=axis, keepdims=True)
        return Partial(value, known)


class Evaluator:
    """The values of all effects over many tables with the levels of one, in the order of the effects."""

    def __init__(self, numpy: Any, effects: "Effects", names: Sequence[str], levels: Sequence[Sequence[Any]], zero: bool) -> None:
        formula, target = effects.formula, effects.formula.target
        self.numpy, self.sizes = numpy, tuple(map(len, levels))
        self.formulas = Formulas(numpy, formula._known(), names, [*target.x, *target.y, *target.given, *formula.free], zero)
        places = {name: {level: k for k, level in enumerate(held)} for name, held in zip(names, levels)}
        chosen = {name: [] for name in names}  # type: Dict[str, List[int]]
        for effect in effects:
            at = {**effect.x, **effect.y, **effect.given}
            for name in names:
                chosen[name].append(places[name][at[name]] if name in at else 0)
        self.chosen = [numpy.array(chosen[name], dtype=int) for name in names]

    @property
    def at_once(self) -> int:
        """How many tables are evaluated at once."""
        return max(1, AT_ONCE // int(self.numpy.prod(self.sizes)))

    def values(self, counts: Any) -> Tuple[Any, Any]:
        """The value of each effect over each table, and whether it is known; a row for each table."""
        numpy = self.numpy
        found = self.found(counts.reshape((len(counts), *self.sizes)))
        shape = numpy.broadcast_shapes(found.value.shape, found.known.shape)
        rows = (slice(None), *(numpy.zeros_like(at) if size == 1 else at for at, size in zip(self.chosen, shape[1:])))
        value, known = (numpy.broadcast_to(it, (len(counts), *shape[1:]))[rows] for it in (found.value, found.known))
        return value, known

    def found(self, counts: Any) -> Partial:
        """The values at all levels, for each table of counts, which has an axis for each variable."""
        return self.formulas.over(counts)

    def over(self, places: Sequence[int], numbers: Sequence[Sequence[int]]) -> List[Optional[Tuple[float, ...]]]:
        """The values over tables that have these numbers at some places, and else 0; None where one is unknown."""
        numpy = self.numpy
        dense = numpy.zeros((len(numbers), int(numpy.prod(self.sizes))))
        dense[:, list(places)] = numbers
        values, known = self.values(dense)
        return [tuple(row) if is_known else None for row, is_known in zip(values.tolist(), known.all(axis=1).tolist())]


class SplitEvaluator(Evaluator):
    """The same of an effect among the treated that is had by two levels (see `TwoLevels`). As by the program, a table has all of its values
    or none, and none where one would be below 0.
    """

    def __init__(self, numpy: Any, effects: "Effects", names: Sequence[str], levels: Sequence[Sequence[Any]], zero: bool) -> None:
        super().__init__(numpy, effects, names, levels, zero)
        target = effects.formula.target
        (self.x,) = target.x
        *self.given, self.had = target.given
        self.y, self.free = target.y, effects.formula.free

    def found(self, counts: Any) -> Partial:
        """The difference of the joint effect and of what was observed, over the share of those who had the other level; and among those who
        had the very level what was observed. Numbers of records stand in place of shares."""
        numpy, of = self.numpy, self.formulas
        joint, names = of.over(counts), [*self.given, *self.y, self.x]
        seen, had = of._sums(names), of._sums([*self.given, self.had])
        shape = [1] * counts.ndim
        shape[of.axes[self.x]] = shape[of.axes[self.had]] = counts.shape[of.axes[self.x]]
        is_same = numpy.eye(counts.shape[of.axes[self.x]], dtype=bool).reshape(shape)
        other = joint.value * of._sums([]) - seen
        value = numpy.where(is_same, seen, other) / numpy.where(had > 0, had, 1.0)
        known = (is_same | joint.known) & (had > 0)
        # (what is free stands at its first level)
        places = tuple(slice(1) if name in self.free else slice(None) for name in of.names)
        has_all = (known & (value >= -NEAR))[(slice(None), *places)].all(axis=tuple(of.axes.values()), keepdims=True)
        return Partial(numpy.maximum(value, 0.0), known & has_all)


def evaluator_of(
    effects: "Effects", names: Sequence[str], levels: Sequence[Sequence[Any]], counts: Mapping[int, int], zero: bool
) -> Union[Evaluator, ColumnEvaluator, None]:
    """What evaluates many tables of a formula at once, by numpy where that is there; None where the table is large, or it doesn't give
    for the counts of the table itself, by their places, what the program gave; and of two levels without numpy."""
    size = 1
    for held in levels:
        size *= max(len(held), 1)
    if size > MOST_CELLS:
        return None
    evaluator: Union[Evaluator, ColumnEvaluator]
    try:
        import numpy
    except ImportError:
        if size > MOST_PLAIN or isinstance(effects.formula, TwoLevels):
            return None
        evaluator = ColumnEvaluator(effects, names, levels, zero)
    else:
        kind = SplitEvaluator if isinstance(effects.formula, TwoLevels) else Evaluator
        evaluator = kind(numpy, effects, names, levels, zero)
    (found,) = evaluator.over(list(counts), [list(counts.values())])
    wanted = [float(effect.value) for effect in effects]
    if found is None or any(abs(a - b) > NEAR * (1 + abs(b)) for a, b in zip(found, wanted)):
        return None
    return evaluator
