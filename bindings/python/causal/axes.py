"""The places over which a formula is summed: the levels of a variable, or classes of a number that has many."""
from __future__ import annotations

from dataclasses import dataclass, replace
from typing import Any, Optional, Sequence, Tuple

from causal.models import Variable

# A number with more levels than this is summed over so many classes, each with about as many records.
CLASSES = 64


@dataclass(frozen=True)
class Axis:
    """The places of a variable. `codes` has the code of each place, as models read it; `places` the place of each level of the data;
    `edges` the borders between classes, where the places are classes. Behind the classes stand levels that are asked for."""

    codes: Any
    places: Any
    edges: Optional[Any] = None

    @property
    def size(self) -> int:
        """How many places there are."""
        return len(self.codes)

    @property
    def classes(self) -> int:
        """How many of them are classes, or levels of the data."""
        return self.size if self.edges is None else len(self.edges) + 1

    def place(self, code: int) -> int:
        """The place of a code."""
        if self.edges is None:
            return int(code)
        return self.classes + list(self.codes[self.classes :]).index(code)


def axis_of(numpy: Any, variable: Variable, mass: Any, asked: Sequence[int]) -> Tuple[Variable, Axis]:
    """The axis of a variable, and the variable with the numbers of its classes behind its levels. `mass` is what each level weighs.

    >>> import numpy
    >>> from causal.axes import axis_of
    >>> from causal.models import Variable
    >>> variable, axis = axis_of(numpy, Variable("age", range(200), numpy.arange(200.0)), numpy.ones(200), [7])
    >>> axis.classes, axis.size, axis.place(7), float(variable.numbers[axis.codes[0]])
    (64, 65, 64, 1.0)
    """
    size = len(variable.levels)
    if variable.numbers is None or size <= CLASSES:
        return variable, Axis(numpy.arange(size), numpy.arange(size))
    shares = (numpy.cumsum(mass) - mass / 2) / mass.sum()
    places = numpy.minimum((shares * CLASSES).astype(int), CLASSES - 1)
    # (where one level has the records of several classes, some are empty)
    places = numpy.unique(places, return_inverse=True)[1]
    number = int(places.max()) + 1
    weights = numpy.bincount(places, mass, number)
    numbers = variable.numbers[:size]
    middles = numpy.bincount(places, mass * numbers, number) / numpy.where(weights > 0, weights, 1.0)
    last = numpy.searchsorted(places, numpy.arange(1, number))
    edges = (numbers[last - 1] + numbers[last]) / 2
    codes = numpy.concatenate([len(variable.numbers) + numpy.arange(number), numpy.array(sorted(set(asked)), dtype=int)])
    return replace(variable, numbers=numpy.concatenate([variable.numbers, middles])), Axis(codes.astype(int), places, edges)
