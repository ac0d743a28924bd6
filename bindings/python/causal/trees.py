"""The number of an arm by a formula's tree: each term by models of the records that it is read from, summed as the formula says.

It is computed by these models, and nothing about it is proved.
"""
from __future__ import annotations

import math
from dataclasses import dataclass
from functools import cached_property
from typing import Any, Dict, FrozenSet, Iterator, List, Mapping, Optional, Sequence, Set, Tuple

from causal.axes import Axis, axis_of
from causal.errors import RequestError
from causal.estimators import Arm, Asked, Estimator
from causal.formula import nodes_of, parts_of
from causal.models import Linear, Model
from causal.objects import Told
from causal.rows import MOST_ARMS, Rows

# The most numbers of a table over which a formula is summed, and how many are held at once where it is averaged over records.
MOST_CELLS, AT_ONCE = 1 << 22, 1 << 20
# A sum over more combinations of levels than this is an average over records, where it can be.
MANY_CELLS = 1 << 12
# With more groups of records that are read off than this, or more coefficients, it isn't told how a number moves with each.
MOST_MOVED = 1000
# By how much a group's weight and a coefficient are changed for that.
PART, STEP = 1e-3, 1e-5
Names = Tuple[str, ...]
# A term: what it is of, what is done, and what is given.
Key = Tuple[Names, Names, Names]


@dataclass(frozen=True)
class Joined:
    """Rows of several sources: of observations, and of trials. Each is drawn anew by itself."""

    parts: Tuple[Rows, ...]
    # What was done in each.
    done: Tuple[FrozenSet[str], ...]

    @property
    def numpy(self) -> Any:
        """The module numpy."""
        return self.parts[0].numpy

    @property
    def variables(self) -> Dict[str, Any]:
        """The variables of all sources."""
        return self.held

    @cached_property
    def held(self) -> Dict[str, Any]:
        """The same, kept."""
        return {name: variable for part in self.parts for name, variable in part.variables.items()}

    def replaced(self, name: str, variable: Any) -> None:
        """Puts another variable in the place of one."""
        for held in (self.held, *(part.variables for part in self.parts)):
            if name in held:
                held[name] = variable

    @property
    def weights(self) -> Tuple[Any, ...]:
        """The weights of each source."""
        return tuple(part.weights for part in self.parts)

    @property
    def records(self) -> int:
        """How many records there are."""
        return sum(part.records for part in self.parts)

    @property
    def dropped(self) -> int:
        """How many records were left out."""
        return sum(part.dropped for part in self.parts)

    @property
    def members(self) -> List[Any]:
        """The units of each stratum of each source."""
        return [part.members for part in self.parts]

    def drawn(self, source: Any, members: Sequence[Any]) -> Tuple[Any, ...]:
        """The weights of records that are drawn anew."""
        return tuple(part.drawn(source, own) for part, own in zip(self.parts, members))

    def variance(self, moves: Any) -> float:
        """The variance of a number, by how it moves with the weight of each row; the rows of the sources stand one behind the other."""
        ends = [0]
        for part in self.parts:
            ends.append(ends[-1] + len(part.weights))
        return sum(part.variance(moves[start:end]) for part, start, end in zip(self.parts, ends, ends[1:]))


@dataclass(frozen=True)
class At:
    """Records at whose levels a part of a formula is evaluated: the codes of some variables, a row for each record."""

    codes: Mapping[str, Any]
    rows: int

    def without(self, names: Sequence[str]) -> Optional["At"]:
        """The same for what binds these names anew."""
        left = {name: codes for name, codes in self.codes.items() if name not in names}
        return At(left, self.rows) if left else None


class ByTree(Estimator):
    """A formula by its trees: those of the definitions, and its own last. Values are arrays: an axis for records, and one for each name.
    `sources` has the rows for each set of variables that was done: none for the observed ones."""

    def __init__(
        self, sources: Mapping[FrozenSet[str], Rows], asked: Asked, trees: Sequence[Told], names: Sequence[str], observed: Sequence[str] = ()
    ) -> None:
        super().__init__(next(iter(sources.values())), asked)
        self.sources, self.trees, self.observed = dict(sources), tuple(trees), frozenset(observed)
        self.names = tuple(names)
        self.axes = {name: self._axis(name) for name in names}
        self.places = {name: place + 1 for place, name in enumerate(names)}
        self.fixed = {**asked.fixed}
        self.weights: Dict[FrozenSet[str], Any] = {}
        self.whole_mean = asked.level is None
        if self.whole_mean:
            self._check_mean()
        self._check_exposures()
        self.chains: Dict[Key, List[Model]] = {}
        for key in dict.fromkeys(key_of(node) for tree in self.trees for node in nodes_of(tree) if "term" in node):
            if not self._is_counted(key):
                self.chains[key] = self._models_of(key)
        self.models = [model for chain in self.chains.values() for model in chain]

    def _axis(self, name: str) -> Axis:
        """The axis of a variable, whose classes are those of all sources."""
        asked = [arm[name] for arm in (*self.asked.arms, self.asked.fixed) if name in arm]
        having = [rows for rows in self.sources.values() if name in rows.codes]
        first = having[0].variables[name]
        mass = sum(self.numpy.bincount(rows.codes[name], rows.weights, len(first.levels)) for rows in having)
        variable, axis = axis_of(self.numpy, first, mass, asked)
        for rows in having:
            rows.variables[name] = variable
        return axis

    def places_of(self, name: str) -> int:
        """How many places an axis has: that of an outcome whose mean is wanted has one."""
        return 1 if self.whole_mean and name == self.asked.outcome else self.axes[name].size

    def _rows(self, key: Key) -> Rows:
        return self.sources[frozenset(key[1])]

    def _is_counted(self, key: Key) -> bool:
        """Whether a term is read off the records: one without a condition, or with what is the same for all."""
        return not key[1] and self.observed.issuperset(key[2]) and not self._is_mean_of(key)

    def _is_mean_of(self, key: Key) -> bool:
        return self.whole_mean and self.asked.outcome in key[0]

    def _models_of(self, key: Key) -> List[Model]:
        """The models of a term: of its names one after the other, the outcome last."""
        found: List[Model] = []
        conditions = [*key[1], *key[2]]
        for name in in_chain(key[0], self.asked.outcome):
            found.append(self.asked.model(self._rows(key), name, conditions, self._edges(self._rows(key), name)))
            found[-1].done = key[1]
            conditions.append(name)
        return found

    def _edges(self, rows: Rows, name: str) -> Optional[Any]:
        """The borders between the classes of a number that a term is of, or between its levels where these are more than a few."""
        variable, edges = rows.variables[name], self.axes[name].edges
        if name == self.asked.outcome or edges is not None or variable.numbers is None or len(variable.levels) <= MOST_ARMS:
            return None if name == self.asked.outcome else edges
        return (variable.numbers[:-1] + variable.numbers[1:]) / 2

    def _check_mean(self) -> None:
        """Refuses the mean where the formula isn't a sum of products with one term of the outcome each."""
        for node in (it for tree in self.trees for it in nodes_of(tree)):
            if "quotient" in node or self.asked.outcome in (*node.get("given", ()), *node.get("sum", ())):
                raise RequestError(
                    f"the mean of {self.asked.outcome} can't be had by this formula; cut it into classes, and give one as outcome"
                )

    def _check_exposures(self) -> None:
        """Refuses a formula with the chance of a level that is asked for, where it is one of many numbers."""
        for tree in self.trees:
            for name in targets_free(tree, frozenset()):
                if self.axes[name].edges is not None and name != self.asked.outcome:
                    number = len(self.axes[name].places)
                    raise RequestError(f"the formula has the chance of a level of {name}, which has {number}: cut it into classes")
        outcome = self.axes[self.asked.outcome]
        if not self.whole_mean and outcome.edges is not None:
            many = f"{self.asked.outcome} has {len(outcome.places)} levels"
            raise RequestError(f"{many}: leave outcome out for its mean, or cut it into classes")

    @property
    def has_moves(self) -> bool:
        groups = self._groups()
        moved = sum(model.parameters or 0 for model in self.models) + (0 if groups is None else int(groups.max()) + 1)
        return moved <= MOST_MOVED and all(model.has_scores for model in self.models)

    def _groups(self) -> Optional[Any]:
        """Which observed rows are alike in all that is read off them; None where nothing is."""
        keys = {key_of(node) for tree in self.trees for node in nodes_of(tree) if "term" in node} - set(self.chains)
        names = sorted({name for of, _, given in keys for name in (*of, *given)})
        if not names:
            return None
        codes = self.sources[frozenset()].codes
        return self.numpy.unique(self.numpy.stack([codes[name] for name in names]), axis=1, return_inverse=True)[1].reshape(-1)

    def moves(self, weights: Any) -> List[Any]:
        """How the number of each arm moves with the weight of each row, also by way of the models: the rows of the sources stand one
        behind the other. It is computed by small changes of the weights of rows that are alike, and of each coefficient."""
        numpy = self.numpy
        found = [{done: numpy.zeros(len(own)) for done, own in self.weights.items()} for _ in self.asked.arms]
        self.evaluated({})
        base = self.found
        self._moved_by_weights({key: value for key, value in base.items() if key in self.chains}, found)
        for key in self.chains:
            self._moved_by_models(key, {other: value for other, value in base.items() if other != key}, found)
        return [numpy.concatenate([own[done] for done in self.sources]) for own in found]

    def _moved_by_weights(self, kept: Mapping[Key, Any], found: List[Dict[FrozenSet[str], Any]]) -> None:
        """Adds how the numbers move with the weights of what is read off the observed rows."""
        groups, numpy, observed = self._groups(), self.numpy, frozenset[str]()
        if groups is None:
            return
        weights = self.weights[observed]
        for group in range(int(groups.max()) + 1):
            inside = groups == group
            ends = []
            for sign in (1, -1):
                self.weights[observed] = numpy.where(inside, weights * (1 + sign * PART), weights)
                ends.append(self.evaluated(kept))
            for arm, own in enumerate(found):
                own[observed][inside] += (ends[0][arm] - ends[1][arm]) / (2 * PART * float(weights[inside].sum()))
        self.weights[observed] = weights

    def _moved_by_models(self, key: Key, kept: Mapping[Key, Any], found: List[Dict[FrozenSet[str], Any]]) -> None:
        """Adds how the numbers move with the rows that the models of a term are fitted to."""
        done, chain = frozenset(key[1]), self.chains[key]
        for place, model in enumerate(chain):
            values = model.values  # type: ignore[attr-defined]
            slopes = self.numpy.zeros((len(found), len(values)))
            for k in range(len(values)):
                step = self.numpy.zeros(len(values))
                step[k] = STEP * max(1.0, abs(float(values[k])))
                ends = []
                for sign in (1, -1):
                    other = model.at(values + sign * step)  # type: ignore[attr-defined]
                    self.chains[key] = [*chain[:place], other, *chain[place + 1 :]]
                    ends.append(self.evaluated(kept))
                slopes[:, k] = [(ends[0][arm] - ends[1][arm]) / (2 * float(step[k])) for arm in range(len(found))]
            self.chains[key] = chain
            moved = model.moves(self._rows(key).codes, self.weights[done])  # type: ignore[attr-defined]
            for arm, own in enumerate(found):
                own[done] += moved @ slopes[arm]

    def fit(self, weights: Any) -> None:
        held = weights if isinstance(weights, tuple) else (weights,)
        self.weights = dict(zip(self.sources, held))
        for key, models in self.chains.items():
            for model in models:
                model.fit(self._rows(key).codes, self.weights[frozenset(key[1])])

    def examine(self) -> None:
        for key, models in self.chains.items():
            for model in models:
                model.examine(self._rows(key).codes, self._rows(key).weights)

    def numbers(self, weights: Any) -> Tuple[float, ...]:
        return self.evaluated({})

    def evaluated(self, kept: Mapping[Key, Any]) -> Tuple[float, ...]:
        """The number of each arm, where the values of some terms are kept."""
        self.found: Dict[Key, Any] = dict(kept)
        self.known: Dict[int, Any] = {}
        with self.numpy.errstate(divide="ignore", invalid="ignore"):
            whole = self._value(self.trees[-1], None)
        return tuple(self._at_arm(whole, arm) for arm in self.asked.arms)

    def _at_arm(self, whole: Any, arm: Arm) -> float:
        at = {**self.asked.fixed, **arm}
        if self.asked.level is not None:
            at[self.asked.outcome] = self.asked.level
        places = [self.axes[name].place(at[name]) if name in at else 0 for name in self.names]
        return float(whole[tuple(min(place, size - 1) for place, size in zip((0, *places), whole.shape))])

    # How a part of the formula is evaluated.

    def _value(self, tree: Told, at: Optional[At]) -> Any:
        if "definition" in tree:
            return self._definition(tree["definition"], at)
        if "term" in tree:
            return self._share(key_of(tree), at)
        if "sum" in tree:
            return self._sum(tree["sum"], tree["of"], at)
        if "quotient" in tree:
            above, below = (self._value(part, at) for part in tree["quotient"])
            return above / below
        return self._product(tree["product"], at)

    def _definition(self, number: int, at: Optional[At]) -> Any:
        if at is not None:
            return self._value(self.trees[number], at)
        if number not in self.known:
            self.known[number] = self._value(self.trees[number], None)
        return self.known[number]

    def _product(self, parts: Sequence[Told], at: Optional[At]) -> Any:
        found = self.numpy.ones([1] * (len(self.names) + 1))
        for part in parts:
            value = self._value(part, at)
            shape = self.numpy.broadcast_shapes(found.shape, value.shape)
            if math.prod(shape) > MOST_CELLS:
                raise RequestError("the formula sums over too many combinations of levels; cut numbers into classes, or give a set to adjust for")
            # a factor 0 makes a product 0, also where another one is unknown
            found = self.numpy.where((found == 0) | (value == 0), 0.0, found * value)
        return found

    def _sum(self, names: Sequence[str], body: Told, at: Optional[At]) -> Any:
        inner = at.without(names) if at is not None else None
        parts = body.get("product", [body])
        over = next((k for k, part in enumerate(parts) if at is None and self._is_averaged(part, names)), None)
        if over is not None:
            return self._average(names, parts, over)
        return self._summed(self._product(parts, inner), names)

    def _summed(self, found: Any, names: Sequence[str]) -> Any:
        for name in names:
            axis = self.places[name]
            factor = self.places_of(name) if found.shape[axis] == 1 else 1
            found = found.sum(axis=axis, keepdims=True) * factor
        return found

    def _is_averaged(self, part: Told, names: Sequence[str]) -> bool:
        """Whether a sum is an average over the records of this factor: where it is read off them, and has numbers or many levels."""
        if "term" not in part or not set(part["term"]) <= set(names) or not self._is_counted(key_of(part)):
            return False
        sizes = [self.places_of(name) for name in part["term"]]
        return any(self.axes[name].edges is not None for name in part["term"]) or math.prod(sizes) > MANY_CELLS

    def _average(self, names: Sequence[str], parts: Sequence[Told], over: int) -> Any:
        """The sum over names, of which those of one factor have the levels of the records."""
        numpy, key = self.numpy, key_of(parts[over])
        weights, codes = self._inside(key)
        others = [part for k, part in enumerate(parts) if k != over]
        left = [name for name in names if name not in key[0]]
        cells = math.prod(self.places_of(name) for name in self._names_in(others) if name not in key[0])
        step = max(1, AT_ONCE // max(cells, 1))
        total: Any = 0.0
        for start in range(0, len(weights), step):
            chunk = slice(start, start + step)
            at = At({name: codes[name][chunk] for name in key[0]}, len(weights[chunk]))
            value = self._summed(self._product(others, at), left)
            total = total + numpy.tensordot(weights[chunk], numpy.broadcast_to(value, (at.rows, *value.shape[1:])), axes=(0, 0))[None]
        return total / weights.sum()

    def _inside(self, key: Key) -> Tuple[Any, Dict[str, Any]]:
        """The weights and the codes of the records that have what a term is given."""
        weights, codes = self.weights[frozenset(key[1])], self._rows(key).codes
        kept = weights > 0
        for name in key[2]:
            kept = kept & (codes[name] == self.fixed[name])
        if not kept.any():
            raise RequestError(f"no record has {', '.join(key[2])} at the level that was asked for")
        return weights[kept], {name: codes[name][kept] for name in key[0]}

    def _names_in(self, parts: Sequence[Told]) -> Set[str]:
        """The names of the terms of these parts, and of the definitions that they cite."""
        found: Set[str] = set()
        for node in (it for part in parts for it in nodes_of(part)):
            found |= {*node.get("term", ()), *node.get("do", ()), *node.get("given", ())}
            if "definition" in node:
                found |= self._names_in([self.trees[node["definition"]]])
        return found

    def _share(self, key: Key, at: Optional[At]) -> Any:
        """The values of a term over its own names."""
        if at is not None and not {name for names in key for name in names} & set(at.codes):
            at = None
        if at is not None:
            return self._chained(key, at)
        if key not in self.found:
            self.found[key] = self._chained(key, None) if key in self.chains else self._counted(key)
        return self.found[key]

    def _counted(self, key: Key) -> Any:
        """The shares of the records."""
        numpy, place, size = self.numpy, 0, 1
        weights, codes = self._inside(key)
        for name in key[0]:
            axis = self.axes[name]
            place, size = place * axis.size + axis.places[codes[name]], size * axis.size
        self._check_size(key, size)
        return self._shaped((numpy.bincount(place, weights, size) / weights.sum())[None], key[0])

    def _chained(self, key: Key, at: Optional[At]) -> Any:
        """The product of the models of a term."""
        if key not in self.chains:
            raise RequestError(f"{term_text(key)} is averaged over records within another average: cut its numbers into classes")
        found: Any = 1.0
        self._check_size(key, math.prod(self.places_of(name) for names in key for name in names if at is None or name not in at.codes))
        for model in self.chains[key]:
            found = found * self._modelled(model, at)
        return found

    def _modelled(self, model: Model, at: Optional[At]) -> Any:
        """The chances, or the means, of a model over the places of its names."""
        numpy, name = self.numpy, model.target.name
        held = {} if at is None else at.codes
        rows = 1 if at is None else at.rows
        over = [variable.name for variable in model.given if variable.name not in held]
        sizes = [self.places_of(it) for it in over]
        grid = numpy.indices(sizes).reshape(len(sizes), -1) if sizes else numpy.zeros((0, 1), dtype=int)
        codes = {it: numpy.tile(self.axes[it].codes[places], rows) for it, places in zip(over, grid)}
        codes.update({it: numpy.repeat(own, grid.shape[1]) for it, own in held.items()})
        number = rows * grid.shape[1]
        if isinstance(model, Linear) and self._is_mean_of(((name,), (), ())):
            return self._shaped(model.means(codes, number).reshape(rows, *sizes, 1), [*over, name])
        values = model.chances(codes, number)
        if name in held:
            return self._shaped(values[numpy.arange(number), codes[name]].reshape(rows, *sizes), over)
        # levels that are asked for beside classes have no chance of their own
        values = numpy.pad(values, ((0, 0), (0, self.places_of(name) - values.shape[1])))
        return self._shaped(values.reshape(rows, *sizes, -1), [*over, name])

    def _shaped(self, values: Any, names: Sequence[str]) -> Any:
        """Values for records and the places of these names, with an axis for each name."""
        rows, order = values.shape[0], sorted(names, key=lambda name: self.places[name])
        values = values.reshape([rows, *(self.places_of(name) for name in names)])
        values = values.transpose([0, *(list(names).index(name) + 1 for name in order)])
        return values.reshape([rows, *(self.places_of(name) if name in names else 1 for name in self.names)])

    def _check_size(self, key: Key, size: int) -> None:
        if size > MOST_CELLS:
            told = ", ".join(f"{name} {self.places_of(name)}" for names in key for name in names)
            raise RequestError(
                f"the term {term_text(key)} has {size} combinations of levels ({told}); cut them into classes, or give a set to adjust for"
            )


def key_of(node: Told) -> Key:
    """A term by its names."""
    return tuple(node["term"]), tuple(node["do"]), tuple(node["given"])


def term_text(key: Key) -> str:
    """A term in words.

    >>> from causal.trees import term_text
    >>> term_text((("Y",), ("Z",), ("X",)))
    'P(Y|do(Z),X)'
    """
    conditions = [*([f"do({','.join(key[1])})"] if key[1] else []), *key[2]]
    return f"P({','.join(key[0])}{'|' if conditions else ''}{','.join(conditions)})"


def in_chain(names: Sequence[str], outcome: str) -> List[str]:
    """The names of a term one after the other, the outcome last.

    >>> from causal.trees import in_chain
    >>> in_chain(["Y", "A"], "Y")
    ['A', 'Y']
    """
    return sorted(names, key=lambda name: name == outcome)


def targets_free(tree: Told, bound: FrozenSet[str]) -> Iterator[str]:
    """The names that a term is of, and over which no sum runs.

    >>> from causal.trees import targets_free
    >>> list(targets_free({"sum": ["M"], "of": {"product": [{"term": ["M"], "given": ["X"]}, {"term": ["Y"], "given": ["M"]}]}}, frozenset()))
    ['Y']
    """
    inner = bound.union(tree.get("sum", ()))
    yield from (name for name in tree.get("term", ()) if name not in inner)
    for part in parts_of(tree):
        yield from targets_free(part, inner)
