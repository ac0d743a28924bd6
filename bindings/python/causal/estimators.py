"""How models of terms make a number of an arm: by the formula's tree, by records, by weights, or doubly robust."""
from __future__ import annotations

from dataclasses import dataclass
from typing import TYPE_CHECKING, Any, Dict, List, Mapping, Optional, Sequence, Tuple

from causal.errors import RequestError
from causal.formula import Formula
from causal.models import Linear, Model, chosen, model_of
from causal.rows import Rows

if TYPE_CHECKING:
    from causal.treated import ValuedBy

STEP = 1e-5
Arm = Mapping[str, int]


@dataclass(frozen=True)
class Asked:
    """What is estimated: the outcome, its level (None for its mean), the arms, and the levels of what is given and of what is pinned, all
    by their numbers; and the models that were asked for."""

    outcome: str
    level: Optional[int]
    arms: Tuple[Arm, ...]
    fixed: Arm
    models: Any
    smoothing: float

    def model(self, rows: Rows, name: str, given: Sequence[str], edges: Optional[Any] = None) -> Model:
        """The model of a variable given others; where it is summed over in classes, `edges` are the borders between these."""
        variables = [rows.variables[it] for it in given]
        is_mean = name == self.outcome and self.level is None
        return model_of(rows.numpy, chosen(self.models, name), rows.variables[name], variables, self.smoothing, is_mean, edges)


class Estimator:
    """An estimator: it is fitted with weights, and gives a number for each arm."""

    models: List[Model]

    def __init__(self, rows: Rows, asked: Asked) -> None:
        self.rows, self.asked, self.numpy = rows, asked, rows.numpy
        self.size = len(rows.weights)

    def fit(self, weights: Any) -> None:
        """Fits the models."""
        for model in self.models:
            model.fit(self.rows.codes, weights)

    def examine(self) -> None:
        """Notes what is wrong with the fits."""
        for model in self.models:
            model.examine(self.rows.codes, self.rows.weights)

    def parts(self, models: Sequence[Model]) -> Optional[List[Tuple[Any, Any]]]:
        """For each arm two numbers of each row, whose weighted sums' ratio is the number of the arm; None where it is none."""
        raise NotImplementedError

    def numbers(self, weights: Any) -> Tuple[float, ...]:
        """The number of each arm."""
        # (what isn't drawn may be unknown)
        some = weights > 0
        held = weights[some]
        return tuple(float((held * above[some]).sum() / (held * below[some]).sum()) for above, below in self.parts(self.models) or ())

    @property
    def has_moves(self) -> bool:
        """Whether it can be told how the numbers move with the weight of a row."""
        return all(model.has_scores for model in self.models)

    def moves(self, weights: Any) -> List[Any]:
        """How the number of each arm moves with the weight of each row, also by way of the models."""
        numpy = self.numpy
        found = []
        for (above, below), number in zip(self.parts(self.models) or (), self.numbers(weights)):
            found.append((above - number * below) / (weights * below).sum())
        for place, model in enumerate(self.models):
            values, moved = model.values, model.moves(self.rows.codes, weights)  # type: ignore[attr-defined]
            slopes: List[List[float]] = [[], []]
            for k in range(len(values)):
                step = numpy.zeros(len(values))
                step[k] = STEP * max(1.0, abs(float(values[k])))
                ends = []
                for sign in (1, -1):
                    models = list(self.models)
                    models[place] = model.at(values + sign * step)  # type: ignore[attr-defined]
                    ends.append([(weights * above).sum() / (weights * below).sum() for above, below in self.parts(models) or ()])
                for arm in (0, 1):
                    slopes[arm].append(float(ends[0][arm] - ends[1][arm]) / (2 * float(step[k])))
            for arm in (0, 1):
                found[arm] = found[arm] + moved @ numpy.array(slopes[arm])
        return found

    def codes_at(self, arm: Arm) -> Dict[str, Any]:
        """The rows with the levels of an arm, and of what is fixed."""
        full = {name: self.numpy.full(self.size, code) for name, code in {**self.asked.fixed, **arm}.items()}
        return {**self.rows.codes, **full}

    def outcome_of(self, model: Model, codes: Mapping[str, Any]) -> Any:
        """The probability of the outcome's level, or its mean, in each row."""
        if isinstance(model, Linear):
            return model.means(codes, self.size)
        return model.chances(codes, self.size)[:, self.asked.level]

    @property
    def outcomes(self) -> Any:
        """The outcome of each row: whether it is the level, or its number."""
        codes, variable = self.rows.codes[self.asked.outcome], self.rows.variables[self.asked.outcome]
        if self.asked.level is not None:
            return (codes == self.asked.level).astype(float)
        return variable.numbers[codes] if variable.numbers is not None else codes.astype(float)


class Standardized(Estimator):
    """A sum over a set of P(set) P(y | x, set): the model of y, over the records' own sets."""

    def __init__(self, rows: Rows, asked: Asked, given: Sequence[str]) -> None:
        super().__init__(rows, asked)
        self.models = [asked.model(rows, asked.outcome, given)]

    def examine(self) -> None:
        """Notes what is wrong with the fits."""
        for model in self.models:
            model.examine(self.rows.codes, self.rows.weights)

    def parts(self, models: Sequence[Model]) -> Optional[List[Tuple[Any, Any]]]:
        ones = self.numpy.ones(self.size)
        return [(self.outcome_of(models[0], self.codes_at(arm)), ones) for arm in self.asked.arms]


class Weighted(Estimator):
    """Inverse probability weights: records of an arm, each over the chance of its arm given the set."""

    def __init__(self, rows: Rows, asked: Asked, exposures: Sequence[str], members: Sequence[str]) -> None:
        super().__init__(rows, asked)
        self.exposures = tuple(exposures)
        for name in exposures:
            if rows.variables[name].numbers is not None:
                number = len(rows.variables[name].levels)
                raise RequestError(f"weights need few levels of the exposure: {name} has {number}; cut it into classes")
        # several exposures one after the other
        self.models = [asked.model(rows, name, [*members, *exposures[:k]]) for k, name in enumerate(exposures)]

    def chance(self, models: Sequence[Model], arm: Arm) -> Any:
        """The chance of an arm in each row."""
        codes, found = self.codes_at(arm), self.numpy.ones(self.size)
        for name, model in zip(self.exposures, models):
            found = found * model.chances(codes, self.size)[:, arm[name]]
        return found

    def in_arm(self, arm: Arm) -> Any:
        """Whether each row is of an arm."""
        found = self.numpy.ones(self.size, dtype=bool)
        for name in self.exposures:
            found &= self.rows.codes[name] == arm[name]
        return found

    def row_weights(self, models: Sequence[Model], arm: Arm) -> Any:
        """What each row of an arm weighs."""
        return self.in_arm(arm) / self.numpy.maximum(self.chance(models, arm), 1e-12)

    def examine(self) -> None:
        """Notes what is wrong with the fits."""
        for model in self.models:
            model.examine(self.rows.codes, self.rows.weights)

    def parts(self, models: Sequence[Model]) -> Optional[List[Tuple[Any, Any]]]:
        weights = [self.row_weights(models, arm) for arm in self.asked.arms]
        return [(own * self.outcomes, own) for own in weights]


class DoublyRobust(Weighted):
    """The model of the outcome, with its errors weighted by the chance of the arm: right where one of the two models is."""

    def __init__(self, rows: Rows, asked: Asked, exposures: Sequence[str], members: Sequence[str]) -> None:
        super().__init__(rows, asked, exposures, members)
        self.models.append(asked.model(rows, asked.outcome, [*exposures, *members]))

    def examine(self) -> None:
        """Notes what is wrong with the fits."""
        for model in self.models:
            model.examine(self.rows.codes, self.rows.weights)

    def parts(self, models: Sequence[Model]) -> Optional[List[Tuple[Any, Any]]]:
        found, ones = [], self.numpy.ones(self.size)
        for arm in self.asked.arms:
            expected = self.outcome_of(models[-1], self.codes_at(arm))
            found.append((expected + self.row_weights(models[:-1], arm) * (self.outcomes - expected), ones))
        return found


def pattern_of(formula: ValuedBy) -> Optional[Tuple[str, ...]]:
    """Where a formula is a sum over a set of P(set) P(y | x, set), or a term P(y | x): what y is given; else None.

    >>> from causal import Diagram
    >>> from causal.estimators import pattern_of
    >>> pattern_of(Diagram("dag { Z -> X -> Y <- Z }").identify("X", "Y")), pattern_of(Diagram("dag { X -> M -> Y X <-> Y }").identify("X", "Y"))
    (('Z', 'X'), None)
    """
    if not isinstance(formula, Formula):
        return None
    *definitions, tree = formula._known()
    y, fixed = formula.target.y, {*formula.target.x, *formula.target.given}
    if definitions or formula.free:
        return None
    if "term" in tree:
        return tuple(tree["given"]) if tuple(tree["term"]) == y and set(tree["given"]) <= fixed else None
    members = set(tree.get("sum", ()))
    parts = tree["of"].get("product", ()) if members else ()
    if len(parts) != 2 or not all("term" in part for part in parts):
        return None
    weights, outcome = sorted(parts, key=lambda part: tuple(part["term"]) == y)
    if set(weights["term"]) != members or weights["given"] or tuple(outcome["term"]) != y or not set(outcome["given"]) <= members | fixed:
        return None
    return tuple(outcome["given"])
