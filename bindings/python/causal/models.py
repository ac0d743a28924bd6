"""Models of one variable given others: logistic, linear, a smoothed table, or an object of the user's with `fit` and `predict_proba`.

They are fitted by numpy and computed, and nothing about them is proved.
"""
from __future__ import annotations

import copy
import warnings
from dataclasses import dataclass
from typing import Any, Dict, List, Mapping, Optional, Sequence, Tuple

from causal.display import Printed
from causal.errors import RequestError

# Newton's steps at most, how small the last one is, and how far a coefficient may go before the data are said to be separated.
MOST_STEPS, SMALL_STEP, FAR = 60, 1e-11, 25.0
MODELS = ("logistic", "multinomial", "linear", "table")


@dataclass(frozen=True)
class Fit(Printed):
    """How a model fits: the term, the model, its number of parameters, whether it converged, its log-likelihood, and what is wrong."""

    term: str
    model: str
    records: float
    parameters: Optional[int]
    converged: bool
    log_likelihood: Optional[float] = None
    notes: Tuple[str, ...] = ()

    def __str__(self) -> str:
        likelihood = "" if self.log_likelihood is None else f", log-likelihood {self.log_likelihood:.6g}"
        parameters = "" if self.parameters is None else f", {self.parameters} parameters"
        text = f"{self.term}: {self.model}{parameters}{likelihood}"
        return "; ".join([text, *self.notes])


@dataclass(frozen=True)
class Variable:
    """A variable of data: its levels in order, and their numbers where it is used as a number."""

    name: str
    levels: Sequence[Any]
    numbers: Optional[Any] = None

    def columns(self, numpy: Any, codes: Any) -> Any:
        """The columns of a design: the number, or for each level but the first whether it is that one."""
        if self.numbers is not None:
            return self.numbers[codes][:, None]
        return (codes[:, None] == numpy.arange(1, len(self.levels))[None, :]).astype(float)

    @property
    def width(self) -> int:
        """How many columns it has."""
        return 1 if self.numbers is not None else len(self.levels) - 1


def matrix(numpy: Any, variables: Sequence[Variable], codes: Mapping[str, Any], rows: int) -> Any:
    """The design of these variables, with a column of ones first."""
    parts = [numpy.ones((rows, 1)), *(variable.columns(numpy, codes[variable.name]) for variable in variables)]
    return numpy.concatenate(parts, axis=1)


class Model:
    """A model of a variable (`target`) given others, fitted to weighted rows."""

    kind = ""
    letter = "P"
    has_scores = False

    def __init__(self, numpy: Any, target: Variable, given: Sequence[Variable]) -> None:
        self.numpy, self.target, self.given = numpy, target, tuple(given)
        self.notes: List[str] = []
        self.converged = True
        self.likelihood: Optional[float] = None
        # The variables that were done, where it is of a trial.
        self.done: Tuple[str, ...] = ()

    @property
    def term(self) -> str:
        """The probability or the mean that it is of."""
        done = [f"do({','.join(self.done)})"] if self.done else []
        given = [variable.name for variable in self.given if variable.name not in self.done]
        return f"{self.letter}({self.target.name}|{','.join([*done, *given])})"

    @property
    def parameters(self) -> Optional[int]:
        """How many parameters it has; None where that isn't known."""
        raise NotImplementedError

    def fit(self, codes: Mapping[str, Any], weights: Any) -> "Model":
        """Fits it."""
        raise NotImplementedError

    def examine(self, codes: Mapping[str, Any], weights: Any) -> None:
        """Notes what is wrong with the fit."""

    def chances(self, codes: Mapping[str, Any], rows: int) -> Any:
        """The probability of each level in each row."""
        raise NotImplementedError

    def told(self, records: float) -> Fit:
        """How it fits."""
        return Fit(self.term, self.kind, records, self.parameters, self.converged, self.likelihood, tuple(self.notes))


class Logistic(Model):
    """A logistic model, multinomial where there are more than two levels: main effects, numbers as they are."""

    kind = "logistic"
    has_scores = True
    coefficients: Any = None

    @property
    def parameters(self) -> int:
        return (1 + sum(variable.width for variable in self.given)) * (len(self.target.levels) - 1)

    def fit(self, codes: Mapping[str, Any], weights: Any) -> "Logistic":
        numpy = self.numpy
        design = matrix(numpy, self.given, codes, len(weights))
        others = len(self.target.levels) - 1
        wanted = (codes[self.target.name][:, None] == numpy.arange(1, others + 1)[None, :]).astype(float)
        self.coefficients = numpy.zeros((design.shape[1], others)) if self.coefficients is None else self.coefficients
        self.converged, best = False, -numpy.inf
        for _ in range(MOST_STEPS):
            chances = self._chances(design, self.coefficients)
            step = self._step(design, wanted, chances, weights)
            size, self.coefficients, best = self._halved(design, codes, weights, step, best)
            if size <= SMALL_STEP * (1 + float(abs(self.coefficients).max(initial=0.0))):
                self.converged = True
                break
        self.likelihood = float(best)
        return self

    def _halved(self, design: Any, codes: Mapping[str, Any], weights: Any, step: Any, best: float) -> Tuple[float, Any, float]:
        """The coefficients after a step, which is halved until the likelihood doesn't fall."""
        for _ in range(12):
            moved = self.coefficients + step
            found = self._log_likelihood(design, codes, weights, moved)
            if found >= best - 1e-10 * (1 + abs(best)):
                return float(abs(step).max(initial=0.0)), moved, max(found, best)
            step = step / 2
        return 0.0, self.coefficients, best

    def _log_likelihood(self, design: Any, codes: Mapping[str, Any], weights: Any, coefficients: Any) -> float:
        chances = self._chances(design, coefficients)[self.numpy.arange(len(weights)), codes[self.target.name]]
        return float((weights * self.numpy.log(self.numpy.maximum(chances, 1e-300))).sum())

    def _chances(self, design: Any, coefficients: Any) -> Any:
        scores = self.numpy.concatenate([self.numpy.zeros((len(design), 1)), design @ coefficients], axis=1)
        scores = self.numpy.exp(scores - scores.max(axis=1, keepdims=True))
        return scores / scores.sum(axis=1, keepdims=True)

    def _step(self, design: Any, wanted: Any, chances: Any, weights: Any) -> Any:
        numpy = self.numpy
        slope = design.T @ (weights[:, None] * (wanted - chances[:, 1:]))
        return numpy.linalg.lstsq(self._information(design, chances, weights), slope.T.reshape(-1), rcond=1e-13)[0].reshape(slope.T.shape).T

    def _information(self, design: Any, chances: Any, weights: Any) -> Any:
        """The information, by levels and columns."""
        numpy, width, others = self.numpy, design.shape[1], chances.shape[1] - 1
        found = numpy.zeros((others, width, others, width))
        for a in range(others):
            for b in range(a, others):
                both = weights * chances[:, a + 1] * ((a == b) - chances[:, b + 1])
                found[a, :, b, :] = found[b, :, a, :] = design.T @ (both[:, None] * design)
        return found.reshape(others * width, others * width)

    def examine(self, codes: Mapping[str, Any], weights: Any) -> None:
        design = matrix(self.numpy, self.given, codes, len(weights))
        self.notes = []
        spread = self.numpy.sqrt(((design[:, 1:] - design[:, 1:].mean(axis=0)) ** 2).mean(axis=0)) if len(design) else 0
        if (abs(self.coefficients[1:]) * self.numpy.reshape(spread, (-1, 1))).max(initial=0.0) > FAR / 2 or not self.converged:
            is_far = bool((abs(self.coefficients) > FAR / 2).any())
            self.notes.append("some records are told apart perfectly: a coefficient goes beyond all bounds" if is_far else "it didn't converge")
        if self.numpy.linalg.matrix_rank(design[weights > 0]) < design.shape[1]:
            self.notes.append("some columns follow from others, so that coefficients aren't unique")

    def chances(self, codes: Mapping[str, Any], rows: int) -> Any:
        return self._chances(matrix(self.numpy, self.given, codes, rows), self.coefficients)

    def moves(self, codes: Mapping[str, Any], weights: Any) -> Any:
        """How the coefficients move with the weight of each row: a row for each, by levels and columns."""
        numpy = self.numpy
        design = matrix(numpy, self.given, codes, len(weights))
        chances = self._chances(design, self.coefficients)
        others = chances.shape[1] - 1
        off = (codes[self.target.name][:, None] == numpy.arange(1, others + 1)[None, :]) - chances[:, 1:]
        scores = (off[:, :, None] * design[:, None, :]).reshape(len(weights), -1)
        return scores @ numpy.linalg.pinv(self._information(design, chances, weights), rcond=1e-13)

    @property
    def values(self) -> Any:
        """The coefficients as a list, by levels and columns."""
        return self.coefficients.T.reshape(-1)

    def at(self, values: Any) -> "Logistic":
        """The model with other coefficients."""
        other = copy.copy(self)
        other.coefficients = values.reshape(self.coefficients.T.shape).T
        return other


class Linear(Model):
    """The mean of a number by least squares."""

    kind = "linear"
    letter = "E"
    has_scores = True
    coefficients: Any = None

    @property
    def parameters(self) -> int:
        return 1 + sum(variable.width for variable in self.given)

    def fit(self, codes: Mapping[str, Any], weights: Any) -> "Linear":
        numpy = self.numpy
        design, wanted = matrix(numpy, self.given, codes, len(weights)), self._wanted(codes)
        root = numpy.sqrt(weights)
        self.coefficients, _, rank, _ = numpy.linalg.lstsq(design * root[:, None], wanted * root, rcond=None)
        self.notes = ["some columns follow from others, so that coefficients aren't unique"] if rank < design.shape[1] else []
        return self

    def _wanted(self, codes: Mapping[str, Any]) -> Any:
        return self.target.numbers[codes[self.target.name]] if self.target.numbers is not None else codes[self.target.name]

    def means(self, codes: Mapping[str, Any], rows: int) -> Any:
        """The mean in each row."""
        return matrix(self.numpy, self.given, codes, rows) @ self.coefficients

    def moves(self, codes: Mapping[str, Any], weights: Any) -> Any:
        """How the coefficients move with the weight of each row."""
        design = matrix(self.numpy, self.given, codes, len(weights))
        off = self._wanted(codes) - design @ self.coefficients
        return (off[:, None] * design) @ self.numpy.linalg.pinv(design.T @ (weights[:, None] * design))

    @property
    def values(self) -> Any:
        """The coefficients."""
        return self.coefficients

    def at(self, values: Any) -> "Linear":
        """The model with other coefficients."""
        other = copy.copy(self)
        other.coefficients = values
        return other


class Shifted(Linear):
    """A number that is summed over: its mean by least squares, and about it the errors of the records, as they are.

    `edges` are the borders between the classes whose chances are wanted.
    """

    kind = "linear, with the errors of the records"
    letter = "P"
    has_scores = False

    def __init__(self, numpy: Any, target: Variable, given: Sequence[Variable], edges: Any) -> None:
        super().__init__(numpy, target, given)
        self.edges = edges

    def fit(self, codes: Mapping[str, Any], weights: Any) -> "Shifted":
        super().fit(codes, weights)
        numpy = self.numpy
        errors = self._wanted(codes) - self.means(codes, len(weights))
        order = numpy.argsort(errors)
        self.errors, self.shares = errors[order], numpy.concatenate([[0.0], numpy.cumsum(weights[order])]) / weights.sum()
        return self

    def chances(self, codes: Mapping[str, Any], rows: int) -> Any:
        """The chance of each class in each row."""
        numpy = self.numpy
        below = self.shares[numpy.searchsorted(self.errors, self.edges[None, :] - self.means(codes, rows)[:, None], side="right")]
        return numpy.diff(below, axis=1, prepend=0.0, append=1.0)


class Shares(Model):
    """The shares of a table, in which each level has a part of some further records: `smoothing` in all at each condition."""

    def __init__(self, numpy: Any, target: Variable, given: Sequence[Variable], smoothing: float) -> None:
        super().__init__(numpy, target, given)
        self.smoothing = smoothing
        self.kind = f"table, smoothed by {smoothing:g}"

    @property
    def parameters(self) -> int:
        return len(self.shares) * (len(self.target.levels) - 1)

    def _places(self, codes: Mapping[str, Any], rows: int) -> Any:
        place = self.numpy.zeros(rows, dtype=self.numpy.int64)
        for variable in self.given:
            place = place * len(variable.levels) + codes[variable.name]
        return place

    def fit(self, codes: Mapping[str, Any], weights: Any) -> "Shares":
        numpy, levels = self.numpy, len(self.target.levels)
        known, place = numpy.unique(self._places(codes, len(weights)), return_inverse=True)
        counts = numpy.bincount(place * levels + codes[self.target.name], weights, len(known) * levels).reshape(len(known), levels)
        total = counts.sum(axis=1, keepdims=True) + self.smoothing
        uniform = numpy.full(levels, 1.0 / levels)
        # (records that weren't drawn have the weight 0)
        some = total[:, 0] > 0
        self.known, self.uniform = known[some], uniform
        self.shares = (counts[some] + self.smoothing * uniform) / total[some]
        return self

    def chances(self, codes: Mapping[str, Any], rows: int) -> Any:
        """The shares; of a condition that no record has they are unknown, or with smoothing alike."""
        numpy, places = self.numpy, self._places(codes, rows)
        at = numpy.minimum(numpy.searchsorted(self.known, places), len(self.known) - 1)
        is_known = self.known[at] == places
        return numpy.where(is_known[:, None], self.shares[at], self.uniform[None, :] if self.smoothing else numpy.nan)


class Own(Model):
    """An object of the user's, with `fit` and `predict_proba` as those of scikit-learn."""

    def __init__(self, numpy: Any, target: Variable, given: Sequence[Variable], learner: Any) -> None:
        super().__init__(numpy, target, given)
        self.learner = learner
        self.kind = type(learner).__name__

    @property
    def parameters(self) -> None:
        return None

    def _design(self, codes: Mapping[str, Any], rows: int) -> Any:
        return matrix(self.numpy, self.given, codes, rows)[:, 1:]

    def fit(self, codes: Mapping[str, Any], weights: Any) -> "Own":
        self.fitted = copied(self.learner)
        wanted, kept = codes[self.target.name], weights > 0
        design = self._design(codes, len(weights))[kept]
        more = {} if bool((weights[kept] == 1).all()) else {"sample_weight": weights[kept]}
        with warnings.catch_warnings(record=True) as caught:
            warnings.simplefilter("always")
            try:
                self.fitted.fit(design, wanted[kept], **more)
            except (TypeError, ValueError) as cause:
                raise RequestError(f"the model {self.kind} of {self.term} can't be fitted: {cause}") from cause
        lost = sorted(set(range(len(self.target.levels))) - {int(code) for code in self.fitted.classes_})
        self.notes = [f"no record that it was fitted to has {self.target.name}={self.target.levels[code]}" for code in lost]
        self.notes += dict.fromkeys(f"its fit warned: {str(it.message).splitlines()[0]}" for it in caught)
        return self

    def chances(self, codes: Mapping[str, Any], rows: int) -> Any:
        found = self.numpy.zeros((rows, len(self.target.levels)))
        found[:, [int(code) for code in self.fitted.classes_]] = self.fitted.predict_proba(self._design(codes, rows))
        return found


def copied(learner: Any) -> Any:
    """A copy of a user's model that isn't fitted."""
    if hasattr(learner, "get_params"):
        return type(learner)(**learner.get_params(deep=False)) if not hasattr(learner, "__sklearn_clone__") else copy.deepcopy(learner)
    return copy.deepcopy(learner)


def model_of(
    numpy: Any,
    asked: Any,
    target: Variable,
    given: Sequence[Variable],
    smoothing: float,
    is_mean: bool,
    edges: Optional[Any] = None,
) -> Model:
    """The model that was asked for; with `edges`, the target is summed over in classes with these borders."""
    uncut = [variable.name for variable in (target, *given) if variable.numbers is not None and len(variable.numbers) > len(variable.levels)]
    if uncut and asked == "table":
        raise RequestError(f"a table can't have a row for each number that {uncut[0]} may be: cut it into classes, or give another model")
    if edges is not None:
        if not isinstance(asked, str):
            raise RequestError(f"the model {type(asked).__name__} can't give a chance to each number that {target.name} may be: cut it into classes")
        return Shifted(numpy, target, given, edges)
    if is_mean:
        if asked not in ("linear", "logistic", "multinomial"):
            raise RequestError(f"the mean of {target.name} is modelled by 'linear'; for another model cut it into classes, and give outcome")
        return Linear(numpy, target, given)
    if asked in ("logistic", "multinomial"):
        return Logistic(numpy, target, given)
    if asked == "table":
        return Shares(numpy, target, given, smoothing)
    if isinstance(asked, str):
        raise RequestError(f"a model is {', '.join(map(repr, MODELS))} or an object with fit and predict_proba, and not {asked!r}")
    if not hasattr(asked, "fit") or not hasattr(asked, "predict_proba"):
        raise RequestError(f"a model has the methods fit and predict_proba, which {type(asked).__name__} hasn't")
    return Own(numpy, target, given, asked)


def chosen(asked: Any, name: str) -> Any:
    """The model that was asked for one variable.

    >>> from causal.models import chosen
    >>> chosen("table", "Y"), chosen({"X": "table"}, "Y"), chosen({"Y": "table"}, "Y")
    ('table', 'logistic', 'table')
    """
    return asked.get(name, "logistic") if isinstance(asked, Mapping) else asked


Codes = Dict[str, Any]
