"""Diagnostics of weights: how many records they are worth, the extreme ones, and the balance of what is adjusted for."""
from __future__ import annotations

from dataclasses import dataclass
from typing import TYPE_CHECKING, Any, List, Optional, Sequence, Tuple

from causal.display import html_table
from causal.estimators import Weighted
from causal.framed import Framed

if TYPE_CHECKING:
    import matplotlib.axes

# A chance of an arm that is smaller than this, or a difference that is larger than that, is told.
LEAST_CHANCE, MOST_DIFFERENCE = 0.01, 0.1


@dataclass(frozen=True)
class Balance:
    """A column of what is adjusted for: the standardised difference of its means between both arms, before and after weighting."""

    column: str
    before: float
    after: float


@dataclass(frozen=True)
class Weighting(Framed):
    """Diagnostics of the weights of both arms: the records of each arm and how many they are worth (`effective`, Kish's number), the
    largest weight in parts of the arm's mean, the least chance of an arm, and the `balance`."""

    records: Tuple[float, float]
    effective: Tuple[float, float]
    largest: Tuple[float, float]
    least_chance: float
    balance: Tuple[Balance, ...]

    @property
    def doubts(self) -> Tuple[str, ...]:
        """Chances that are near 0, and columns that stay out of balance."""
        found = []
        if self.least_chance < LEAST_CHANCE:
            found.append(f"the chance of an arm is as small as {self.least_chance:.2g} for some records: their weights are extreme")
        off = sorted((it for it in self.balance if abs(it.after) > MOST_DIFFERENCE), key=lambda it: -abs(it.after))
        if off:
            told = ", ".join(f"{it.column} {it.after:.3g}" for it in off[:3]) + (f" and {len(off) - 3} more" if len(off) > 3 else "")
            found.append(f"the weights leave standardised differences above {MOST_DIFFERENCE}: {told}")
        return tuple(found)

    def __str__(self) -> str:
        arms = zip(("treated", "control"), self.records, self.effective, self.largest)
        told = [f"{name}: {records:g} records, worth {worth:.4g}, largest weight {most:.3g} times the mean" for name, records, worth, most in arms]
        return "weights of " + "; of ".join(told) + f"; least chance of an arm {self.least_chance:.3g}"

    def _table(self) -> Tuple[Sequence[str], List[List[Any]]]:
        return ("column", "before", "after"), [[it.column, it.before, it.after] for it in self.balance]

    def _repr_html_(self) -> str:
        return html_table(*self._table(), [str(self), *self.doubts])

    def plot(self, ax: Optional["matplotlib.axes.Axes"] = None) -> "matplotlib.axes.Axes":
        """Draws the standardised differences before and after weighting: a balance plot. It needs matplotlib."""
        from causal.plotting import plot_balance

        return plot_balance([(it.column, it.before, it.after) for it in self.balance], ax)


def weighting_of(estimator: Weighted, members: Sequence[str]) -> Weighting:
    """The diagnostics of weights."""
    numpy, rows = estimator.numpy, estimator.rows
    models, counts = estimator.models[: len(estimator.exposures)], rows.weights
    inside = [estimator.in_arm(arm).astype(float) for arm in estimator.asked.arms]
    weights = [estimator.row_weights(models, arm) for arm in estimator.asked.arms]
    chances = [estimator.chance(models, arm) for arm in estimator.asked.arms]
    numbers = [float((own > 0) @ (counts if rows.units is None else numpy.ones(len(counts)))) for own in inside]
    worth = [float((counts * own).sum() ** 2 / max((counts * own**2).sum(), 1e-300)) for own in weights]
    largest = [float(own.max() * (counts * part).sum() / max((counts * own).sum(), 1e-300)) for own, part in zip(weights, inside)]
    balance = []
    for name in members:
        variable = rows.variables[name]
        columns = variable.columns(numpy, rows.codes[name])
        heads = [name] if variable.numbers is not None else [f"{name}={level}" for level in variable.levels[1:]]
        for head, column in zip(heads, columns.T):
            ends = [difference(numpy, column, *(counts * own for own in kind), *(counts * part for part in inside)) for kind in (inside, weights)]
            balance.append(Balance(head, *ends))
    return Weighting(
        (numbers[0], numbers[1]), (worth[0], worth[1]), (largest[0], largest[1]), float(min(own.min() for own in chances)), tuple(balance)
    )


def difference(numpy: Any, column: Any, first: Any, second: Any, plain_first: Any, plain_second: Any) -> float:
    """The difference of two weighted means, in parts of the arms' standard deviation before weighting."""
    means = [float((column * own).sum() / own.sum()) for own in (first, second)]
    plain = [float((column * own).sum() / own.sum()) for own in (plain_first, plain_second)]
    spreads = [float((own * (column - mean) ** 2).sum() / own.sum()) for own, mean in zip((plain_first, plain_second), plain)]
    spread = float(numpy.sqrt(sum(spreads) / 2))
    return (means[0] - means[1]) / spread if spread else 0.0
