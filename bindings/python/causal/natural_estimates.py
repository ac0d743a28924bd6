"""Natural effects by models: where tables are thin, or variables are numbers.

The formula is proved; what models make of its terms is computed, and nothing about it is proved.
"""
from __future__ import annotations

import math
from dataclasses import dataclass
from typing import TYPE_CHECKING, Any, Dict, List, Mapping, Optional, Sequence, Tuple

from causal.columns import Data
from causal.draws import seed_of
from causal.effects import Level
from causal.errors import RequestError
from causal.estimates import ByMoves, by_draws, check_named, check_words, code_of
from causal.estimators import Asked
from causal.formula import nodes_of
from causal.intervals import Interval
from causal.models import Fit
from causal.names import Names, names_of
from causal.natural import NaturalFormula
from causal.rows import Rows, alias, rows_of
from causal.samples import Design
from causal.trees import ByTree
from causal.vocabulary import needed

if TYPE_CHECKING:
    from causal.bootstrap import Progress
    from causal.diagram import Diagram


@dataclass(frozen=True)
class ModelWords:
    """How the terms of a natural effect are modelled, in the words of `Diagram.mediate`."""

    model: Any
    smoothing: float
    factors: Names
    interval: Optional[str]


@dataclass(frozen=True)
class Modelled:
    """The values of a natural effect in its three worlds by models: both arms, and x as treated where the mediators are as under control.
    `moves` are how they move with each record, or `draws` the same over resamples."""

    values: Tuple[float, ...]
    fits: Tuple[Fit, ...]
    records: int
    dropped: int
    pinned: Dict[str, Level]
    outcome: Dict[str, Level]
    as_numbers: Tuple[str, ...]
    by_moves: Optional[ByMoves] = None
    moves: Sequence[Any] = ()
    draws: Sequence[Optional[Tuple[float, ...]]] = ()
    seed: int = 0

    def intervals(self) -> List[Optional[Interval]]:
        """The interval of each measure, by how it moves with each record: of risks on the scale of the logit."""
        (a, b, between), (first, second, third), by = self.values, self.moves, self.by_moves
        if by is None:
            raise RequestError("it isn't known how the values move")
        arm = by.risk if self.outcome else by.plain
        total, indirect = a - b, a - between
        found: List[Optional[Interval]] = [arm(a, first), arm(b, second), arm(between, third)]
        found += [by.plain(total, first - second), by.plain(between - b, third - second), by.plain(indirect, first - third)]
        share = indirect / total if total else math.nan
        found.append(by.plain(share, (first - third - share * (first - second)) / total) if total else None)
        return found


def modelled(
    diagram: "Diagram",
    formula: NaturalFormula,
    data: Data,
    arms: Sequence[Mapping[str, Level]],
    outcome: Optional[Mapping[str, Level]],
    words: ModelWords,
    count: Optional[str],
    missing: str,
    resamples: int,
    level: float,
    seed: Optional[int],
    progress: Optional["Progress"],
) -> Modelled:
    """The values of a natural effect by models of its terms."""
    numpy = needed("numpy", "an estimate by models")
    check_words("formula", words.interval, level, words.smoothing, None, progress)
    for role, listed in (("factors", names_of(words.factors)), ("model", tuple(words.model) if isinstance(words.model, Mapping) else ())):
        check_named(role, listed, diagram.vertices)
    sets, trees = formula.sets, formula.trees
    first = dict(zip(sets.second, sets.x))
    nodes = [node for tree in trees for node in nodes_of(tree)]
    read = {name for node in nodes for key in ("term", "given", "sum") for name in node.get(key, ())}.union(sets.x, sets.y) - set(sets.second)
    names = [name for name in diagram.vertices if name in read]
    rows = rows_of(numpy, data, names, sets.x, names_of(words.factors), count, missing, Design(), sets.y)
    if outcome is None and rows.variables[sets.y[0]].numbers is None:
        raise RequestError(f"{sets.y[0]} isn't a number: give the level whose chance is wanted, as outcome")
    pinned = {name: rows.variables[name].levels[0] for name in formula.free}
    as_numbers = tuple(name for name in names if is_number(rows, name) and name not in sets.y)
    asked = asked_of(rows, formula, arms, outcome, pinned, words)
    for second, name in first.items():
        alias(rows, second, name)
    estimator = ByTree({frozenset(): rows}, asked, trees, [*names, *sets.second])
    estimator.fit(rows.weights)
    estimator.examine()
    kind = words.interval or ("influence" if estimator.has_moves else "percentile")
    if kind == "influence" and not estimator.has_moves:
        raise RequestError("influence functions are known of the package's own models, of few coefficients; interval='percentile' draws records anew")
    values = estimator.numbers(rows.weights)
    if not all(map(math.isfinite, values)):
        raise RequestError("by these models there is no value: no record has some condition; give smoothing, or another model")
    found = (values, tuple(it.told(rows.records) for it in estimator.models), rows.records, rows.dropped, pinned, dict(outcome or {}), as_numbers)
    if kind == "influence":
        return Modelled(*found, ByMoves(rows, level), estimator.moves(rows.weights))
    start = seed_of(seed)
    drawn = by_draws(rows, estimator, resamples, start, progress) if resamples else ()
    return Modelled(*found, draws=tuple(drawn), seed=start)


def is_number(rows: Rows, name: str) -> bool:
    """Whether a variable enters the models as a number."""
    variable = rows.variables[name]
    return variable.numbers is not None and len(variable.levels) > 2


def asked_of(
    rows: Rows,
    formula: NaturalFormula,
    arms: Sequence[Mapping[str, Level]],
    outcome: Optional[Mapping[str, Level]],
    pinned: Mapping[str, Level],
    words: ModelWords,
) -> Asked:
    """What is estimated: both arms, and x as treated where it is read by its first names, and as control where by its second ones."""
    sets, y = formula.sets, formula.sets.y[0]
    treated, control = ({name: code_of(rows, name, level, may_be_new=True) for name, level in arm.items()} for arm in arms)
    worlds = tuple(
        {**one, **{second: other[name] for second, name in zip(sets.second, sets.x)}}
        for one, other in ((treated, treated), (control, control), (treated, control))
    )
    told = None if outcome is None else code_of(rows, y, outcome[y])
    fixed = {name: code_of(rows, name, level) for name, level in pinned.items()}
    return Asked(y, told, worlds, fixed, words.model, words.smoothing)
