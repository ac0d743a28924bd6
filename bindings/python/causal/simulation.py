"""Records that are drawn from a diagram: a model of it with coefficients that chance gives."""
from __future__ import annotations

import math
import random
from typing import TYPE_CHECKING, Dict, List, Optional, Sequence

from causal.draws import seed_of

if TYPE_CHECKING:
    from causal.diagram import Diagram


def in_time(diagram: "Diagram") -> List[str]:
    """The vertices, each behind its parents.

    >>> from causal import Diagram
    >>> from causal.simulation import in_time
    >>> in_time(Diagram("dag { B <- A  C -> A }"))
    ['C', 'A', 'B']
    """
    left, found = list(diagram.vertices), []  # type: List[str], List[str]
    while left:
        name = next(it for it in left if all(a in found for a, b in diagram.edges if b == it))
        left.remove(name)
        found.append(name)
    return found


def chances(scores: Sequence[float]) -> List[float]:
    """The chances of levels by their scores.

    >>> from causal.simulation import chances
    >>> chances([0.0, 0.0])
    [0.5, 0.5]
    """
    weights = [math.exp(score - max(scores)) for score in scores]
    return [weight / sum(weights) for weight in weights]


def simulated(diagram: "Diagram", records: int, seed: Optional[int], levels: int, strength: float) -> Dict[str, List[int]]:
    """Records of a model that is drawn: see `Diagram.simulate`."""
    source = random.Random(seed_of(seed))
    order, hidden = in_time(diagram), [f"{a} <-> {b}" for a, b in diagram.bidirected]
    causes = {name: [a for a, b in diagram.edges if b == name] for name in order}
    for cause, pair in zip(hidden, diagram.bidirected):
        for name in pair:
            causes[name].append(cause)
    # the score of each level: a part of its own, and one for each level of each cause
    base = {name: [source.gauss(0, strength / 2) for _ in range(levels)] for name in order}
    parts = {
        (name, cause): [[source.gauss(0, strength) for _ in range(levels)] for _ in range(levels)] for name in order for cause in causes[name]
    }
    columns: Dict[str, List[int]] = {name: [] for name in order}
    for _ in range(records):
        at = {cause: source.randrange(levels) for cause in hidden}
        for name in order:
            added = [parts[name, cause][at[cause]] for cause in causes[name]]
            scores = [own + sum(it[level] for it in added) for level, own in enumerate(base[name])]
            at[name] = source.choices(range(levels), chances(scores))[0]
            columns[name].append(at[name])
    return {name: columns[name] for name in diagram.vertices if diagram.roles.get(name) != "latent"}
