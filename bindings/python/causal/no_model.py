"""That no model of a diagram has the counts of data, which is proved."""
from __future__ import annotations

from dataclasses import dataclass
from typing import Any, Dict, Sequence, Tuple

from causal.effects import Level, LevelOf, cell_text, levels_text
from causal.framed import Shown
from causal.objects import Told, name_in


@dataclass(frozen=True)
class NoModel(Shown):
    """That no model of the diagram has these counts, which is proved; it counts as false.

    `bounds` answers with a `CrossedBounds`, and a `NoModelError` of values among the treated has a `LessThanObserved`. In a sample chance
    alone can bring either about.
    """

    def __bool__(self) -> bool:
        return False

    @property
    def why(self) -> str:
        """What can't be, as it is printed."""
        raise NotImplementedError

    def __str__(self) -> str:
        return f"no model of this diagram has these counts\n{self.why}"


@dataclass(frozen=True)
class LessThanObserved(NoModel):
    """An effect that is less than what was observed of it: in every model `P(y | do(x))` is at least `P(x, y)`, and so it is with what is given.

    An effect among the treated by two levels would be below 0 then (see `TwoLevels`): that at the levels `y`, `x` and `given`, which has the
    level of x that was observed too. `effect` and `share` are the two probabilities, as they are printed.
    """

    y: Dict[str, Level]
    x: Dict[str, Level]
    given: Dict[str, Level]
    effect: str
    share: str
    pinned: Dict[str, Level]

    def __hash__(self) -> int:
        return hash(self.why)

    @property
    def why(self) -> str:
        """What can't be, as it is printed."""
        return f"{self.effect} is less than {self.share}"


def read_less(told: Told, order: Sequence[str], level_of: LevelOf = lambda name, level: level) -> LessThanObserved:
    """Reads the answer that an effect is less than what was observed of it; sets are printed in the order of the vertices.

    >>> from causal.no_model import read_less
    >>> cell = {"y": [["Y", "1"]], "x": [["X", "0"]], "given": [], "observed": [["X'", "1"]]}
    >>> print(read_less({"answer": "no model", "pinned": [], "less": cell}, ["X", "Y"]))
    no model of this diagram has these counts
    P(Y=1|do(X=0)) is less than P(X=0,Y=1)
    """

    def levels(pairs: Sequence[Tuple[str, Any]]) -> Dict[str, Level]:
        return {name: level_of(name, name_in(level)) for name, level in pairs}

    def ordered(held: Dict[str, Level]) -> Dict[str, Level]:
        return {name: held[name] for name in order if name in held}

    less = told["less"]
    y, x, given = levels(less["y"]), levels(less["x"]), levels(less["given"])
    effect = cell_text(ordered({**y, **given}), x, {})
    share = f"P({levels_text(ordered({**x, **y, **given}))})"
    return LessThanObserved(y, x, {**given, **levels(less["observed"])}, effect, share, levels(told["pinned"]))
