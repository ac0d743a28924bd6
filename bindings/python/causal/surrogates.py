"""Effects from experiments on other variables, as `surrogate` gives them."""
from __future__ import annotations

from dataclasses import dataclass
from typing import Iterable, Tuple

from causal.formula import Hedge, HedgeSets
from causal.names import Names, list_word, printed_set


@dataclass(frozen=True)
class Stopped(HedgeSets):
    """Why no formula was found from experiments: it counts as false.

    `district` is the first district of the diagram that none of the experiments frees, and `big`, `small` and `roots` are the
    sets of a hedge for it. It is proved that a hedge stands against the district without an experiment and under each of those
    that are disjoint from it, and that the effect can't be computed from observations alone. It isn't said that no other way
    leads from these experiments to the effect; with `models` it may be (`StoppedHedge`).

    >>> from causal import Diagram
    >>> stopped = Diagram("dag { X -> Z -> Y X <-> Y X -> Y }").surrogate("X", "Y", experiments="Z")
    >>> bool(stopped), stopped.district
    (False, ('Y',))
    """

    district: Tuple[str, ...] = ()

    def __str__(self) -> str:
        sets = HedgeSets.__str__(self).split("\n")[1]
        return f"{self.target} has no formula found from these experiments\ndistrict {printed_set(self.district)}\n{sets}"


@dataclass(frozen=True)
class StoppedHedge(Hedge):
    """Why an effect can't be computed from observations and these experiments, with two models that show it. It counts as false.

    It is proved that both models are positive and fit the diagram, agree on all observations and under each experiment, and
    differ on the effect. `district` is the first district of the diagram that none of the experiments frees; the hedge is that
    at which it stops under all experiments at once that leave it alone.

    >>> from causal import Diagram
    >>> diagram = Diagram("dag { Z -> X -> Y Z <-> X Z <-> Y X <-> Y }")
    >>> stopped = diagram.surrogate("X", "Y", experiments="Z", models=True)
    >>> stopped.district, stopped.big, stopped.probabilities
    (('Y',), ('X', 'Y'), (Fraction(1, 2), Fraction(5, 8)))
    """

    district: Tuple[str, ...] = ()

    @property
    def text(self) -> str:
        """The answer as it is printed."""
        head, *lines = self._lines()
        return "\n".join([f"{head} from these experiments", f"district {printed_set(self.district)}", *lines])


def experiments_word(experiments: Iterable[Names]) -> str:
    """The word that lists experiments: each is one name or several.

    >>> from causal.surrogates import experiments_word
    >>> experiments_word("Z"), experiments_word(["Z", ("A", "B;C")])
    ('"Z"', '"Z";"A","B;C"')
    """
    return ";".join(map(list_word, [experiments] if isinstance(experiments, str) else experiments))
