"""Effects among the treated: those for whom a value of the exposures was observed, had another been done."""
from __future__ import annotations

from dataclasses import dataclass
from typing import TYPE_CHECKING, Any, Dict, List, Optional, Sequence, Set, Tuple, Union

from causal import reading
from causal.answers import Path
from causal.errors import NotIdentifiable
from causal.formula import Formula, Hedge, Term
from causal.framed import Framed, Shown
from causal.names import Names, printed_name
from causal.objects import Told

if TYPE_CHECKING:
    from causal.diagram import Diagram
    from causal.question import Question


@dataclass(frozen=True)
class Confounded(Shown):
    """Why an effect among the treated has no formula; it counts as false.

    `treatment` has the child `child`, to which `path` leads back by bidirected edges among the ancestors of the target: it is proved that
    this is so, and that two models then exclude a formula. Where the joint effect `joint` has no formula either, they are those of its
    `hedge`. Where it has one, `two_values` says for a single treatment how `joint` is made up, if the treatment has two values: over such data
    `Diagram.effects` has values (see `TwoLevels`).

    >>> from causal import Diagram
    >>> answer = Diagram("dag { X -> Y X <-> Y }").treated("X", "Y")
    >>> bool(answer), answer.treatment, answer.child, str(answer.path), answer.hedge is not None
    (False, 'X', 'Y', 'Y <-> X', True)
    """

    target: Term
    treatment: str
    child: str
    path: Path
    joint: Term
    hedge: Optional[Hedge] = None
    two_values: Optional[str] = None

    def __bool__(self) -> bool:
        return False

    def __str__(self) -> str:
        why = f"{self.target} is not identifiable\n{printed_name(self.treatment)} -> {printed_name(self.child)} and {self.path}"
        if self.hedge is not None:
            return f"{why}\n{self.hedge}"
        return why if self.two_values is None else f"{why}\ntwo values of {printed_name(self.treatment)}: {self.two_values}"


@dataclass(frozen=True)
class TwoLevels(Framed):
    """How an effect among the treated is had over data where it has no formula, and its exposure has at most two levels there.

    `equation` says how the joint effect of the exposure on y and what is given is made up then: of what was observed, and of the effect
    among those who had the other level. So this one is the difference of the two others over the share of these. Among those who had the
    very level that is done it is the share that was observed. `joint` is the formula of the joint effect. It is proved that such values
    lie in their bounds in every positive model that fits the diagram and that the counts match.

    >>> from causal import Diagram
    >>> from causal.treated import values_among_treated
    >>> print(values_among_treated(Diagram("dag { W -> Z -> X -> Y W <-> X W <-> Y }"), "X", "Y", None))
    two values of X: P(Y|do(X)) = P(X,Y) + P(X') * P(Y|do(X),X')
    P(Y|do(X)) = q0 / (sum{Y} q0)
    q0 = sum{W} P(W) * P(X|W,Z) * P(Y|W,Z,X)
    free {Z}
    """

    target: Term
    equation: str
    joint: Formula

    identifiable = False

    @property
    def free(self) -> Tuple[str, ...]:
        """What the formula of the joint effect reads beside the target's sets."""
        return self.joint.free

    @property
    def variables(self) -> Set[str]:
        """The names that the target and the formula of the joint effect have."""
        return self.joint.variables.union(self.target.given)

    @property
    def note(self) -> str:
        """By what the values are had."""
        return f"two values of {printed_name(self.target.x[0])}: {self.equation}"

    @property
    def text(self) -> str:
        """By what the values are had, with the formula of the joint effect."""
        return f"{self.note}\n{self.joint.text}"

    def __str__(self) -> str:
        return self.text

    def _table(self) -> Tuple[Sequence[str], List[List[Any]]]:
        return self.joint._table()

    def _known(self) -> Tuple[Told, ...]:
        """The trees of the joint effect."""
        return self.joint._known()


Treated = Union[Formula, Confounded]
# By what effects in data have values.
ValuedBy = Union[Formula, TwoLevels]


def among_treated(diagram: "Diagram", x: Optional[Names], y: Optional[Names], given: Optional[Names]) -> Formula:
    """The formula of `treated`, or raised why there is none.

    >>> from causal import Diagram
    >>> from causal.treated import among_treated
    >>> print(among_treated(Diagram("dag { S -> T -> R <- S }"), "T", "R", None))
    P(R|do(T),T') = sum{S} P(S|T') * P(R|S,T)
    """
    answer = diagram.treated(x, y, given)
    if not isinstance(answer, Formula):
        otherwise = f"; where {answer.treatment} has two levels, effects(.., treated=True) and contrast(.., observed=..) have values over counts"
        raise without_formula(answer, "" if answer.two_values is None else otherwise)
    return answer


def values_among_treated(diagram: "Diagram", x: Optional[Names], y: Optional[Names], given: Optional[Names]) -> ValuedBy:
    """By what an effect among the treated has values over data: its formula, or two levels of its exposure; or raised why there are none.

    >>> from causal import Diagram
    >>> from causal.treated import values_among_treated
    >>> print(values_among_treated(Diagram("dag { S -> T -> R <- S }"), "T", "R", None))
    P(R|do(T),T') = sum{S} P(S|T') * P(R|S,T)
    """
    answer = diagram.treated(x, y, given)
    if isinstance(answer, Formula):
        return answer
    joint = None if answer.two_values is None else diagram.identify(answer.joint.x, answer.joint.y)
    if answer.two_values is None or not isinstance(joint, Formula):
        raise without_formula(answer)
    return TwoLevels(answer.target, answer.two_values, joint)


def without_formula(answer: Confounded, why: str = "") -> NotIdentifiable:
    """What is raised where an effect among the treated has no formula.

    >>> from causal import Diagram
    >>> from causal.treated import without_formula
    >>> print(without_formula(Diagram("dag { X -> Y X <-> Y }").treated("X", "Y")))
    P(Y|do(X),X') is not identifiable
    """
    return NotIdentifiable(str(answer).partition("\n")[0] + why, place=answer)


def primed(diagram: "Diagram", formula: ValuedBy) -> Dict[str, str]:
    """The names of observed values, as `X'`, of an effect among the treated, each with its exposure.

    >>> from causal import Diagram
    >>> from causal.treated import primed
    >>> diagram = Diagram("dag { S -> T -> R <- S }")
    >>> primed(diagram, diagram.treated("T", "R")), primed(diagram, diagram.identify("T", "R"))
    ({"T'": 'T'}, {})
    """
    return dict(zip((name for name in formula.target.given if name not in diagram.vertices), formula.target.x))


def read_treated(told: Told, question: Optional["Question"] = None) -> Treated:
    """Reads the answer of `treated`. Its target has what is given, and then the names of the values that were observed, as `X'`."""
    target = Term(tuple(told["y"]), tuple(told["x"]), (*told["given"], *told["observed"]))
    if told["answer"] == "formula":
        return reading.read_formula({**told, "given": target.given}, question)
    path, joint = told["path"], told["joint"]
    return Confounded(
        target,
        told["treatment"],
        told["child"],
        Path(tuple(path["vertices"]), tuple(path["marks"])),
        Term(tuple(joint["y"]), tuple(joint["x"])),
        Hedge(**reading.hedge_parts({**told, "given": []}, None)) if told["answer"] == "hedge" else None,
        told.get("two_values"),
    )
