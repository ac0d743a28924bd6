"""Natural effects: an effect were the mediators as they would be under another value of the exposures."""
from __future__ import annotations

from dataclasses import dataclass, field
from typing import TYPE_CHECKING, Any, Dict, FrozenSet, List, Optional, Sequence, Tuple, Union

from causal import reading
from causal.formula import Hedge, Term, names_read
from causal.framed import Shown
from causal.names import printed_name, printed_set
from causal.objects import Told

if TYPE_CHECKING:
    from causal.question import Question


@dataclass(frozen=True)
class NaturalSets:
    """What a natural effect is asked for; `second` has the second names of x, as `X'`. `has_indirect` and `has_direct` say whether a
    directed path leads from x to y through a mediator, and past all of them: where none does, that effect is nil."""

    y: Tuple[str, ...]
    x: Tuple[str, ...]
    through: Tuple[str, ...]
    given: Tuple[str, ...]
    second: Tuple[str, ...]
    has_indirect: bool
    has_direct: bool
    effect: str

    @property
    def nil(self) -> List[str]:
        """What is nil, whatever the values and the model are."""
        head, tail = f"no directed path leads from {printed_set(self.x)}", f"to {printed_set(self.y)}"
        found = [] if self.has_indirect else [f"{head} through {printed_set(self.through)} {tail}: the indirect effect is nil"]
        return found + ([] if self.has_direct else [f"{head} past {printed_set(self.through)} {tail}: the direct effect is nil"])


@dataclass(frozen=True)
class District:
    """A factor of a natural effect's formula: that of a district, which reads x by the names `reads`; or a part of a certificate, which
    doesn't tell them."""

    members: Tuple[str, ...]
    reads: Tuple[str, ...]
    effect: str
    expression: str
    definitions: Tuple[str, ...] = ()
    free: Tuple[str, ...] = ()
    trees: Tuple[Told, ...] = field(default=(), repr=False, compare=False)
    latex: str = field(default="", repr=False, compare=False)

    @property
    def lines(self) -> List[str]:
        """Its formula and definitions, where it has some."""
        return self.whole if self.definitions else []

    @property
    def whole(self) -> List[str]:
        """Its formula, its definitions, and what it reads beside the vertices of its effect."""
        return [f"{self.effect} = {self.expression}", *(f"q{k} = {it}" for k, it in enumerate(self.definitions)), *self.free_line]

    @property
    def latex_lines(self) -> List[str]:
        """The same in LaTeX, as the program prints it."""
        return [self.latex, *self.free_line] if self.definitions else []

    @property
    def free_line(self) -> List[str]:
        """What its formula reads beside the vertices of its effect."""
        return [f"free {printed_set(self.free)}"] if self.free else []


def moved(tree: Told, by: int) -> Told:
    """A tree with the numbers of its definitions moved.

    >>> from causal.natural import moved
    >>> moved({"sum": ["M"], "of": {"product": [{"definition": 0}, {"term": ["M"], "do": [], "given": []}]}}, 2)
    {'sum': ['M'], 'of': {'product': [{'definition': 2}, {'term': ['M'], 'do': [], 'given': []}]}}
    """
    if "definition" in tree:
        return {"definition": tree["definition"] + by}
    found: Dict[str, Any] = dict(tree)
    if "of" in tree:
        found["of"] = moved(tree["of"], by)
    for key in ("product", "quotient"):
        if key in tree:
            found[key] = [moved(part, by) for part in tree[key]]
    return found


@dataclass(frozen=True)
class NaturalFormula(Shown):
    """A formula for a natural effect: a sum over `summed` of the product of the `factors`, over the probability of what is given.

    It is proved that the formula equals the effect at any two values of x in every positive finite model that fits the diagram's observed
    graph.
    """

    sets: NaturalSets
    expression: str
    summed: Tuple[str, ...]
    factors: Tuple[District, ...]
    _latex: str = field(default="", repr=False, compare=False)
    _question: Optional["Question"] = field(default=None, repr=False, compare=False)

    identifiable = True

    @property
    def text(self) -> str:
        """The answer as it is printed."""
        lines = [line for factor in self.factors for line in factor.lines]
        return "\n".join([f"{self.sets.effect} = {self.expression}", *lines, *self.sets.nil])

    def __str__(self) -> str:
        return self.text

    @property
    def printed_latex(self) -> str:
        """The lines that `causal natural --latex` prints."""
        return "\n".join([self._latex, *(line for factor in self.factors for line in factor.latex_lines), *self.sets.nil])

    @property
    def trees(self) -> Tuple[Told, ...]:
        """The trees as those of any formula: the definitions of the factors, and the whole last."""
        found: List[Told] = []
        parts: List[Told] = []
        for factor in self.factors:
            start = len(found)
            *definitions, tree = (moved(it, start) for it in factor.trees)
            found += definitions
            parts += tree.get("product", [tree])
        body: Told = {"product": parts}
        return (*found, {"sum": list(self.summed), "of": body} if self.summed else body)

    @property
    def free(self) -> Tuple[str, ...]:
        """What the formula reads beside its sets, at any level: in the population each gives the same."""
        read: List[FrozenSet[str]] = []
        for tree in self.trees:
            read.append(names_read(tree, read))
        return tuple(sorted(read[-1].difference(self.sets.x, self.sets.second, self.sets.y, self.sets.given)))

    @property
    def certificate(self) -> Optional[str]:
        """The certificate (JSON) in parts, a formula with its derivation for each district, where a diagram gave the formula. It is asked for
        when it is wanted first.

        >>> from causal import Diagram
        >>> diagram = Diagram("dag { X -> M -> Y X -> Y }")
        >>> print(diagram.check_certificate(diagram.natural("X", "Y", through="M")))
        accepted
        P(Y[X,M[X']]) in parts:
        P(M|do(X,Y)) = P(M|X)
        P(Y|do(X,M)) = P(Y|X,M)
        """
        return self._question.certificate if self._question else None

    def _table(self) -> Tuple[Sequence[str], List[List[Any]]]:
        return ("term", "expression"), [[self.sets.effect, self.expression], *([it.effect, it.expression] for it in self.factors)]


@dataclass(frozen=True)
class Interventional(Shown):
    """Another effect than a natural one: the mediators are drawn as they are distributed under the second value of x.

    It is the product of two ordinary effects, summed over the mediators: of x, at its second value, on the mediators, and of x and the
    mediators on y. It is proved that the formula of each equals its effect in every positive finite model that fits the diagram's observed
    graph, and so does the whole.
    """

    effect: str
    expression: str
    mediators: District
    outcome: District

    def __str__(self) -> str:
        factors = [it for it in (self.mediators, self.outcome) if it.definitions or it.free]
        lines = [line for factor in factors for line in factor.whole]
        return "\n".join([f"another effect, the interventional one: {self.effect} = {self.expression}", *lines])


@dataclass(frozen=True)
class NoNaturalFormula(Shown):
    """Why there is no formula for a natural effect; it counts as false.

    Where `hedge` is there, its two models show that the joint effect has no formula, nor has this one. Else the joint effect has one, and
    both values of `treatment` are read: by `witness`, a child of it that leads to y both through a mediator and past all of them, or by the
    vertices of `district`. It is proved that two models differ there too. Then `interventional` is another effect, where it has a formula.
    """

    sets: NaturalSets
    joint: Term
    hedge: Optional[Hedge] = None
    treatment: Optional[str] = None
    witness: Optional[str] = None
    district: Tuple[str, ...] = ()
    interventional: Optional[Interventional] = None

    identifiable = False

    def __bool__(self) -> bool:
        return False

    def __str__(self) -> str:
        if self.hedge is not None:
            return "\n".join([f"{self.sets.effect} is not identifiable", str(self.hedge), *self.sets.nil])
        second = dict(zip(self.sets.x, self.sets.second))
        both = [printed_name(name) for name in (self.treatment, second.get(self.treatment or "")) if name is not None]
        reader = printed_name(self.witness) if self.witness is not None else f"district {printed_set(self.district)}"
        lines = [f"{self.sets.effect} is not identifiable", f"{reader} reads {' and '.join(both)}", f"{self.joint} is identifiable"]
        return "\n".join([*lines, *([] if self.interventional is None else [str(self.interventional)]), *self.sets.nil])


Natural = Union[NaturalFormula, NoNaturalFormula]


def read_natural(told: Told, question: Optional["Question"] = None) -> Natural:
    """Reads the answer of `natural`.

    >>> from causal.natural import read_natural
    >>> sets = {"y": ["Y"], "x": ["X"], "through": ["M"], "given": [], "second": ["X'"], "effect": "P(Y[X,M[X']])"}
    >>> sets.update(indirect=True, direct=False, joint={"y": ["Y"], "x": ["X"]})
    >>> print(read_natural({"answer": "witness", **sets, "treatment": "X", "witness": "L"}))
    P(Y[X,M[X']]) is not identifiable
    L reads X and X'
    P(Y|do(X)) is identifiable
    no directed path leads from {X} past {M} to {Y}: the direct effect is nil
    """
    y, x, through, given, second = (tuple(told[name]) for name in ("y", "x", "through", "given", "second"))
    sets = NaturalSets(y, x, through, given, second, told["indirect"], told["direct"], told["effect"])
    if told["answer"] == "formula":
        return NaturalFormula(sets, told["formula"], tuple(told["summed"]), tuple(map(_district, told["factors"])), told["latex"], question)
    joint = told["joint"]
    term = Term(tuple(joint["y"]), tuple(joint["x"]))
    if told["answer"] == "hedge":
        return NoNaturalFormula(sets, term, Hedge(**reading.hedge_parts({**told, "given": []}, None)))
    read = told["treatment"], told.get("witness"), tuple(told.get("district", ()))
    return NoNaturalFormula(sets, term, None, *read, _interventional(sets, told.get("interventional")))


def _interventional(sets: NaturalSets, told: Optional[Told]) -> Optional[Interventional]:
    if told is None:
        return None
    mediators, outcome = read_factor(sets.through, told["mediators"]), read_factor(sets.y, told["outcome"])
    return Interventional(told["effect"], told["formula"], mediators, outcome)


def _district(told: Told) -> District:
    return read_factor(tuple(told["district"]), told)


def read_factor(members: Tuple[str, ...], told: Told) -> District:
    """Reads the formula of a district, or of another set."""
    lists = {name: tuple(told[name]) for name in ("definitions", "free")}
    trees = (*told["definition_trees"], told["tree"])
    return District(members, tuple(told.get("reads", ())), told["effect"], told["formula"], trees=trees, latex=told["latex"], **lists)
