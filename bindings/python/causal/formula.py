"""Formulas and hedges, as `identify` gives them."""
from __future__ import annotations

from dataclasses import dataclass, field
from itertools import chain
from typing import TYPE_CHECKING, Any, FrozenSet, Iterator, List, NamedTuple, Optional, Sequence, Set, Tuple, Union

from causal.display import Printed
from causal.errors import RequestError
from causal.framed import Framed, Shown
from causal.names import printed_name, printed_set
from causal.objects import Told
from causal.vocabulary import Renamed

if TYPE_CHECKING:
    from fractions import Fraction

    from causal.derivation import Derivation
    from causal.question import Question


@dataclass(frozen=True)
class Term(Printed):
    """A probability `P(y | do(x), given)`.

    >>> from causal.formula import Term
    >>> print(Term(y=("Y",), x=("X",), given=("W",)))
    P(Y|do(X),W)
    """

    y: Tuple[str, ...]
    x: Tuple[str, ...] = ()
    given: Tuple[str, ...] = ()

    def __str__(self) -> str:
        conditions = [f"do({','.join(map(printed_name, self.x))})"] if self.x else []
        conditions += map(printed_name, self.given)
        return f"P({','.join(map(printed_name, self.y))}{'|' if conditions else ''}{','.join(conditions)})"


class Divisor(NamedTuple):
    """What is divided by at a node of a formula: the share of a term's condition, or without a term the divisor of a quotient;
    and the names on whose levels it depends."""

    term: Optional[Term]
    names: FrozenSet[str]


def parts_of(tree: Told) -> Sequence[Told]:
    """The trees right below that of an expression: a term, a sum, a product, a quotient, or a definition by its number.

    >>> from causal.formula import parts_of
    >>> parts_of({"sum": ["Y"], "of": {"definition": 0}})
    [{'definition': 0}]
    """
    return [tree["of"]] if "of" in tree else tree.get("product", tree.get("quotient", ()))


def nodes_of(tree: Told) -> Iterator[Told]:
    """The nodes of a tree as they are numbered, a parent before its parts.

    >>> from causal.formula import nodes_of
    >>> [list(node) for node in nodes_of({"sum": ["Y"], "of": {"quotient": [{"definition": 0}, {"definition": 1}]}})]
    [['sum', 'of'], ['quotient'], ['definition'], ['definition']]
    """
    yield tree
    for part in parts_of(tree):
        yield from nodes_of(part)


def names_read(tree: Told, definitions: Sequence[FrozenSet[str]]) -> FrozenSet[str]:
    """The names on which the value of a tree depends; those of definitions are told.

    >>> from causal.formula import names_read
    >>> sorted(names_read({"sum": ["X"], "of": {"term": ["X"], "do": [], "given": ["W", "Z"]}}, []))
    ['W', 'Z']
    """
    if "definition" in tree:
        return definitions[tree["definition"]]
    names = {*tree.get("term", ()), *tree.get("do", ()), *tree.get("given", ())}
    return frozenset(names.union(*(names_read(part, definitions) for part in parts_of(tree))).difference(tree.get("sum", ())))


@dataclass(frozen=True)
class Formula(Framed):
    """A formula for an effect, without interventions but those of experiments that were asked about.

    Where `identify` gives it, it is proved that the formula equals the effect in every positive finite model that fits the
    diagram, at every assignment. Where `adjusts` or `check` gives it, the same holds, on what they have found. Where `surrogate`
    gives it, its terms may be under an experiment that was asked about, and the same holds.

    `target` is the effect, `expression` its formula and `definitions` those of q0, q1 and so on; `free` names what the formula
    reads beside the target's sets. `text` is the whole answer as it is printed.

    >>> from causal import Diagram
    >>> formula = Diagram("dag{ X -> M -> Y  X <-> Y }").identify("X", "Y")
    >>> print(formula)
    P(Y|do(X)) = sum{M} P(M|X) * (sum{X} P(X) * P(Y|X,M))
    >>> print(formula.latex)
    \\begin{aligned}
    P(Y \\mid \\mathrm{do}(X)) ={}& \\sum_{M} P(M \\mid X) \\left( \\sum_{X} P(X) P(Y \\mid X, M) \\right)
    \\end{aligned}
    """

    target: Term
    expression: str
    definitions: Tuple[str, ...] = ()
    free: Tuple[str, ...] = ()
    # In LaTeX, and as trees: those of the definitions, and that of the expression.
    _latex: Optional[str] = field(default=None, repr=False, compare=False)
    _trees: Tuple[Told, ...] = field(default=(), repr=False, compare=False)
    _question: Optional[Question] = field(default=None, repr=False, compare=False)

    identifiable = True

    @property
    def text(self) -> str:
        """The answer as it is printed."""
        lines = [f"{self.target} = {self.expression}"]
        lines += [f"q{k} = {definition}" for k, definition in enumerate(self.definitions)]
        lines += [f"free {printed_set(self.free)}"] if self.free else []
        return "\n".join(lines)

    def __str__(self) -> str:
        return self.text

    def _table(self) -> Tuple[Sequence[str], List[List[Any]]]:
        definitions = [[f"q{number}", text] for number, text in enumerate(self.definitions)]
        return ("term", "expression"), [[str(self.target), self.expression], *definitions]

    @property
    def variables(self) -> Set[str]:
        """The names that the target and the formula have.

        >>> from causal import Diagram
        >>> sorted(Diagram("dag{ Z -> X Z -> Y X -> Y }").identify("X", "Y").variables)
        ['X', 'Y', 'Z']
        """
        kinds = ("term", "do", "given", "sum")
        inside = {name for node in self._nodes() for kind in kinds for name in node.get(kind, ())}
        return inside.union(self.target.y, self.target.x, self.target.given)

    def _known(self) -> Tuple[Told, ...]:
        """The trees, where a diagram gave the formula."""
        if not self._trees:
            raise RequestError(f"no diagram gave the formula {self.expression}, so its parts aren't known")
        return self._trees

    def _nodes(self) -> Iterator[Told]:
        """The nodes of the definitions, and then those of the expression."""
        return chain.from_iterable(map(nodes_of, self._known()))

    def divisor_at(self, definition: Optional[int], node: int) -> Optional[Divisor]:
        """What is divided by at a node of the formula, or of one of its definitions; None where nothing is.

        >>> from causal import Diagram
        >>> formula = Diagram("dag{ Z -> X Z -> Y X -> Y }").identify("X", "Y")
        >>> str(formula.divisor_at(None, 3).term), formula.divisor_at(None, 1)
        ('P(Y|Z,X)', None)
        """
        trees = self._known()
        found = list(nodes_of(trees[-1 if definition is None else definition]))[node]
        if "term" in found:
            return Divisor(Term(tuple(found["term"]), tuple(found["do"]), tuple(found["given"])), frozenset(found["given"]))
        if "quotient" not in found:
            return None
        names: List[FrozenSet[str]] = []
        for tree in trees[:-1]:
            names.append(names_read(tree, names))
        return Divisor(None, names_read(found["quotient"][1], names))

    @property
    def experiments(self) -> Set[Tuple[str, ...]]:
        """The experiments under which terms of the formula are: those that `surrogate` was asked about and that it uses.

        >>> from causal import Diagram
        >>> Diagram("dag { X -> Z -> Y X <-> Z Z <-> Y }").surrogate("Z", "Y", experiments="Z").experiments
        {('Z',)}
        """
        return {tuple(node["do"]) for node in self._nodes() if node.get("do")}

    @property
    def latex(self) -> Optional[str]:
        """The formula for a paper, where a diagram gave it, and else None: made from its parts, with names of more than one letter as text, in
        lines that fit. It needs amsmath.

        >>> from causal import Diagram
        >>> print(Diagram("dag{ dose -> Y }").identify("dose", "Y").latex)
        \\begin{aligned}
        P(Y \\mid \\mathrm{do}(\\text{dose})) ={}& P(Y \\mid \\text{dose})
        \\end{aligned}
        """
        from causal.typeset import latex_of

        return latex_of(self) if self._trees else None

    display_latex = Renamed("latex")

    @property
    def printed_latex(self) -> Optional[str]:
        """The lines that `causal identify --latex` prints, where a diagram gave the formula, and else None.

        >>> from causal import Diagram
        >>> print(Diagram("dag{ X -> Y }").identify("X", "Y").printed_latex)
        P(Y \\mid \\mathrm{do}(X)) = P(Y \\mid X)
        """
        return f"{self._latex}\nfree {printed_set(self.free)}" if self._latex and self.free else self._latex

    @property
    def certificate(self) -> Optional[str]:
        """The certificate (JSON) with the derivation, where `identify` or `surrogate` gave the formula, or in parts, where `treated` did; else
        None. Where it didn't come with the answer, it is asked for when it is wanted first.

        >>> from causal import Diagram
        >>> diagram = Diagram("dag{ Z -> X Z -> Y X -> Y }")
        >>> diagram.check_certificate(diagram.identify("X", "Y").certificate).accepted
        True
        """
        return self._question.certificate if self._question else None

    @property
    def derivation(self) -> Optional[str]:
        """The steps that lead to the formula, each with what stands there behind it, where `identify` or `surrogate` gave it, and else None.
        `check_certificate` accepts them.

        >>> from causal import Diagram
        >>> print(Diagram("dag{ X -> Y }").identify("X", "Y").derivation)
        main
        P(Y|do(X))
        rule2see: P(Y|X)
        """
        steps = self.steps
        return None if steps is None else str(steps)

    @property
    def steps(self) -> Optional[Derivation]:
        """The same, each step with the rule for which it asks and the graph in which that is asked. Where it didn't come before, it is asked for.

        >>> from causal import Diagram
        >>> print(Diagram("dag{ X -> Y }").identify("X", "Y").steps.parts[0].moves[0].rule)
        rule 2 y {Y} z {X} do {} given {}
        """
        from causal.derivation import Derivation

        found = self._question.steps if self._question else None
        return found if isinstance(found, Derivation) else None

    def _repr_latex_(self) -> Optional[str]:
        """What notebooks show: the formula and its definitions, without the free variables."""
        return f"$$\n{self.latex}\n$$" if self._trees else None


@dataclass(frozen=True)
class HedgeSets(Shown):
    """The sets of a hedge.

    >>> from causal import Diagram
    >>> diagram = Diagram("dag{ X -> Y X <-> Y }")
    >>> diagram.check_certificate(diagram.identify("X", "Y").certificate).hedge
    HedgeSets(target=Term(y=('Y',), x=('X',), given=()), big=('X', 'Y'), small=('Y',), roots=('Y',))
    """

    target: Term
    big: Tuple[str, ...]
    small: Tuple[str, ...]
    roots: Tuple[str, ...]

    identifiable = False
    over_experiments = False

    def __bool__(self) -> bool:
        return False

    def _table(self) -> Tuple[Sequence[str], List[List[Any]]]:
        sets = {"big": self.big, "small": self.small, "roots": self.roots}
        return ("set", "term"), [[kind, name] for kind, members in sets.items() for name in members]

    def __str__(self) -> str:
        return (
            f"{self.target} is not identifiable{' from these experiments' if self.over_experiments else ''}\n"
            f"hedge {printed_set(self.big)} over {printed_set(self.small)} with roots {printed_set(self.roots)}"
        )


@dataclass(frozen=True)
class Cause:
    """A hidden cause of both models: its number, the vertices that it serves, and the weights of its two values."""

    number: int
    on: Tuple[str, ...]
    weights: Tuple[int, int]

    def __str__(self) -> str:
        return f"cause {self.number} on {printed_set(self.on)} with weights {self.weights[0]} {self.weights[1]}"


@dataclass(frozen=True)
class Bit:
    """A bit of a vertex in a model: `kind` is "h" (its hedge bit) or "k" (its carried bit), and its value is the parity of its
    terms, each a kind with a name ("h" or "k"), or "c" with the number of a cause."""

    kind: str
    vertex: str
    terms: Tuple[Tuple[str, Union[str, int]], ...]

    def __str__(self) -> str:
        terms = [f"c{what}" if kind == "c" else f"{kind}({printed_name(str(what))})" for kind, what in self.terms]
        return f"{self.kind}({printed_name(self.vertex)}) = {' + '.join(terms)}"


@dataclass(frozen=True)
class Hedge(HedgeSets):
    """Why an effect can't be computed from observations: a hedge, with two models that show it. It counts as false.

    It is proved that both models are positive and fit the diagram, agree on all observations, and differ on the effect: the
    event (that the sum of the carried bits of the vertices `event` is even) has under do(x) the two `probabilities`.

    `big`, `small` and `roots` are the sets; `choice` gives members of the big set their child; `links` are the bidirected edges
    that join it, found in turn; `causes` are the hidden causes of both models; `first` and `second` are the bits of each model.

    Where a condition was given, `conditional` is the effect that was asked for, and `target` the joint effect of which the hedge
    speaks: by it the joint effect can't be computed from observations. It is proved that no formula over observations equals the
    conditional one either, in every model of the diagram. Where it is `settled`, it is proved that the very two models differ on the
    conditional effect too, and else that two other models do, which aren't shown. It is None where no condition was given, and where
    the library is of a version that doesn't tell it.

    >>> from causal import Diagram
    >>> hedge = Diagram("dag{ X -> Y X <-> Y }").identify("X", "Y")
    >>> hedge.big, hedge.small, hedge.links, hedge.probabilities
    (('X', 'Y'), ('Y',), (('X', 'Y'),), (Fraction(1, 2), Fraction(5, 8)))
    >>> print(hedge.first[0])
    h(X) = c0
    >>> Diagram("dag{ X -> Y X <-> Y Z -> Y Z <-> Y }").identify("X", "Y", given="Z").settled
    True
    >>> Diagram("dag{ X -> Y X <-> Y Y -> Z }").identify("X", "Y", given="Z").settled
    False
    >>> hedge.settled is None
    True
    """

    choice: Tuple[Tuple[str, str], ...] = ()
    links: Tuple[Tuple[str, str], ...] = ()
    causes: Tuple[Cause, ...] = ()
    first: Tuple[Bit, ...] = ()
    second: Tuple[Bit, ...] = ()
    event: Tuple[str, ...] = ()
    noise: int = 0
    conditional: Optional[Term] = None
    settled: Optional[bool] = None
    _question: Optional[Question] = field(default=None, repr=False, compare=False)

    @property
    def probabilities(self) -> Tuple[Fraction, Fraction]:
        """The event's probability under do(x) in the first and in the second model."""
        from fractions import Fraction

        return Fraction(1, 2), Fraction(1, 2) + Fraction(1, 2**self.noise)

    def _lines(self) -> List[str]:
        """The printed lines."""
        asked = "" if self.conditional is None else f"{self.conditional} not identified; "
        lines = (asked + HedgeSets.__str__(self)).split("\n")
        lines += [f"choice {printed_name(v)} -> {printed_name(c)}" for v, c in self.choice]
        lines += [f"link {printed_name(v)} <-> {printed_name(p)}" for v, p in self.links]
        lines += map(str, self.causes)
        lines += [f"first {bit}" for bit in self.first]
        lines += [f"second {bit}" for bit in self.second]
        event = " + ".join(f"k({printed_name(v)})" for v in self.event)
        return [*lines, f"event {event} even: 1/2 in the first, 1/2 + 1/2^{self.noise} in the second"]

    @property
    def text(self) -> str:
        """The answer as it is printed."""
        return "\n".join(self._lines())

    def __str__(self) -> str:
        return self.text

    @property
    def certificate(self) -> Optional[str]:
        """The certificate (JSON) of the hedge, where `identify` or `surrogate` gave it, and else None. Where it didn't come with
        the answer, it is asked for when it is wanted first."""
        return self._question.certificate if self._question else None


@dataclass(frozen=True)
class ExperimentHedgeSets(HedgeSets):
    """The sets of a hedge whose two models agree under each of some experiments too.

    >>> from causal import Diagram
    >>> diagram = Diagram("dag { Z -> X -> Y Z <-> X Z <-> Y X <-> Y }")
    >>> stopped = diagram.surrogate("X", "Y", experiments="Z", models=True)
    >>> print(diagram.check_certificate(stopped, experiments="Z").hedge)
    P(Y|do(X)) is not identifiable from these experiments
    hedge {X,Y} over {Y} with roots {Y}
    """

    over_experiments = True
