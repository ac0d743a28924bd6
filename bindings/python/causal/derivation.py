"""Derivations step by step, as `steps` tells them."""
from __future__ import annotations

from dataclasses import dataclass, field
from typing import Any, Iterator, List, Optional, Sequence, Tuple, Union

from causal import reading
from causal.answers import Check
from causal.display import Printed
from causal.formula import Formula
from causal.framed import Shown
from causal.names import printed_set
from causal.objects import Told

Edges = Tuple[Tuple[str, str], ...]


@dataclass(frozen=True)
class Expression(Printed):
    """An expression of a derivation: its text, and the same in LaTeX, as the program prints them."""

    text: str
    printed_latex: str = field(repr=False)

    def __str__(self) -> str:
        return self.text


@dataclass(frozen=True)
class AskedRule(Printed):
    """A rule of do-calculus for which a move asks: y and z have to be separated by `do` and `given` together in a graph, which is the
    observed one without the edges that the rule cuts. It has the edges `edges` and `bidirected`."""

    number: int
    y: Tuple[str, ...]
    z: Tuple[str, ...]
    do: Tuple[str, ...]
    given: Tuple[str, ...]
    edges: Edges = ()
    bidirected: Edges = ()

    def __str__(self) -> str:
        y, z, do, given = map(printed_set, (self.y, self.z, self.do, self.given))
        return f"rule {self.number} y {y} z {z} do {do} given {given}"


@dataclass(frozen=True)
class Move(Printed):
    """A move of a derivation: its word and argument, as certificates have them, and at which child of the expression, of the child and so
    on it is made; the rule for which it asks, or None; and the whole expression after it."""

    word: str
    argument: Any
    place: Tuple[int, ...]
    rule: Optional[AskedRule]
    after: Expression

    def __str__(self) -> str:
        return f"{self.word}: {self.after}"


@dataclass(frozen=True)
class DerivationPart(Printed):
    """The moves of a lemma, by its number, or those of the main derivation, where it is None; and the expression from which they start."""

    lemma: Optional[int]
    start: Expression
    moves: Tuple[Move, ...]

    def __str__(self) -> str:
        head = "main" if self.lemma is None else f"lemma {self.lemma}"
        return "\n".join([head, str(self.start), *map(str, self.moves)])


@dataclass(frozen=True)
class Derivation(Shown):
    """The steps that lead to a formula, of each lemma in turn and last the main ones. The certificate is accepted: see `Check`.

    >>> from causal import Diagram
    >>> diagram = Diagram("dag{ X -> M -> Y X <-> Y }")
    >>> derivation = diagram.steps(diagram.identify("X", "M"))
    >>> print(derivation)
    main
    P(M|do(X))
    rule3in: P(M|do(X,Y))
    rule3out: P(M|do(X))
    rule2see: P(M|X)
    >>> move = derivation.parts[0].moves[-1]
    >>> print(move.rule)
    rule 2 y {M} z {X} do {} given {}
    >>> move.rule.edges, move.rule.bidirected
    ((('M', 'Y'),), (('X', 'Y'),))
    """

    formula: Formula
    parts: Tuple[DerivationPart, ...]

    def __str__(self) -> str:
        return "\n".join(map(str, self.parts))

    def _table(self) -> Tuple[Sequence[str], List[List[Any]]]:
        def rows(part: DerivationPart) -> Iterator[List[Any]]:
            yield [part.lemma, None, None, part.start.text]
            for it in part.moves:
                yield [part.lemma, it.word, None if it.rule is None else str(it.rule), it.after.text]

        return ("lemma", "word", "rule", "expression"), [row for part in self.parts for row in rows(part)]


def _expression(told: Told) -> Expression:
    return Expression(told["text"], told["latex"])


def _rule(told: Told) -> AskedRule:
    y, z, do, given = (tuple(told[key]) for key in ("y", "z", "do", "given"))
    return AskedRule(told["number"], y, z, do, given, *(reading.pairs(told["graph"][key]) for key in ("directed", "bidirected")))


def _move(told: Told) -> Move:
    place: List[int] = []
    step = told["step"]
    while step[0] == "at":
        place.append(step[1])
        step = step[2]
    rule = None if told["rule"] is None else _rule(told["rule"])
    return Move(step[0], step[1] if len(step) > 1 else None, tuple(place), rule, _expression(told["after"]))


def read_steps(told: Told, over_experiments: bool) -> Union[Derivation, Check]:
    """The answer of `steps`, for a certificate over experiments or without any: that of `check` where there are no steps to tell."""
    if told["answer"] != "explained":
        return reading.read_check(told, over_experiments)
    parts = (DerivationPart(it["lemma"], _expression(it["start"]), tuple(map(_move, it["moves"]))) for it in told["parts"])
    return Derivation(reading.read_formula(told), tuple(parts))
