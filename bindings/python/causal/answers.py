"""The answers to each question, but formulas and hedges. Each prints as the program prints it."""
from __future__ import annotations

from dataclasses import dataclass, field
from typing import Any, Dict, Iterator, List, Optional, Sequence, Tuple, Union, overload

from causal.display import Printed, html_table
from causal.formula import Formula, HedgeSets, Term
from causal.framed import Shown
from causal.names import printed_name, printed_set


@dataclass(frozen=True)
class GraphText:
    """What the text of a diagram says, and how it is printed.

    >>> from causal import Diagram
    >>> Diagram("dag{ X -> Y [pos=1] }")._content
    GraphText(vertices=('X', 'Y'), roles={}, edges=(('X', 'Y'),), bidirected=(), text='dag {\\nX\\nY\\nX -> Y\\n}\\n')
    """

    vertices: Tuple[str, ...]
    roles: Dict[str, str]
    edges: Tuple[Tuple[str, str], ...]
    bidirected: Tuple[Tuple[str, str], ...]
    text: str = ""

    def __str__(self) -> str:
        return self.text.rstrip("\n")


@dataclass(frozen=True)
class Path(Printed):
    """A path: its vertices, and the marks of the edges between them (`->`, `<-` or `<->`).

    >>> from causal import Diagram
    >>> path = Diagram("dag{ A -> B <- C }").separated("A", "C", given="B").path
    >>> path.vertices, path.marks, str(path)
    (('A', 'B', 'C'), ('->', '<-'), 'A -> B <- C')
    """

    vertices: Tuple[str, ...]
    marks: Tuple[str, ...]

    def __str__(self) -> str:
        rest = "".join(f" {mark} {printed_name(v)}" for mark, v in zip(self.marks, self.vertices[1:]))
        return printed_name(self.vertices[0]) + rest


@dataclass(frozen=True)
class Separation(Shown):
    """Whether two sets are separated given a third: it counts as true where they are. Else `path` is open.

    That it is separated is proved to say that no walk is open, and so that the sets are independent in every finite model that
    fits the diagram; the path is proved to be open.

    >>> from causal import Diagram
    >>> bool(Diagram("dag{ A <- B -> C }").separated("A", "C", given="B"))
    True
    """

    x: Tuple[str, ...]
    y: Tuple[str, ...]
    given: Tuple[str, ...]
    path: Optional[Path] = None

    def __bool__(self) -> bool:
        return self.path is None

    def __str__(self) -> str:
        sets = f"separated: {printed_set(self.x)} from {printed_set(self.y)} given {printed_set(self.given)}"
        return sets if self.path is None else f"not {sets}\nopen: {self.path}"


@dataclass(frozen=True)
class RuleAnswer(Shown):
    """Whether a rule of do-calculus applies: it counts as true where it does. Else `path` is open in the rule's cut graph.

    Where it applies it is proved that both sides are equal in every positive finite model that fits the diagram.

    >>> from causal import Diagram
    >>> answer = Diagram("dag{ X -> M -> Y X <-> Y }").rule_holds(2, y="M", z="X")
    >>> bool(answer), str(answer.left), str(answer.right)
    (True, 'P(M|do(X))', 'P(M|X)')
    """

    number: int
    left: Term
    right: Term
    path: Optional[Path] = None

    def __bool__(self) -> bool:
        return self.path is None

    def __str__(self) -> str:
        holds = "holds" if self.path is None else "does not hold"
        text = f"rule {self.number} {holds}: {self.left} = {self.right}"
        return text if self.path is None else f"{text}\nopen: {self.path}"


@dataclass(frozen=True)
class CertificateRefusal(Printed):
    """Why a certificate is refused: the fault's number with a sentence, and where it is.

    `lemma` is the number of the lemma, or None for the main derivation; `step` is the number of the step, or None; `vertex` is a
    vertex of a hedge that is at fault; `path` is open where a rule was used that doesn't hold. `sentence` is what the number
    says.
    """

    number: int
    of_hedge: bool = False
    lemma: Optional[int] = None
    step: Optional[int] = None
    vertex: Optional[str] = None
    path: Optional[Path] = None
    sentence: str = field(default="", repr=False, compare=False)

    def __str__(self) -> str:
        if self.of_hedge:
            has_vertex = 4 <= self.number <= 6
            at = "-" if self.vertex is None else printed_name(self.vertex)
            return f"refused: hedge fault {self.number}" + (f" at {at}" if has_vertex else "")
        place = "main" if self.lemma is None else f"lemma {self.lemma}"
        if self.step is not None:
            text = f"refused: {place} step {self.step} fault {self.number}"
            return text if self.path is None else f"{text}\nopen: {self.path}"
        return f"refused: fault {self.number}" + (f" at {place}" if self.number == 9 else "")


@dataclass(frozen=True)
class Check(Shown):
    """Whether a certificate is accepted: it counts as true where it is. Else `refusal` says why not.

    Where it is accepted with a `formula`, it is proved that the formula has no intervention and equals the effect in every
    positive finite model that fits the diagram, whoever wrote the certificate; with a `hedge`, that two positive models agree on
    all observations and differ on the effect.

    >>> from causal import Diagram
    >>> front_door = Diagram("dag{ X -> M -> Y X <-> Y }")
    >>> certificate = front_door.identify("X", "Y").certificate
    >>> bool(front_door.check_certificate(certificate))
    True
    >>> refusal = front_door.check_certificate(certificate.replace('["rule2see",["M"]]', '["rule1out",["M"]]')).refusal
    >>> refusal.step, refusal.sentence
    (19, 'the sets of the step are wrong')
    """

    formula: Optional[Formula] = None
    hedge: Optional[HedgeSets] = None
    refusal: Optional[CertificateRefusal] = None

    @property
    def accepted(self) -> bool:
        """Whether the certificate is accepted."""
        return self.refusal is None

    def __bool__(self) -> bool:
        return self.accepted

    def __str__(self) -> str:
        return str(self.refusal) if self.refusal else f"accepted\n{self.hedge if self.formula is None else self.formula}"


@dataclass(frozen=True)
class Adjustment(Shown):
    """Whether a set may be adjusted for: it counts as true where it may, and then `formula` is the effect.

    Else `forbidden` is a member that may not be in the set, or `path` is one that the set leaves open against the criterion. Each
    of these is proved, and that the formula equals the effect in every positive finite model that fits the diagram.

    >>> from causal import Diagram
    >>> answer = Diagram("dag{ X <- A -> M <- B -> Y  X -> Y }").adjusts("M", "X", "Y")
    >>> bool(answer), str(answer.path)
    (False, 'X <- A -> M <- B -> Y')
    """

    members: Tuple[str, ...]
    formula: Optional[Formula] = None
    forbidden: Optional[str] = None
    path: Optional[Path] = None

    def __bool__(self) -> bool:
        return self.formula is not None

    def __str__(self) -> str:
        if self.formula is not None:
            return f"admissible: {printed_set(self.members)}\n{self.formula}"
        why = f"open: {self.path}" if self.forbidden is None else f"forbidden: {printed_name(self.forbidden)}"
        return f"not admissible: {printed_set(self.members)}\n{why}"


@dataclass(frozen=True)
class AdjustmentSets(Shown, Sequence[Tuple[str, ...]]):
    """The minimal sets that may be adjusted for, and whether there are `more` than were asked for.

    It is proved that the sets are exactly the minimal admissible ones, each once: all of them, or as many as were asked for.

    >>> from causal import Diagram
    >>> sets = Diagram("dag{ A -> E A -> Z B -> D B -> Z E -> D Z -> D Z -> E }").adjustment_sets("E", "D")
    >>> list(sets), sets.more
    ([('A', 'Z'), ('Z', 'B')], False)
    """

    sets: Tuple[Tuple[str, ...], ...]
    more: bool = False

    def __len__(self) -> int:
        return len(self.sets)

    @overload
    def __getitem__(self, index: int) -> Tuple[str, ...]: ...

    @overload
    def __getitem__(self, index: slice) -> Tuple[Tuple[str, ...], ...]: ...

    def __getitem__(self, index: Union[int, slice]) -> Union[Tuple[str, ...], Tuple[Tuple[str, ...], ...]]:
        return self.sets[index]

    def __iter__(self) -> Iterator[Tuple[str, ...]]:
        return iter(self.sets)

    def __str__(self) -> str:
        return "\n".join([*map(printed_set, self.sets), *(["more"] if self.more else [])]) or "none"

    def _table(self) -> Tuple[Sequence[str], List[List[Any]]]:
        return ("set", "term"), [[number, name] for number, members in enumerate(self.sets, 1) for name in members]

    def _repr_html_(self) -> str:
        rows = [[number, members] for number, members in enumerate(self.sets, 1)]
        return html_table(["", "set"], rows, ["there are more"] if self.more else [] if rows else ["no set may be adjusted for"])


@dataclass(frozen=True)
class Equivalence(Shown):
    """Whether two diagrams imply the same: it counts as true where they do. Else the first difference.

    `kind` is "edge" or "collider", `vertices` its two or three vertices, and `first` whether the first diagram has it;
    `separation` is one that holds in one diagram alone, and `separated_in_first` says in which. Where sets were asked about and
    the diagrams are equivalent, `separated_in_both` is their separation, or `paths` has an open path of each diagram, both with
    the same ends. Proved: equivalence is that of skeletons and unshielded colliders, and any sets are separated in the one
    diagram exactly where they are in the other; the difference, the separations and the paths are proved too.

    >>> from causal import Diagram
    >>> answer = Diagram("dag{ A -> B -> C }").equivalent(Diagram("dag{ A -> B <- C }"))
    >>> bool(answer), answer.kind, answer.vertices, answer.first
    (False, 'collider', ('A', 'B', 'C'), False)
    """

    kind: Optional[str] = None
    vertices: Tuple[str, ...] = ()
    first: bool = False
    separation: Optional[Separation] = None
    separated_in_first: bool = False
    separated_in_both: Optional[Separation] = None
    paths: Tuple[Path, ...] = ()

    def __bool__(self) -> bool:
        return self.kind is None

    def __str__(self) -> str:
        if self.kind is None or self.separation is None:
            both = [f"separated in both: {str(self.separated_in_both)[len('separated: '):]}"] if self.separated_in_both else []
            opened = [f"open in the {place}: {path}" for place, path in zip(("first", "second"), self.paths)]
            return "\n".join(["equivalent", *both, *opened])
        place, other = ["first" if is_first else "second" for is_first in (self.first, self.separated_in_first)]
        return (
            f"not equivalent: {self.kind} {','.join(map(printed_name, self.vertices))} in the {place}\n"
            f"separated in the {other} alone: {str(self.separation)[len('separated: '):]}"
        )
