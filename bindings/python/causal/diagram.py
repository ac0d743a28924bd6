"""Diagrams, and the questions about them."""
from __future__ import annotations

from dataclasses import replace
from typing import TYPE_CHECKING, Any, Callable, Dict, Iterable, List, Mapping, Optional, Sequence, Tuple, Union

from causal import answers, reading
from causal._library import KeptDiagram, Reply, Text, as_bytes, ask, reply_to
from causal.data_questions import DataQuestions
from causal.doubts import doubts_of
from causal.errors import DiagramWarning, RequestError, WrongType
from causal.files import read_bytes
from causal.formula import Formula, Hedge, HedgeSets
from causal.graph_questions import GraphQuestions
from causal.names import Name, Names, list_word, names_of
from causal.objects import Answer, Told, text_in
from causal.positions import positions_in
from causal.question import Question
from causal.surrogates import Stopped, StoppedHedge, experiments_word
from causal.vocabulary import Renamed, check_whole, renamed, warn

if TYPE_CHECKING:
    import os

    import matplotlib.axes
    import networkx
    import pandas

    from causal.derivation import Derivation
    from causal.effects import Level
    from causal.instruments import Instruments
    from causal.natural import Natural, NaturalFormula
    from causal.treated import Treated


def options(**lists: Optional[Names]) -> List[Text]:
    """The words of the options that are given: lists of names.

    >>> from causal.diagram import options
    >>> options(x="A", given=[], y=None)
    ['--x', '"A"', '--given', '{}']
    """
    return [word for name, names in lists.items() if names is not None for word in (f"--{name}", list_word(names))]


def limit_words(most: Optional[int]) -> List[Text]:
    """The words of the option `most`, where it is given.

    >>> from causal.diagram import limit_words
    >>> limit_words(3), limit_words(None)
    (['--most', '3'], [])
    """
    if most is None:
        return []
    check_whole("most", most)
    return ["--most", str(most)]


class Diagram(DataQuestions, GraphQuestions):
    """A causal diagram: vertices, directed edges, and bidirected edges for hidden common causes.

    The text is the `dag` text of DAGitty. A vertex may be marked `exposure`, `outcome`, `adjusted` or `latent`. Where a question
    takes exposures x and outcomes y, those that are marked are meant unless others are given; latent vertices are projected away.
    Sets are given as one name or as several; `()` is the empty set.

    `source` is the text as it was given, in bytes; it is what each question is asked of. The library reads it once, and keeps it.
    Where something in the text may be a typing error that has cost an edge, a `DiagramWarning` says so: a statement `name = value`
    that was dropped (but `bb`, which DAGitty writes), and a vertex without an edge whose name is made of signs.

    >>> from causal import Diagram
    >>> diagram = Diagram("dag { T [exposure] R [outcome] S -> T -> R <- S }")
    >>> print(diagram.identify())
    P(R|do(T)) = sum{S} P(S) * P(R|T,S)
    >>> diagram.vertices, diagram.roles
    (('T', 'R', 'S'), {'T': 'exposure', 'R': 'outcome'})
    """

    def __init__(self, text: Text) -> None:
        self._read(as_bytes(text))
        for doubt in doubts_of(self.source, self._content):
            warn(doubt, DiagramWarning)

    # The places that DAGitty's `pos` gives the vertices, where it gives one to each; drawings take them.
    positions: Optional[Dict[str, Tuple[float, float]]]

    def _read(self, source: bytes) -> None:
        """Takes a text in."""
        self.source = source
        self._kept: Optional[KeptDiagram] = None
        self._content = ask(reading.read_graph, "graph", source)
        self.positions = positions_in(source, self._content.vertices)

    def __getstate__(self) -> Dict[str, Any]:
        # (what is kept for the library belongs to this process)
        return {**self.__dict__, "_kept": None}

    # Where diagrams come from.

    @classmethod
    def from_file(cls, path: Union[str, "os.PathLike[str]"]) -> "Diagram":
        """The diagram that a file holds.

        >>> from causal import Diagram
        >>> Diagram.from_file("no/such/file.dag")
        Traceback (most recent call last):
            ...
        causal.errors.FileMissing: there is no file no/such/file.dag
        """
        return cls(read_bytes(path))

    @classmethod
    def from_edges(
        cls,
        edges: Iterable[Sequence[Name]],
        *,
        bidirected: Iterable[Sequence[Name]] = (),
        vertices: Iterable[Name] = (),
        exposure: Names = (),
        outcome: Names = (),
        adjusted: Names = (),
        latent: Names = (),
    ) -> "Diagram":
        """The diagram of pairs of names. The vertices that are listed come first; those of edges needn't be.

        >>> from causal import Diagram
        >>> print(Diagram.from_edges([("X", "M"), ("M", "Y")], bidirected=[("X", "Y")], exposure="X", outcome="Y"))
        dag {
        X [exposure]
        M
        Y [outcome]
        X -> M
        M -> Y
        X <-> Y
        }
        """
        from causal.conversion import text_of_edges

        roles = {"exposure": exposure, "outcome": outcome, "adjusted": adjusted, "latent": latent}
        return cls(text_of_edges(edges, bidirected, vertices, roles))

    @classmethod
    def from_networkx(cls, graph: "networkx.Graph", **roles: Any) -> "Diagram":
        """The diagram of a directed graph of networkx.

        A vertex has the name `str(vertex)`. Its attribute `role` may be a mark, and a true attribute `latent` marks it so; marks
        can be given as in `from_edges`, by the graph's own vertices. An edge with a true attribute `bidirected` is one.

        >>> import networkx
        >>> from causal import Diagram
        >>> print(Diagram.from_networkx(networkx.DiGraph([("X", "Y")]), exposure="X"))
        dag {
        X [exposure]
        Y
        X -> Y
        }
        """
        from causal.conversion import text_of_networkx

        return cls(text_of_networkx(graph, roles))

    @classmethod
    def from_pandas(
        cls, adjacency: "pandas.DataFrame", *, bidirected: Iterable[Sequence[Name]] = (), **roles: Any
    ) -> "Diagram":
        """The diagram of an adjacency matrix: the row is joined to the column where the entry isn't 0.

        Rows and columns have the same names. Marks are given as in `from_edges`.

        >>> import pandas
        >>> from causal import Diagram
        >>> Diagram.from_pandas(pandas.DataFrame([[0, 1], [0, 0]], index=["X", "Y"], columns=["X", "Y"])).edges
        (('X', 'Y'),)
        """
        from causal.conversion import text_of_pandas

        return cls(text_of_pandas(adjacency, bidirected, roles))

    @classmethod
    def from_igraph(cls, graph: Any, **roles: Any) -> "Diagram":
        """The diagram of a directed graph of igraph.

        A vertex has its attribute `name`, or `label`, or else its number as its name. Its attribute `role` may be a mark; true
        attributes `latent`, `exposure` and so on mark it, and so does `observed` that is false. An edge with a true attribute
        `bidirected` is one; so are two edges, one each way, that both have the `description` "U". Marks can be given as in
        `from_edges`.

        >>> import igraph
        >>> from causal import Diagram
        >>> graph = igraph.Graph([(0, 1)], directed=True, vertex_attrs={"name": ["X", "Y"]})
        >>> Diagram.from_igraph(graph, exposure="X").edges
        (('X', 'Y'),)
        """
        from causal.forms import text_of_igraph

        return cls(text_of_igraph(graph, roles))

    @classmethod
    def from_dot(cls, text: str, **roles: Any) -> "Diagram":
        """The diagram of a text of Graphviz: a `digraph`, whose comments are passed over. A vertex is named by its attribute `name`
        where it has one, as igraph writes it, and else as it stands there, whatever its label.

        An edge with `dir=both` (or `bidirected=true`) is bidirected, with `dir=back` it is turned round; without a direction it is
        refused. Attributes of vertices, and marks, are as in `from_igraph`.

        >>> from causal import Diagram
        >>> Diagram.from_dot('digraph { X -> Y; U [latent=true]; U -> {X Y}; "a b" -> X [dir=both] }').bidirected
        (('X', 'a b'),)
        """
        from causal.forms import text_of_dot

        return cls(text_of_dot(text, roles))

    @classmethod
    def from_gml(cls, text: str, **roles: Any) -> "Diagram":
        """The diagram of a text in GML, with `directed 1`. A vertex has its `label`, or `name`, or `id` as its name.

        Attributes of vertices and edges, and marks, are as in `from_igraph`.

        >>> from causal import Diagram
        >>> text = 'graph [ directed 1 node [ id 0 label "X" ] node [ id 1 label "Y" ] edge [ source 0 target 1 ] ]'
        >>> Diagram.from_gml(text, exposure="X", outcome="Y").roles
        {'X': 'exposure', 'Y': 'outcome'}
        """
        from causal.forms import text_of_gml

        return cls(text_of_gml(text, roles))

    # What a diagram is.

    @property
    def text(self) -> str:
        """The diagram's text as the program prints it.

        >>> from causal import Diagram
        >>> Diagram("dag { A -> B; B <-> C }").text
        'dag {\\nA\\nB\\nC\\nA -> B\\nB <-> C\\n}\\n'
        """
        return self._content.text

    @property
    def vertices(self) -> Tuple[str, ...]:
        """The vertices in order."""
        return self._content.vertices

    @property
    def roles(self) -> Dict[str, str]:
        """The mark of each vertex that has one: `exposure`, `outcome`, `adjusted` or `latent`."""
        return dict(self._content.roles)

    @property
    def edges(self) -> Tuple[Tuple[str, str], ...]:
        """The directed edges."""
        return self._content.edges

    @property
    def bidirected(self) -> Tuple[Tuple[str, str], ...]:
        """The bidirected edges."""
        return self._content.bidirected

    def __str__(self) -> str:
        return str(self._content)

    def __repr__(self) -> str:
        return f"Diagram({self.text!r})"

    def __eq__(self, other: object) -> bool:
        return isinstance(other, Diagram) and self.text == other.text

    def __hash__(self) -> int:
        return hash(self.text)

    def project(self) -> "Diagram":
        """The diagram of the observed vertices: a hidden common cause becomes a bidirected edge (the latent projection).

        >>> from causal import Diagram
        >>> Diagram("dag { U [latent] U -> X U -> Y X -> Y }").project().bidirected
        (('X', 'Y'),)
        """
        projected = Diagram.__new__(Diagram)
        projected._read(as_bytes(self._ask(reading.read_graph, "graph", "--project").text))
        if self.positions is not None:
            projected.positions = {name: self.positions[name] for name in projected.vertices}
        return projected

    def to_networkx(self, mixed: bool = False) -> "networkx.DiGraph":
        """The diagram as a graph of networkx; marks are the attribute `role`.

        A bidirected edge becomes a vertex with the role `latent` and two edges, so that what networkx says of separation is about
        this diagram too. With `mixed=True` the graph is a `MultiDiGraph`, in which it is an edge with the attribute `bidirected`.

        >>> from causal import Diagram
        >>> diagram = Diagram("dag { X -> Y X <-> Y }")
        >>> sorted(diagram.to_networkx().edges)
        [('X', 'Y'), ('X<->Y', 'X'), ('X<->Y', 'Y')]
        >>> Diagram.from_networkx(diagram.to_networkx()).project() == diagram
        True
        """
        from causal.conversion import to_networkx

        return to_networkx(self._content, mixed)

    def plot(
        self,
        *,
        path: Optional[answers.Path] = None,
        hedge: Optional[HedgeSets] = None,
        set: Names = (),
        positions: Optional[Mapping[str, Tuple[float, float]]] = None,
        ax: Optional["matplotlib.axes.Axes"] = None,
    ) -> "matplotlib.axes.Axes":
        """Draws the diagram with matplotlib: marks by colour, bidirected edges dashed, a path or a hedge drawn out, the vertices of a set
        as adjusted.

        Positions are those of DAGitty's `pos`, where each vertex has one, or else found by layers, unless they are given. Paths and hedges
        are about observed vertices: where some are latent, draw them in `project()`.

        >>> import matplotlib
        >>> matplotlib.use("Agg")
        >>> from causal import Diagram
        >>> diagram = Diagram("dag { A -> B <- C }")
        >>> axes = diagram.plot(path=diagram.separated("A", "C", given="B").path)
        """
        from causal.plotting import plot

        content = replace(self._content, roles={**self._content.roles, **dict.fromkeys(self._named(set), "adjusted")})
        return plot(content, path, hedge, self.positions if positions is None else positions, ax)

    def _repr_svg_(self) -> Optional[str]:
        from causal.plotting import svg

        return svg(self._content, self.positions)

    # Questions about a diagram.

    def separated(self, x: Optional[Names] = None, y: Optional[Names] = None, given: Optional[Names] = None) -> answers.Separation:
        """Whether x and y are separated given a set: the answer counts as true where they are, and else has an open path.

        A missing set is that of the vertices marked `exposure`, `outcome` or `adjusted`.

        >>> from causal import Diagram
        >>> print(Diagram("dag { A -> B <- C }").separated("A", "C", given="B"))
        not separated: {A} from {C} given {B}
        open: A -> B <- C
        """
        return self._ask(reading.read_separation, "separate", *options(x=x, y=y, given=given))

    def is_separated(self, x: Names, y: Names, given: Names = ()) -> bool:
        """Whether x and y are separated given a set: `separated` without the path, for many questions about one diagram.

        Each question takes some microseconds.

        >>> from causal import Diagram
        >>> chain = Diagram("dag { A -> B -> C }")
        >>> chain.is_separated("A", "C", given="B"), chain.is_separated("A", "C")
        (True, False)
        """
        x, y, given = names_of(x), names_of(y), names_of(given)
        answer = self._keep().separated(x, y, given)
        return bool(self.separated(x, y, given)) if answer is None else answer

    def is_identifiable(self, x: Names, y: Names) -> bool:
        """Whether the effect of x on y has a formula: `identify` without the formula, for many questions about one diagram.

        It is proved that yes comes exactly where a formula equals the effect in every positive finite model of the diagram's observed
        graph, and no exactly where two such models agree on all observations and differ on the effect. No memory is asked for, and a
        question takes some microseconds.

        >>> from causal import Diagram
        >>> bow = Diagram("dag { X -> Y -> Z X <-> Y }")
        >>> bow.is_identifiable("X", "Y"), bow.is_identifiable("Y", "Z")
        (False, True)
        """
        x, y = names_of(x), names_of(y)
        answer = self._keep().identifiable(x, y)
        return bool(self.identify(x, y)) if answer is None else answer

    def is_admissible(self, set: Names, x: Names, y: Names) -> bool:
        """Whether a set may be adjusted for: `adjusts` without the formula, for many questions about one diagram.

        It is proved that yes comes exactly where the set meets the adjustment criterion, which is so exactly where its formula equals the
        effect in every positive finite model of the diagram's observed graph. No memory is asked for, and a question takes some
        microseconds.

        >>> from causal import Diagram
        >>> fork = Diagram("dag { Z -> X Z -> Y X -> Y }")
        >>> fork.is_admissible("Z", "X", "Y"), fork.is_admissible([], "X", "Y")
        (True, False)
        """
        members, x, y = names_of(set), names_of(x), names_of(y)
        answer = self._keep().admissible(x, y, members)
        return bool(self.adjusts(members, x, y)) if answer is None else answer

    def _keep(self) -> KeptDiagram:
        """The diagram as the library keeps it, which reads the text at the first question."""
        if self._kept is None:
            roles = self._content.roles
            self._kept = KeptDiagram(self.source, [name for name in self._content.vertices if roles.get(name) != "latent"])
        return self._kept

    def _ask(
        self,
        read: Callable[[Told], Answer],
        command: str,
        *words: Text,
        second: Optional[bytes] = None,
        level_of: Optional[Callable[[str, str], Level]] = None,
        formula: Optional[Formula] = None,
    ) -> Answer:
        """Asks the diagram that is kept: see `ask`."""
        return ask(read, command, self.source, *words, second=second, level_of=level_of, formula=formula, kept=self._keep())

    def _line(self, command: str, *words: Text) -> str:
        """The line that the library prints for a question which it answers by one."""
        reply = reply_to([command, "diagram", *words], self.source, None, self._keep(), ())
        if reply.status != 0:
            raise RequestError(f"the answer of {command} is none: {reply.out.decode('utf-8', 'replace').strip()}")
        return reply.out.decode("utf-8").rstrip("\n")

    def _reply(self, command: str, *words: Text, second: bytes) -> Reply:
        """What the library answers on the diagram that is kept and a second input, unread."""
        return reply_to([command, "diagram", "second", *words], self.source, second, self._keep())

    def _ask_effect(self, read: Callable[[Told, Question], Answer], command: str, words: Sequence[Text], *form: Text) -> Answer:
        """Asks for an effect, in an answer of some form. The answer has the question, for what it leaves out."""

        def answer(told: Told) -> Answer:
            rest = dict(told)
            certificate = rest.pop("certificate", None)
            return read(rest, Question(self, command, tuple(words), None if certificate is None else text_in(certificate)))

        return self._ask(answer, command, *words, *form)

    def _need_exposure(self, x: Optional[Names]) -> None:
        """Refuses an effect of nothing, unless it was said: it would be the outcome's distribution."""
        if x is None and "exposure" not in self._content.roles.values():
            raise RequestError("no vertex is marked exposure: give x, or x=[] for the distribution of the outcome as it is")

    @renamed(number="rule")
    def rule_holds(self, rule: int, y: Names, z: Names, do: Names = (), given: Names = ()) -> answers.RuleAnswer:
        """Whether a rule of do-calculus applies: the answer counts as true where it does, and else has an open path.

        Rule 1 leaves z out of what is observed, rule 2 observes z in place of doing it, rule 3 leaves z out of what is done.

        >>> from causal import Diagram
        >>> print(Diagram("dag { X -> M -> Y X <-> Y }").rule_holds(2, y="M", z="X"))
        rule 2 holds: P(M|do(X)) = P(M|X)
        """
        if isinstance(rule, bool) or rule not in (1, 2, 3):
            raise RequestError(f"the rules of do-calculus are 1, 2 and 3, and there is no rule {rule!r}")
        words = ["--rule", str(rule), *options(y=y, z=z, do=do, given=given)]
        return self._ask(lambda told: reading.read_rule(told, self.vertices), "rule", *words)

    rule = Renamed("rule_holds")

    def identify(
        self,
        x: Optional[Names] = None,
        y: Optional[Names] = None,
        given: Optional[Names] = None,
        short: bool = False,
        certificate: bool = False,
    ) -> Union[Formula, Hedge]:
        """A formula for the effect of x on y, or a hedge, which counts as false.

        It is proved that the formula is the effect in every positive finite model that fits the diagram, or that the hedge's two
        models agree on all observations and differ on the effect. With `given` the effect among those with the same values of
        these variables is asked for, `P(y | do(x), given)`; a hedge is then one of a joint effect (`Hedge.conditional`). With `short`
        the formula is the shortest that was found: it is proved that it is no longer than the one without. With `certificate` the
        answer comes with its certificate, which on a large diagram takes much longer than the answer; without it the property
        `certificate` asks for that.

        >>> from causal import Diagram
        >>> napkin = Diagram("dag { W -> Z -> X -> Y W <-> X W <-> Y }").identify("X", "Y")
        >>> print(napkin.expression, napkin.definitions, napkin.free)
        q0 / (sum{Y} q0) ('sum{W} P(W) * P(X|W,Z) * P(Y|W,Z,X)',) ('Z',)
        >>> Diagram("dag { W -> Z -> X -> Y W <-> X W <-> Y }").identify("X", "Y", short=True).definitions
        ('sum{W} P(W) * P(X,Y|W,Z)',)
        >>> bool(Diagram("dag { X -> Y X <-> Y }").identify("X", "Y"))
        False
        >>> print(Diagram("dag { Z -> X Z -> Y X -> Y }").identify("X", "Y", given="Z"))
        P(Y|do(X),Z) = P(Y|Z,X)
        """
        self._need_exposure(x)
        words = [*options(x=x, y=y, given=given), *(["--short"] if short else [])]
        return self._ask_effect(reading.read_effect, "identify", words, *(["--certificate"] if certificate else []))

    def treated(self, x: Optional[Names] = None, y: Optional[Names] = None, given: Optional[Names] = None) -> Treated:
        """A formula for the effect of x on y among those for whom other values of x were observed, as the treated; or why none was found,
        which counts as false.

        `P(Y|do(X),X')` is the probability of Y had X been done, among those whose X was observed to be `X'`. With `given` it is asked for
        among those with the same values of these variables too, on which x mustn't act. It is proved that a formula equals this in every
        positive finite model that fits the diagram's observed graph, at every assignment; `Confounded` says what is proved otherwise.

        >>> from causal import Diagram
        >>> print(Diagram("dag { S -> T -> R <- S }").treated("T", "R"))
        P(R|do(T),T') = sum{S} P(S|T') * P(R|S,T)
        """
        from causal.treated import read_treated

        self._need_exposure(x)
        return self._ask_effect(read_treated, "treated", options(x=x, y=y, given=given))

    def natural(
        self, x: Optional[Names] = None, y: Optional[Names] = None, through: Names = (), given: Optional[Names] = None
    ) -> Natural:
        """A formula for the effect of x on y were the mediators `through` as they would be under other values of x; or why there is none,
        which counts as false.

        `P(Y[X,M[X']])` is the probability of Y had X been done, and M been what it would have been under `X'`. With P(Y|do(X)) and
        P(Y|do(X')) it gives the natural direct and indirect effect: `mediate` has them over data. It is proved that a formula equals this
        at any two values of x in every positive finite model that fits the diagram's observed graph, and otherwise that none does.

        >>> from causal import Diagram
        >>> print(Diagram("dag { X -> M -> Y X -> Y }").natural("X", "Y", through="M"))
        P(Y[X,M[X']]) = sum{M} P(M|X') * P(Y|X,M)
        """
        from causal.natural import read_natural

        self._need_exposure(x)
        return self._ask_effect(read_natural, "natural", options(through=through, x=x, y=y, given=given))

    def surrogate(
        self,
        x: Optional[Names] = None,
        y: Optional[Names] = None,
        experiments: Union[str, Iterable[Names]] = (),
        models: bool = False,
        certificate: bool = False,
    ) -> Union[Formula, Stopped, StoppedHedge]:
        """A formula for the effect of x on y that may use experiments, or why none was found, which counts as false.

        Each experiment is one name or several: variables that were set in a trial, under which all others were observed. It is
        proved that a formula, whose terms are observed or under one of the experiments, is the effect in every positive finite
        model that fits the diagram. With `models` a hedge is given, where there is one, whose two models agree on all
        observations and under each experiment and differ on the effect: then no formula over them exists. With `certificate` the
        answer is that with `models`, and comes with its certificate where it has one.

        >>> from causal import Diagram
        >>> diagram = Diagram("dag { Z -> X -> Y Z <-> X Z <-> Y }")
        >>> bool(diagram.identify("X", "Y"))
        False
        >>> print(diagram.surrogate("X", "Y", experiments=["Z"]))
        P(Y|do(X)) = P(Y|do(Z),X)
        free {Z}
        """
        self._need_exposure(x)
        word = experiments_word(experiments)
        if not word:
            raise RequestError("experiments names the variables that were set in trials, as in experiments=['Z']")
        words = [*options(x=x, y=y), "--experiments", word]
        form = ["--certificate"] if certificate else ["--models"] if models else []
        return self._ask_effect(reading.read_surrogate, "surrogate", words, *form)

    def check_certificate(
        self, certificate: Union[Text, Formula, Hedge, NaturalFormula], experiments: Union[str, Iterable[Names]] = ()
    ) -> answers.Check:
        """Whether a certificate is accepted, whoever wrote it: the answer counts as true where it is.

        With `experiments` the terms of a formula may stand under one of them, and the two models of a hedge agree under each. A certificate of
        `treated` or `natural` is in parts: see `PartsCheck`.

        >>> from causal import Diagram
        >>> diagram = Diagram("dag { X -> Y X <-> Y }")
        >>> print(diagram.check_certificate(diagram.identify("X", "Y")))
        accepted
        P(Y|do(X)) is not identifiable
        hedge {X,Y} over {Y} with roots {Y}
        """
        return self._ask_certificate(reading.read_check, "check", certificate, experiments)

    check = Renamed("check_certificate")

    def steps(
        self, certificate: Union[Text, Formula, Hedge, NaturalFormula], experiments: Union[str, Iterable[Names]] = ()
    ) -> Union[Derivation, answers.Check]:
        """The steps of an accepted certificate of a formula, whoever wrote it: what stands there after each, and the rule for which it
        asks, with its graph. Of another certificate the answer is that of `check_certificate`, which counts as true for a hedge's.

        >>> from causal import Diagram
        >>> diagram = Diagram("dag { X -> Y }")
        >>> print(diagram.steps(diagram.identify("X", "Y")))
        main
        P(Y|do(X))
        rule2see: P(Y|X)
        """
        from causal.derivation import read_steps

        return self._ask_certificate(read_steps, "steps", certificate, experiments)

    def _ask_certificate(
        self,
        read: Callable[[Told, bool], Answer],
        command: str,
        certificate: Union[Text, Formula, Hedge, NaturalFormula],
        experiments: Union[str, Iterable[Names]],
    ) -> Answer:
        """Asks about a certificate. The reader is told whether it is one over experiments."""
        text = certificate if isinstance(certificate, (str, bytes)) else getattr(certificate, "certificate", None)
        if text is None:
            raise RequestError("this answer has no certificate: formulas have one, and hedges of identify and surrogate")
        word = experiments_word(experiments)
        words = ["--experiments", word] if word else []
        return self._ask(lambda told: read(told, bool(word)), command, *words, second=as_bytes(text))

    def adjustment_sets(
        self, x: Optional[Names] = None, y: Optional[Names] = None, most: Optional[int] = None
    ) -> answers.AdjustmentSets:
        """The minimal sets that may be adjusted for: all, or as many as `most` says (100 unless given).

        >>> from causal import Diagram
        >>> list(Diagram("dag { Z -> X Z -> Y X -> Y }").adjustment_sets("X", "Y"))
        [('Z',)]
        """
        return self._ask(reading.read_sets, "adjust", *options(x=x, y=y), *limit_words(most))

    def instruments(self, x: Optional[Names] = None, y: Optional[Names] = None, most: Optional[int] = None) -> Instruments:
        """The vertices that are instruments for the effect of x on y, each with the minimal sets of strata in which it is one: all, or as
        many of each as `most` says (100 unless given). No instrument counts as false.

        `bounds` takes one with one of its sets, as `instrument` and `strata`.

        >>> from causal import Diagram
        >>> print(Diagram("dag { A -> Z A -> B -> Y Z -> X -> Y X <-> Y }").instruments("X", "Y"))
        A given {B}
        Z given {A}
        Z given {B}
        """
        from causal.instruments import read_instruments

        return self._ask(read_instruments, "instruments", *options(x=x, y=y), *limit_words(most))

    @renamed(members="set")
    def adjusts(
        self, set: Names, x: Optional[Names] = None, y: Optional[Names] = None, back_door: bool = False
    ) -> answers.Adjustment:
        """Whether a set may be adjusted for, by the adjustment criterion or by the back-door criterion.

        >>> from causal import Diagram
        >>> print(Diagram("dag { Z -> X Z -> Y X -> Y }").adjusts("Z", "X", "Y"))
        admissible: {Z}
        P(Y|do(X)) = sum{Z} P(Z) * P(Y|Z,X)
        """
        words = [*options(x=x, y=y, set=set), *(["--back-door"] if back_door else [])]
        return self._ask(reading.read_adjustment, "adjust", *words)

    def equivalent(
        self, other: "Diagram", x: Optional[Names] = None, y: Optional[Names] = None, given: Optional[Names] = None
    ) -> answers.Equivalence:
        """Whether two diagrams without hidden common causes imply the same: the answer counts as true where they do.

        With x and y, which are names of the first diagram, the answer for equivalent diagrams also says that they are separated in
        both, or has an open path of each.

        >>> from causal import Diagram
        >>> chain, fork = Diagram("dag { A -> B -> C }"), Diagram("dag { A <- B -> C }")
        >>> bool(chain.equivalent(fork))
        True
        >>> print(chain.equivalent(fork, "A", "C"))
        equivalent
        open in the first: A -> B -> C
        open in the second: A <- B -> C
        """
        if not isinstance(other, Diagram):
            raise WrongType(f"a diagram is compared with another one, as Diagram(text), and not with a {type(other).__name__}")
        return self._ask(reading.read_equivalence, "equivalent", *options(x=x, y=y, given=given), second=other.source)
