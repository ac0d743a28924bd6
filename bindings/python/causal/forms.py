"""Diagrams in other forms: the DOT text of Graphviz, GML, graphs of igraph, and files of any of these."""
from __future__ import annotations

import html
import os
import re
from typing import Any, Dict, Iterable, Iterator, List, Mapping, NamedTuple, Optional, Tuple, Union

from causal.conversion import ROLES, Pair, labelled, text_of_edges, texts_of
from causal.diagram import Diagram
from causal.errors import FileRefused, RequestError
from causal.files import read_bytes

Attributes = Mapping[str, Any]
# The form of a file by the end of its name; any other is the text of a diagram.
FORMS = {".dot": "dot", ".gv": "dot", ".gml": "gml"}
# How the graphs of the R package causaleffect mark the two directed edges that stand for a bidirected one.
HIDDEN = "U"


class Edge(NamedTuple):
    """An edge from one vertex to another, with what is written beside it."""

    start: str
    end: str
    attributes: Attributes


def read(path: Union[str, "os.PathLike[str]"], form: Optional[str] = None, **roles: Any) -> Diagram:
    """The diagram that a file holds: the text of a diagram, or the DOT text of Graphviz (.dot, .gv), or GML (.gml).

    `form` is "dag", "dot" or "gml", where the name of the file doesn't say it. Marks are given as in `Diagram.from_edges`; the text of
    a diagram has its own.

    >>> import os, tempfile
    >>> import causal
    >>> with tempfile.TemporaryDirectory() as folder:
    ...     path = os.path.join(folder, "chain.dot")
    ...     with open(path, "w") as file:
    ...         written = file.write("digraph { X -> M -> Y }")
    ...     print(causal.read(path, exposure="X", outcome="Y").identify())
    P(Y|do(X)) = sum{M} P(M|X) * P(Y|M)
    """
    form = FORMS.get(os.path.splitext(os.fspath(path))[1].lower(), "dag") if form is None else form
    if form == "dag":
        if roles:
            raise RequestError("the text of a diagram has its own marks; none are given beside it")
        return Diagram.from_file(path)
    makers = {"dot": Diagram.from_dot, "gml": Diagram.from_gml}
    if form not in makers:
        raise RequestError(f"the form of a file is 'dag', 'dot' or 'gml', and not {form!r}")
    try:
        text = read_bytes(path).decode("utf-8-sig").replace("\r\n", "\n").replace("\r", "\n")
    except UnicodeDecodeError as cause:
        raise FileRefused(f"the file {os.fspath(path)} isn't written in UTF-8: {cause.reason} at byte {cause.start}", place=path) from cause
    return makers[form](text, **roles)


def _says_yes(value: Any) -> bool:
    return str(value).strip().lower() not in ("", "0", "no", "false", "none", "nan")


def _marks_in(attributes: Attributes) -> List[str]:
    """The marks that a vertex's attributes give it: `role`, or a mark that is true; `observed` that is false says latent."""
    marks = [str(attributes["role"])] if attributes.get("role") else []
    marks += [role for role in ROLES if role in attributes and _says_yes(attributes[role])]
    marks += ["latent"] if "observed" in attributes and not _says_yes(attributes["observed"]) else []
    return list(dict.fromkeys(marks))


def text_of(vertices: Mapping[str, Attributes], edges: Iterable[Edge], roles: Mapping[str, Any]) -> str:
    """The text of the diagram of vertices and edges with their attributes.

    An edge is bidirected where its attribute `bidirected` says so, or `dir` is "both", or where it stands beside its reverse and both
    have the description "U".

    >>> from causal.forms import Edge, text_of
    >>> text_of({"X": {"latent": 1}, "Y": {}}, [Edge("X", "Y", {"dir": "back"})], {})
    'dag {\\nX [latent]\\nY\\nY -> X\\n}\\n'
    """
    marks: Dict[str, List[str]] = {role: labelled(names, {}) for role, names in roles.items()}
    for name, attributes in vertices.items():
        for role in _marks_in(attributes):
            marks.setdefault(role, []).append(name)
    directed: List[Pair] = []
    both: List[Pair] = []
    hidden: List[Pair] = []
    for edge in edges:
        kind = _kind_of(edge)
        pair = (edge.end, edge.start) if kind == "back" else (edge.start, edge.end)
        {"both": both, "hidden": hidden}.get(kind, directed).append(pair)
    for a, b in hidden:
        if (b, a) not in hidden:
            raise RequestError(f"the edge from {a} to {b} has the description {HIDDEN!r}, and there is none back from {b}")
    both += [(a, b) for k, (a, b) in enumerate(hidden) if (b, a) not in hidden[:k]]
    return text_of_edges(directed, both, vertices, marks)


def _kind_of(edge: Edge) -> str:
    direction = str(edge.attributes.get("dir") or "forward").lower()
    if direction == "none" or str(edge.attributes.get("arrowhead", "")).lower() == "none":
        raise RequestError(f"the edge between {edge.start} and {edge.end} has no direction")
    if direction == "both" or _says_yes(edge.attributes.get("bidirected", 0)):
        return "both"
    if edge.attributes.get("description") == HIDDEN:
        return "hidden"
    if direction not in ("forward", "back"):
        raise RequestError(f"the edge between {edge.start} and {edge.end} has the direction {direction!r}, which isn't known")
    return direction


# igraph


def text_of_igraph(graph: Any, roles: Mapping[str, Any]) -> str:
    """The text of the diagram of a graph of igraph."""
    if not all(hasattr(graph, part) for part in ("vs", "es", "is_directed")):
        raise RequestError(f"a graph of igraph is needed, and no {type(graph).__name__}")
    if not graph.is_directed():
        raise RequestError("the graph isn't directed")
    own = [vertex.attributes() for vertex in graph.vs]
    labels = [next((held[key] for key in ("name", "label") if held.get(key) is not None), k) for k, held in enumerate(own)]
    if len(set(labels)) < len(labels):
        raise RequestError("two vertices have the same name")
    names = texts_of(labels)
    vertices = {names[label]: held for label, held in zip(labels, own)}
    edges = [Edge(names[labels[edge.source]], names[labels[edge.target]], edge.attributes()) for edge in graph.es]
    return text_of(vertices, edges, {role: labelled(members, names) for role, members in roles.items()})


# GML

_GML = re.compile(r'\s+|#[^\n]*|([A-Za-z_]\w*)|("[^"]*")|([-+]?(?:\d+\.?\d*|\.\d+)(?:[eE][-+]?\d+)?)|([][])')
# A key with its value: a text, a number or a list of such pairs.
GmlList = List[Tuple[str, Any]]


def _gml_tokens(text: str) -> Iterator[Tuple[str, str]]:
    at = 0
    while at < len(text):
        found = _GML.match(text, at)
        if not found:
            raise RequestError(f"the text is no GML from here on: {text[at : at + 20]!r}")
        at = found.end()
        for kind, token in zip(("key", "text", "number", "sign"), found.groups()):
            if token is not None:
                yield kind, token


def _gml_list(tokens: Iterator[Tuple[str, str]], is_inner: bool) -> GmlList:
    pairs: GmlList = []
    for kind, key in tokens:
        if kind == "sign" and key == "]" and is_inner:
            return pairs
        what, value = next(tokens, ("end", ""))
        if kind != "key" or what not in ("text", "number", "sign") or value == "]":
            raise RequestError(f"the text is no GML: at {key!r} a key with its value is expected")
        if what == "sign":
            pairs.append((key, _gml_list(tokens, True)))
        else:
            pairs.append((key, html.unescape(value[1:-1]) if what == "text" else value))
    if is_inner:
        raise RequestError("the text is no GML: a list isn't closed")
    return pairs


def text_of_gml(text: str, roles: Mapping[str, Any]) -> str:
    """The text of the diagram of a graph in GML."""
    graphs = [value for key, value in _gml_list(_gml_tokens(text), False) if key == "graph" and isinstance(value, list)]
    if len(graphs) != 1:
        raise RequestError("the text has no graph, or several; GML has one")
    if not _says_yes(dict(graphs[0]).get("directed", 0)):
        raise RequestError("the graph isn't directed")
    names: Dict[str, str] = {}
    vertices: Dict[str, Attributes] = {}
    for node in _parts(graphs[0], "node"):
        name = str(next((node[key] for key in ("label", "name", "id") if key in node), ""))
        if name in vertices or str(node.get("id")) in names:
            raise RequestError(f"two vertices have the same name or number: {name}")
        names[str(node.get("id"))], vertices[name] = name, node
    edges = []
    for edge in _parts(graphs[0], "edge"):
        ends = [str(edge.get(side)) for side in ("source", "target")]
        lacking = [end for end in ends if end not in names]
        if lacking:
            raise RequestError(f"an edge is of the vertex {lacking[0]}, which isn't there")
        edges.append(Edge(names[ends[0]], names[ends[1]], edge))
    return text_of(vertices, edges, roles)


def _parts(graph: GmlList, wanted: str) -> List[Dict[str, Any]]:
    return [dict(value) for key, value in graph if key == wanted and isinstance(value, list)]


# DOT

_DOT = re.compile(
    r'(?P<space>\s+|//[^\n]*|/\*.*?\*/|\#[^\n]*)|(?P<sign>->|--|[][{};,=:+])|(?P<quoted>"(?:[^"\\]|\\.)*")'
    r"|(?P<word>[^\W\d]\w*|-?(?:\.\d+|\d+(?:\.\d*)?))",
    re.DOTALL,
)


def _dot_tokens(text: str) -> Iterator[Tuple[str, str]]:
    """The tokens of a DOT text with their kinds; a text between quotes without them."""
    at = 0
    while at < len(text):
        if text[at] == "<":
            end = _end_of_markup(text, at)
            yield "markup", text[at:end]
            at = end
            continue
        found = _DOT.match(text, at)
        if not found or not found.lastgroup:
            raise RequestError(f"the text is no DOT from here on: {text[at : at + 20]!r}")
        at = found.end()
        if found.lastgroup == "quoted":
            yield "quoted", re.sub(r'\\(["\n])', lambda it: '"' if it.group(1) == '"' else "", found.group()[1:-1])
        elif found.lastgroup != "space":
            yield found.lastgroup, found.group()


def _end_of_markup(text: str, at: int) -> int:
    depth = 0
    for place in range(at, len(text)):
        depth += {"<": 1, ">": -1}.get(text[place], 0)
        if not depth:
            return place + 1
    raise RequestError("the text is no DOT: a '<' isn't closed")


class Dot:
    """The vertices and edges of a DOT text, in the order in which they first stand there.

    >>> from causal.forms import Dot
    >>> dot = Dot('digraph { node [shape=box]; "a b" -> {c d}  c -> d [dir=both] }')
    >>> list(dot.vertices), [(edge.start, edge.end) for edge in dot.edges]
    (['a b', 'c', 'd'], [('a b', 'c'), ('a b', 'd'), ('c', 'd')])
    """

    def __init__(self, text: str) -> None:
        self._tokens = list(_dot_tokens(text))
        self._at = 0
        self.vertices: Dict[str, Dict[str, Any]] = {}
        self.edges: List[Edge] = []
        self._accept("word", "strict")
        if self._accept("word", "graph"):
            raise RequestError("the graph isn't directed: a digraph is needed")
        self._take("word", "digraph")
        if self._kind() in ("word", "quoted"):
            self._at += 1
        self._block({"node": {}, "edge": {}, "graph": {}})
        if self._kind() != "end":
            raise self._fail()

    def _kind(self, ahead: int = 0) -> str:
        at = self._at + ahead
        return self._tokens[at][0] if at < len(self._tokens) else "end"

    def _accept(self, kind: str, text: str, ahead: int = 0) -> bool:
        """Passes a token that stands next; one further ahead is only looked at."""
        at = self._at + ahead
        stands = at < len(self._tokens) and self._tokens[at][0] == kind and self._tokens[at][1].lower() == text
        self._at += stands and not ahead
        return stands

    def _fail(self) -> RequestError:
        rest = " ".join(text for _, text in self._tokens[self._at : self._at + 4])
        return RequestError(f"the text is no DOT at {rest!r}" if rest else "the text is no DOT: it ends too early")

    def _take(self, kind: str, text: str) -> None:
        if not self._accept(kind, text):
            raise self._fail()

    def _text(self) -> str:
        """A name or a value; texts between quotes may be joined by +."""
        if self._kind() not in ("word", "quoted", "markup"):
            raise self._fail()
        text = self._tokens[self._at][1]
        self._at += 1
        while self._accept("sign", "+"):
            text += self._text()
        return text

    def _block(self, defaults: Mapping[str, Dict[str, Any]]) -> List[str]:
        """The vertices of what stands between braces. Defaults that are set in it end with it."""
        own = {kind: dict(held) for kind, held in defaults.items()}
        members: List[str] = []
        self._take("sign", "{")
        while not self._accept("sign", "}"):
            members += self._statement(own)
            while self._accept("sign", ";") or self._accept("sign", ","):
                pass
        return members

    def _statement(self, defaults: Dict[str, Dict[str, Any]]) -> List[str]:
        for kind in defaults:
            if self._accept("sign", "[", 1) and self._accept("word", kind):
                defaults[kind].update(self._attributes())
                return []
        if self._accept("sign", "=", 1):
            self._at += 2
            self._text()
            return []
        ends = [self._end(defaults)]
        while self._accept("sign", "->"):
            ends.append(self._end(defaults))
        if self._accept("sign", "--"):
            raise RequestError("an edge has no direction: in a digraph edges are written ->")
        attributes = self._attributes()
        if len(ends) == 1:
            for name in ends[0]:
                self.vertices[name].update(attributes)
        for first, second in zip(ends, ends[1:]):
            self.edges += [Edge(a, b, {**defaults["edge"], **attributes}) for a in first for b in second]
        return [name for end in ends for name in end]

    def _end(self, defaults: Mapping[str, Dict[str, Any]]) -> List[str]:
        """One end of an edge: a vertex, or those of a group."""
        if self._accept("word", "subgraph"):
            if self._kind() in ("word", "quoted"):
                self._at += 1
            return self._block(defaults)
        if self._accept("sign", "{", 0):
            self._at -= 1
            return self._block(defaults)
        if self._kind() == "markup":
            raise RequestError("a vertex is named by markup, which isn't read as a name")
        name = self._text()
        while self._accept("sign", ":"):
            self._text()
        self.vertices.setdefault(name, dict(defaults["node"]))
        return [name]

    def _attributes(self) -> Dict[str, Any]:
        found: Dict[str, Any] = {}
        while self._accept("sign", "["):
            while not self._accept("sign", "]"):
                key = self._text()
                found[key] = self._text() if self._accept("sign", "=") else "true"
                while self._accept("sign", ",") or self._accept("sign", ";"):
                    pass
        return found


def text_of_dot(text: str, roles: Mapping[str, Any]) -> str:
    """The text of the diagram of a graph in DOT."""
    dot = Dot(text)
    names = {own: str(attributes.get("name", own)) for own, attributes in dot.vertices.items()}
    if len(set(names.values())) < len(names):
        raise RequestError("two vertices have the same name")
    edges = [Edge(names[edge.start], names[edge.end], edge.attributes) for edge in dot.edges]
    return text_of({names[own]: attributes for own, attributes in dot.vertices.items()}, edges, roles)
