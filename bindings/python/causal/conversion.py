"""Diagrams from edges, from graphs of networkx and from matrices, and back."""
from __future__ import annotations

from typing import Any, Dict, Iterable, List, Mapping, Sequence, Tuple

from causal.answers import GraphText
from causal.errors import RequestError, WrongType
from causal.names import Name, Names, names_of, written_name
from causal.vocabulary import meant, needed

ROLES = ("exposure", "outcome", "adjusted", "latent")
Pair = Tuple[str, str]


def text_of_edges(
    edges: Iterable[Sequence[Name]], bidirected: Iterable[Sequence[Name]], vertices: Iterable[Name], roles: Mapping[str, Names]
) -> str:
    """The text of a diagram: first the vertices in their order, then those that edges name. A mark is one of such a vertex, so that
    a typing error makes none. A vertex with two marks is written so, for the library to refuse.

    >>> from causal.conversion import text_of_edges
    >>> text_of_edges([("A", "B")], [], ["C"], {"exposure": "A"})
    'dag {\\nC\\nA [exposure]\\nB\\nA -> B\\n}\\n'
    >>> text_of_edges([("statin", "mi")], [], [], {"exposure": "Statin"})
    Traceback (most recent call last):
        ...
    causal.errors.RequestError: no vertex has the name Statin, which is marked exposure; did you mean statin?
    """
    directed, both = _pairs_of(edges), _pairs_of(bidirected)
    marks: Dict[str, List[str]] = {name: [] for name in names_of(vertices)}
    marks.update((name, []) for edge in (*directed, *both) for name in edge if name not in marks)
    for role, names in roles.items():
        if role not in ROLES:
            raise RequestError(f"a vertex can be {', '.join(ROLES)}, and not {role}")
        for name in names_of(names):
            if name not in marks:
                raise RequestError(f"no vertex has the name {name}, which is marked {role}{meant(name, marks)}")
            marks[name].append(role)
    lines = [written_name(name) + (f" [{','.join(dict.fromkeys(own))}]" if own else "") for name, own in marks.items()]
    lines += [f"{written_name(a)} -> {written_name(b)}" for a, b in directed]
    lines += [f"{written_name(a)} <-> {written_name(b)}" for a, b in both]
    return "\n".join(["dag {", *lines, "}", ""])


def _pairs_of(edges: Iterable[Sequence[Name]]) -> List[Pair]:
    pairs: List[Pair] = []
    if isinstance(edges, str) or not hasattr(edges, "__iter__"):
        raise WrongType(f"edges are pairs of names, as [('X', 'Y')], and no {type(edges).__name__}")
    for edge in edges:
        names = () if isinstance(edge, (str, int)) else names_of(edge)
        if len(names) != 2:
            raise RequestError(f"an edge is a pair of names, and not {edge!r}")
        pairs.append((names[0], names[1]))
    return pairs


def texts_of(labels: Iterable[Any]) -> Dict[Any, str]:
    """The name of each label. Two labels may not have one name."""
    names = {label: str(label) for label in labels}
    if len(set(names.values())) < len(names):
        raise RequestError("two vertices have the same name as text")
    return names


def labelled(members: Any, names: Mapping[Any, str]) -> List[str]:
    """The names of one label, or of several. What is no label is a name."""
    try:
        if members in names:
            return [names[members]]
    except TypeError:
        pass
    if isinstance(members, str) or not isinstance(members, Iterable):
        return [str(members)]
    return [names.get(member, str(member)) for member in members]


def text_of_networkx(graph: Any, roles: Mapping[str, Any]) -> str:
    """The text of the diagram of a directed graph of networkx."""
    if not hasattr(graph, "is_directed"):
        raise RequestError(f"a graph of networkx is needed, and no {type(graph).__name__}")
    if not graph.is_directed():
        raise RequestError("the graph isn't directed")
    names = texts_of(graph.nodes)
    marks = {role: labelled(members, names) for role, members in roles.items()}
    for label, attributes in graph.nodes(data=True):
        own = [attributes.get("role"), "latent" if attributes.get("latent") else None]
        for role in dict.fromkeys(role for role in own if role):
            marks.setdefault(role, []).append(names[label])
    directed: List[Pair] = []
    both: List[Pair] = []
    for a, b, attributes in graph.edges(data=True):
        (both if attributes.get("bidirected") else directed).append((names[a], names[b]))
    return text_of_edges(directed, both, names.values(), marks)


def text_of_pandas(adjacency: Any, bidirected: Iterable[Sequence[Name]], roles: Mapping[str, Any]) -> str:
    """The text of the diagram of an adjacency matrix."""
    if not hasattr(adjacency, "columns") or not hasattr(adjacency, "index"):
        raise RequestError(f"an adjacency matrix is a DataFrame of pandas, and no {type(adjacency).__name__}")
    texts = texts_of(adjacency.columns)
    names = list(texts.values())
    if names != list(texts_of(adjacency.index).values()):
        raise RequestError("the rows and columns of an adjacency matrix have the same names in the same order")
    if adjacency.isna().to_numpy().any():
        raise RequestError("an adjacency matrix has no missing values")
    entries = adjacency.to_numpy().tolist()
    edges = [(a, b) for a, row in zip(names, entries) for b, entry in zip(names, row) if entry]
    return text_of_edges(edges, bidirected, names, {role: labelled(members, texts) for role, members in roles.items()})


def to_networkx(content: GraphText, mixed: bool) -> Any:
    """The graph of networkx: a `DiGraph` with a latent vertex for each bidirected edge, or a `MultiDiGraph`."""
    networkx = needed("networkx", "a graph of networkx")
    graph = networkx.MultiDiGraph() if mixed else networkx.DiGraph()
    for vertex in content.vertices:
        graph.add_node(vertex, **({"role": content.roles[vertex]} if vertex in content.roles else {}))
    graph.add_edges_from(content.edges)
    for a, b in content.bidirected:
        if mixed:
            graph.add_edge(a, b, bidirected=True)
            continue
        hidden = f"{a}<->{b}"
        while hidden in graph:
            hidden += "'"
        graph.add_node(hidden, role="latent")
        graph.add_edges_from([(hidden, a), (hidden, b)])
    return graph
