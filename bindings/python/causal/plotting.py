"""Drawings of diagrams with matplotlib."""
from __future__ import annotations

import io
from typing import Any, Dict, List, Mapping, Optional, Sequence, Set, Tuple

from causal.answers import GraphText, Path
from causal.errors import RequestError
from causal.formula import Hedge, HedgeSets
from causal.layout import BENT, STRAIGHT, Box, Point, Positions, bend_round, curve, limits, positions_of
from causal.vocabulary import needed

COLOURS = {"exposure": "#8fd18f", "outcome": "#8fb8e8", "adjusted": "#f2c46d", "latent": "#d9d9d9"}
PLAIN = "#ffffff"
DRAWN_OUT = "#c0392b"
SMALL_SET = "#7d3cb5"
# In points: the room round a name in its box, between two boxes in a row, and at the border.
PADDING, GAP, MARGIN = 4.0, 36.0, 8.0
# The largest side of a drawing, in inches.
LARGEST = 40.0


def marked_edges(path: Optional[Path], hedge: Optional[HedgeSets]) -> Set[Tuple[str, str, str]]:
    """The edges of a path, and of a hedge's forest and links: as a vertex, a mark (`->` or `<->`) and a vertex.

    >>> from causal import Path
    >>> from causal.plotting import marked_edges
    >>> sorted(marked_edges(Path(("A", "B", "C"), ("<-", "<->")), None))
    [('B', '->', 'A'), ('B', '<->', 'C'), ('C', '<->', 'B')]
    """
    marked: Set[Tuple[str, str, str]] = set()
    if path:
        for a, mark, b in zip(path.vertices, path.marks, path.vertices[1:]):
            marked.update({"->": [(a, "->", b)], "<-": [(b, "->", a)]}.get(mark, [(a, "<->", b), (b, "<->", a)]))
    if isinstance(hedge, Hedge):
        marked.update((v, "->", child) for v, child in hedge.choice)
        marked.update(edge for v, p in hedge.links for edge in [(v, "<->", p), (p, "<->", v)])
    return marked


def plot(
    content: GraphText, path: Optional[Path], hedge: Optional[HedgeSets], positions: Optional[Positions], ax: Any
) -> Any:
    """Draws the diagram on axes of matplotlib, and gives the axes."""
    pyplot = needed("matplotlib.pyplot", "a drawing")
    places = places_of(content, positions)
    axes = pyplot.subplots()[1] if ax is None else ax
    draw(axes, content, places, path, hedge, fits=ax is None)
    return axes


def plot_intervals(rows: Sequence[Tuple[str, float, float, float]], label: str, ax: Any) -> Any:
    """Draws numbers with their intervals, the first one on top, on axes of matplotlib, and gives the axes."""
    pyplot = needed("matplotlib.pyplot", "a drawing")
    axes = pyplot.subplots(figsize=(6.4, 1.2 + 0.35 * len(rows)), layout="constrained")[1] if ax is None else ax
    for place, (_, value, lower, upper) in enumerate(rows):
        axes.plot([lower, upper], [place, place], color="#333333", linewidth=1.2)
        axes.plot([value], [place], color="#333333", marker="o", markersize=5)
    axes.axvline(0, color="#888888", linestyle="--", linewidth=0.8)
    axes.set_yticks(range(len(rows)), [name.replace("$", r"\$") for name, *_ in rows])
    axes.set_ylim(len(rows) - 0.5, -0.5)
    axes.set_xlabel(label)
    return axes


def plot_balance(rows: Sequence[Tuple[str, float, float]], ax: Any) -> Any:
    """Draws standardised differences before and after weighting, on axes of matplotlib, and gives the axes."""
    pyplot = needed("matplotlib.pyplot", "a drawing")
    axes = pyplot.subplots(figsize=(6.4, 1.6 + 0.3 * len(rows)), layout="constrained")[1] if ax is None else ax
    places = range(len(rows))
    axes.plot([before for _, before, _ in rows], places, "o", fillstyle="none", color="#888888", label="before")
    axes.plot([after for _, _, after in rows], places, "o", color="#333333", label="after")
    for limit in (-0.1, 0.1):
        axes.axvline(limit, color="#bbbbbb", linestyle=":", linewidth=0.8)
    axes.axvline(0, color="#888888", linestyle="--", linewidth=0.8)
    axes.set_yticks(places, [name.replace("$", r"\$") for name, *_ in rows])
    axes.set_ylim(len(rows) - 0.5, -0.5)
    axes.set_xlabel("standardised difference")
    axes.legend(fontsize="small")
    return axes


def svg(content: GraphText, positions: Optional[Positions] = None) -> Optional[str]:
    """The drawing as SVG, or None where matplotlib isn't there."""
    try:
        from matplotlib.backends.backend_agg import FigureCanvasAgg
        from matplotlib.figure import Figure
    except ImportError:
        return None
    figure = Figure()
    FigureCanvasAgg(figure)
    draw(figure.add_axes((0, 0, 1, 1)), content, places_of(content, positions), None, None, fits=True)
    held = io.StringIO()
    figure.savefig(held, format="svg", metadata={"Date": None})
    return held.getvalue()


def places_of(content: GraphText, positions: Optional[Positions]) -> Dict[str, Point]:
    """The places that were given, or those by layers."""
    places = dict(positions) if positions is not None else positions_of(content)
    lacking = [vertex for vertex in content.vertices if vertex not in places]
    if lacking:
        raise RequestError(f"no position is given for {', '.join(lacking)}")
    return places


def draw(
    axes: Any, content: GraphText, places: Positions, path: Optional[Path], hedge: Optional[HedgeSets], fits: bool
) -> None:
    """Draws the diagram; where `fits`, the figure gets the size that the names need."""
    axes.set_axis_off()
    names = {
        vertex: _draw_vertex(axes, vertex, places[vertex], content.roles.get(vertex), _ring(vertex, path, hedge))
        for vertex in content.vertices
    }
    halves = {vertex: _half_size(axes, text) for vertex, text in names.items()}
    if fits:
        _fit_figure(axes, places, halves)
    _set_limits(axes, [(places[vertex], halves[vertex]) for vertex in names])
    edges = [(a, "->", b) for a, b in content.edges] + [(a, "<->", b) for a, b in content.bidirected]
    bends = _bends(axes, edges, places, halves)
    _set_limits(axes, [(places[vertex], halves[vertex]) for vertex in names], _bulges(axes, edges, bends, places))
    marked = marked_edges(path, hedge)
    for edge, bend in zip(edges, bends):
        _draw_edge(axes, edge, bend, places, names, edge in marked)
    _explain(axes, content)


def _ring(vertex: str, path: Optional[Path], hedge: Optional[HedgeSets]) -> Tuple[str, float]:
    """The colour and the width of the line round a vertex."""
    if hedge is not None and vertex in hedge.small:
        return SMALL_SET, 2.5
    if (hedge is not None and vertex in hedge.big) or (path is not None and vertex in path.vertices):
        return DRAWN_OUT, 2.5
    return "#333333", 1.0


def _draw_vertex(axes: Any, vertex: str, place: Point, role: Optional[str], ring: Tuple[str, float]) -> Any:
    colour, width = ring
    return axes.text(
        *place,
        vertex.replace("$", r"\$"),
        ha="center",
        va="center",
        zorder=2,
        bbox={
            "boxstyle": "round,pad=0.4",
            "facecolor": COLOURS.get(role or "", PLAIN),
            "edgecolor": colour,
            "linewidth": width,
            "linestyle": ":" if role == "latent" else "-",
        },
    )


def _pixels(axes: Any, points: float) -> float:
    return float(points * axes.figure.dpi / 72)


def _on_canvas(axes: Any, place: Point) -> Point:
    x, y = axes.transData.transform(place)
    return float(x), float(y)


def _half_size(axes: Any, text: Any) -> Point:
    """Half of the width and height of a name's box on the canvas."""
    canvas = axes.figure.canvas
    extent = text.get_window_extent(canvas.get_renderer() if hasattr(canvas, "get_renderer") else None)
    room = _pixels(axes, PADDING)
    return float(extent.width) / 2 + room, float(extent.height) / 2 + room


def _fit_figure(axes: Any, places: Positions, halves: Mapping[str, Point]) -> None:
    """Makes the figure as large as the names need it to stand apart."""
    if not halves:
        return
    sizes = []
    for side, inches in enumerate(axes.figure.get_size_inches()):
        at = [places[vertex][side] for vertex in halves]
        longest = 2 * max(half[side] for half in halves.values()) + _pixels(axes, GAP)
        sizes.append(min(max(inches, (max(at) - min(at) + 1) * longest / axes.figure.dpi), LARGEST))
    axes.figure.set_size_inches(sizes)


def _set_limits(axes: Any, boxes: Sequence[Tuple[Point, Point]], more: Sequence[Point] = ()) -> None:
    """Sets limits within which all names and further points lie."""
    held = [*boxes, *((point, (0.0, 0.0)) for point in more)]
    margin = _pixels(axes, MARGIN)
    size = axes.get_window_extent()
    for side, (length, set_limits) in enumerate(((size.width, axes.set_xlim), (size.height, axes.set_ylim))):
        set_limits(*limits([place[side] for place, _ in held], [half[side] for _, half in held], float(length), margin))


def _bends(axes: Any, edges: Sequence[Tuple[str, str, str]], places: Positions, halves: Mapping[str, Point]) -> List[float]:
    """How far each edge bends, so that it runs behind no name."""
    boxes = {vertex: Box(*_on_canvas(axes, places[vertex]), *half) for vertex, half in halves.items()}
    found = []
    for a, mark, b in edges:
        others = [box for vertex, box in boxes.items() if vertex not in (a, b)]
        found.append(bend_round(boxes[a][:2], boxes[b][:2], others, STRAIGHT if mark == "->" else BENT, _pixels(axes, 3)))
    return found


def _bulges(axes: Any, edges: Sequence[Tuple[str, str, str]], bends: Sequence[float], places: Positions) -> List[Point]:
    """The middle of each edge, in the units of the axes."""
    found = []
    for (a, _, b), bend in zip(edges, bends):
        points = curve(_on_canvas(axes, places[a]), _on_canvas(axes, places[b]), bend)
        x, y = axes.transData.inverted().transform(points[len(points) // 2])
        found.append((float(x), float(y)))
    return found


def _draw_edge(
    axes: Any, edge: Tuple[str, str, str], bend: float, places: Positions, names: Mapping[str, Any], is_marked: bool
) -> None:
    """Draws an edge from box to box, above the names, whose boxes are known once they are drawn."""
    from matplotlib.patches import FancyArrowPatch

    a, mark, b = edge
    axes.add_patch(
        FancyArrowPatch(
            places[a],
            places[b],
            patchA=names[a].get_bbox_patch(),
            patchB=names[b].get_bbox_patch(),
            shrinkA=1.5,
            shrinkB=1.5,
            arrowstyle="<|-|>" if mark == "<->" else "-|>",
            linestyle="--" if mark == "<->" else "-",
            color=DRAWN_OUT if is_marked else "#333333",
            linewidth=2.5 if is_marked else 1.2,
            mutation_scale=12,
            connectionstyle=f"arc3,rad={bend}",
            clip_on=False,
            zorder=3,
        )
    )


def _explain(axes: Any, content: GraphText) -> None:
    """Says what the colours mean."""
    from matplotlib.patches import Patch

    roles = [role for role in COLOURS if role in content.roles.values()]
    if roles:
        patches = [Patch(facecolor=COLOURS[role], edgecolor="#333333", label=role) for role in roles]
        axes.legend(handles=patches, loc="best", fontsize="small")
