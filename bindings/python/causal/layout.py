"""Where the vertices of a drawing stand, and how its edges bend round them. All of it is a matter of the drawing alone."""
from __future__ import annotations

from typing import Dict, List, Mapping, NamedTuple, Sequence, Tuple

from causal.answers import GraphText

Point = Tuple[float, float]
Positions = Mapping[str, Point]
# How far an edge may bend, in turn: the middle of its curve lies this part of its length, halved, off the straight line.
STRAIGHT = (0.0, 0.15, -0.15, 0.3, -0.3, 0.45, -0.45, 0.6, -0.6, 0.8, -0.8)
BENT = (-0.35, 0.35, -0.5, 0.5, -0.65, 0.65, -0.8, 0.8, -1.0, 1.0)
STEPS = 48


class Box(NamedTuple):
    """The place of a name on the canvas: its middle, and half of its width and height."""

    x: float
    y: float
    half_width: float
    half_height: float

    def holds(self, point: Point, beside: float = 0.0) -> bool:
        """Whether a point lies in the box, or as near beside it."""
        return abs(point[0] - self.x) < self.half_width + beside and abs(point[1] - self.y) < self.half_height + beside


def layers_of(content: GraphText) -> Dict[str, int]:
    """The layer of each vertex: how many edges the longest directed path to it has.

    >>> from causal import Diagram
    >>> from causal.layout import layers_of
    >>> layers_of(Diagram("dag { A -> B -> C A -> C }")._content)
    {'A': 0, 'B': 1, 'C': 2}
    """
    layers = {vertex: 0 for vertex in content.vertices}
    for _ in content.vertices:
        for a, b in content.edges:
            layers[b] = max(layers[b], layers[a] + 1)
    return layers


def positions_of(content: GraphText) -> Dict[str, Tuple[float, float]]:
    """A place for each vertex: layers from left to right, and within a layer by the mean height of the neighbours before.

    >>> from causal import Diagram
    >>> from causal.layout import positions_of
    >>> positions_of(Diagram("dag { A -> B }")._content)
    {'A': (0.0, 0.0), 'B': (1.0, 0.0)}
    """
    layers = layers_of(content)
    places: Dict[str, Tuple[float, float]] = {}
    for layer in sorted(set(layers.values())):
        members = [vertex for vertex in content.vertices if layers[vertex] == layer]
        members.sort(key=lambda vertex: _mean_height(vertex, content, places))
        for place, vertex in enumerate(members):
            # Layers are shifted in turn, so that three vertices in a row seldom lie on one line.
            shift = 0.15 * (layer % 3) if len(layers) > 2 else 0.0
            places[vertex] = (float(layer), (len(members) - 1) / 2 - place + shift)
    return places


def _mean_height(vertex: str, content: GraphText, places: Positions) -> float:
    joined = [*content.edges, *content.bidirected, *((b, a) for a, b in content.bidirected)]
    heights = [-places[a][1] for a, b in joined if b == vertex and a in places]
    return sum(heights) / len(heights) if heights else 0.0


def curve(start: Point, end: Point, bend: float) -> List[Point]:
    """Points of the edge's curve, as matplotlib's `arc3` draws it.

    >>> from causal.layout import curve
    >>> points = curve((0.0, 0.0), (2.0, 0.0), 0.5)
    >>> points[0], points[len(points) // 2], points[-1]
    ((0.0, 0.0), (1.0, -0.5), (2.0, 0.0))
    """
    across, along = end[0] - start[0], end[1] - start[1]
    middle = (start[0] + end[0]) / 2 + bend * along, (start[1] + end[1]) / 2 - bend * across
    points = []
    for step in range(STEPS + 1):
        t = step / STEPS
        first, second, third = (1 - t) ** 2, 2 * t * (1 - t), t**2
        points.append(
            (first * start[0] + second * middle[0] + third * end[0], first * start[1] + second * middle[1] + third * end[1])
        )
    return points


def bend_round(start: Point, end: Point, others: Sequence[Box], bends: Sequence[float], beside: float = 4.0) -> float:
    """The first of the bends whose curve runs behind none of the other names, or else behind the least of them.

    >>> from causal.layout import Box, bend_round
    >>> bend_round((0, 0), (100, 0), [], (0.0, 0.3)), bend_round((0, 0), (100, 0), [Box(50, 0, 10, 5)], (0.0, 0.3))
    (0.0, 0.3)
    """

    def hidden(bend: float) -> int:
        return sum(box.holds(point, beside) for point in curve(start, end, bend) for box in others)

    return min(bends, key=hidden)


def limits(places: Sequence[float], halves: Sequence[float], size: float, margin: float) -> Tuple[float, float]:
    """Limits of an axis of this size on the canvas, within which what stands at the places has room, each with half its extent.

    >>> from causal.layout import limits
    >>> low, high = limits([0.0, 1.0], [20.0, 40.0], 160.0, 0.0)
    >>> round(low, 3), round(high, 3)
    (-0.2, 1.4)
    """
    if not places:
        return -1.0, 1.0
    if max(places) - min(places) < 1e-9:
        return places[0] - 1.0, places[0] + 1.0

    def needed(scale: float) -> float:
        held = [(scale * at - half, scale * at + half) for at, half in zip(places, halves)]
        return max(high for _, high in held) - min(low for low, _ in held)

    room = max(size - 2 * margin, 1.0)
    low, high = 0.0, room / (max(places) - min(places))
    for _ in range(60):
        middle = (low + high) / 2
        low, high = (middle, high) if needed(middle) <= room else (low, middle)
    scale = max(low, 1e-9)
    start = min(at - half / scale for at, half in zip(places, halves)) - margin / scale
    return start, start + size / scale
