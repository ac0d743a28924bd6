"""Graphs of networkx and drawings of matplotlib."""
import random
import unittest
import warnings

from worked import read_example

import causal
from causal import Diagram

try:
    import networkx
except ImportError:
    networkx = None
try:
    import matplotlib

    matplotlib.use("Agg")
    from matplotlib import pyplot
    from matplotlib.patches import FancyArrowPatch
except ImportError:
    matplotlib = None


@unittest.skipIf(networkx is None, "no networkx")
class Networkx(unittest.TestCase):
    """Graphs in and out."""

    def test_in(self):
        graph = networkx.DiGraph([("a b", 1), (1, "c")])
        graph.nodes["a b"]["role"] = "exposure"
        graph.add_node("U", latent=True)
        diagram = Diagram.from_networkx(graph, outcome="c")
        self.assertEqual(diagram.vertices, ("a b", "1", "c", "U"))
        self.assertEqual(diagram.roles, {"a b": "exposure", "c": "outcome", "U": "latent"})

    def test_vertices_that_are_no_texts(self):
        graph = networkx.DiGraph([(1, 2), ((1, 2), 2), (3, 1)])
        for exposure in (1, [1], "1"):
            diagram = Diagram.from_networkx(graph, exposure=exposure, outcome=2, adjusted=(1, 2), latent=[3])
            self.assertEqual(diagram.roles, {"1": "exposure", "2": "outcome", "(1, 2)": "adjusted", "3": "latent"})
        self.assertEqual(str(diagram.identify(1, 2)), str(diagram.identify("1", "2")))
        self.assertTrue(diagram.is_separated([1], "(1, 2)"))

    def test_what_is_no_graph(self):
        for wrong in (None, 3, {}, [(1, 2)]):
            with self.assertRaisesRegex(causal.RequestError, "a graph of networkx is needed, and no"):
                Diagram.from_networkx(wrong)

    def test_there_and_back(self):
        for name in ("napkin.dag", "bow.dag", "exported.dag", "hidden_cause.dag"):
            with self.subTest(name):
                diagram = Diagram(read_example(name))
                self.assertEqual(Diagram.from_networkx(diagram.to_networkx(mixed=True)), diagram)
                self.assertEqual(Diagram.from_networkx(diagram.to_networkx()).project(), diagram.project())

    def test_what_is_no_diagram(self):
        with self.assertRaises(causal.RequestError):
            Diagram.from_networkx(networkx.Graph([(1, 2)]))
        with self.assertRaises(causal.RequestError):
            Diagram.from_networkx(networkx.DiGraph([(1, "1")]))
        with self.assertRaises(causal.DiagramError):
            Diagram.from_networkx(networkx.DiGraph([(1, 2), (2, 1)]))

    def test_separation_is_the_same(self):
        separated = getattr(networkx, "is_d_separator", None) or networkx.d_separated
        source = random.Random(11)
        for _ in range(40):
            pairs = [(f"v{a}", f"v{b}") for a in range(8) for b in range(a + 1, 8)]
            diagram = Diagram.from_edges(
                [pair for pair in pairs if source.random() < 0.3],
                bidirected=[pair for pair in pairs if source.random() < 0.1],
                vertices=[f"v{k}" for k in range(8)],
            )
            graph, names = diagram.to_networkx(), [f"v{k}" for k in range(8)]
            for _ in range(10):
                source.shuffle(names)
                x, y, given = names[:1], names[1:3], names[3 : 3 + source.randrange(4)]
                expected = separated(graph, set(x), set(y), set(given))
                self.assertEqual(bool(diagram.separated(x, y, given)), expected)
                self.assertEqual(diagram.is_separated(x, y, given), expected)


@unittest.skipIf(matplotlib is None, "no matplotlib")
class Plots(unittest.TestCase):
    """Drawings."""

    def tearDown(self):
        pyplot.close("all")

    def arrows(self, axes):
        return [patch for patch in axes.patches if isinstance(patch, FancyArrowPatch)]

    def drawn(self, diagram, **options):
        """The boxes of the names, and for each edge its curve, all on the canvas."""
        axes = diagram.plot(**options)
        axes.figure.canvas.draw()
        boxes = {text.get_text(): text.get_bbox_patch().get_window_extent() for text in axes.texts}
        curves = []
        for arrow in self.arrows(axes):
            paths, _ = arrow._get_path_in_displaycoord()
            whole = paths[0] if isinstance(paths, (list, tuple)) else paths
            curves.append(whole.interpolated(40).vertices)
        return axes, boxes, curves

    def test_roles_and_edges(self):
        axes = Diagram(read_example("napkin.dag")).plot()
        names = {text.get_text() for text in axes.texts if text.get_text()}
        self.assertEqual(names, {"W", "Z", "X", "Y"})
        dashed = [arrow for arrow in self.arrows(axes) if arrow.get_linestyle() in ("--", "dashed")]
        self.assertEqual((len(self.arrows(axes)), len(dashed)), (5, 2))
        self.assertEqual([text.get_text() for text in axes.get_legend().get_texts()], ["exposure", "outcome"])
        axes.figure.canvas.draw()

    def test_a_path(self):
        diagram = Diagram(read_example("m_bias.dag"))
        axes = diagram.plot(path=diagram.adjusts("M").path)
        self.assertEqual(sum(arrow.get_linewidth() > 2 for arrow in self.arrows(axes)), 4)

    def test_a_hedge(self):
        diagram = Diagram(read_example("bow.dag"))
        axes = diagram.plot(hedge=diagram.identify())
        self.assertEqual(sum(arrow.get_linewidth() > 2 for arrow in self.arrows(axes)), 2)

    def test_positions_and_axes(self):
        # (a font may lack the signs)
        warnings.filterwarnings("ignore", message="Glyph")
        figure, axes = pyplot.subplots()
        diagram = Diagram.from_edges([("größe $x$", "日本")])
        self.assertIs(diagram.plot(positions={"größe $x$": (0, 0), "日本": (5, 5)}, ax=axes), axes)
        with self.assertRaises(causal.RequestError):
            diagram.plot(positions={})

    LONG = """dag {
        "the age of the patient at diagnosis" -> "treatment with the new drug" -> "recovery within one year"
        "the age of the patient at diagnosis" -> "recovery within one year" <-> "treatment with the new drug"
        "treatment with the new drug" -> "concentration in blood" -> "recovery within one year" }"""

    def check_edges(self, diagram, **options):
        """Each edge lies outside of all names, but for its ends, which lie at the borders of two."""
        axes, boxes, curves = self.drawn(diagram, **options)
        edges = (*diagram.edges, *diagram.bidirected)
        for (a, b), points in zip(edges, curves):
            with self.subTest(edge=(a, b)):
                for name, box in boxes.items():
                    inside = [box.padded(-1).contains(*point) for point in points]
                    self.assertFalse(any(inside), name)
                for name, end in ((a, points[0]), (b, points[-1])):
                    self.assertTrue(boxes[name].padded(6).contains(*end), (name, end, boxes[name]))
        return axes, boxes

    def test_no_edge_runs_behind_a_name(self):
        for text in (self.LONG, "dag { A -> B -> C -> D A -> C A -> D B -> D A <-> D A <-> C }", read_example("verma.dag")):
            axes, boxes = self.check_edges(Diagram(text))
            whole = axes.figure.bbox
            for one in boxes.values():
                self.assertTrue(whole.x0 <= one.x0 and one.x1 <= whole.x1 and whole.y0 <= one.y0 and one.y1 <= whole.y1)
                self.assertEqual([other for other in boxes.values() if other is not one and one.overlaps(other)], [])

    def test_names_in_a_row(self):
        row = {name: (place, 0) for place, name in enumerate("ABCD")}
        self.check_edges(Diagram("dag { A -> B -> C -> D A -> C A -> D B -> D B <-> D }"), positions=row)

    def test_on_small_axes(self):
        figure = pyplot.figure(figsize=(9, 3))
        self.check_edges(Diagram("dag { smoking -> tar -> cancer smoking <-> cancer }"), ax=figure.add_subplot(1, 2, 2))

    def test_svg(self):
        self.assertTrue(Diagram(self.LONG)._repr_svg_().startswith("<?xml"))
        self.assertIn("</svg>", Diagram("dag {}")._repr_svg_())

    def test_no_vertices(self):
        Diagram("dag {}").plot()


if __name__ == "__main__":
    unittest.main()
