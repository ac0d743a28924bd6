"""Diagrams in other forms: DOT, GML, graphs of igraph, and files."""
import os
import pathlib
import tempfile
import unittest

from worked import read_example

import causal
from causal import Diagram

try:
    import igraph
except ImportError:
    igraph = None
try:
    import networkx
except ImportError:
    networkx = None


class Dot(unittest.TestCase):
    """Texts of Graphviz."""

    def test_what_stands_in_one(self):
        text = r"""
            # a comment
            strict digraph "my graph" {
              graph [label=<a <b>name</b> of>]; rankdir=LR // and another
              node [shape=box, fontsize=11.5] edge [color="red"]
              "a \"b\"" [label="not the name"];
            }"""
        with self.assertRaisesRegex(ValueError, "no vertex can be named"):
            Diagram.from_dot(text)
        diagram = Diagram.from_dot(text.replace(r"\"b\"", "b") + "\n/* the end\n */")
        self.assertEqual(diagram.vertices, ("a b",))

    def test_edges(self):
        diagram = Diagram.from_dot(
            'digraph { a -> b -> {c; "d e"} -> 5:n; subgraph cluster_0 { edge [dir=back]; f -> a } g -> f'
            " h -> g [dir=both style=dashed] i -> h [bidirected=true]; -.5 -> i [dir=forward] subgraph { j k } -> a }"
        )
        self.assertEqual(
            diagram,
            Diagram(
                'dag { a b c "d e" 5 f g h i "-.5" j k a -> b b -> c b -> "d e" c -> 5 "d e" -> 5 a -> f g -> f h <-> g'
                ' i <-> h "-.5" -> i j -> a k -> a }'
            ),
        )

    def test_marks(self):
        diagram = Diagram.from_dot(
            'digraph { X [role=exposure] U [latent="True"] V [observed=no] W [observed=yes latent=0] node [latent=1] Q node [latent=0] X -> Y }',
            outcome="Y",
        )
        self.assertEqual(
            diagram.roles, {"X": "exposure", "U": "latent", "V": "latent", "Q": "latent", "Y": "outcome"}
        )

    def test_refusals(self):
        for text, why in (
            ("graph { a -- b }", "isn't directed"),
            ("digraph { a -- b }", "no direction"),
            ("digraph { a -> b [dir=none] }", "no direction"),
            ("digraph { a -> b [arrowhead=none] }", "no direction"),
            ("digraph { a -> b [dir=up] }", "isn't known"),
            ("digraph { a ->", "ends too early"),
            ("digraph { a -> b } c", "no DOT at 'c'"),
            ("digraph { a; & }", "no DOT from here on"),
            ("digraph { <b>bold</b> -> a }", "no DOT|named by markup"),
            ("digraph { a [label=<b] }", "isn't closed"),
            ("dag { a -> b }", "no DOT at 'dag"),
            ("", "ends too early"),
            ("digraph { a [role=cause] }", "a vertex can be"),
        ):
            with self.subTest(text), self.assertRaisesRegex(causal.RequestError, why):
                Diagram.from_dot(text)
        with self.assertRaises(causal.DiagramError):
            Diagram.from_dot("digraph { a -> b -> a }")

    def test_a_text_of_another_kind_is_named(self):
        for text, why in (
            ("digraph { a -> b }", "from_dot"),
            ("strict digraph { a -> b }", "from_dot"),
            ("pdag { a -- b }", "is a pdag"),
            ("pag { a @-> b }", "is a pag"),
            (" mag { a -> b }", "is a mag"),
            ("graph { a -- b }", "without directions"),
            ("tree { a }", "does not begin with dag"),
            ("// a comment\ndag { a }", "a comment"),
            ("dag { a /* here */ }", "a comment"),
            ("dag { a # here\n }", "a comment"),
            ('dag { a "b }', "no token"),
        ):
            with self.subTest(text), self.assertRaisesRegex(causal.DiagramError, why):
                Diagram(text)
        with self.assertRaisesRegex(causal.DiagramError, "a comment"):
            Diagram("dag {\n a -> b // of both\n}")


class Gml(unittest.TestCase):
    """Texts in GML."""

    TEXT = """Creator "a program"
    # a comment
    graph [ directed 1 comment "a -> b"
      node [ id "u" label "U" observed "no" graphics [ x 1.5e2 y -2 ] ]
      node [ id 7 name "x &amp; y" ]
      node [ id -1 ]
      edge [ source "u" target 7 value 0.5 ]
      edge [ source 7 target -1 bidirected 1 ]
    ]"""

    def test_what_stands_in_one(self):
        diagram = Diagram.from_gml(self.TEXT, outcome="x & y")
        self.assertEqual(diagram, Diagram('dag { U [latent] "x & y" [outcome] "-1" U -> "x & y" "x & y" <-> "-1" }'))

    def test_hidden_causes_as_causaleffect_writes_them(self):
        edge = 'edge [ source {} target {} description "U" ]'
        head = 'graph [ directed 1 node [ id 0 name "X" ] node [ id 1 name "Y" ] edge [ source 0 target 1 description "" ] '
        diagram = Diagram.from_gml(head + edge.format(0, 1) + edge.format(1, 0) + "]")
        self.assertEqual((diagram.edges, diagram.bidirected), ((("X", "Y"),), (("X", "Y"),)))
        with self.assertRaisesRegex(causal.RequestError, "none back"):
            Diagram.from_gml(head + edge.format(0, 1) + "]")

    def test_refusals(self):
        for text, why in (
            (self.TEXT.replace(" directed 1", " directed 0"), "isn't directed"),
            (self.TEXT.replace(" directed 1", ""), "isn't directed"),
            (self.TEXT.replace("target 7", "target 8"), "vertex 8"),
            (self.TEXT.replace("-1 ]", "7 ]", 1), "same name or number"),
            (self.TEXT[:-1], "isn't closed"),
            (self.TEXT.replace('"U"', "]"), "with its value"),
            ("node [ id 1 ]", "no graph"),
            ("graph { a -- b }", "no GML"),
        ):
            with self.subTest(why), self.assertRaisesRegex(causal.RequestError, why):
                Diagram.from_gml(text)

    @unittest.skipIf(networkx is None, "no networkx")
    def test_what_networkx_writes(self):
        for name in ("napkin.dag", "bow.dag", "exported.dag"):
            diagram = Diagram(read_example(name))
            text = "\n".join(networkx.generate_gml(diagram.to_networkx(mixed=True)))
            self.assertEqual(Diagram.from_gml(text), diagram)
        graph = networkx.DiGraph([("größe \u2264 \"5\"", "b")])
        graph = networkx.relabel_nodes(graph, lambda name: name.replace('"', "'"))
        self.assertEqual(Diagram.from_gml("\n".join(networkx.generate_gml(graph))).vertices, tuple(graph))


@unittest.skipIf(igraph is None, "no igraph")
class Igraph(unittest.TestCase):
    """Graphs of igraph."""

    def test_in(self):
        graph = igraph.Graph([(0, 1), (1, 2), (2, 0), (0, 2), (1, 0)], directed=True)
        graph.vs["name"] = ["X", "a b", "Y"]
        graph.vs["role"] = ["exposure", None, ""]
        graph.es["description"] = ["", "", "U", "U", None]
        graph.delete_edges([4])
        diagram = Diagram.from_igraph(graph, outcome="Y")
        self.assertEqual(diagram, Diagram('dag { X [exposure] "a b" Y [outcome] X -> "a b" -> Y X <-> Y }'))

    def test_numbers_for_names(self):
        diagram = Diagram.from_igraph(igraph.Graph([(0, 1)], directed=True), exposure=0, outcome=[1])
        self.assertEqual(diagram, Diagram("dag { 0 [exposure] 1 [outcome] 0 -> 1 }"))

    def test_what_igraph_writes(self):
        graph = igraph.Graph([(0, 1), (2, 1)], directed=True, vertex_attrs={"name": ["X", "Y", "Z"], "latent": [0, 0, 1]})
        with tempfile.TemporaryDirectory() as folder:
            for name in ("graph.gml", "graph.dot"):
                path = pathlib.Path(folder, name)
                graph.write(str(path))
                self.assertEqual(causal.read(path).edges, (("X", "Y"), ("Z", "Y")), name)
            self.assertEqual(causal.read(pathlib.Path(folder, "graph.gml")).roles, {"Z": "latent"})

    def test_refusals(self):
        with self.assertRaisesRegex(causal.RequestError, "isn't directed"):
            Diagram.from_igraph(igraph.Graph([(0, 1)]))
        with self.assertRaisesRegex(causal.RequestError, "the same name"):
            Diagram.from_igraph(igraph.Graph([(0, 1)], directed=True, vertex_attrs={"name": ["X", "X"]}))
        for wrong in (None, "graph", 3):
            with self.assertRaisesRegex(causal.RequestError, "a graph of igraph is needed"):
                Diagram.from_igraph(wrong)


class Files(unittest.TestCase):
    """Files of any form."""

    def setUp(self):
        self.folder = tempfile.TemporaryDirectory()
        self.addCleanup(self.folder.cleanup)

    def path(self, name, text):
        path = os.path.join(self.folder.name, name)
        with open(path, "w", encoding="utf-8") as file:
            file.write(text)
        return path

    def test_forms(self):
        expected = Diagram("dag { X [exposure] Ö X -> Ö }")
        dot = self.path("a.DOT", "digraph { X -> Ö }")
        self.assertEqual(causal.read(dot, exposure="X"), expected)
        gml = self.path("a.gml", '\ufeffgraph [ directed 1 node [ id 1 label "X" ] node [ id 2 label "&#214;" ] edge [ source 1 target 2 ] ]')
        self.assertEqual(causal.read(pathlib.Path(gml), exposure="X"), expected)
        for name in ("a.dag", "a.txt", "a"):
            self.assertEqual(causal.read(self.path(name, expected.text)), expected)
        self.assertEqual(causal.read(self.path("b.txt", "digraph { X -> Ö }"), "dot", exposure="X"), expected)

    def test_refusals(self):
        path = self.path("a.dag", "dag { X -> Y }")
        for words in ({"form": "png"}, {"exposure": "X"}):
            with self.assertRaises(causal.RequestError):
                causal.read(path, **words)
        with self.assertRaises(FileNotFoundError):
            causal.read(os.path.join(self.folder.name, "none.gml"))


if __name__ == "__main__":
    unittest.main()
