"""Diagrams: where they come from, what they are, and questions with odd names."""
import copy
import functools
import json
import os
import pickle
import shutil
import subprocess
import sys
import tempfile
import unittest

from worked import read_example

import causal
from causal import Diagram
from causal.conversion import text_of_edges

ODD = ["a,b", "größe", "x y", "{}", "--z", "P(Y)", "a -> b", "日本", "'", "\\", "#", "q0", "do", "sum", "50%", "a\u2028b"]


class Texts(unittest.TestCase):
    """Texts in and out."""

    def test_from_file(self):
        with tempfile.TemporaryDirectory() as folder:
            path = os.path.join(folder, "fork.dag")
            with open(path, "wb") as file:
                file.write(read_example("fork.dag"))
            self.assertEqual(Diagram.from_file(path), Diagram(read_example("fork.dag")))

    def test_text_is_read_back(self):
        for name in ("napkin.dag", "exported.dag", "hidden_cause.dag"):
            diagram = Diagram(read_example(name))
            self.assertEqual(Diagram(diagram.text).text, diagram.text)
            self.assertEqual(eval(repr(diagram)), diagram)

    def test_project(self):
        diagram = Diagram(read_example("hidden_cause.dag"))
        self.assertEqual(diagram.roles["genotype"], "latent")
        self.assertEqual(diagram.project().bidirected, (("smoking", "cancer"),))

    def test_from_edges(self):
        diagram = Diagram.from_edges([("A", "B")], vertices=["C"], bidirected=[("B", "C")], latent="C")
        self.assertEqual(diagram.vertices, ("C", "A", "B"))
        self.assertEqual((diagram.edges, diagram.bidirected, diagram.roles), ((("A", "B"),), (("C", "B"),), {"C": "latent"}))

    def test_edges_that_make_no_diagram(self):
        with self.assertRaises(causal.DiagramError) as caught:
            Diagram.from_edges([("A", "B"), ("B", "A")])
        self.assertEqual((caught.exception.number, caught.exception.place), (11, ("A", "B")))
        with self.assertRaises(causal.DiagramError) as caught:
            Diagram.from_edges([("A", "B")], exposure="A", outcome="A")
        self.assertEqual(caught.exception.number, 10)
        with self.assertRaises(causal.RequestError):
            text_of_edges([("A", "B")], [], [], {"treatment": "A"})

    def test_what_is_no_text(self):
        for wrong in (3_000_000_000, None, 1.5, ["dag {}"], {}):
            with self.subTest(wrong), self.assertRaisesRegex(TypeError, "a text is a str or bytes, and no"):
                Diagram(wrong)
        for text in (bytearray(b"dag { A }"), memoryview(b"dag { A }")):
            self.assertEqual(Diagram(text).vertices, ("A",))

    def test_names_that_are_whole_numbers(self):
        diagram = Diagram.from_edges([(1, 2), (2, "3")], vertices=[0], exposure=1, outcome=[3])
        self.assertEqual((diagram.vertices, diagram.edges), (("0", "1", "2", "3"), (("1", "2"), ("2", "3"))))
        self.assertEqual(str(diagram.separated(1, [3], given=2)), "separated: {1} from {3} given {2}")

    def test_what_is_no_name(self):
        diagram = Diagram("dag { A -> B }")
        for wrong in (1.5, True, [None], ["A", ("B",)], object()):
            with self.subTest(wrong), self.assertRaisesRegex(causal.RequestError, "a name is a text, and a set several of them"):
                diagram.separated(wrong, "B")
        for wrong in (["AB"], [("A",)], [("A", "B", "C")], [3]):
            with self.subTest(wrong), self.assertRaisesRegex(causal.RequestError, "an edge is a pair of names"):
                Diagram.from_edges(wrong)

    def test_a_refusal_shows_the_line(self):
        with self.assertRaises(causal.DiagramError) as caught:
            Diagram("dag {\n  größe -> X\n  größe -- Y\n}")
        self.assertEqual((caught.exception.number, caught.exception.place.line, caught.exception.place.column), (5, 3, 9))
        self.assertEqual(str(caught.exception).split("\n")[1:], ["  größe -- Y", "        ^"])
        again = pickle.loads(pickle.dumps(caught.exception))
        self.assertEqual(str(again), str(caught.exception))

    def test_text_that_is_not_utf8(self):
        for text in (b"dag{\xff}", "dag{\ud800}"):
            with self.assertRaises(causal.DiagramError) as caught:
                Diagram(text)
            self.assertEqual((caught.exception.number, caught.exception.place.byte), (1, 4))


class OddNames(unittest.TestCase):
    """Names with any characters that a name may have."""

    def test_chain(self):
        diagram = Diagram.from_edges(list(zip(ODD, ODD[1:])), exposure=ODD[0], outcome=ODD[-1])
        self.assertEqual(diagram.vertices, tuple(ODD))
        self.assertEqual(Diagram(diagram.text), diagram)
        self.assertTrue(diagram.separated(ODD[0], ODD[-1], ODD[5]))
        answer = diagram.separated(ODD[0], ODD[-1], [])
        self.assertEqual((answer.path.vertices, answer.given), (tuple(ODD), ()))

    def test_each_question(self):
        for name in ODD:
            with self.subTest(name):
                other = "Y" if name != "Y" else "X"
                diagram = Diagram.from_edges([(name, "Z"), (name, other), ("Z", other)])
                self.assertEqual(diagram.separated("Z", other, name).path.vertices, ("Z", other))
                self.assertEqual(list(diagram.adjustment_sets("Z", other)), [(name,)])
                self.assertEqual(diagram.adjusts(name, "Z", other).members, (name,))
                self.assertEqual(diagram.identify("Z", other).variables, {name, "Z", other})
                self.assertTrue(diagram.check_certificate(diagram.identify("Z", other)))
                self.assertTrue(diagram.rule_holds(2, other, "Z", given=name))
                self.assertTrue(diagram.equivalent(diagram))
                self.assertIsNotNone(diagram.identify("Z", other).latex)

    def test_odd_names_in_a_hedge(self):
        diagram = Diagram.from_edges([("do(X)", "größe, in cm")], bidirected=[("do(X)", "größe, in cm")])
        hedge = diagram.identify("do(X)", "größe, in cm")
        self.assertEqual((hedge.big, hedge.links), (("do(X)", "größe, in cm"), (("do(X)", "größe, in cm"),)))
        self.assertTrue(diagram.check_certificate(hedge))

    def test_odd_names_in_data(self):
        for name in ODD:
            with self.subTest(name):
                diagram = Diagram.from_edges([(name, "X"), (name, "Y"), ("X", "Y")])
                data = {name: ["a,b", "c\nd"] * 4, "X": [1, 1, 2, 2] * 2, "Y": ["'"] * 5 + ['"'] * 3}
                effects = diagram.effects(data, "X", "Y", exact=True)
                self.assertEqual([effect.x["X"] for effect in effects], [1, 1, 2, 2])

    def test_names_that_cannot_be(self):
        diagram = Diagram("dag { A -> B }")
        for name in ("", 'a"b', "a\nb"):
            with self.subTest(name), self.assertRaises(ValueError):
                diagram.separated(name, "B")

    def test_unknown_names(self):
        with self.assertRaises(causal.TargetError) as caught:
            Diagram("dag { A -> B }").separated("a (b)", "B")
        self.assertEqual((caught.exception.number, caught.exception.place), (1, ("a (b)",)))


class Kept(unittest.TestCase):
    """A diagram whose text is read once."""

    def test_answers_are_those_on_the_text(self):
        for name in ("napkin.dag", "exported.dag", "hidden_cause.dag", "fork.dag"):
            diagram = Diagram(read_example(name))
            a, b = diagram.project().vertices[:2]
            for words in (
                ["graph", "g"],
                ["graph", "g", "--project"],
                ["identify", "g", "--x", a, "--y", b],
                ["identify", "g", "--x", a, "--y", b, "--certificate"],
                ["adjust", "g", "--x", a, "--y", b, "--most", "3"],
                ["adjust", "g", "--x", a, "--y", b, "--set", "{}", "--back-door"],
                ["separate", "g", "--x", a, "--y", b],
                ["implications", "g"],
                ["implications", "g", "--json"],
                ["identify", "g", "--x", a, "--y", b, "--json"],
                ["identify", "g", "--x", "no such name", "--y", b],
                ["identify", "g", "--x", "no such name", "--y", b, "--json"],
                ["identify"],
                ["identify", "g", "--depth", "3"],
                ["check", "g", "c"],
                ["equivalent", "g", "c"],
            ):
                with self.subTest(name=name, words=words):
                    inputs = {"c": "dag { }"} if "c" in words else {}
                    self.assertEqual(diagram._keep().run(words, inputs), causal.run(words, {"g": diagram.source, **inputs}))

    def test_odd_names(self):
        diagram = Diagram.from_edges(list(zip(ODD, ODD[1:])), vertices=ODD)
        self.assertEqual(json.loads(diagram._keep().run(["graph", "g", "--json"]).out)["text"], diagram.text)
        self.assertEqual(diagram._keep().run(["graph", "g"]).out.decode(), diagram.text)

    def test_other_names_are_refused(self):
        kept = Diagram("dag { A -> B }")._keep()
        ask = kept._asked
        kept._asked = functools.partial(ask.func, ask.args[0], b"A\n", 2)
        with self.assertRaises(ValueError):
            kept.run(["graph", "g"])

    def test_the_empty_diagram(self):
        self.assertEqual(Diagram("dag {}")._keep().run(["graph", "g"]).out, b"dag {\n}\n")

    def test_hidden_vertices_are_projected(self):
        diagram = Diagram("dag { A <- U -> B B -> C U [latent] }")
        self.assertTrue(diagram.is_separated("A", "C", "B"))
        self.assertFalse(diagram.is_separated("A", "C"))

    def test_refusals_are_those_of_separated(self):
        diagram = Diagram("dag { A -> B -> C U [latent] U -> A }")
        for x, y, given in (("D", "C", "B"), ("U", "C", "B"), ("A", (), ()), ("A", "C", "C"), (("A", "A"), "C", ())):
            with self.subTest(x=x, y=y, given=given):
                with self.assertRaises(causal.TargetError) as wanted:
                    diagram.separated(x, y, given)
                with self.assertRaises(causal.TargetError) as caught:
                    diagram.is_separated(x, y, given)
                self.assertEqual(str(caught.exception), str(wanted.exception))

    def test_identifiable(self):
        bow = Diagram("dag { X -> Y -> Z X <-> Y U [latent] U -> X }")
        self.assertEqual(
            [bow.is_identifiable(x, y) for x, y in (("X", "Y"), ("Y", "Z"), (["X", "Y"], "Z"), ("X", "Z"), ("Z", "X"))],
            [False, True, True, False, True],
        )
        for x, y in (("U", "Y"), ("X", ()), ("X", "X"), ("X", "Q"), (("X", "X"), "Y")):
            with self.subTest(x=x, y=y):
                with self.assertRaises(causal.TargetError) as wanted:
                    bow.identify(x, y)
                with self.assertRaises(causal.TargetError) as caught:
                    bow.is_identifiable(x, y)
                self.assertEqual(str(caught.exception), str(wanted.exception))

    def test_admissible(self):
        fork = Diagram("dag { Z -> X Z -> Y X -> M -> Y U [latent] U -> M }")
        self.assertEqual([fork.is_admissible(members, "X", "Y") for members in ("Z", (), "M", ["Z", "M"])], [True, False, False, False])
        for members, x, y in (("U", "X", "Y"), ("Z", "X", ()), ("Z", (), "Y"), ("X", "X", "Y"), ("Q", "X", "Y"), (("Z", "Z"), "X", "Y")):
            with self.subTest(members=members, x=x, y=y):
                with self.assertRaises(causal.TargetError) as wanted:
                    fork.adjusts(members, x, y)
                with self.assertRaises(causal.TargetError) as caught:
                    fork.is_admissible(members, x, y)
                self.assertEqual(str(caught.exception), str(wanted.exception))

    def test_copies(self):
        diagram = Diagram("dag { A -> B -> C }")
        self.assertTrue(diagram.is_separated("A", "C", "B"))
        for other in (copy.deepcopy(diagram), pickle.loads(pickle.dumps(diagram))):
            self.assertTrue(other.is_separated("A", "C", iter(["B"])))
            self.assertEqual(other, diagram)


class Answers(unittest.TestCase):
    """Answers count as true or false, and hold what was printed."""

    def test_truth(self):
        fork, bow = Diagram(read_example("fork.dag")), Diagram(read_example("bow.dag"))
        self.assertTrue(fork.separated("A", "C", "B"))
        self.assertFalse(fork.separated("A", "C", []))
        self.assertTrue(fork.identify("A", "C"))
        self.assertFalse(bow.identify())
        self.assertFalse(bow.adjusts([]))
        self.assertEqual(len(bow.adjustment_sets()), 0)

    def test_napkin(self):
        formula = Diagram(read_example("napkin.dag")).identify()
        self.assertEqual((formula.free, len(formula.definitions), formula.variables), (("Z",), 1, {"W", "X", "Y", "Z"}))
        self.assertIn(r"\frac", formula.latex)
        self.assertNotIn("free", formula.latex)
        self.assertEqual(formula.printed_latex.splitlines()[-1], "free {Z}")
        with self.assertWarnsRegex(DeprecationWarning, "display_latex is named latex"):
            self.assertEqual(formula.display_latex, formula.latex)
        self.assertTrue(formula._repr_latex_().startswith("$$\n\\begin{aligned}\nP(Y \\mid"))
        self.assertNotIn("free", formula._repr_latex_())

    @unittest.skipIf(shutil.which("pdflatex") is None, "no pdflatex")
    def test_latex_compiles_and_fits(self):
        odd, many = "a_%&#$~^{b}\\", [f"confounder {k}" for k in range(1, 11)]
        arms = ("statin", "infarction")
        wide = [(name, arm) for name in many for arm in arms]
        door = [*wide, *((name, "blood pressure") for name in many), ("statin", "blood pressure"), ("blood pressure", "infarction")]
        formulas = [
            Diagram('dag { "age (years)" -> "décès à 30 jours" <- x_1 "age (years)" -> x_1 }').identify("x_1", "décès à 30 jours"),
            Diagram(read_example("napkin.dag")).identify(),
            Diagram.from_edges([(odd, "Y")]).identify(odd, "Y"),
            *(Diagram.from_edges([*wide, arms]).identify(*arms, short=short) for short in (False, True)),
            *(Diagram.from_edges(door, bidirected=[arms]).identify(*arms, short=short) for short in (False, True)),
        ]
        head = r"\documentclass{article}\usepackage[utf8]{inputenc}\usepackage[T1]{fontenc}\usepackage{amsmath}\begin{document}"
        text = "\n\n".join([head, *(f"\\[\n{formula.latex}\n\\]" for formula in formulas), r"\end{document}"])
        with tempfile.TemporaryDirectory() as folder:
            with open(os.path.join(folder, "formulas.tex"), "w", encoding="utf-8") as file:
                file.write(text)
            words = ["pdflatex", "-interaction=nonstopmode", "formulas.tex"]
            done = subprocess.run(words, cwd=folder, stdout=subprocess.PIPE, stderr=subprocess.DEVNULL, stdin=subprocess.DEVNULL)
            log = done.stdout.decode("utf-8", "replace")
            if ".sty' not found" in log:
                raise unittest.SkipTest("pdflatex without its packages")
            self.assertEqual([line for line in log.splitlines() if line.startswith(("!", "Overfull"))], [])
            self.assertTrue(os.path.isfile(os.path.join(folder, "formulas.pdf")))

    def test_certificates(self):
        for name in ("napkin.dag", "front_door.dag", "bow.dag"):
            diagram = Diagram(read_example(name))
            answer = diagram.identify()
            check = diagram.check_certificate(answer.certificate)
            self.assertTrue(check.accepted)
            self.assertEqual(check.formula, answer if answer.identifiable else None)
            self.assertTrue(diagram.check_certificate(answer))
        with self.assertRaises(causal.RequestError):
            diagram.check_certificate(Diagram("dag { X -> Y }").adjusts([], "X", "Y").formula)

    def test_most(self):
        sets = Diagram(read_example("exported.dag")).adjustment_sets(most=1)
        self.assertEqual((list(sets), sets.more), ([("A", "Z")], True))
        with self.assertRaises(causal.RequestError):
            Diagram(read_example("exported.dag")).adjustment_sets(most=0)

    def test_defaults(self):
        diagram = Diagram(read_example("collider.dag"))
        self.assertEqual(str(diagram.separated().path), "talent -> fame <- looks")
        self.assertTrue(diagram.separated(given=[]))

    def test_words_that_are_not_understood(self):
        with self.assertRaises(causal.RequestError):
            Diagram("dag { X -> Y }").rule_holds(4, "Y", "X")
        with self.assertRaises(ValueError):
            causal.run([b"\xff"])
        self.assertEqual(causal.run([]).status, 2)


class Imports(unittest.TestCase):
    """The package needs nothing but Python to be imported, and no heavy module is."""

    def test_nothing_heavy(self):
        code = "import sys, causal; print([m for m in ('pandas', 'numpy', 'networkx', 'matplotlib') if m in sys.modules])"
        path = os.pathsep.join(sys.path)
        ran = subprocess.run([sys.executable, "-c", code], env={**os.environ, "PYTHONPATH": path}, capture_output=True, text=True)
        self.assertEqual((ran.stdout, ran.stderr), ("[]\n", ""))

    def test_a_library_that_is_not_there(self):
        code = "import causal\ntry:\n    causal.Diagram('dag{}')\nexcept causal.LibraryMissing as error:\n    print(error)"
        with tempfile.NamedTemporaryFile(suffix=".so") as file:
            environment = {**os.environ, "PYTHONPATH": os.pathsep.join(sys.path), "CAUSAL_LIBRARY": file.name}
            ran = subprocess.run([sys.executable, "-c", code], env=environment, capture_output=True, text=True)
        self.assertIn("can't be used", ran.stdout)


if __name__ == "__main__":
    unittest.main()
