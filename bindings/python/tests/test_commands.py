"""Implications, experiments and conditions: the words that are asked, and the answers that are read.

The library's own answers are compared with the worked cases, and the examples of the docstrings run it; here a stand-in for the
call on a kept diagram answers, so that words and answers of any kind can be tried.
"""
import copy
import json
import random
import unittest
from unittest import mock

import causal
from causal import Diagram, _library
from causal.errors import CausalError, CountsError, RequestError, UnreadableAnswer
from causal.formula import Formula, Term
from causal.implications import read_implications
from causal.reading import read_effect, read_surrogate
from causal.surrogates import experiments_word

CHAIN = "dag { A <- B -> C }"
ROWS = b"A,B,C,count\n0,0,0,4\n0,0,1,2\n1,0,0,2\n1,0,1,1\n0,1,0,1\n0,1,1,3\n1,1,0,2\n1,1,1,1\n"
EFFECT = {"y": ["Y"], "x": ["X"], "given": []}
SETS = {"larger": ["X", "Y"], "smaller": ["Y"], "roots": ["Y"], "choices": [{"vertex": "X", "child": "Y"}], "links": [["X", "Y"]]}
TERM = {"term": ["Y"], "do": [], "given": ["Z", "X"]}


def bit(kind, vertex, *terms):
    """A bit, and the terms of its sum: a kind and a vertex, or the number of a cause."""
    told = [{"cause": term} if isinstance(term, int) else dict(zip(("bit", "vertex"), term)) for term in terms]
    return {"bit": kind, "vertex": vertex, "sum": told}


MODELS = {
    "causes": [{"acts_on": ["X", "Y"], "weights": ["1", "1"]}, *[{"acts_on": ["Y"], "weights": ["3", "1"]}] * 2],
    "first": [bit("h", "X", 0), bit("h", "Y", "hX", 0, 1), bit("k", "Y", "hY", 2)],
    "second": [bit("h", "X", 0), bit("h", "Y", 1), bit("k", "Y", "hY", 2)],
    "event": {"sum": [{"bit": "k", "vertex": "Y"}], "first": "1/2", "second": "1/2 + 1/2^3"},
}
PRINTED_MODELS = """\
hedge {X,Y} over {Y} with roots {Y}
choice X -> Y
link X <-> Y
cause 0 on {X,Y} with weights 1 1
cause 1 on {Y} with weights 3 1
cause 2 on {Y} with weights 3 1
first h(X) = c0
first h(Y) = h(X) + c0 + c1
first k(Y) = h(Y) + c2
second h(X) = c0
second h(Y) = c1
second k(Y) = h(Y) + c2
event k(Y) even: 1/2 in the first, 1/2 + 1/2^3 in the second"""
HEDGE = {"answer": "hedge", **EFFECT, "effect": "P(Y|do(X))", "joint": {"y": ["Y"], "x": ["X"]}, "hedge": SETS, "models": MODELS}
NOT_IDENTIFIED = {**HEDGE, "given": ["Z"], "joint": {"y": ["Y", "Z"], "x": ["X"]}}
STOPPED = {"answer": "not found", **EFFECT, "experiments": [["Z"]], "district": ["Y"], "hedge": SETS}
STOPPED_HEDGE = {**STOPPED, "answer": "hedge", "models": MODELS}
PAIR = {"x": "A", "y": "C", "given": ["B"]}


def formula_told(text, given=(), **more):
    """The object of a formula."""
    told = {"answer": "formula", **EFFECT, "given": list(given), "formula": text, "definitions": [], "free": []}
    return {**told, "latex": "LATEX", "tree": TERM, "definition_trees": [], **more}


class Library:
    """A stand-in for the call on a kept diagram: it notes the words and the inputs, and gives the objects in turn."""

    def __init__(self, *replies):
        self.replies, self.calls = list(replies), []

    def __call__(self, words, inputs=None):
        self.calls.append((list(words), inputs))
        status, told, err = self.replies.pop(0)
        return _library.Reply(status, json.dumps(told).encode() + b"\n", err.encode())

    @property
    def words(self):
        return [words for words, _ in self.calls]


def answering(*replies):
    library = Library(*[reply if isinstance(reply, tuple) else (0, reply, "") for reply in replies])
    return mock.patch.object(_library.KeptDiagram, "run", library)


def pairs_told(*pairs):
    """The object of implications."""
    return {"answer": "implications" if pairs else "none", "pairs": list(pairs)}


class ImplicationsOfADiagram(unittest.TestCase):
    """Pairs, and differences over data."""

    def differs(self, value, *levels):
        return pairs_told({**PAIR, "difference": str(value), "cell": [list(pair) for pair in zip("ACB", levels)]})

    def test_pairs(self):
        with answering(pairs_told(PAIR)) as library:
            found = Diagram(CHAIN).implications()
        # The diagram stands for the file, so it isn't an input.
        self.assertEqual(library.calls, [(["implications", "diagram", "--json"], {})])
        self.assertEqual([(it.a, it.b, it.given, it.difference) for it in found], [("A", "C", ("B",), None)])
        self.assertEqual(str(found), "A from C given {B}")
        self.assertEqual(found.variables, ("A", "C", "B"))

    def test_none(self):
        with answering((1, pairs_told(), "")) as library:
            found = Diagram("dag { A -> B }").implications({"A": [1], "B": [2]})
        self.assertEqual((len(found), bool(found), str(found)), (0, False, "none"))
        self.assertEqual(len(library.calls), 1)

    def test_a_table(self):
        data = {"A": ["a"] * 3 + ["b"], "C": [True] * 4, "B": [None, 1.5, 2.5, 2.5], "D": [0] * 4}
        with answering(pairs_told(PAIR), self.differs(-5, "0", "0", "1")) as library:
            found = Diagram("dag { D -> A <- B -> C }").implications(data, missing="drop")
        self.assertEqual(library.words[1], ["implications", "diagram", "second", "--count=count", "--json"])
        # The columns are those of the pair and its set, in the order of the vertices.
        self.assertEqual(library.calls[1][1]["second"].split(b"\n")[0], b'"A","B","C","count"')
        self.assertEqual(found[0].difference, causal.Difference(-5, {"A": "a", "C": True, "B": 2.5}))
        self.assertEqual(found.dropped, 1)

    def test_counts(self):
        with answering(pairs_told(PAIR), self.differs(12, "1", "0", "0")) as library:
            found = Diagram(CHAIN).implications({"A": [0, 1], "B": [0, 0], "C": [0, 1], "count": [3, 4]}, "count")
        self.assertIn("--count=count", library.words[1])
        self.assertIn(b"0,0,0,3\n1,0,1,4\n", library.calls[1][1]["second"])
        self.assertEqual((found[0].difference.value, found[0].difference.cell), (12, {"A": 1, "C": 0, "B": 0}))

    def test_a_file(self):
        with answering(pairs_told(PAIR), self.differs(-5, "0", "0", "1")) as library:
            with mock.patch("causal.implications.read_bytes", lambda path: ROWS):
                found = Diagram(CHAIN).implications("rows.csv", "count")
        self.assertEqual(library.words[1], ["implications", "diagram", "second", "--count=count", "--json"])
        self.assertEqual(library.calls[1][1], {"second": ROWS})
        self.assertEqual(found[0].difference.cell, {"A": "0", "C": "0", "B": "1"})

    def test_refused_counts(self):
        fault = {"fault": {"stage": "counts", "number": 2, "message": "there is no column of this name", "name": "B"}}
        with answering(pairs_told(PAIR), (4, fault, "causal: counts fault 2: B\n")):
            with mock.patch("causal.implications.read_bytes", lambda path: b"A,C\n1,1\n"):
                with self.assertRaises(CountsError) as caught:
                    Diagram(CHAIN).implications("rows.csv")
        self.assertEqual((caught.exception.number, caught.exception.place), (2, "B"))
        self.assertEqual(caught.exception.printed, "causal: counts fault 2: B")

    def test_odd_names_and_levels(self):
        cell = [["a from b", "x,y\n"], ["c given {d}", "="], ["e,f", ""], ["g = h", [32, 255]]]
        odd = {"x": "a from b", "y": "c given {d}", "given": ["e,f", "g = h"], "difference": str(10**30), "cell": cell}
        plain = {"x": "i", "y": "j", "given": [], "difference": "0", "cell": [["i", ""], ["j", "0"]]}
        found = read_implications(pairs_told(odd, plain))
        self.assertEqual(found[0].difference.value, 10**30)
        self.assertEqual(found[0].difference.cell, {"a from b": "x,y\n", "c given {d}": "=", "e,f": "", "g = h": " \udcff"})
        self.assertEqual(str(found[0]).split("\n")[0], '"a from b" from "c given {d}" given {"e,f","g = h"}')
        self.assertEqual(str(found[1]), "i from j given {}\nlargest difference 0 at i=,j=0")

    def test_levels_of_a_file(self):
        text = b"A,B,C\n" + b"".join(b'"%s",0,%s\n' % pair for pair in ((b"a\nA", b"c"), (b"a\nA", b"d"), (b"b\xe9", b"d")))
        with mock.patch("causal.implications.read_bytes", lambda path: text):
            cell = Diagram(CHAIN).implications("rows.csv")[0].difference.cell
        self.assertEqual({**cell, "A": None}, {"A": None, "C": "c", "B": "0"})
        self.assertIn(cell["A"], ("a\nA", "b\udce9"))

    def test_frame(self):
        try:
            import pandas  # noqa: F401
        except ImportError:
            raise unittest.SkipTest("no pandas") from None
        told = read_implications(self.differs(-5, "0", "0", "1")).frame()
        self.assertEqual(list(told.columns), ["a", "b", "given", "difference", "cell"])
        self.assertEqual(told.loc[0, "difference"], -5)
        self.assertEqual(list(read_implications(pairs_told(PAIR)).frame().columns), ["a", "b", "given"])
        self.assertEqual(len(read_implications(pairs_told()).frame()), 0)


class Experiments(unittest.TestCase):
    """Effects from experiments."""

    def test_a_formula(self):
        told = formula_told("P(Y|do(Z),X)", free=["Z"], tree={"term": ["Y"], "do": ["Z"], "given": ["X"]}, experiments=[["Z"]])
        with answering(told) as library:
            found = Diagram("dag { Z -> X -> Y }").surrogate("X", "Y", ["Z"])
        self.assertEqual(library.words, [["surrogate", "diagram", "--x", '"X"', "--y", '"Y"', "--experiments", '"Z"', "--json"]])
        self.assertTrue(found)
        self.assertEqual((found.expression, found.free, found.variables), ("P(Y|do(Z),X)", ("Z",), {"X", "Y", "Z"}))
        self.assertEqual((found.printed_latex, found.experiments), ("LATEX\nfree {Z}", {("Z",)}))
        self.assertEqual(str(found), "P(Y|do(X)) = P(Y|do(Z),X)\nfree {Z}")

    def test_certificates(self):
        diagram = Diagram("dag { Z -> X -> Y Z <-> X Z <-> Y }")
        found = diagram.surrogate("X", "Y", experiments="Z")
        self.assertTrue(diagram.check_certificate(found, experiments="Z"))
        self.assertFalse(diagram.check_certificate(found))
        with self.assertRaises(RequestError):
            diagram.check_certificate(Formula(Term(("Y",), ("X",)), "P(Y|X)"))

    def test_none_found(self):
        with answering((1, STOPPED, "")):
            found = Diagram("dag { X -> Y X <-> Y X -> Z }").surrogate("X", "Y", experiments=["Z"])
        self.assertFalse(found)
        self.assertEqual((found.district, found.big, found.small, found.roots), (("Y",), ("X", "Y"), ("Y",), ("Y",)))
        self.assertFalse(found.identifiable)
        sets = "hedge {X,Y} over {Y} with roots {Y}"
        self.assertEqual(str(found), f"P(Y|do(X)) has no formula found from these experiments\ndistrict {{Y}}\n{sets}")

    def test_two_models(self):
        with answering((1, STOPPED_HEDGE, "")) as library:
            found = Diagram("dag { X -> Y X <-> Y X -> Z }").surrogate("X", "Y", experiments=["Z"], models=True)
        self.assertEqual(library.words[0][-2:], ["--models", "--json"])
        self.assertFalse(found)
        self.assertEqual((found.district, found.big, found.noise), (("Y",), ("X", "Y"), 3))
        self.assertEqual(str(found), f"P(Y|do(X)) is not identifiable from these experiments\ndistrict {{Y}}\n{PRINTED_MODELS}")

    def test_experiments(self):
        self.assertEqual(experiments_word("a;b"), '"a;b"')
        self.assertEqual(experiments_word([("A", "B"), "C,D"]), '"A","B";"C,D"')
        with answering(formula_told("P(Y|X)")) as library:
            Diagram("dag { X [exposure] Y [outcome] X -> Y }").surrogate(experiments=iter([["A"], "B"]))
        self.assertEqual(library.words, [["surrogate", "diagram", "--experiments", '"A";"B"', "--json"]])

    def test_no_experiment(self):
        for experiments in ((), [()]):
            with self.subTest(experiments), self.assertRaises(RequestError):
                Diagram("dag { X -> Y }").surrogate("X", "Y", experiments)

    def test_odd_names(self):
        sets = {"larger": ["has no formula", "y | do"], "smaller": ["y | do"], "roots": ["y | do"]}
        found = read_surrogate({**STOPPED, "y": ["y | do"], "x": ["has no formula"], "district": ["y | do"], "hedge": sets})
        self.assertEqual((found.district, found.target.x), (("y | do",), ("has no formula",)))
        head = 'P("y | do"|do("has no formula")) has no formula found from these experiments'
        hedge = 'hedge {"has no formula","y | do"} over {"y | do"} with roots {"y | do"}'
        self.assertEqual(str(found), f'{head}\ndistrict {{"y | do"}}\n{hedge}')

    def test_what_is_no_answer(self):
        for lacking in ("district", "hedge", "x"):
            told = {key: value for key, value in STOPPED.items() if key != lacking}
            with self.subTest(lacking), answering((1, told, "")), self.assertRaises(UnreadableAnswer):
                Diagram("dag { X -> Y X <-> Y X -> Z }").surrogate("X", "Y", experiments=["Z"])


class Conditions(unittest.TestCase):
    """Effects with a condition."""

    def test_a_formula(self):
        with answering(formula_told("P(Y|Z,X)", "Z")) as library:
            found = Diagram("dag { Z -> X -> Y }").identify("X", "Y", given="Z")
        self.assertEqual(library.words, [["identify", "diagram", "--x", '"X"', "--y", '"Y"', "--given", '"Z"', "--json"]])
        self.assertEqual((found.target, found.variables), (Term(("Y",), ("X",), ("Z",)), {"X", "Y", "Z"}))

    def test_a_hedge_of_the_joint_effect(self):
        with answering((1, NOT_IDENTIFIED, ""), (1, {**NOT_IDENTIFIED, "certificate": {}}, "")) as library:
            found = Diagram("dag { X -> Y X <-> Y Y -> Z }").identify("X", "Y", ["Z"])
            self.assertEqual(found.certificate, "{}")
        self.assertEqual(library.words[1][-3:], ['"Z"', "--certificate", "--json"])
        self.assertFalse(found)
        self.assertEqual((str(found.conditional), str(found.target)), ("P(Y|do(X),Z)", "P(Y,Z|do(X))"))
        self.assertEqual(str(found), f"P(Y|do(X),Z) not identified; P(Y,Z|do(X)) is not identifiable\n{PRINTED_MODELS}")

    def test_whether_the_models_differ_on_it(self):
        for settled in (True, False, None):
            told = NOT_IDENTIFIED if settled is None else {**NOT_IDENTIFIED, "settled": settled}
            with self.subTest(settled), answering((1, told, "")) as library:
                self.assertIs(Diagram("dag { X -> Y X <-> Y Y -> Z }").identify("X", "Y", "Z").settled, settled)
            self.assertEqual(len(library.calls), 1)

    def test_which_models_differ_on_it(self):
        """By the definition: they do where no given vertex is left in the joint effect, or those that are left have a formula."""
        names, seen = "XYZW", set()
        pairs = [(a, b) for place, a in enumerate(names) for b in names[place + 1 :]]
        for number in range(300):
            chosen = random.Random(number)
            order = dict(zip(names, chosen.sample(names, 4)))
            drawn = [(f"{order[a]} -> {order[b]} " * chosen.randrange(2)) + f"{a} <-> {b} " * chosen.randrange(2) for a, b in pairs]
            diagram = Diagram(f"dag {{ {' '.join(names)} {''.join(drawn)}}}")
            found = diagram.identify("X", "Y", chosen.sample("ZW", chosen.randrange(1, 3)))
            if found:
                continue
            left = [name for name in found.target.y if name != "Y"]
            self.assertIs(found.settled, not left or bool(diagram.identify(found.target.x, left)), f"{diagram} {found.conditional}")
            seen.add((bool(left), found.settled))
        self.assertEqual(seen, {(False, True), (True, True), (True, False)})

    def test_no_condition(self):
        found = read_effect(HEDGE)
        self.assertEqual((found.conditional, found.settled, found.certificate), (None, None, None))
        self.assertEqual(str(found), f"P(Y|do(X)) is not identifiable\n{PRINTED_MODELS}")

    def test_the_library_refuses(self):
        fault = {"stage": "target", "number": 3, "message": "the name stands twice in the lists", "name": "X"}
        with answering((3, {"fault": fault}, "causal: target fault 3: X\n")), self.assertRaises(CausalError) as caught:
            Diagram("dag { X -> Y }").identify("X", "Y", given="X")
        self.assertEqual((caught.exception.number, caught.exception.place), (3, ("X",)))


class Derivations(unittest.TestCase):
    """The steps of a certificate."""

    CERTIFICATE = {"answer": "formula", "formula": "P(Y|X)"}
    RULE = {"number": 2, "y": ["Y"], "z": ["X"], "do": [], "given": ["b c"], "graph": {"directed": [["X", "Y"]], "bidirected": []}}
    PARTS = [
        {"lemma": 0, "start": {"text": "P(Y|do(X))", "latex": "L0", "tree": TERM}, "moves": []},
        {"lemma": None, "start": {"text": "P(Y|do(X))", "latex": "L0", "tree": TERM}, "moves": [
            {"step": ["at", 1, ["at", 0, ["rule2see", ["X"]]]], "rule": RULE, "after": {"text": "P(Y|X)", "latex": "L1", "tree": TERM}},
            {"step": ["unchain"], "rule": None, "after": {"text": "P(Y)", "latex": "L2", "tree": TERM}}]},
    ]
    TOLD = {**formula_told("P(Y|X)"), "answer": "explained", "parts": PARTS}
    PRINTED = "lemma 0\nP(Y|do(X))\nmain\nP(Y|do(X))\nrule2see: P(Y|X)\nunchain: P(Y)"

    def test_of_a_certificate(self):
        with answering(self.TOLD) as library:
            found = Diagram("dag { X -> Y }").steps(b"{}", experiments="Z")
        self.assertEqual(library.calls, [(["steps", "diagram", "second", "--experiments", '"Z"', "--json"], {"second": b"{}"})])
        self.assertEqual((str(found), found.formula.expression), (self.PRINTED, "P(Y|X)"))
        move = found.parts[1].moves[0]
        self.assertEqual((move.word, move.argument, move.place, move.after.printed_latex), ("rule2see", ["X"], (1, 0), "L1"))
        self.assertEqual((str(move.rule), move.rule.edges), ('rule 2 y {Y} z {X} do {} given {"b c"}', (("X", "Y"),)))
        self.assertEqual([found.parts[1].moves[1].rule, found.parts[1].moves[1].argument], [None, None])
        self.assertEqual([row[:2] for row in found._table()[1]], [[0, None], [None, None], [None, "rule2see"], [None, "unchain"]])

    def test_of_a_formula(self):
        told = {**formula_told("P(Y|X)"), "certificate": self.CERTIFICATE}
        for ask, words in (
            (lambda diagram: diagram.identify("X", "Y", certificate=True), []),
            (lambda diagram: diagram.surrogate("X", "Y", ["Z", "W"], certificate=True), ["--experiments", '"Z";"W"']),
        ):
            with self.subTest(words), answering(told, self.TOLD) as library:
                found = ask(Diagram("dag { X -> Y }"))
                self.assertEqual([found.derivation, str(found.steps)], [self.PRINTED] * 2)
            self.assertEqual(library.words[1], ["steps", "diagram", "second", *words, "--json"])

    def test_of_no_accepted_formula(self):
        hedge = {"answer": "accepted", "of": "hedge", "x": ["X"], "y": ["Y"], "effect": "P(Y|do(X))", "hedge": SETS}
        refusal = {"answer": "refused", "of": "formula", "at": None, "number": 10, "message": "a term still has a do"}
        for status, told, accepted in ((0, hedge, True), (1, refusal, False)):
            with self.subTest(told["answer"]), answering((status, told, "")):
                found = Diagram("dag { X -> Y }").steps(b"{}")
            self.assertEqual((found.accepted, found.formula), (accepted, None))
        with answering({**formula_told("P(Y|X)"), "certificate": self.CERTIFICATE}, (1, refusal, "")):
            found = Diagram("dag { X -> Y }").identify("X", "Y", certificate=True)
            self.assertEqual((found.derivation, found.steps), (None, None))

    def test_a_library_without_the_command(self):
        told = {**formula_told("P(Y|X)"), "certificate": self.CERTIFICATE}
        with answering(told, (2, {}, "causal: words not understood\n")):
            self.assertIsNone(Diagram("dag { X -> Y }").identify("X", "Y", certificate=True).derivation)
        formula = Diagram("dag { X -> Y }").adjusts([], "X", "Y").formula
        self.assertEqual((formula.derivation, formula.steps), (None, None))


class AskedOnce(unittest.TestCase):
    """What comes with an answer, and what is asked for once more."""

    DIAGRAM = "dag { Z -> X -> Y }"
    CERTIFICATE = {"answer": "formula", "formula": "größe\\\x01"}
    TEXT = '{"answer":"formula","formula":"größe\\\\\\u0001"}'

    def test_what_comes_with_a_formula(self):
        with answering(formula_told("P(Y|Z,X)")) as library:
            found = Diagram(self.DIAGRAM).identify("X", "Y")
            self.assertEqual((found.printed_latex, found._repr_latex_()), ("LATEX", f"$$\n{found.latex}\n$$"))
            self.assertEqual((found.text, found.variables), ("P(Y|do(X)) = P(Y|Z,X)", {"X", "Y", "Z"}))
        self.assertEqual(len(library.calls), 1)

    def test_a_certificate_that_is_wanted_later(self):
        told = formula_told("P(Y|Z,X)")
        with answering(told, {**told, "certificate": self.CERTIFICATE}) as library:
            found = Diagram(self.DIAGRAM).identify("X", "Y", short=True)
            self.assertEqual([found.certificate, found.certificate], [self.TEXT] * 2)
            self.assertEqual(copy.deepcopy(found).certificate, self.TEXT)
        asked = ["identify", "diagram", "--x", '"X"', "--y", '"Y"', "--short"]
        self.assertEqual(library.words, [[*asked, "--json"], [*asked, "--certificate", "--json"]])

    def test_a_certificate_that_comes_with_the_answer(self):
        for status, told, ask in (
            (0, formula_told("P(Y|Z,X)"), lambda diagram: diagram.identify("X", "Y", certificate=True)),
            (1, HEDGE, lambda diagram: diagram.identify("X", "Y", certificate=True)),
            (0, formula_told("P(Y|Z,X)"), lambda diagram: diagram.surrogate("X", "Y", "Z", certificate=True)),
            (1, STOPPED_HEDGE, lambda diagram: diagram.surrogate("X", "Y", "Z", models=True, certificate=True)),
        ):
            with self.subTest(told["answer"]), answering((status, {**told, "certificate": self.CERTIFICATE}, "")) as library:
                found = ask(Diagram(self.DIAGRAM))
                self.assertEqual((found.certificate, bool(found)), (self.TEXT, status == 0))
                self.assertEqual([words[-2:] for words in library.words], [["--certificate", "--json"]])
                self.assertNotIn("--models", library.words[0])

    def test_a_stop_has_no_certificate(self):
        with answering((1, STOPPED, "")):
            found = Diagram(self.DIAGRAM).surrogate("X", "Y", "Z", certificate=True)
        self.assertEqual((found.district, hasattr(found, "certificate")), (("Y",), False))

    def test_an_adjustment_and_a_check(self):
        sets = {"x": ["X"], "y": ["Y"], "set": ["Z"]}
        told = {**formula_told("P(Y|Z,X)"), "answer": "admissible", **sets}
        with answering(told, {**formula_told("P(Y|Z,X)"), "answer": "accepted", "of": "formula"}) as library:
            adjusted = Diagram(self.DIAGRAM).adjusts("Z", "X", "Y")
            checked = Diagram(self.DIAGRAM).check_certificate(b"{}")
        for formula in (adjusted.formula, checked.formula):
            self.assertEqual((formula.printed_latex, formula.certificate, formula.variables), ("LATEX", None, {"X", "Y", "Z"}))
        self.assertEqual(len(library.calls), 2)

    def test_as_the_library_has_it(self):
        diagram = Diagram("dag { Z -> X -> Y Z <-> X Z <-> Y }")
        for ask, over in (
            (lambda **form: diagram.identify("Z", "X", short=True, **form), {}),
            (lambda **form: diagram.identify("X", "Y", given="Z", **form), {}),
            (lambda **form: diagram.surrogate("X", "Y", "Z", **form), {"experiments": "Z"}),
        ):
            later, at_once = ask(), ask(certificate=True)
            self.assertEqual((later, later.certificate), (at_once, at_once.certificate))
            self.assertTrue(diagram.check_certificate(at_once, **over))


if __name__ == "__main__":
    unittest.main()
