"""The reader of objects: what it reads prints as the program prints it, for each form."""
import json
import unittest

from worked import asks_nested, cases_in_text, in_bounds

import causal
from causal import Diagram, effects, errors, faults, formula, reading
from causal.bounds import read_bounds
from causal.derivation import read_steps
from causal.evaluation import Evaluation
from causal.formula import Formula, Term
from causal.implications import read_implications
from causal.instruments import read_instruments
from causal.names import printed_name, printed_set
from causal.objects import read_line, text_in
from causal.natural import read_natural
from causal.treated import read_treated

TERM = {"term": ["Y"], "do": [], "given": []}
FORMS = {"latex": "P(Y)", "tree": TERM, "definition_trees": []}
PATH = {"vertices": ["a -> b", "{}", "größe", "x,y"], "marks": ["<-", "<->", "->"]}
PRINTED_PATH = '"a -> b" <- "{}" <-> größe -> "x,y"'


def asked(words, inputs):
    """The object in which the program answers these words."""
    return json.loads(causal.run([*words, "--json"], inputs).out)


def read(words, told, inputs):
    """The answer of the words' command."""
    command = words[0]
    if command == "rule":
        return reading.read_rule(told, Diagram(inputs[words[1]]).vertices)
    if command in ("check", "steps"):
        read_certificate = read_steps if command == "steps" else reading.read_check
        return read_certificate(told, any(word.startswith("--experiments") for word in words))
    if command == "adjust":
        return reading.read_adjustment(told) if "--set" in words else reading.read_sets(told)
    readers = {
        "graph": reading.read_graph,
        "identify": reading.read_effect,
        "separate": reading.read_separation,
        "equivalent": reading.read_equivalence,
        "implications": read_implications,
        "surrogate": reading.read_surrogate,
        "bounds": read_bounds,
        "treated": read_treated,
        "natural": read_natural,
        "instruments": read_instruments,
    }
    return readers[command](told)


class PrintedAgain(unittest.TestCase):
    """Each answer among the worked cases."""

    def shown(self, words, inputs):
        """What these words print, as it is made of the object of the answer."""
        in_parts = words[0] in ("treated", "natural") and "--certificate" in words
        told = asked([word for word in words if word != "--latex" and not (in_parts and word == "--certificate")], inputs)
        if in_parts and told["answer"] == "formula":
            return causal.run(words, inputs).out.decode().rstrip("\n")
        if "certificate" in told:
            return text_in(told["certificate"])
        answer = read(words, told, inputs)
        return answer.printed_latex if "--latex" in words and answer else str(answer)

    def test_answers(self):
        forms = set()
        for case in cases_in_text():
            if case.status < 2 and case.words[0] not in ("evaluate", "implications", "survey"):
                with self.subTest(case.name):
                    self.assertEqual(self.shown(case.words, case.inputs) + "\n", case.printed)
                    forms.add((case.words[0], case.status, *({"--latex", "--certificate"} & {*case.words})))
        self.assertGreaterEqual(len(forms), 17)

    def test_refusals(self):
        stages = set()
        for case in cases_in_text():
            if case.status in (3, 4, 5):
                with self.subTest(case.name):
                    # (neither goes with --json: a certificate in parts stands on a line of its own)
                    left_out = {"--latex", *(["--certificate"] if case.words[0] in ("treated", "natural") else [])}
                    reply = causal.run([word for word in [*case.words, "--json"] if word not in left_out], case.inputs)
                    self.assertEqual((reply.status, reply.err.decode()), (case.status, case.err))
                    with self.assertRaises(errors.CausalError) as caught:
                        faults.raise_refusal(*reply, case.words, faults.Sources(case.inputs[case.words[1]]))
                    fault = json.loads(reply.out)["fault"]
                    stages.add(fault["stage"])
                    self.assertEqual((caught.exception.number, caught.exception.stage), (fault["number"], fault["stage"]))
                    self.assertTrue(caught.exception.printed.startswith(f"causal: {fault['stage']} fault {fault['number']}"))
                    self.assertEqual(caught.exception.printed + "\n", case.printed)
        self.assertEqual(len(stages), 7)

    def test_effects(self):
        for case in cases_in_text():
            if case.status == 0 and case.words[0] == "evaluate" and not asks_nested(case):
                with self.subTest(case.name):
                    told = asked(case.words, case.inputs)
                    sets = tuple(told["y"]), tuple(told["x"]), (*told["given"], *told.get("observed", ()))
                    found = effects.read_effects(told, Formula(Term(*sets), ""))
                    text = found.text if found.exact else in_bounds(found.text)
                    self.assertEqual((text + "\n" + broken_line(told), found.exact), (case.printed, "--exact" in case.words))


def broken_line(told):
    """The line of a pair by which no model has the counts, where the object has one."""
    if "no_model" not in told:
        return ""
    pair = told["no_model"]
    return f"no model of the diagram has these counts: {printed_name(pair['x'])} from {printed_name(pair['y'])} given {printed_set(pair['given'])}\n"


class OddNames(unittest.TestCase):
    """Names that are printed in quotes, in each form."""

    def test_path(self):
        told = {"answer": "not separated", "x": ["a -> b"], "y": ["x,y"], "given": [], "open": PATH}
        separation = reading.read_separation(told)
        self.assertEqual((separation.path.vertices, separation.path.marks), (tuple(PATH["vertices"]), tuple(PATH["marks"])))
        self.assertEqual(str(separation), f'not separated: {{"a -> b"}} from {{"x,y"}} given {{}}\nopen: {PRINTED_PATH}')

    def ask_about(self, name):
        """Asks a diagram that has a vertex of this name, through the library."""
        diagram = Diagram.from_edges([(name, "Y"), ("Z", name), ("Z", "Y")])
        self.assertEqual(diagram.vertices, (name, "Y", "Z"))
        self.assertEqual(diagram.separated(name, "Z").path.vertices, (name, "Z"))
        found = diagram.identify(name, "Y", certificate=True)
        self.assertEqual((found.target.x, found.variables), ((name,), {name, "Y", "Z"}))
        self.assertEqual(json.loads(found.certificate)["x"], [name])
        self.assertEqual(diagram.check_certificate(found).formula, found)
        reply = causal.run(["identify", "g", "--x", f'"{name}"', "--y", "Y"], {"g": diagram.source})
        self.assertEqual(reply.out.decode(), f"{found}\n")
        with self.assertRaises(errors.TargetError) as caught:
            diagram.identify(name + "?", "Y")
        self.assertEqual(caught.exception.place, (name + "?",))

    def test_characters_that_are_escaped(self):
        self.ask_about("".join(chr(code) for code in range(160) if chr(code) not in '"\r\n') + "\\u0041\U0001f600")

    def test_a_long_name(self):
        self.ask_about("n" * (1 << 16))

    def test_an_answer_of_megabytes(self):
        names = [f"{number}".zfill(1 << 16) for number in range(12)]
        found = Diagram.from_edges([], vertices=names).implications()
        pairs = [(it.a, it.b, it.given) for it in found]
        self.assertEqual(pairs, [(a, b, ()) for place, a in enumerate(names) for b in names[place + 1 :]])

    def test_breaks_that_end_no_line(self):
        text = "dag {\na\x0bb\nc\x85d\ne\u2028f [latent]\na\x0bb -> c\x85d\n}\n"
        graph = reading.read_graph(asked(["graph", "g"], {"g": text}))
        self.assertEqual(graph.vertices, ("a\x0bb", "c\x85d", "e\u2028f"))
        self.assertEqual(str(graph) + "\n", text)

    def test_rule(self):
        sides = ('P("a = b"|do(do,"do(X)"),"c|d")', 'P("a = b"|do(do),"c|d","do(X)")')
        told = {"answer": "does not hold", "rule": 2, "y": ["a = b"], "do": ["do"], "z": ["do(X)"], "given": ["c|d"]}
        told.update(left=sides[0], right=sides[1], open=PATH)
        answer = reading.read_rule(told, ["c|d", "do", "do(X)", "a = b"])
        self.assertEqual(str(answer), f"rule 2 does not hold: {sides[0]} = {sides[1]}\nopen: {PRINTED_PATH}")
        self.assertEqual((answer.left.y, answer.left.x, answer.left.given), (("a = b",), ("do", "do(X)"), ("c|d",)))

    def test_each_rule(self):
        sides = {1: "P(Y|do(X),Z,W) = P(Y|do(X),W)", 2: "P(Y|do(X,Z),W) = P(Y|do(X),Z,W)", 3: "P(Y|do(X,Z),W) = P(Y|do(X),W)"}
        diagram = Diagram("dag { X Z W Y }")
        for number, told in sides.items():
            self.assertEqual(str(diagram.rule_holds(number, "Y", "Z", "X", "W")), f"rule {number} holds: {told}")

    def test_variables(self):
        term = {"term": ["Y"], "do": ["do"], "given": ["a * b"]}
        quotient = {"quotient": [term, {"term": ["P("], "do": [], "given": []}]}
        tree = {"sum": ["sum", "q0)"], "of": {"product": [{"definition": 0}, quotient]}}
        told = {"y": ["Y"], "x": [], "given": [], "formula": "..", "definitions": [".."], "free": [], "latex": "..", "tree": tree}
        found = reading.read_formula({**told, "definition_trees": [{"term": ["W"], "do": [], "given": []}]})
        self.assertEqual(found.variables, {"sum", "q0)", "P(", "Y", "do", "a * b", "W"})
        self.assertEqual((found.experiments, found.certificate), ({("do",)}, None))
        self.assertEqual(found.divisor_at(None, 3), formula.Divisor(None, frozenset(["P("])))
        self.assertEqual(found.divisor_at(None, 4), formula.Divisor(Term(("Y",), ("do",), ("a * b",)), frozenset(["a * b"])))
        self.assertEqual([found.divisor_at(None, node) for node in range(3)], [None] * 3)
        with self.assertRaisesRegex(errors.RequestError, "no diagram gave the formula P"):
            Formula(Term(("Y",)), "P(Y)").variables

    def test_hedge(self):
        bit, carried = {"bit": "h", "vertex": "x y"}, {"bit": "k", "vertex": "y = 1"}
        models = {
            "causes": [
                {"acts_on": ["x y", "y = 1"], "weights": ["1", "1"]},
                {"acts_on": ["y = 1"], "weights": ["73786976294838206463", "1"]},
            ],
            "first": [{**bit, "sum": [{"cause": 0}]}, {**carried, "sum": [{"bit": "h", "vertex": "y = 1"}, {"cause": 1}]}],
            "second": [{**bit, "sum": []}],
            "event": {"sum": [carried], "first": "1/2", "second": "1/2 + 1/2^67"},
        }
        sets = {"larger": ["x y", "y = 1"], "smaller": ["y = 1"], "roots": ["y = 1"]}
        links = {"choices": [{"vertex": "x y", "child": "y = 1"}], "links": [["x y", "y = 1"]]}
        told = {"answer": "hedge", "y": ["y = 1"], "x": ["x y"], "given": [], "hedge": {**sets, **links}, "models": models}
        hedge = reading.read_effect({**told, "joint": {"y": ["y = 1"], "x": ["x y"]}})
        self.assertEqual((hedge.second[0].terms, hedge.conditional, hedge.noise), ((), None, 67))
        text = (
            'P("y = 1"|do("x y")) is not identifiable\nhedge {"x y","y = 1"} over {"y = 1"} with roots {"y = 1"}\n'
            'choice "x y" -> "y = 1"\nlink "x y" <-> "y = 1"\ncause 0 on {"x y","y = 1"} with weights 1 1\n'
            'cause 1 on {"y = 1"} with weights 73786976294838206463 1\n'
            'first h("x y") = c0\nfirst k("y = 1") = h("y = 1") + c1\nsecond h("x y") = \n'
            'event k("y = 1") even: 1/2 in the first, 1/2 + 1/2^67 in the second'
        )
        self.assertEqual(str(hedge), text)
        conditional = reading.read_effect({**told, "given": ["x y"], "joint": {"y": ["x y", "y = 1"], "x": []}})
        self.assertEqual(str(conditional.conditional), 'P("y = 1"|do("x y"),"x y")')
        self.assertEqual(str(conditional.target), 'P("x y","y = 1")')

    def test_definitions(self):
        told = {"y": ["q1"], "x": [], "given": [], **FORMS, "latex": "P = \\frac{a}{b}\nq_{0} = c"}
        told.update(formula="q0 / (sum{q1} q0)", definitions=["P(W)", "q0 * P(q1|free)"], free=["free"])
        found = reading.read_formula(told)
        self.assertEqual(found.text, "P(q1) = q0 / (sum{q1} q0)\nq0 = P(W)\nq1 = q0 * P(q1|free)\nfree {free}")
        self.assertEqual(found.printed_latex, "P = \\frac{a}{b}\nq_{0} = c\nfree {free}")
        self.assertEqual(found._repr_latex_(), f"$$\n{found.latex}\n$$")

    def test_refusals(self):
        hedge, steps = {"answer": "refused", "of": "hedge"}, {"answer": "refused", "of": "formula"}
        for told, text in (
            ({**hedge, "number": 5, "message": "..", "vertex": "a b"}, 'refused: hedge fault 5 at "a b"'),
            ({**hedge, "number": 5, "message": "..", "vertex": None}, "refused: hedge fault 5 at -"),
            ({**hedge, "number": 4, "message": "..", "vertex": "-"}, 'refused: hedge fault 4 at "-"'),
            ({**hedge, "number": 1, "message": ".."}, "refused: hedge fault 1"),
            (
                {**steps, "at": {"lemma": 2, "step": 7}, "number": 3, "message": "..", "open": PATH},
                f"refused: lemma 2 step 7 fault 3\nopen: {PRINTED_PATH}",
            ),
            ({**steps, "at": {"lemma": None, "step": 1}, "number": 4, "message": ".."}, "refused: main step 1 fault 4"),
            ({**steps, "at": {"lemma": None, "step": None}, "number": 9, "message": ".."}, "refused: fault 9 at main"),
            ({**steps, "at": {"lemma": 3, "step": None}, "number": 9, "message": ".."}, "refused: fault 9 at lemma 3"),
            ({**steps, "at": None, "number": 10, "message": ".."}, "refused: fault 10"),
        ):
            with self.subTest(text):
                check = reading.read_check(told, False)
                self.assertFalse(check)
                self.assertEqual((str(check), check.refusal.sentence), (text, ".."))

    def test_differences(self):
        edge = {"kind": "edge", "vertices": ["a,b", "c"], "in": "second"}
        collider = {"kind": "collider", "vertices": ["a", "m", "b"], "in": "first"}
        asked = {"x": ["a,b"], "y": ["c"], "given": ["d", "e"]}
        short = {"vertices": ["a", "d"], "marks": ["->"]}
        for told, text in (
            (
                {"answer": "not equivalent", "difference": edge, "separated_in": "first", "separation": asked},
                'not equivalent: edge "a,b",c in the second\nseparated in the first alone: {"a,b"} from {c} given {d,e}',
            ),
            (
                {"answer": "not equivalent", "difference": collider, "separated_in": "second", "separation": asked},
                'not equivalent: collider a,m,b in the first\nseparated in the second alone: {"a,b"} from {c} given {d,e}',
            ),
            ({"answer": "equivalent"}, "equivalent"),
            ({"answer": "equivalent", **asked, "separated": True}, 'equivalent\nseparated in both: {"a,b"} from {c} given {d,e}'),
            (
                {"answer": "equivalent", **asked, "separated": False, "first": PATH, "second": short},
                f"equivalent\nopen in the first: {PRINTED_PATH}\nopen in the second: a -> d",
            ),
        ):
            with self.subTest(text):
                self.assertEqual(str(reading.read_equivalence(told)), text)

    def test_sets(self):
        sets = reading.read_sets({"answer": "sets", "sets": [[], ["A", "b, c"]], "more": True})
        self.assertEqual((list(sets), sets.more), ([(), ("A", "b, c")], True))
        self.assertEqual(str(sets), '{}\n{A,"b, c"}\nmore')

    def test_instruments(self):
        told = [{"vertex": "a b", "strata": [[], ["A", "b, c"]], "more": True}, {"vertex": "W", "strata": [], "more": False}]
        found = read_instruments({"answer": "instruments", "x": ["X"], "y": ["Y"], "instruments": told})
        self.assertEqual((len(found), found[0].vertex, found[0].strata, found[0].more), (1, "a b", ((), ("A", "b, c")), True))
        self.assertEqual(str(found), '"a b" given {}\n"a b" given {A,"b, c"}\nmore of "a b"')
        self.assertEqual(str(found[0]), str(found))
        self.assertIn("<p>there are more of &quot;a b&quot;</p>", found._repr_html_())
        none = read_instruments({"answer": "none", "x": ["X"], "y": ["Y"], "instruments": []})
        self.assertEqual((bool(none), str(none), list(none)), (False, "none", []))
        self.assertIn("<p>no vertex is an instrument</p>", none._repr_html_())

    def test_what_is_no_answer(self):
        sets = {"x": ["A"], "y": ["B"], "given": []}
        formula = {"formula": "P(B)", "definitions": [], "free": []}
        rule = {"answer": "holds", "rule": 2, "y": ["A"], "do": [], "z": ["B"], "given": []}
        rule.update(left="P(A|do(B))", right="P(A|B)")
        for reader, told in (
            (reading.read_separation, {"answer": "separated", "x": ["A"], "y": ["B"]}),
            (reading.read_separation, {"answer": "not separated", **sets}),
            (reading.read_separation, sets),
            (reading.read_equivalence, {"answer": "equivalent", **sets, "separated": False, "first": PATH}),
            (reading.read_equivalence, {"answer": "another"}),
            (reading.read_adjustment, {"answer": "not admissible", **sets, "set": []}),
            (reading.read_adjustment, {"answer": "admissible", **sets, "set": [], **formula}),
            (reading.read_effect, {"answer": "another", **sets, **formula, **FORMS}),
            (lambda told: reading.read_check(told, False), {"answer": "another", "of": "hedge", **sets}),
            (lambda told: reading.read_rule(told, "AB"), {**rule, "right": "P(A|do(B))"}),
            (lambda told: reading.read_rule(told, "AB"), {**rule, "answer": "does not hold"}),
            (reading.read_graph, {"vertices": [{"name": "A", "role": None}], "directed": [["A"]], "bidirected": []}),
            (reading.read_sets, {"sets": 3, "more": False}),
            (read_instruments, {"answer": "none"}),
            (read_instruments, {"instruments": [{"vertex": "Z", "more": False}]}),
            (reading.read_effect, {"answer": "formula", "y": [], "x": []}),
            (reading.read_surrogate, {"answer": "another"}),
            (lambda told: reading.read_check(told, False), {"answer": "refused"}),
            (lambda told: reading.read_rule(told, "AC"), rule),
            (lambda told: faults.error_of(told, faults.Sources()), {"stage": "counts", "number": 3}),
            (read_implications, {"pairs": [{"x": "A", "y": "B", "given": [], "difference": "-"}]}),
        ):
            with self.subTest(told), self.assertRaises(errors.UnreadableAnswer):
                read_line(reader, json.dumps(told).encode())
        for line in (b"", b"dag {\n}\n", b"[]\n", b"\xff"):
            with self.subTest(line), self.assertRaises(errors.UnreadableAnswer):
                read_line(reading.read_sets, line)


class Levels(unittest.TestCase):
    """Levels as their bytes stand."""

    FORMULA = Formula(Term(("Y", "Z"), ("x y",)), "P(Y)")

    def effect(self, y, z, x, **value):
        cell = {"y": [["Y", y], ["Z", z]], "x": [["x y", x]], "given": [], **value}
        return effects.read_effects({"exact": "value" in value, "pinned": [], "cells": [cell]}, self.FORMULA)[0]

    def test_marks_in_levels(self):
        for level, printed in (
            ("a,b", "a,b"),
            ("a,Z=b", "a,Z=b"),
            ("a\nP(Y=b", '"a\\nP(Y=b"'),
            ("a\r", '"a\\r"'),
            ('"\\', '"\\"\\\\"'),
            ("\\n", "\\n"),
            ("1)) = 1/3", "1)) = 1/3"),
            ("", ""),
        ):
            effect = self.effect(level, "1", "c", value="1/2")
            self.assertEqual((effect.y, effect.x), ({"Y": level, "Z": "1"}, {"x y": "c"}))
            self.assertEqual(str(effect), f'P(Y={printed},Z=1|do("x y"=c)) = 1/2')

    def test_bytes_that_are_no_text(self):
        effect = self.effect([99, 97, 102, 233], "1", "c", **{"from": "0.250000000000000000", "to": "0.250000000000000001"})
        self.assertEqual(effect.y["Y"], "caf\udce9")
        self.assertEqual(str(effect.value), "from 0.250000000000000000 to 0.250000000000000001")
        self.assertFalse(effect.value.is_exact)

    def test_a_file_in_latin_1(self):
        evaluation = Evaluation(Diagram("dag { X -> Y }"), "X", "Y")
        found = evaluation.over_file(b"X,Y\na,caf\xe9\na,b\n", exact=True)
        self.assertEqual([effect.y["Y"] for effect in found], ["caf\udce9", "b"])


class Refusals(unittest.TestCase):
    """Objects of refusals."""

    def error(self, told, text=b"", second=b""):
        told = {"number": 1, "message": "a sentence", **told}
        line = json.dumps({"fault": told}).encode()
        with self.assertRaises(errors.CausalError) as caught:
            faults.raise_refusal(3, line, b"causal: ..\n", [], faults.Sources(text, second))
        self.assertEqual((caught.exception.stage, caught.exception.number), (told["stage"], told["number"]))
        return caught.exception

    def test_caret(self):
        told = {"stage": "graph", "number": 5, "byte": 10, "line": 2, "column": 4}
        error = self.error(told, text="dag{\r\n\tå -- b\r\n}".encode())
        self.assertEqual(error.place, errors.TextPlace(10, 2, 4))
        self.assertEqual(error.excerpt, "\tå -- b\n\t  ^")
        self.assertIn("graph fault 5 at line 2, column 4: a sentence", str(error))
        self.assertEqual(self.error({**told, "byte": 4}, text=b"dag{\xff}").excerpt, "dag{\ufffd}\n    ^")
        self.assertEqual(self.error(told, text=b"dag { a ->").excerpt, "dag { a ->\n" + " " * 10 + "^")

    def test_second(self):
        told = {"stage": "second graph", "number": 5, "byte": 6, "line": 1, "column": 7}
        self.assertEqual(self.error(told, b"dag{}", b"dag{a -- b}").excerpt, "dag{a -- b}\n      ^")

    def test_places(self):
        for told, place, sentence in (
            ({"stage": "target", "name": "a b"}, ("a b",), "a sentence: a b"),
            ({"stage": "second target", "number": 7, "names": ["a b", "c"]}, ("a b", "c"), "a sentence: a b, c"),
            ({"stage": "target", "number": 4}, (), "a sentence"),
            ({"stage": "graph", "number": 11, "names": ["a", "b"]}, ("a", "b"), "a sentence: a, b"),
            ({"stage": "graph", "number": 7, "name": "a"}, ("a",), "a sentence: a"),
            ({"stage": "graph", "number": 9}, None, "a sentence"),
            ({"stage": "certificate", "number": 5, "name": 'a"b'}, 'a"b', 'a sentence: a"b'),
            ({"stage": "certificate", "number": 5, "name": ""}, "", "a sentence"),
            ({"stage": "certificate", "number": 2, "key": "lemmas"}, "lemmas", "a sentence: lemmas"),
            ({"stage": "certificate", "number": 3, "version": "18446744073709551616"}, 2**64, f"a sentence: {2**64}"),
            ({"stage": "certificate", "number": 4}, None, "a sentence"),
            ({"stage": "counts", "number": 4, "row": 7}, 7, "a sentence: record 7"),
            ({"stage": "counts", "number": 2, "name": [99, 233]}, "c\udce9", "a sentence: c\udce9"),
            ({"stage": "counts", "number": 7}, None, "a sentence"),
        ):
            with self.subTest(told):
                error = self.error(told)
                self.assertEqual((error.place, error.sentence, error.printed), (place, sentence, "causal: .."))

    def test_evaluation(self):
        told = {"stage": "evaluation", "number": 2, "definition": 3, "node": 4}
        error = self.error(told)
        self.assertEqual(error.place, errors.EvaluationPlace(3, 4, None))
        self.assertIn("a sentence; bounds", error.sentence)
        error = self.error({**told, "number": 1, "definition": None, "cell": [["S", "a,b"], ["T", [233]]]})
        self.assertEqual(error.place.cell, {"S": "a,b", "T": "\udce9"})
        self.assertEqual(error.sentence, "a sentence, at S=a,b, T=\udce9")

    def test_other_statuses(self):
        with self.assertRaises(errors.RequestError):
            faults.raise_refusal(2, b"", b"causal: words not understood; ..\n", [], faults.Sources())
        with self.assertRaisesRegex(errors.CausalError, "ended with status 6: causal: read failed"):
            faults.raise_refusal(6, b"", b"causal: read failed\n", [], faults.Sources())
        with self.assertRaises(errors.UnreadableAnswer):
            faults.raise_refusal(3, b"", b"causal: graph fault 4\n", [], faults.Sources())


class Frames(unittest.TestCase):
    """Each answer as a DataFrame."""

    def test_each_answer(self):
        try:
            import pandas  # noqa: F401
        except ImportError:
            self.skipTest("no pandas")
        diagram = Diagram("dag { X -> Y X <- Z -> Y W -> Z W -> X }")
        bow = Diagram("dag { X -> Y X <-> Y }")
        napkin = Diagram("dag { W -> Z -> X -> Y W <-> X W <-> Y }")
        data = {"X": [0, 0, 1, 1], "Y": [0, 1, 1, 1]}
        contrast = Diagram("dag { X -> Y }").contrast(data, "X", "Y", treated=1, control=0, outcome=1, resamples=0)
        for answer, wanted in (
            (diagram.separated("X", "Z"), [False, "X <- Z"]),
            (diagram.rule_holds(2, "Y", "X", given="Z"), [True, None]),
            (bow.check_certificate(bow.identify("X", "Y")), [True, None]),
            (diagram.adjusts((), "X", "Y"), [False, "X <- Z -> Y"]),
            (bow.identify("X", "Y"), ["big", "X"]),
            (napkin.identify("X", "Y"), ["P(Y|do(X))", "q0 / (sum{Y} q0)"]),
            (diagram.adjustment_sets("X", "Y"), [1, "Z"]),
            (Diagram("dag { W -> Z -> X -> Y W -> Y X <-> Y }").instruments("X", "Y"), ["Z", "{W}"]),
            (Diagram("dag { A -> B }").equivalent(Diagram("dag { A <- B }")), [True, None]),
            (contrast, [1, 0]),
        ):
            with self.subTest(answer):
                self.assertEqual(answer.frame().values.tolist()[0][:2], wanted)
        self.assertEqual(napkin.identify("X", "Y").frame()["term"].tolist(), ["P(Y|do(X))", "q0"])
        self.assertEqual(contrast.frame()["estimate"].tolist()[2:4], [0.5, 2.0])


if __name__ == "__main__":
    unittest.main()
