"""Natural effects, and how much of an effect goes through mediators."""
import math
import random
import unittest
from fractions import Fraction

from test_commands import answering

import causal
from causal import Diagram, Mediation, NaturalFormula, NoNaturalFormula

try:
    import numpy
    import pandas
    import statsmodels.api
    import statsmodels.formula.api
except ImportError:
    numpy = None

SETS = {"y": ["Y"], "x": ["X"], "through": ["M"], "given": [], "second": ["X'"], "indirect": True, "direct": True, "effect": "P(Y[X,M[X']])"}
MEDIATED = Diagram("dag { C -> X C -> M C -> Y X -> M -> Y X -> Y }")


def term(of, *given):
    return {"term": list(of), "do": [], "given": list(given)}


def factor(district, reads, effect, formula, tree, definitions=(), trees=(), free=()):
    lists = {"definitions": list(definitions), "free": list(free), "definition_trees": list(trees)}
    return {"district": list(district), "reads": [reads], "effect": effect, "formula": formula, "latex": "..", "tree": tree, **lists}


FORMULA = {
    "answer": "formula",
    **SETS,
    "formula": "sum{C,M} P(C) * P(M|C,X') * P(Y|C,X,M)",
    "summed": ["C", "M"],
    "factors": [
        factor("C", "X", "P(C|do(X,M,Y))", "P(C)", term("C")),
        factor("M", "X'", "P(M|do(C,X',Y))", "P(M|C,X')", term("M", "C", "X'")),
        factor("Y", "X", "P(Y|do(C,X,M))", "P(Y|C,X,M)", term("Y", "C", "X", "M")),
    ],
    "latex": "..",
}
DOOR = {
    "answer": "formula",
    **SETS,
    "direct": False,
    "formula": "sum{M} P(M|X') * (sum{X} P(X) * P(Y|X,M))",
    "summed": ["M"],
    "factors": [
        factor("M", "X'", "P(M|do(X',Y))", "P(M|X')", term("M", "X'")),
        factor("Y", "X", "P(Y|do(X,M))", "sum{X} P(X) * P(Y|X,M)", {"sum": ["X"], "of": {"product": [term("X"), term("Y", "X", "M")]}}),
    ],
    "latex": "..",
}
NAPKIN = {
    "answer": "formula",
    **SETS,
    "formula": "sum{M} P(M|do(W,Z,X',Y)) * P(Y|X,M)",
    "summed": ["M"],
    "factors": [
        factor(
            "M", "X'", "P(M|do(W,Z,X',Y))", "q0 / (sum{M} q0)", {"quotient": [{"definition": 0}, {"sum": ["M"], "of": {"definition": 0}}]},
            ["sum{W} P(W) * P(X'|W,Z) * P(M|W,Z,X')"],
            [{"sum": ["W"], "of": {"product": [term("W"), term(["X'"], "W", "Z"), term("M", "W", "Z", "X'")]}}],
        ),
        factor("Y", "X", "P(Y|do(W,Z,X,M))", "P(Y|X,M)", term("Y", "X", "M")),
    ],
    "latex": "..",
}  # fmt: skip


def drawn(size, seed=1):
    source, data = random.Random(seed), {name: [] for name in "CXMY"}
    for _ in range(size):
        c = int(source.random() < 0.5)
        x = int(source.random() < 0.3 + 0.4 * c)
        m = int(source.random() < 0.2 + 0.4 * x + 0.2 * c)
        for name, value in zip("CXMY", (c, x, m, int(source.random() < 0.1 + 0.1 * x + 0.3 * m + 0.2 * c + 0.1 * x * m))):
            data[name].append(value)
    return data


def share(data, wanted, given):
    """A share of the records, by hand."""
    rows = range(len(data["X"]))
    inside = [row for row in rows if all(data[name][row] == level for name, level in given.items())]
    return Fraction(sum(all(data[name][row] == level for name, level in wanted.items()) for row in inside), len(inside))


class Answers(unittest.TestCase):
    def test_a_formula(self):
        with answering(FORMULA) as library:
            found = MEDIATED.natural("X", "Y", through="M")
        self.assertEqual(library.words, [["natural", "diagram", "--through", '"M"', "--x", '"X"', "--y", '"Y"', "--json"]])
        self.assertIsInstance(found, NaturalFormula)
        self.assertEqual(str(found), "P(Y[X,M[X']]) = sum{C,M} P(C) * P(M|C,X') * P(Y|C,X,M)")
        self.assertTrue(found)

    def test_lines_of_their_own(self):
        with answering(NAPKIN):
            found = Diagram("dag { W -> Z -> X -> M -> Y X -> Y W <-> X W <-> M }").natural("X", "Y", through="M")
        self.assertEqual(
            str(found).splitlines(),
            [
                "P(Y[X,M[X']]) = sum{M} P(M|do(W,Z,X',Y)) * P(Y|X,M)", "P(M|do(W,Z,X',Y)) = q0 / (sum{M} q0)",
                "q0 = sum{W} P(W) * P(X'|W,Z) * P(M|W,Z,X')",
            ],
        )  # fmt: skip
        with answering(DOOR):
            found = Diagram("dag { X -> M -> Y X <-> Y }").natural("X", "Y", through="M")
        self.assertEqual(str(found).splitlines()[1:], ["no directed path leads from {X} past {M} to {Y}: the direct effect is nil"])

    def test_read_twice(self):
        told = {**SETS, "joint": {"y": ["Y"], "x": ["X"]}, "treatment": "X"}
        witness = {"answer": "witness", **told, "witness": "L"}
        district = {"answer": "district", **told, "district": ["M", "Y"], "direct_child": "Y", "indirect_child": "M"}
        with answering((1, witness, ""), (1, district, "")):
            diagram = Diagram("dag { X -> L -> M -> Y X -> Y L -> Y }")
            first, second = (diagram.natural("X", "Y", through="M") for _ in range(2))
        self.assertIsInstance(first, NoNaturalFormula)
        self.assertFalse(first)
        self.assertEqual(str(first), "P(Y[X,M[X']]) is not identifiable\nL reads X and X'\nP(Y|do(X)) is identifiable")
        self.assertEqual(str(second).splitlines()[1], "district {M,Y} reads X and X'")
        self.assertIsNone(first.interventional)
        with answering((1, witness, "")), self.assertRaisesRegex(causal.NotIdentifiable, "is not identifiable") as refused:
            diagram.mediate(drawn(20), "X", "Y", through="M", treated=1, control=0, outcome=1)
        self.assertEqual(refused.exception.place.witness, "L")

    def test_interventional(self):
        tree = {"term": ["M"], "do": [], "given": ["X'"]}
        plain = {"definitions": [], "free": [], "latex": "", "tree": tree, "definition_trees": []}
        mediators = {**plain, "reads": ["X'"], "effect": "P(M|do(X'))", "formula": "sum{L} P(L|X') * P(M|A,L)", "free": ["A"]}
        outcome = {**plain, "reads": ["X"], "effect": "P(Y|do(X,M))", "formula": "P(Y|X,M)"}
        effect, formula = "sum{M} P(M|do(X')) * P(Y|do(X,M))", "sum{M} (sum{L} P(L|X') * P(M|A,L)) * P(Y|X,M)"
        other = {"effect": effect, "formula": formula, "mediators": mediators, "outcome": outcome}
        witness = {"answer": "witness", **SETS, "joint": {"y": ["Y"], "x": ["X"]}, "treatment": "X", "witness": "L", "interventional": other}
        with answering((1, witness, "")):
            found = Diagram("dag { X -> L -> M -> Y X -> Y L -> Y }").natural("X", "Y", through="M")
        self.assertEqual(found.interventional.mediators.free, ("A",))
        self.assertEqual(
            str(found).splitlines()[3:],
            [f"another effect, the interventional one: {effect} = {formula}", "P(M|do(X')) = sum{L} P(L|X') * P(M|A,L)", "free {A}"],
        )


class Values(unittest.TestCase):
    ARMS = {"through": "M", "treated": 1, "control": 0, "outcome": 1}

    def asked(self, diagram, data, **more):
        return diagram.mediate(data, "X", "Y", **{**self.ARMS, **more})

    def test_against_hand(self):
        data = drawn(400)
        found = self.asked(MEDIATED, data, resamples=200, seed=1)
        self.assertIsInstance(found, Mediation)

        def world(arm, through):
            total = Fraction(0)
            for c in (0, 1):
                for m in (0, 1):
                    weight = share(data, {"C": c}, {}) * share(data, {"M": m}, {"C": c, "X": through})
                    total += weight * share(data, {"Y": 1}, {"C": c, "X": arm, "M": m})
            return total

        for measure, value in (("treated", world(1, 1)), ("control", world(0, 0)), ("between", world(1, 0))):
            self.assertAlmostEqual(float(found.number(measure)), float(value), places=12)
        self.assertTrue(all(value.lower <= at <= value.upper for value, at in zip(found.values, (world(1, 1), world(0, 0), world(1, 0)))))
        exact = self.asked(MEDIATED, data, resamples=0, exact=True)
        self.assertEqual([value.exact for value in exact.values], [world(1, 1), world(0, 0), world(1, 0)])
        self.assertAlmostEqual(float(found.direct), float(world(1, 0) - world(0, 0)), places=12)
        self.assertAlmostEqual(float(found.indirect), float(world(1, 1) - world(1, 0)), places=12)
        self.assertAlmostEqual(float(found.proportion), float(found.indirect) / float(found.total), places=12)
        for row in found.rows[:6]:
            self.assertTrue(row.interval.lower < float(row) < row.interval.upper)
        self.assertIn("natural indirect effect: 0.", str(found))
        self.assertIn("200 resamples, of which 0 had no value; seed 1", str(found))
        self.assertEqual([row[2] for row in found._table()[1]], ["treated", "control", "between", "total", "direct", "indirect", "proportion"])

    def test_the_truth(self):
        found = self.asked(MEDIATED, drawn(20_000), resamples=0)
        # P(M=1) is 0.3 without x and 0.7 with it; x adds 0.1 where M is 0 and 0.2 where it is 1
        self.assertAlmostEqual(float(found.direct), 0.1 + 0.1 * 0.3, delta=0.02)
        self.assertAlmostEqual(float(found.indirect), 0.4 * 0.4, delta=0.02)
        self.assertIsNone(found.direct.interval)

    def test_what_is_nil(self):
        found = self.asked(Diagram("dag { X -> M -> Y X <-> Y }"), drawn(400), resamples=20)
        self.assertEqual(float(found.direct), 0)
        self.assertIn("the direct effect is nil", str(found))
        self.assertEqual((found.direct.interval.lower, found.direct.interval.upper), (0, 0))

    def test_what_is_pinned(self):
        source, data = random.Random(2), drawn(300)
        data.update(W=[source.randrange(2) for _ in range(300)], Z=[source.randrange(2) for _ in range(300)])
        diagram = Diagram("dag { W -> Z -> X -> M -> Y X -> Y W <-> X W <-> M }")
        found = self.asked(diagram, data, resamples=0)
        self.assertEqual(found.pinned, {"Z": 0})

        def part(m, x):
            return sum(share(data, {"W": w}, {}) * share(data, {"X": x}, {"W": w, "Z": 0}) * share(data, {"M": m}, {"W": w, "Z": 0, "X": x}) for w in (0, 1))

        between = sum(part(m, 0) / (part(0, 0) + part(1, 0)) * share(data, {"Y": 1}, {"X": 1, "M": m}) for m in (0, 1))
        self.assertAlmostEqual(float(found.number("between")), float(between), places=12)

    def test_a_mean_and_its_caution(self):
        data = drawn(400)
        data["Y"] = [y + 2 * m - 3 * x for x, m, y in zip(data["X"], data["M"], data["Y"])]
        found = self.asked(MEDIATED, data, outcome=None, resamples=20)
        self.assertLess(float(found.direct), 0)
        self.assertGreater(float(found.indirect), 0)
        self.assertIn("opposite signs", str(found.proportion))
        self.assertNotIn("opposite signs", str(found.total))

    def test_refusals(self):
        data = drawn(60)
        with self.assertRaisesRegex(causal.RequestError, "X has no level 3"):
            self.asked(MEDIATED, data, treated=3)
        with self.assertRaisesRegex(causal.RequestError, "one arm"):
            self.asked(MEDIATED, data, treated=0)
        with self.assertRaisesRegex(causal.EvaluationError, "no record has some condition"):
            self.asked(MEDIATED, {name: held[:6] for name, held in data.items()})
        with self.assertRaisesRegex(causal.WrongType, "no numbers"):
            self.asked(MEDIATED, {**data, "Y": ["no" if y else "yes" for y in data["Y"]]}, outcome=None)


@unittest.skipIf(numpy is None, "no pandas or statsmodels")
class ByModels(unittest.TestCase):
    """Natural effects by models of the formula's terms."""

    ARMS = {"x": "X", "y": "Y", "through": "M", "treated": 1, "control": 0, "outcome": 1}
    DIAGRAMS = (MEDIATED, Diagram("dag { X -> M -> Y X <-> Y }"), Diagram("dag { W -> Z -> X -> M -> Y X -> Y W <-> X W <-> M }"))

    def test_a_table_has_the_values_of_the_counts(self):
        source, data = random.Random(2), drawn(400)
        data.update(W=[source.randrange(2) for _ in range(400)], Z=[source.randrange(2) for _ in range(400)])
        for diagram in self.DIAGRAMS:
            plain, tabled = (diagram.mediate(data, **self.ARMS, resamples=20, **more) for more in ({}, {"model": "table", "smoothing": 0}))
            for one, other in zip(plain.rows, tabled.rows):
                self.assertAlmostEqual(float(one), float(other), places=12)
            self.assertEqual(plain.pinned, tabled.pinned)
        self.assertEqual(plain.pinned, {"Z": 0})

    def test_against_statsmodels(self):
        data = pandas.DataFrame(drawn(500))
        family = statsmodels.api.families.Binomial()
        mediator, outcome = (
            statsmodels.formula.api.glm(text, data, family=family).fit(tol=1e-14, maxiter=100) for text in ("M ~ C + X", "Y ~ C + X + M")
        )
        found = MEDIATED.mediate(data, **self.ARMS, model="logistic")
        for measure, arm, through in (("treated", 1, 1), ("control", 0, 0), ("between", 1, 0)):
            chance = mediator.predict(data.assign(X=through))
            risks = [outcome.predict(data.assign(X=arm, M=level)) for level in (0, 1)]
            self.assertAlmostEqual(float(found.number(measure)), float(((1 - chance) * risks[0] + chance * risks[1]).mean()), places=10)
        self.assertAlmostEqual(float(found.direct) + float(found.indirect), float(found.total), places=12)
        self.assertIn("by these models of its terms", found.notes)
        self.assertIn("P(M|C,X'): logistic, 3 parameters", str(found))
        self.assertIn("95% intervals by influence functions; 500 records", found.notes)

    def test_intervals_are_alike(self):
        data = drawn(400)
        found = [MEDIATED.mediate(data, **self.ARMS, model="logistic", interval=kind, resamples=300, seed=3) for kind in ("influence", "percentile")]
        for one, other in list(zip(*(it.rows for it in found)))[:6]:
            widths = [it.interval.upper - it.interval.lower for it in (one, other)]
            self.assertAlmostEqual(widths[0] / widths[1], 1, delta=0.2)
        self.assertIn("300 resamples, of which 0 had no value; seed 3", str(found[1]))

    def test_numbers(self):
        # (the truth by the same draws of what the outcome depends on)
        source, data = random.Random(3), {name: [] for name in "CXMY"}

        def risk(x, m, c):
            return 1 / (1 + math.exp(1 - 0.5 * x - 0.6 * m - 0.3 * c))

        worlds = []
        for _ in range(3000):
            c, e = source.gauss(0, 1), source.gauss(0, 1)
            x = int(source.random() < 1 / (1 + math.exp(-c)))
            m = 0.5 * x + 0.4 * c + e
            worlds.append([risk(arm, 0.5 * through + 0.4 * c + e, c) for arm, through in ((1, 1), (0, 0), (1, 0))])
            for name, value in zip("CXMY", (c, x, m, int(source.random() < risk(x, m, c)))):
                data[name].append(value)
        treated, control, between = (sum(column) / 3000 for column in zip(*worlds))
        found = MEDIATED.mediate(data, **self.ARMS, model="logistic", resamples=0)
        self.assertAlmostEqual(float(found.direct), between - control, delta=0.05)
        self.assertAlmostEqual(float(found.indirect), treated - between, delta=0.03)
        self.assertEqual(found.as_numbers, ("C", "M"))
        self.assertIsNone(found.direct.interval)

    def test_a_mean(self):
        data = drawn(2000)
        data["Y"] = [y + 2 * m + x for x, m, y in zip(data["X"], data["M"], data["Y"])]
        found = MEDIATED.mediate(data, **{**self.ARMS, "outcome": None}, model="logistic")
        self.assertAlmostEqual(float(found.direct), 1 + 0.1 + 0.1 * 0.5, delta=0.15)
        self.assertIn("E(Y|C,X,M): linear", str(found))

    def test_what_is_wrong_with_a_fit(self):
        data = drawn(100)
        data["Y"] = list(data["X"])
        with self.assertWarnsRegex(causal.DataWarning, r"P\(Y\|C,X,M\): some records are told apart perfectly"):
            found = MEDIATED.mediate(data, **self.ARMS, model="logistic", resamples=0)
        self.assertIn("told apart perfectly", str(found))

    def test_refusals(self):
        data = drawn(60)
        for words, text in (
            ({"model": "logistick"}, "model"),
            ({"model": {"Q": "table"}}, "model names Q, which is no vertex"),
            ({"model": "logistic", "factors": "Age"}, "factors names Age"),
            ({"model": "logistic", "interval": "bca"}, "interval is"),
            ({"model": "logistic", "smoothing": -1}, "smoothing"),
            ({"interval": "influence"}, "by counts has percentile intervals"),
            ({"model": "logistic", "treated": 7}, "X"),
        ):
            with self.assertRaisesRegex(causal.RequestError, text):
                MEDIATED.mediate(data, **{**self.ARMS, **words})


if __name__ == "__main__":
    unittest.main()
