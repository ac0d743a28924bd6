"""Effects among the treated, in data: their values over counts, and contrasts with intervals."""
import json
import random
import unittest
from fractions import Fraction

import causal
from causal import Diagram

try:
    import numpy
except ImportError:
    numpy = None

STONES = Diagram("dag { S -> T -> R <- S }")
COUNTS = {
    "S": ["small", "large"] * 4,
    "T": ["A", "A", "B", "B"] * 2,
    "R": [1] * 4 + [0] * 4,
    "n": [81, 192, 234, 55, 6, 71, 36, 25],
}
BOW = Diagram("dag { X -> Y X <-> Y }")


def records(counts):
    """The records that rows of counts stand for."""
    names = [name for name in counts if name != "n"]
    return {name: [level for level, number in zip(counts[name], counts["n"]) for _ in range(number)] for name in names}


def two_treatments(size):
    """Records of two treatments with one cause of both."""
    source, data = random.Random(7), {name: [] for name in "CABY"}
    for _ in range(size):
        c = int(source.random() < 0.5)
        a, b = int(source.random() < 0.3 + 0.4 * c), int(source.random() < 0.6 - 0.3 * c)
        for name, level in zip("CABY", (c, a, b, int(source.random() < 0.2 + 0.2 * a + 0.2 * b + 0.2 * c))):
            data[name].append(level)
    return data


def share(data, wanted, given):
    """A share of the records, by hand."""
    inside = [row for row in range(len(data["Y"])) if all(data[name][row] == level for name, level in given.items())]
    return Fraction(sum(all(data[name][row] == level for name, level in wanted.items()) for row in inside), len(inside))


class Values(unittest.TestCase):
    def test_published_counts(self):
        # by hand: sum over S of P(S|T'=B) P(R=1|S,T=A)
        wanted = Fraction(270, 350) * Fraction(81, 87) + Fraction(80, 350) * Fraction(192, 263)
        for data, words in ((COUNTS, {"count": "n"}), (records(COUNTS), {})):
            found = STONES.effects(data, "T", "R", treated=True, exact=True, **words)
            self.assertEqual(found.at(1, "A", {"T'": "B"}).exact, wanted)
            self.assertEqual(found.at(1, "B", {"T'": "B"}).exact, Fraction(289, 350))
            self.assertEqual(str(found[3]), "P(R=1|do(T=A),T'=B) = 33753/38135")
            self.assertEqual(found.levels, {"R": [0, 1], "T": ["A", "B"], "T'": ["A", "B"]})

    def test_two_treatments(self):
        diagram, data = Diagram("dag { C -> A -> Y C -> B -> Y C -> Y }"), two_treatments(600)
        found = diagram.effects(data, ["A", "B"], "Y", treated=True, exact=True)
        self.assertEqual(len(found), 32)
        wanted = sum(share(data, {"C": c}, {"A": 1, "B": 0}) * share(data, {"Y": 1}, {"A": 0, "B": 1, "C": c}) for c in (0, 1))
        self.assertEqual(found.at(1, {"A": 0, "B": 1}, {"A'": 1, "B'": 0}).exact, wanted)

    def test_a_name_that_is_taken(self):
        diagram = Diagram("dag { \"T'\" -> T -> R <- \"T'\" }")
        found = diagram.effects({"T'": [0, 0, 1, 1], "T": [0, 1, 0, 1], "R": [0, 1, 1, 1]}, "T", "R", treated=True, exact=True)
        self.assertEqual(found.formula.target.given, ("T''",))
        self.assertEqual(found.at(1, 1, {"T''": 0}).exact, 1)

    def test_what_is_given(self):
        found = STONES.effects(COUNTS, "T", "R", treated=True, given={"S": "small"}, exact=True, count="n")
        self.assertEqual([effect.given for effect in found[:2]], [{"S": "small", "T'": "A"}] * 2)
        self.assertEqual(found.at(1, "A", {"S": "small", "T'": "B"}).exact, Fraction(81, 87))

    def test_refusals(self):
        with self.assertRaisesRegex(causal.NotIdentifiable, "is not identifiable") as refused:
            BOW.effects({"X": [0, 1], "Y": [1, 0]}, "X", "Y", treated=True)
        self.assertIsInstance(refused.exception.place, causal.Confounded)
        for words in ({"set": "S"}, {"back_door": True}):
            with self.assertRaisesRegex(causal.RequestError, "a formula of its own"):
                STONES.effects(COUNTS, "T", "R", treated=True, count="n", **words)
        thin = {"S": [0, 0, 1], "T": [0, 1, 0], "R": [1, 0, 1]}
        with self.assertRaisesRegex(causal.EvaluationError, "a divisor is 0 .* at S=1, T=1.* observed=") as refused:
            STONES.effects(thin, "T", "R", treated=True)
        self.assertEqual(refused.exception.place.cell["S"], 1)


class Contrasts(unittest.TestCase):
    ARMS = {"treated": "A", "control": "B", "outcome": 1, "count": "n"}

    def test_the_effect_of_treatment_on_the_treated(self):
        found = STONES.contrast(COUNTS, "T", "R", **self.ARMS, observed="A", resamples=400, exact=True)
        self.assertEqual(found.treated.exact, Fraction(273, 350))
        control = Fraction(87, 350) * Fraction(234, 270) + Fraction(263, 350) * Fraction(55, 80)
        self.assertEqual(found.difference.exact, Fraction(273, 350) - control)
        self.assertEqual(found.given, {"T'": "A"})
        self.assertTrue(found.interval.difference.lower < float(found.difference) < found.interval.difference.upper)
        self.assertEqual(found.interval.with_value, 400)
        # what an arm's risk is read from: the records with that treatment
        self.assertEqual([support.records for support in found.interval.support], [350, 350])

    @unittest.skipIf(numpy is None, "no numpy")
    def test_as_by_models(self):
        table = STONES.estimate(COUNTS, "T", "R", **self.ARMS, observed="B", model="table", smoothing=0, resamples=2)
        found = STONES.contrast(COUNTS, "T", "R", **self.ARMS, observed="B", resamples=0)
        self.assertAlmostEqual(float(found.difference), float(table.difference), places=12)

    def test_groups(self):
        found = STONES.contrast(COUNTS, "T", "R", **self.ARMS, observed="B", given="S", resamples=0)
        self.assertEqual([contrast.given for contrast in found], [{"S": "large", "T'": "B"}, {"S": "small", "T'": "B"}])
        alone = STONES.contrast(COUNTS, "T", "R", **self.ARMS, observed="B", given={"S": "small"}, resamples=0)
        self.assertEqual(alone.treated, found[1].treated)

    def test_an_unknown_level(self):
        with self.assertRaisesRegex(causal.RequestError, "T' has 'A', 'B'"):
            STONES.contrast(COUNTS, "T", "R", **self.ARMS, observed="C", resamples=0)

    @unittest.skipIf(numpy is None, "no numpy")
    def test_weights(self):
        data = records(COUNTS)
        data["w"] = [2.0] * len(data["T"])
        arms = {name: level for name, level in self.ARMS.items() if name != "count"}
        plain = STONES.contrast(COUNTS, "T", "R", **self.ARMS, observed="B", resamples=0, exact=True)
        found = STONES.contrast(data, "T", "R", **arms, observed="B", weights="w", resamples=50, exact=True)
        self.assertEqual(found.difference.exact, plain.difference.exact)
        self.assertIsNotNone(found.interval.difference)

    def test_the_coverage_of_the_truth(self):
        """Where the risk is 0.2 higher by each treatment whatever C is, so is the effect on the treated."""
        diagram = Diagram("dag { C -> A -> Y C -> B -> Y C -> Y }")
        arms = {"treated": [1, 0], "control": [0, 0], "observed": [1, 0], "outcome": 1}
        found = diagram.contrast(two_treatments(6000), ["A", "B"], "Y", **arms, resamples=200)
        self.assertTrue(found.interval.difference.lower < 0.2 < found.interval.difference.upper)


class Certificates(unittest.TestCase):
    """Certificates in parts, which `check` accepts whoever wrote them."""

    def test_accepted(self):
        found = STONES.treated("T", "R")
        judged = STONES.check_certificate(found)
        self.assertTrue(judged)
        self.assertIsInstance(judged, causal.PartsCheck)
        self.assertEqual((judged.effect, [part.members for part in judged.parts]), ("P(R|do(T),T')", [("S",), ("T",), ("R",)]))
        self.assertEqual(json.loads(found.certificate)["version"], 3)
        self.assertIsNone(found.steps)

    def test_refused(self):
        plain = json.loads(STONES.treated("T", "R").certificate)
        wrong = {**plain["parts"][1], "main": ["rule2see", ["S"]]}
        for change, told in (
            ({"parts": plain["parts"][:2]}, "refused: parts fault 4 at part 2: {R}"),
            ({"parts": [*plain["parts"], plain["parts"][0]]}, "refused: parts fault 5 at part 3"),
            ({"parts": plain["parts"][::-1]}, "refused: parts fault 6 at part 0: {S}"),
            ({"parts": [plain["parts"][0], wrong, plain["parts"][2]]}, "refused: parts fault 7 at part 1"),
        ):
            judged = STONES.check_certificate(json.dumps({**plain, **change}))
            self.assertFalse(judged)
            self.assertEqual(str(judged).splitlines()[0], told)
            self.assertEqual(judged.refused_parts.derivation is not None, "fault 7" in told)
        joined = BOW.check_certificate(Diagram("dag { X -> Y }").treated("X", "Y"))
        self.assertEqual((str(joined), joined.refused_parts.vertices), ("refused: parts fault 1: X Y", ("X", "Y")))
        natural = Diagram("dag { X -> M -> Y X -> Y }").natural("X", "Y", through="M")
        for edges, told in (("M <-> Y", "refused: parts fault 3: {M,Y}"), ("L -> Y X -> L -> M", "refused: parts fault 2: L")):
            judged = Diagram(f"dag {{ X -> M -> Y X -> Y {edges} }}").check_certificate(natural)
            self.assertEqual(str(judged), told)

    def test_no_certificate(self):
        with self.assertRaisesRegex(causal.RequestError, "has no certificate"):
            BOW.check_certificate(BOW.treated("X", "Y"))


if __name__ == "__main__":
    unittest.main()
