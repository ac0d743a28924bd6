"""Bounds of effects, and effects among the treated."""
import random
import unittest
import unittest.mock
import warnings
from fractions import Fraction

from test_commands import answering

import causal
from causal import Confounded, Diagram, EffectBounds, NoInstrument, NoModel
from causal.draws import drawn_numbers

TRIAL = {
    "assigned": ["no", "no", "yes", "yes", "yes", "yes"],
    "taken": ["no", "no", "no", "no", "yes", "yes"],
    "improved": ["no", "yes", "no", "yes", "no", "yes"],
    "n": [158, 14, 52, 12, 23, 78],
}
DIAGRAM = Diagram("dag { taken [exposure] improved [outcome] assigned -> taken -> improved taken <-> improved }")


class Bounds(unittest.TestCase):
    def test_the_published_bounds(self):
        bounds = DIAGRAM.bounds(TRIAL, count="n", instrument="assigned", exact=True)
        self.assertIsInstance(bounds, EffectBounds)
        taken = bounds.at("yes", "yes")
        self.assertEqual((taken.at_least, taken.at_most), (Fraction(78, 165), Fraction(142, 165)))
        self.assertEqual(str(taken), "P(improved=yes|do(taken=yes)) at least 26/55, at most 142/165")
        difference = bounds.difference("yes", "yes", "no")
        self.assertEqual((round(float(difference.at_least), 3), round(float(difference.at_most), 3)), (0.391, 0.779))

    def test_digits_enclose_the_fractions(self):
        exact, digits = (DIAGRAM.bounds(TRIAL, count="n", exact=exact) for exact in (True, False))
        for one, other in zip(exact, digits):
            self.assertEqual(one.cell, other.cell)
            self.assertLessEqual(other.at_least, one.at_least)
            self.assertGreaterEqual(other.at_most, one.at_most)
            self.assertLess(other.at_most - one.at_most, Fraction(2, 10**18))
        self.assertEqual(exact.at("yes", "yes").at_least, Fraction(78, 337))

    def test_levels_are_those_of_the_data(self):
        data = {"Z": [0, 0, 1, 1], "X": [False, True, False, True], "Y": [1.5, 2.5, 2.5, 1.5]}
        bounds = Diagram("dag { Z -> X -> Y X <-> Y }").bounds(data, "X", "Y", instrument="Z")
        self.assertEqual({(it.x["X"], it.y["Y"]) for it in bounds}, {(x, y) for x in (False, True) for y in (1.5, 2.5)})

    def test_no_instrument(self):
        direct = Diagram("dag { assigned -> taken -> improved assigned -> improved taken <-> improved }")
        answer = direct.bounds(TRIAL, "taken", "improved", count="n", instrument="assigned")
        self.assertIsInstance(answer, NoInstrument)
        self.assertFalse(answer)
        self.assertEqual(str(answer), "no instrument: {assigned} given {}\nopen: improved <- assigned")
        after = Diagram("dag { X -> Y X -> W W -> Y }").bounds({"X": [0, 1], "Y": [0, 1], "W": [0, 1]}, "X", "Y", instrument="W")
        self.assertEqual(after.moved, "W")

    def test_no_model(self):
        broken = {"assigned": ["no", "yes"], "taken": ["yes", "yes"], "improved": ["no", "yes"], "n": [9, 9]}
        answer = DIAGRAM.bounds(broken, count="n", instrument="assigned")
        self.assertIsInstance(answer, NoModel)
        self.assertGreater(answer.crossed.at_least, answer.crossed.at_most)

    def test_by_a_set(self):
        kidney = Diagram("dag { S -> T -> R <- S }")
        data = {"S": ["small"] * 4 + ["large"] * 2, "T": ["A", "A", "B", "B", "A", "A"], "R": [1, 0] * 3, "n": [81, 6, 234, 36, 192, 71]}
        cell = {"y": [["R", "0"]], "given": []}
        told = {"answer": "bounds", "exact": True, "x": ["T"], "y": ["R"], "given": [], "set": ["S"]}
        told["cells"] = [
            {**cell, "x": [["T", "0"]], "at_least": "15207/17980", "at_most": "15207/17980"},
            {**cell, "x": [["T", "1"]], "at_least": "1547/3100", "at_most": "1431/1550"},
        ]
        with answering(told) as library:
            bounds = kidney.bounds(data, "T", "R", set="S", count="n", exact=True)
        self.assertEqual(library.words, [["bounds", "diagram", "second", "--x", '"T"', "--y", '"R"', "--set", '"S"', "--count=count", "--exact", "--json"]])
        self.assertEqual((bounds.asked.set, bounds.asked.instrument), (("S",), ()))
        self.assertEqual([(it.x["T"], it.y["R"]) for it in bounds], [("A", 0), ("B", 0)])
        self.assertLess(bounds[1].at_least, bounds[1].at_most)
        refused = {"answer": "not admissible", "x": ["T"], "y": ["R"], "set": [], "open": {"vertices": ["R", "S", "T"], "marks": ["<-", "->"]}}
        with answering((1, refused, "")):
            found = kidney.bounds(data, "T", "R", set=[], count="n")
        self.assertIsInstance(found, causal.Adjustment)
        self.assertFalse(found)
        self.assertEqual(str(found), "not admissible: {}\nopen: R <- S -> T")
        with self.assertRaisesRegex(causal.RequestError, "and not both"):
            kidney.bounds(data, "T", "R", set="S", given="S", count="n")

    def test_refusals(self):
        with self.assertRaises(causal.RequestError):
            DIAGRAM.bounds(TRIAL, count="n", strata="assigned")
        with self.assertRaises(causal.TargetError):
            DIAGRAM.bounds(TRIAL, count="n", instrument="taken")


def crossing_over(numbers=(52, 12, 10, 26, 24, 6, 12, 58)):
    """A trial in which some of both arms don't comply, with these numbers of records."""
    cells = [(z, x, y) for z in (0, 1) for x in (0, 1) for y in (0, 1)]
    return {**{name: [cell[place] for cell in cells] for place, name in enumerate("ZXY")}, "n": list(numbers)}


class Resampled(unittest.TestCase):
    TRIAL = Diagram("dag { Z -> X -> Y X <-> Y }")

    def asked(self, numbers=None, **words):
        data = crossing_over() if numbers is None else crossing_over(numbers)
        return self.TRIAL.bounds(data, "X", "Y", instrument="Z", count="n", **words)

    def test_the_same_seed_gives_the_same(self):
        first, again, other = (self.asked(resamples=100, seed=seed) for seed in (3, 3, 4))
        self.assertEqual(first, again)
        self.assertEqual([it.interval for it in first], [it.interval for it in again])
        self.assertNotEqual([it.interval for it in first], [it.interval for it in other])
        shuffled = {name: column[::-1] for name, column in crossing_over().items()}
        turned = self.TRIAL.bounds(shuffled, "X", "Y", instrument="Z", count="n", resamples=100, seed=3)
        self.assertEqual([it.interval for it in first], [it.interval for it in turned])

    def test_the_interval_is_around_both_ends(self):
        bounds = self.asked(resamples=200)
        for bound in (*bounds, bounds.difference(1, 1, 0)):
            self.assertLess(bound.interval.lower, bound.at_least)
            self.assertGreater(bound.interval.upper, bound.at_most)
        narrow = self.asked(resamples=200, level=0.8).at(1, 1).interval
        self.assertLess(bounds.at(1, 1).interval.lower, narrow.lower)
        self.assertGreater(bounds.at(1, 1).interval.upper, narrow.upper)

    def test_percentiles_of_both_ends(self):
        bounds = self.asked(resamples=41, level=0.9, seed=2)
        draws = [draw for draw in bounds.drawn.draws if draw is not None]
        self.assertEqual((bounds.resamples, bounds.without_value, len(draws)), (41, 0, 41))
        place = list(bounds).index(bounds.at(1, 1))
        least, most = (sorted(draw[place][end] for draw in draws) for end in (0, 1))
        self.assertAlmostEqual(bounds.at(1, 1).interval.lower, least[2])
        self.assertAlmostEqual(bounds.at(1, 1).interval.upper, most[38])
        other = list(bounds).index(bounds.at(1, 0))
        apart = sorted(draw[place][0] - draw[other][1] for draw in draws)
        self.assertAlmostEqual(bounds.difference(1, 1, 0).interval.lower, apart[2])

    def test_the_range_is_covered(self):
        true = self.asked().difference(1, 1, 0)
        source, covered = random.Random(5), 0
        for seed in range(20):
            study = self.asked(drawn_numbers(source, [5 * number for number in crossing_over()["n"]]), resamples=100, seed=seed)
            interval = study.difference(1, 1, 0).interval
            covered += interval.lower <= true.at_least and true.at_most <= interval.upper
        self.assertGreaterEqual(covered, 17)

    def test_draws_are_read_by_their_ends(self):
        """An answer whose rest is known is read by its ends alone, and says what it says where it is read whole."""
        read = self.asked(resamples=60, seed=5).drawn
        with unittest.mock.patch("causal.bounds.YES", -1):
            self.assertEqual(self.asked(resamples=60, seed=5).drawn, read)

    def test_crossing_draws_are_counted(self):
        with self.assertWarnsRegex(causal.DataWarning, "37% of the resamples have no value, since bounds cross"):
            bounds = DIAGRAM.bounds(TRIAL, count="n", instrument="assigned", resamples=1000)
        self.assertEqual((bounds.resamples, bounds.without_value), (1000, 372))
        difference = bounds.difference("yes", "yes", "no")
        self.assertEqual((round(difference.interval.lower, 3), round(difference.interval.upper, 3), difference.interval.draws), (0.296, 0.823, 628))
        self.assertEqual(str(difference), "at least 0.391332, at most 0.779211 [0.295726, 0.82281]")

    def test_the_numbers_of_the_documents(self):
        diagram = Diagram("dag { assigned taken [exposure] improved [outcome] assigned -> taken -> improved taken <-> improved }")
        told = []
        for instrument in (None, "assigned"):
            with warnings.catch_warnings():
                warnings.simplefilter("ignore", causal.DataWarning)
                bounds = diagram.bounds(TRIAL, count="n", instrument=instrument, resamples=1000)
            interval = bounds.difference("yes", "yes", "no").interval
            told.append((round(interval.lower, 3), round(interval.upper, 3), bounds.without_value))
        self.assertEqual(told, [(-0.184, 0.893, 0), (0.299, 0.828, 374)])

    def test_conditions_without_records_are_counted(self):
        data = {"G": ["a"] * 40 + ["b"] * 2, "X": [0, 0, 1, 1] * 10 + [0, 1], "Y": [0, 1] * 21}
        with self.assertWarns(causal.DataWarning):
            bounds = Diagram("dag { G -> X -> Y X <-> Y }").bounds(data, "X", "Y", given="G", resamples=100)
        self.assertGreater(bounds.without_value, 5)
        self.assertEqual(bounds[0].interval.draws, 100 - bounds.without_value)

    def test_levels_without_records_are_kept(self):
        data = {"X": [0] * 20 + [1], "Y": [0, 1] * 10 + [0]}
        with warnings.catch_warnings():
            warnings.simplefilter("error")
            bounds = Diagram("dag { X -> Y X <-> Y }").bounds(data, "X", "Y", resamples=100)
        self.assertEqual((bounds.without_value, bounds.at(1, 1).interval.upper), (0, 1.0))

    def test_texts_and_frames(self):
        plain, drawn = self.asked(exact=True), self.asked(exact=True, resamples=50, seed=7)
        self.assertEqual((plain.resamples, plain.without_value, plain.drawn, plain[0].interval), (0, 0, None, None))
        lines = str(drawn).split("\n")
        self.assertEqual([line.partition(" [")[0] for line in lines[:4]], str(plain).split("\n"))
        self.assertEqual(
            lines[4:],
            [
                "95% percentile intervals of 50 resamples, of which 0 had no value; seed 7",
                "each interval is for the whole range from the lower to the upper bound: computed, and not proved",
            ],
        )
        self.assertEqual(drawn.notes, tuple(lines[4:]))
        self.assertIn("<th>conf_low</th><th>conf_high</th>", drawn._repr_html_())
        self.assertNotIn("conf_low", plain._repr_html_())
        self.assertEqual(str(drawn.difference(1, 1, 0)).partition(" [")[0], str(plain.difference(1, 1, 0)))
        try:
            import pandas  # noqa: F401
        except ImportError:
            return
        self.assertEqual(list(plain.to_frame().columns), ["X", "Y", "at_least", "at_most"])
        self.assertEqual(list(drawn.to_frame().columns), ["X", "Y", "at_least", "at_most", "conf_low", "conf_high"])
        self.assertEqual(list(drawn.to_frame()["conf_low"]), [it.interval.lower for it in drawn])
        self.assertEqual((drawn.to_frame().attrs["resamples"], drawn.to_frame().attrs["level"]), (50, 0.95))

    def test_progress_and_refusals(self):
        told = []
        self.asked(resamples=3, progress=lambda done, of: told.append((done, of)))
        self.assertEqual(told, [(1, 3), (2, 3), (3, 3)])
        for words in ({"resamples": -1}, {"resamples": 1.5}, {"level": 95}, {"resamples": 2, "seed": "a"}, {"progress": True}):
            with self.assertRaises(causal.Refusal):
                self.asked(**words)
        no_model = self.asked([0, 0, 9, 0, 0, 0, 0, 9], resamples=10)
        self.assertIsInstance(no_model, NoModel)
        self.assertIsNotNone(self.asked(resamples=2, seed=None).drawn.seed)


class Treated(unittest.TestCase):
    def test_formula(self):
        formula = Diagram("dag { S -> T -> R <- S }").treated("T", "R")
        self.assertTrue(formula.identifiable)
        self.assertEqual(str(formula), "P(R|do(T),T') = sum{S} P(S|T') * P(R|S,T)")

    def test_hedge(self):
        answer = Diagram("dag { X -> Y X <-> Y }").treated("X", "Y")
        self.assertIsInstance(answer, Confounded)
        self.assertEqual(str(answer).split("\n")[:3], ["P(Y|do(X),X') is not identifiable", "X -> Y and Y <-> X", "P(Y|do(X)) is not identifiable"])

    def test_path(self):
        answer = Diagram("dag { W -> Z -> X -> Y W <-> X W <-> Y }").treated("X", "Y")
        self.assertIsNone(answer.hedge)
        split = "P(Y|do(X)) = P(X,Y) + P(X') * P(Y|do(X),X')"
        self.assertEqual(answer.two_values, split)
        self.assertEqual(str(answer), f"P(Y|do(X),X') is not identifiable\nX -> Y and Y <-> W <-> X\ntwo values of X: {split}")


if __name__ == "__main__":
    unittest.main()
