"""Effects as they are reported: odds ratios, means of numeric outcomes, and intervals corrected for bias."""
import math
import random
import unittest
from decimal import Decimal
from fractions import Fraction

from test_bootstrap import NAPKIN, chance_of_y, napkin_data
from test_data import COUNTS, EXACT, KIDNEY

import causal
from causal import Diagram
from causal.contrasts import MEASURES, Contrast
from causal.effects import Value, number_of
from causal.intervals import acceleration, corrected_interval, interval_of

EDGE = Diagram("dag { X -> Y }")


def simple_data(source, size):
    """Records of a treatment that was drawn by a coin, and of an outcome from 0 to 3."""
    data = {"X": [], "Y": []}
    for _ in range(size):
        x = source.randrange(2)
        data["X"].append(x)
        data["Y"].append(sum(source.random() < 0.3 + 0.2 * x for _ in range(3)))
    return data


class OddsRatio(unittest.TestCase):
    """The ratio of odds."""

    def test_exact(self):
        contrast = KIDNEY.contrast(COUNTS, treated="A", control="B", outcome="success", count="n", exact=True)
        self.assertEqual(contrast.odds_ratio.exact, EXACT[1] / EXACT[0] / (EXACT[3] / EXACT[2]))

    def test_bounds(self):
        true = EXACT[1] / EXACT[0] / (EXACT[3] / EXACT[2])
        found = KIDNEY.contrast(COUNTS, treated="A", control="B", outcome="success", count="n").odds_ratio
        self.assertTrue(found.lower < true < found.upper and float(found.upper - found.lower) < 1e-15)

    def test_printed_bounds_enclose(self):
        # also below 0, where they once were printed by their distance to the number below
        contrast = KIDNEY.contrast(COUNTS, treated="B", control="A", outcome="success", count="n", resamples=0)
        for value in (contrast.difference, contrast.ratio, contrast.odds_ratio):
            lower, upper = (Fraction(text) for text in str(value).split()[1::2])
            self.assertTrue(lower <= value.lower <= value.upper <= upper < lower + Fraction(1, 10**16), str(value))
        self.assertTrue(str(contrast.difference).startswith("from -0.053671"))

    def test_none(self):
        zero, half, one = (Value(Fraction(n, 2), Fraction(n, 2)) for n in range(3))
        self.assertEqual(Contrast(half, zero).odds_ratio, None)
        self.assertEqual(Contrast(one, half).odds_ratio, None)
        self.assertEqual(Contrast(zero, half).odds_ratio.exact, 0)

    def test_an_interval(self):
        answer = KIDNEY.bootstrap(COUNTS, count="n", resamples=200, seed=2)
        contrast = answer.contrast({"R": "success"}, {"T": "A"}, {"T": "B"})
        ends = contrast.odds_ratio.lower, contrast.odds_ratio.upper
        self.assertTrue(ends[0] < float(contrast.contrast.odds_ratio) < ends[1])
        values = [(draw[1] / draw[0]) / (draw[3] / draw[2]) for draw in answer.draws]
        for found, wanted in zip(ends, (lambda it: (it.lower, it.upper))(interval_of(values, 0.95))):
            self.assertAlmostEqual(found, wanted)
        self.assertEqual([name for name, _, _ in contrast.rows], list(MEASURES))
        self.assertIn("\nrisk difference: 0.0536712 [", str(contrast))


class Means(unittest.TestCase):
    """The mean of a numeric outcome."""

    def test_exact(self):
        data = {"X": ["a"] * 4 + ["b"] * 2, "Y": [0, 1, 1, 2.5, -3, 1]}
        means = EDGE.effects(data, "X", "Y", exact=True).effect_means()
        self.assertEqual([(mean.x, mean.value.exact) for mean in means], [({"X": "a"}, Fraction(9, 8)), ({"X": "b"}, -1)])
        self.assertEqual(str(means[0]), "mean at X=a = 9/8")

    def test_bounds_of_negative_numbers(self):
        data = {"X": [0] * 3 + [1] * 7, "Y": [-1, 2, 5, -4, -4, 3, 2, 2, 2, 2]}
        effects = EDGE.effects(data, "X", "Y")
        for mean, true in zip(effects.effect_means(), (Fraction(2), Fraction(3, 7))):
            self.assertTrue(mean.value.lower <= true <= mean.value.upper)
            self.assertLess(mean.value.upper - mean.value.lower, Fraction(1, 10**15))
        self.assertEqual(effects.mean({"X": 1}), effects.effect_means()[1].value)

    def test_nothing_is_done(self):
        self.assertEqual(str(EDGE.effects({"X": [0, 1], "Y": [3, 4]}, [], "Y", exact=True).effect_means()[0]), "mean = 7/2")

    def test_numbers(self):
        levels = {"1": 1, "0.5": Fraction(1, 2), True: 1, Decimal("0.1"): Fraction(1, 10), 0.25: Fraction(1, 4)}
        self.assertEqual([number_of(level) for level in levels], list(levels.values()))
        for level in ("", "one", None, (1,), math.inf, math.nan, "1/0", 1j):
            self.assertIsNone(number_of(level))

    def test_what_has_no_mean(self):
        with self.assertRaisesRegex(causal.RequestError, "R has a level that is no number: 'failure', 'success'"):
            KIDNEY.effects(COUNTS, count="n").effect_means()
        with self.assertRaisesRegex(causal.RequestError, "a mean is of one outcome"):
            Diagram("dag { X -> Y X -> Z }").effects({"X": [0], "Y": [0], "Z": [0]}, "X", ["Y", "Z"]).effect_means()
        with self.assertRaisesRegex(causal.RequestError, "there is no mean at X=7"):
            EDGE.effects({"X": [0, 1], "Y": [3, 4]}, "X", "Y").mean({"X": 7})

    def test_intervals(self):
        answer = EDGE.bootstrap(simple_data(random.Random(3), 1500), "X", "Y", resamples=200, seed=1)
        for mean in answer.effect_means():
            truth = 3 * (0.3 + 0.2 * mean.x["X"])
            self.assertTrue(mean.interval.lower < truth < mean.interval.upper)
            self.assertTrue(mean.interval.lower < float(mean.value) < mean.interval.upper)
        difference = answer.mean_difference({"X": 1}, {"X": 0})
        self.assertTrue(difference.interval.lower < 0.6 < difference.interval.upper)
        self.assertAlmostEqual(float(difference.value), float(answer.effect_means()[1].value) - float(answer.effect_means()[0].value))
        self.assertRegex(str(answer.effect_means()[0]), r"^X=\d, mean 0\.\d+ \[0\.\d+, \d\.\d+\]$|^X=\d, mean 1\.\d+ \[1\.\d+, 1\.\d+\]$")


class Corrected(unittest.TestCase):
    """Intervals that are corrected for bias and accelerated."""

    def test_without_bias_they_are_percentiles(self):
        values = [float(k) for k in range(101)]
        for level in (0.5, 0.9):
            found, wanted = corrected_interval(values, 50.0, [(1, 0.0), (1, 1.0)], level), interval_of(values, level)
            self.assertAlmostEqual(found.lower, wanted.lower)
            self.assertAlmostEqual(found.upper, wanted.upper)

    def test_bias_and_acceleration_shift_them(self):
        values = [float(k) for k in range(101)]
        plain = interval_of(values, 0.9)
        biased = corrected_interval(values, 60.0, [], 0.9)
        self.assertTrue(biased.lower > plain.lower and biased.upper > plain.upper)
        skewed = corrected_interval(values, 50.0, [(9, 0.0), (1, -5.0)], 0.9)
        self.assertGreater(acceleration([(9, 0.0), (1, -5.0)]), 0)
        self.assertTrue(skewed.lower > plain.lower and skewed.upper > plain.upper)

    def test_acceleration_of_a_mean(self):
        # of a mean it is a sixth of the skewness over the root of the number of records
        values = [0.0] * 9 + [10.0]
        left_out = [((sum(values) - value) / 9) for value in values]
        skewness = sum((value - 1) ** 3 for value in values) / 10 / (sum((value - 1) ** 2 for value in values) / 10) ** 1.5
        self.assertAlmostEqual(acceleration([(9, left_out[0]), (1, left_out[-1])]), skewness / 6 / 10**0.5)

    def test_none(self):
        self.assertIsNone(corrected_interval([1.0, 2.0], 0.0, [], 0.9))
        self.assertIsNone(corrected_interval([1.0, 2.0], None, [], 0.9))
        self.assertIsNone(corrected_interval([1.0], 1.0, [], 0.9))

    def test_on_data(self):
        data = napkin_data(random.Random(22), 4000)
        answer = NAPKIN.bootstrap(data, resamples=200, seed=5, interval="bca")
        self.assertEqual((answer.kind, sum(count for count, _ in answer.left_out)), ("bca", 4000))
        for effect, interval in zip(answer.effects, answer.intervals):
            chance = sum(chance_of_y(effect.x["X"], v) for v in (0, 1)) / 2
            truth = chance if effect.y["Y"] == 1 else 1 - chance
            self.assertTrue(interval.lower <= truth <= interval.upper)
        contrast = answer.contrast({"Y": 1}, {"X": 1}, {"X": 0})
        self.assertTrue(contrast.difference.lower < 0.3 < contrast.difference.upper)
        self.assertIn("95% BCa intervals of 200 resamples", str(answer))

    def test_a_record_without_which_there_is_no_value(self):
        data = {"S": [0, 0, 1, 1], "T": [0, 1, 0, 1], "R": [0, 1, 1, 1], "n": [40, 40, 40, 1]}
        with self.assertWarnsRegex(causal.DataWarning, "of the resamples have no value"):
            answer = KIDNEY.bootstrap(data, count="n", resamples=100, seed=1, interval="bca")
        self.assertEqual([count for count, values in answer.left_out if values is None], [1])

    def test_kind(self):
        with self.assertRaisesRegex(causal.RequestError, "interval is 'percentile' or 'bca', and not 'normal'"):
            KIDNEY.bootstrap(COUNTS, count="n", interval="normal")


class Shown(unittest.TestCase):
    """Tables for notebooks, which need no pandas."""

    def test_tables(self):
        answer = KIDNEY.bootstrap(COUNTS, count="n", resamples=20)
        chain = Diagram("dag { A -> B -> C }")
        data = {"A": [0, 1] * 4, "B": [0, 0, 1, 1] * 2, "C": [0, 0, 0, 1, 1, 1, 0, 1]}
        for it, head in (
            (KIDNEY.effects(COUNTS, count="n"), "<th>to</th>"),
            (KIDNEY.effects(COUNTS, count="n", exact=True), "<td>6231/8000</td>"),
            (answer, "95% percentile intervals of 20 resamples"),
            (answer.contrast({"R": "success"}, {"T": "A"}, {"T": "B"}), "<td>odds ratio</td>"),
            (NAPKIN.pin_spread(napkin_data(random.Random(1), 300)), "<th>Z</th><th>X</th><th>Y</th><th>estimate</th>"),
            (chain.implications(), "<td>{B}</td>"),
            (chain.implications(data), "<td>A="),
            (chain.test_implications(data, permutations=9), "<th>effect_size</th>"),
        ):
            with self.subTest(type(it).__name__):
                self.assertIn(head, it._repr_html_())

    def test_marks_are_escaped(self):
        data = {"X": ["<b>", "&"], "Y": ["<", ">"]}
        self.assertIn("<td>&lt;b&gt;</td><td>&lt;</td>", EDGE.effects(data, "X", "Y")._repr_html_())

    def test_frames(self):
        try:
            import pandas
        except ImportError:
            raise unittest.SkipTest("no pandas") from None
        answer = KIDNEY.bootstrap(pandas.DataFrame(COUNTS), count="n", resamples=20, seed=3)
        frame = answer.contrast({"R": "success"}, {"T": "A"}, {"T": "B"}).frame()
        self.assertEqual(frame["measure"].tolist(), ["risk_treated", "risk_control", "difference", "ratio", "odds_ratio"])
        self.assertEqual(list(frame.columns[:2]) + frame.iloc[0, :2].tolist(), ["treated", "control", "A", "B"])
        kept = answer.frame().attrs
        self.assertEqual((kept["interval"], kept["resamples"], kept["seed"], kept["dropped"]), ("percentile", 20, 3, 0))


if __name__ == "__main__":
    unittest.main()
