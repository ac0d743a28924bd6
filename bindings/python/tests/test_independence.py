"""Tests of what a diagram implies of data."""
import math
import os
import random
import tempfile
import unittest
from collections import Counter

import causal
from causal import Diagram
from causal.contingency import Stratum, chi_squared, hypergeometric, is_thin, noncentral_below, permutation_p, shift_at, shuffled
from causal.independence import holm

try:
    import scipy.stats
except ImportError:
    scipy = None

needs_scipy = unittest.skipIf(scipy is None, "no scipy")
CHAIN = Diagram("dag { A -> B -> C }")


def chain_data(source, size, direct=0.0, levels=2):
    """Records of a chain, in which A also reaches C directly in a part of the records."""
    data = {"A": [], "B": [], "C": []}
    for _ in range(size):
        a = source.randrange(levels)
        b = a if source.random() < 0.6 else source.randrange(levels)
        c = a if source.random() < direct else b if source.random() < 0.6 else source.randrange(levels)
        for name, value in zip("ABC", (a, b, c)):
            data[name].append(value)
    return data


class Statistics(unittest.TestCase):
    """G², its degrees of freedom and the effect size."""

    def test_by_hand(self):
        stratum = Stratum(((10, 20), (30, 5)))
        expected = [30 * 40 / 65, 30 * 25 / 65, 35 * 40 / 65, 35 * 25 / 65]
        g2 = 2 * sum(n * math.log(n / e) for n, e in zip((10, 20, 30, 5), expected))
        self.assertAlmostEqual(stratum.deviance(), g2)
        self.assertAlmostEqual(stratum.pearson(), sum((n - e) ** 2 / e for n, e in zip((10, 20, 30, 5), expected)))
        self.assertEqual(Stratum(((10, 20),)).degrees, 0)
        self.assertEqual(Stratum(((2, 4, 6), (1, 2, 3))).degrees, 2)
        self.assertAlmostEqual(Stratum(((2, 4, 6), (1, 2, 3))).deviance(), 0)

    def test_over_levels_of_what_is_given(self):
        data = {"A": [0, 0, 1, 1, 0, 0, 0], "B": [0, 0, 0, 0, 1, 1, 2], "C": [0, 1, 0, 1, 0, 1, 1], "n": [9, 5, 3, 8, 4, 4, 1]}
        test = CHAIN.test_implications(data, "n", method="permutation", permutations=50)[0]
        self.assertEqual((test.a, test.b, test.given, test.df), ("A", "C", ("B",), 1))
        stratum = Stratum(((9, 5), (3, 8)))
        self.assertAlmostEqual(test.statistic, stratum.deviance())
        self.assertAlmostEqual(test.effect_size, math.sqrt(stratum.pearson() / 34))
        # the cell (0, 0) has 9 of 34 records, and 14 * 12 / 25 are expected
        self.assertAlmostEqual(test.largest_difference, (9 - 14 * 12 / 25) / 34)
        self.assertAlmostEqual(test.rmsea, math.sqrt((stratum.deviance() - 1) / 33))
        self.assertLess(test.rmsea_low, test.rmsea)
        self.assertLess(test.rmsea, test.rmsea_high)

    def test_the_interval_of_the_rmsea(self):
        # quantiles of noncentral chi-squared distributions, as tables have them
        for statistic, degrees, shift, below in ((3.841459, 1, 0.0, 0.95), (9.487729, 4, 0.0, 0.95), (3.841459, 1, 7.848861, 0.2)):
            self.assertAlmostEqual(noncentral_below(statistic, degrees, shift), below, places=5)
        test = CHAIN.test_implications(chain_data(random.Random(4), 1000), method="permutation", permutations=9)[0]
        self.assertEqual(test.rmsea_low, 0.0)
        test = CHAIN.test_implications(chain_data(random.Random(4), 1000, 0.4), method="permutation", permutations=9)[0]
        self.assertGreater(test.rmsea_low, 0.05)

    @needs_scipy
    def test_the_interval_as_scipy_has_it(self):
        for degrees in (1, 2, 6, 30):
            for shift in (0.5, 5.0, 80.0, 5000.0):
                for part in (0.05, 0.5, 0.975):
                    statistic = float(scipy.stats.ncx2.ppf(part, degrees, shift))
                    self.assertAlmostEqual(noncentral_below(statistic, degrees, shift), part, delta=1e-8 if statistic < 500 else 2e-3)
                    if shift > 1:
                        self.assertAlmostEqual(noncentral_below(statistic, degrees, shift_at(statistic, degrees, part)), part)

    def test_the_drawing(self):
        try:
            import matplotlib
        except ImportError:
            self.skipTest("no matplotlib")
        matplotlib.use("Agg")
        from matplotlib import pyplot

        data = {**chain_data(random.Random(1), 100), "D$": [0, 1] * 50}
        tests = Diagram('dag { A -> B -> C "D$" -> C }').test_implications(data, method="permutation", permutations=9)
        axes = tests.plot()
        self.assertEqual([text.get_text().replace("\\", "") for text in axes.get_yticklabels()], [test.pair for test in tests])
        points = [line for line in axes.lines if line.get_marker() == "o"]
        self.assertEqual([float(line.get_xdata()[0]) for line in points], [test.rmsea for test in tests])
        self.assertIs(tests.plot(axes), axes)
        axes.figure.canvas.draw()
        pyplot.close("all")

    @needs_scipy
    def test_as_scipy_has_it(self):
        source = random.Random(2)
        for rows, columns in ((2, 2), (3, 4), (5, 2)):
            counts = [[source.randrange(5, 60) for _ in range(columns)] for _ in range(rows)]
            stratum = Stratum(tuple(map(tuple, counts)))
            g2, p, degrees, _ = scipy.stats.chi2_contingency(counts, correction=False, lambda_="log-likelihood")
            self.assertAlmostEqual(stratum.deviance(), g2)
            self.assertEqual(stratum.degrees, degrees)
            self.assertAlmostEqual(chi_squared()(g2, degrees), p)

    def test_effect_size(self):
        same = {"A": [0, 1] * 30, "B": [0] * 60, "C": [0, 1] * 30}
        self.assertAlmostEqual(CHAIN.test_implications(same)[0].effect_size, 1)
        apart = {"A": [0, 1, 0, 1] * 15, "B": [0] * 60, "C": [0, 0, 1, 1] * 15}
        self.assertAlmostEqual(CHAIN.test_implications(apart)[0].effect_size, 0)

    def test_holm(self):
        self.assertEqual(holm([]), [])
        for found, wanted in zip(holm([0.01, 0.04, 0.03, 0.005]), [0.03, 0.06, 0.06, 0.02]):
            self.assertAlmostEqual(found, wanted)
        self.assertEqual(holm([0.9, 0.8]), [1.0, 1.0])

    def test_thin(self):
        self.assertFalse(is_thin([Stratum(((20, 20), (20, 20)))]))
        self.assertTrue(is_thin([Stratum(((20, 20), (20, 20))), Stratum(((1, 1), (1, 0)))]))
        self.assertFalse(is_thin([Stratum(((20, 20), (20, 20))), Stratum(((1, 1),))]))


class Permutations(unittest.TestCase):
    """Tables that are drawn with the same sums."""

    def test_hypergeometric(self):
        source = random.Random(3)
        for good, bad, drawn in ((5, 7, 4), (1, 30, 10), (40, 2, 41), (300, 500, 200)):
            counts = Counter(hypergeometric(source, good, bad, drawn) for _ in range(4000))
            for number in range(min(good, drawn) + 1):
                ways = math.comb(good, number) * math.comb(bad, drawn - number) if drawn - number <= bad else 0
                chance = ways / math.comb(good + bad, drawn)
                self.assertLess(abs(counts[number] - 4000 * chance), 6 * (4000 * chance) ** 0.5 + 1)

    def test_sums_stay(self):
        source = random.Random(4)
        for _ in range(200):
            shape = source.randrange(1, 5), source.randrange(1, 5)
            stratum = Stratum(tuple(tuple(source.randrange(1, 9) for _ in range(shape[1])) for _ in range(shape[0])))
            drawn = shuffled(source, stratum)
            self.assertEqual(drawn.sums, stratum.sums)
            self.assertTrue(all(count >= 0 for row in drawn.rows for count in row))

    def test_as_fisher_has_it(self):
        # Fisher's exact test of this table orders tables by their probability, which here is the order by G²
        stratum = Stratum(((8, 2), (1, 5)))
        p = permutation_p([stratum], stratum.deviance(), 20000, 5)
        self.assertLess(abs(p - 0.034965), 0.006)

    @needs_scipy
    def test_as_the_distribution_has_it(self):
        data = chain_data(random.Random(6), 3000, 0.03, 3)
        by_chance = CHAIN.test_implications(data, method="permutation", permutations=2000)[0]
        by_distribution = CHAIN.test_implications(data, method="chi-squared")[0]
        self.assertLess(abs(by_chance.p_value - by_distribution.p_value), 5 * (by_distribution.p_value / 2000) ** 0.5 + 0.005)

    def test_a_seed_gives_the_same(self):
        data = chain_data(random.Random(7), 80)
        one, other, third = [CHAIN.test_implications(data, method="permutation", permutations=99, seed=seed) for seed in (1, 1, 2)]
        self.assertEqual(one, other)
        self.assertNotEqual(one[0].p_value, third[0].p_value)


class Answers(unittest.TestCase):
    """What is asked, and what is answered."""

    def test_independent_data(self):
        source = random.Random(8)
        values = [CHAIN.test_implications(chain_data(source, 60), permutations=199, seed=k)[0].p_value for k in range(150)]
        self.assertTrue(2 <= sum(p < 0.1 for p in values) <= 30)
        self.assertTrue(50 <= sum(p < 0.5 for p in values) <= 100)

    def test_dependent_data(self):
        tests = CHAIN.test_implications(chain_data(random.Random(9), 2000, 0.3))
        self.assertLess(tests[0].p_value, 0.01)
        self.assertEqual((tests.rejected(), tests.rejected(0.0)), (tests.tests, ()))

    def test_the_method(self):
        thin, thick = chain_data(random.Random(1), 20), chain_data(random.Random(1), 900)
        self.assertEqual(CHAIN.test_implications(thin)[0].method, "permutation")
        self.assertEqual(CHAIN.test_implications(thick)[0].method, "permutation" if scipy is None else "chi-squared")
        self.assertEqual(CHAIN.test_implications(thick, method="permutation", permutations=9)[0].method, "permutation")
        for wrong in ({"method": "exact"}, {"permutations": 0}):
            with self.assertRaises(causal.RequestError):
                CHAIN.test_implications(thin, **wrong)

    def test_several_pairs(self):
        diagram = Diagram('dag { A -> B -> C "a d" -> C }')
        data = {**chain_data(random.Random(2), 300), "a d": [k % 3 for k in range(300)], "unused": [None] * 300}
        tests = diagram.test_implications(data)
        self.assertEqual([(test.a, test.b) for test in tests], [(it.a, it.b) for it in diagram.implications()])
        self.assertEqual([test.p_holm for test in tests], holm([test.p_value for test in tests]))
        self.assertIn('A from "a d" given {}: G2 = ', str(tests))

    def test_nothing_to_test(self):
        none = Diagram("dag { A -> B }").test_implications({})
        self.assertEqual((len(none), str(none)), (0, "none"))
        test = CHAIN.test_implications({"A": [0, 1], "B": [0, 1], "C": [0, 1]})[0]
        self.assertEqual((test.p_value, test.method, test.p_holm, test.df), (None, None, None, 0))
        self.assertTrue(str(test).endswith(": no test: no level of {B} has two levels of both"))

    def test_data(self):
        data = chain_data(random.Random(3), 50)
        wanted = CHAIN.test_implications(data, permutations=20)
        with tempfile.TemporaryDirectory() as folder:
            path = os.path.join(folder, "data.csv")
            with open(path, "w", encoding="utf-8") as file:
                file.write("A,B,C\n" + "".join(f"{a},{b},{c}\n" for a, b, c in zip(*data.values())) + ",1,1\n")
            with self.assertRaises(causal.MissingValues):
                CHAIN.test_implications(path)
            found = CHAIN.test_implications(path, permutations=20, missing="drop")
        self.assertEqual((found.tests, found.dropped), (wanted.tests, 1))
        with self.assertRaises(causal.CountsError):
            CHAIN.test_implications({"A": [0], "B": [0]})

    def test_frame(self):
        try:
            import pandas
        except ImportError:
            raise unittest.SkipTest("no pandas") from None
        frame = CHAIN.test_implications(pandas.DataFrame(chain_data(random.Random(3), 50)), permutations=20).frame()
        self.assertEqual(list(frame.columns), list(causal.IndependenceTests.HEADS))
        self.assertEqual(frame.attrs, {"dropped": 0, "permutations": 20, "seed": 0})


if __name__ == "__main__":
    unittest.main()
