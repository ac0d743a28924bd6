"""The bootstrap: its draws, and that its interval covers the truth on data drawn from a model of the napkin."""
import random
import unittest
import unittest.mock
import warnings
from collections import Counter
from statistics import NormalDist

from worked import read_example

import causal
from causal import Diagram
from causal.draws import binomial, drawn
from causal.intervals import interval_of

NAPKIN = Diagram(read_example("napkin.dag"))


class Draws(unittest.TestCase):
    """Draws of counts."""

    def test_binomial(self):
        source = random.Random(5)
        for n, p in ((1, 0.5), (12, 0.1), (13, 0.9), (100, 0.3), (10**6, 0.001), (10**6, 0.5), (10**12, 0.5), (10**15, 10**-14)):
            with self.subTest(n=n, p=p):
                draws = [binomial(source, n, p) for _ in range(2000)]
                self.assertTrue(all(0 <= draw <= n for draw in draws))
                mean = sum(draws) / len(draws)
                spread = sum((draw - mean) ** 2 for draw in draws) / len(draws)
                deviation = (n * p * (1 - p)) ** 0.5
                self.assertLess(abs(mean - n * p), 5 * deviation / 2000**0.5)
                self.assertLess(abs(spread / deviation**2 - 1), 0.2)

    def test_binomial_frequencies(self):
        source = random.Random(6)
        for n, p in ((20, 0.3), (3, 0.999), (1000, 0.4)):
            counts = Counter(binomial(source, n, p) for _ in range(20000))
            chance = (1 - p) ** n
            for k in range(n + 1):
                with self.subTest(n=n, p=p, k=k):
                    self.assertLess(abs(counts[k] - 20000 * chance), 6 * (20000 * chance) ** 0.5 + 1)
                chance *= (n - k) / (k + 1) * p / (1 - p)

    def test_binomial_of_many_trials(self):
        source = random.Random(8)
        draws = [binomial(source, 10**6 + 1, 0.5) for _ in range(4000)]
        for share in (0.1, 0.5, 0.75):
            part = NormalDist(500000.5, 500).inv_cdf(share)
            self.assertLess(abs(sum(draw < part for draw in draws) / 4000 - share), 0.035)

    def test_drawn(self):
        counts = {("a",): 5, ("b",): 0, ("c",): 1000}
        for seed in range(50):
            draw = drawn(random.Random(seed), counts)
            self.assertEqual(sum(draw.values()), 1005)
            self.assertNotIn(("b",), draw)

    def test_interval(self):
        self.assertEqual(interval_of([1.0], 0.9), None)
        self.assertEqual(interval_of([None, 3.0, 1.0], 0.5), (interval := interval_of([1.0, 3.0], 0.5)))
        self.assertEqual((interval.lower, interval.upper), (1.5, 2.5))


def napkin_data(source, size):
    """Records of a model of the napkin: hidden u of W and X, hidden v of W and Y."""
    columns = {name: [] for name in "WZXY"}
    for _ in range(size):
        u, v = source.random() < 0.5, source.random() < 0.5
        w = (u ^ v) if source.random() < 0.8 else source.random() < 0.5
        z = w if source.random() < 0.7 else source.random() < 0.5
        x = source.random() < 0.1 + 0.4 * z + 0.4 * u
        y = source.random() < chance_of_y(x, v)
        for name, value in zip("WZXY", (w, z, x, y)):
            columns[name].append(int(value))
    return columns


def chance_of_y(x, v):
    """The chance that Y is 1, given X and the hidden v."""
    return 0.1 + 0.3 * x + 0.5 * v


class Coverage(unittest.TestCase):
    """The interval on data whose truth is known."""

    def test_it_covers_the_truth(self):
        data = napkin_data(random.Random(20), 5000)
        answer = NAPKIN.bootstrap(data, resamples=300, seed=7)
        self.assertEqual((answer.resamples, answer.without_value), (300, 0))
        for effect, interval in zip(answer.effects, answer.intervals):
            chance = sum(chance_of_y(effect.x["X"], v) for v in (0, 1)) / 2
            truth = chance if effect.y["Y"] == 1 else 1 - chance
            self.assertTrue(interval.lower <= truth <= interval.upper, (effect, interval, truth))
            self.assertTrue(interval.lower <= float(effect.value) <= interval.upper)
            self.assertLess(interval.upper - interval.lower, 0.2)
        contrast = answer.contrast({"Y": 1}, {"X": 1}, {"X": 0})
        self.assertTrue(contrast.difference.lower <= 0.3 <= contrast.difference.upper)
        self.assertTrue(contrast.ratio.lower <= 0.65 / 0.35 <= contrast.ratio.upper)
        self.assertGreater(contrast.difference.lower, 0)

    def test_ways_to_the_values_are_one(self):
        # by numpy, by lists, and by the library for each resample
        source, data = random.Random(4), {name: [] for name in "WZXMY"}
        for _ in range(120):
            w, u = source.randrange(3), source.random()
            z = int(source.random() < 0.2 + 0.2 * w)
            x = int(source.random() < 0.2 + 0.4 * z + 0.2 * u)
            m = int(source.random() < 0.2 + 0.6 * x)
            for name, value in zip("WZXMY", (w, z, x, m, int(source.random() < 0.1 + 0.4 * m + 0.4 * u))):
                data[name].append(value)
        few = {name: held[:25] for name, held in data.items()}
        for text, given, held in (
            ("dag { Z -> X -> Y <- Z }", None, data),
            ("dag { W -> X -> Y <- W W -> Z Z -> Y }", "Z", few),
            (read_example("front_door.dag").decode(), None, few),
            (read_example("napkin.dag").decode(), None, data),
        ):
            for zero in (True, False):
                found = []
                for hidden in (set(), {"numpy"}, {"numpy", "values"}):
                    none = {"numpy": None} if "numpy" in hidden else {}
                    with unittest.mock.patch.dict("sys.modules", none), warnings.catch_warnings():
                        warnings.simplefilter("ignore")
                        most = 0 if "values" in hidden else 1 << 11
                        with unittest.mock.patch("causal.values.MOST_PLAIN", most):
                            diagram = Diagram(text)
                            try:
                                found.append(diagram.bootstrap(held, "X", "Y", resamples=40, seed=2, given=given, zero=zero).draws)
                            except causal.EvaluationError:
                                found.append(None)
                for other in found[1:]:
                    self.assertEqual(found[0] is None, other is None)
                    for a, b in zip(found[0] or (), other or ()):
                        self.assertEqual(a is None, b is None)
                        for one, two in zip(a or (), b or ()):
                            self.assertAlmostEqual(one, two, places=12)

    def test_a_seed_gives_the_same(self):
        data = napkin_data(random.Random(1), 500)
        one, other, third = [NAPKIN.bootstrap(data, resamples=10, seed=seed) for seed in (3, 3, 4)]
        self.assertEqual(one, other)
        self.assertNotEqual(one.draws, third.draws)

    def test_draws_without_a_value_are_counted(self):
        data = {"S": [0, 0, 1, 1], "T": [0, 1, 0, 1], "R": [0, 1, 1, 1], "n": [40, 40, 40, 1]}
        diagram = Diagram(read_example("kidney_stones.dag"))
        with self.assertWarnsRegex(causal.DataWarning, "of the resamples have no value"):
            answer = diagram.bootstrap(data, count="n", resamples=200, seed=1)
        self.assertTrue(40 < answer.without_value < 110)
        self.assertEqual(answer.intervals[0].draws, 200 - answer.without_value)

    def test_the_pinned_level_stays(self):
        data = napkin_data(random.Random(2), 300)
        answer = NAPKIN.bootstrap(data, resamples=50)
        self.assertEqual(answer.effects.pinned, {"Z": data["Z"][0]})

    def test_a_level_of_the_outcome_that_is_not_drawn(self):
        data = {"X": [0, 1, 0, 1, 0], "Y": [0, 0, 1, 1, 2], "n": [500, 500, 500, 500, 1]}
        answer = Diagram("dag { X -> Y }").bootstrap(data, "X", "Y", count="n", resamples=100)
        rare = answer.effects.place({"Y": 2}, {"X": 0})
        self.assertEqual(answer.without_value, 0)
        self.assertIn(0.0, [draw[rare] for draw in answer.draws])

    def test_a_ratio_that_has_no_value(self):
        data = {"X": [0, 1, 0, 1], "Y": [0, 0, 1, 1], "n": [500, 500, 2, 250]}
        answer = Diagram("dag { X -> Y }").bootstrap(data, "X", "Y", count="n", resamples=200)
        contrast = answer.contrast({"Y": 1}, {"X": 1}, {"X": 0})
        self.assertLess(contrast.ratio.draws, contrast.difference.draws)

    def test_progress(self):
        data = {"X": [0, 1, 0, 1], "Y": [0, 0, 1, 1], "n": [5, 5, 5, 0]}
        for kind, total in (("percentile", 3), ("bca", 6)):
            told = []
            answer = Diagram("dag { X -> Y }").bootstrap(
                data, "X", "Y", count="n", resamples=3, interval=kind, progress=lambda done, of: told.append((done, of))
            )
            self.assertEqual(told, [(done, total) for done in range(1, total + 1)])
            self.assertEqual((answer.resamples, [count for count, _ in answer.left_out]), (3, [5] * (total - 3)))

    def test_what_progress_raises_ends_it(self):
        def stop(done, of):
            raise KeyboardInterrupt

        with self.assertRaises(KeyboardInterrupt):
            NAPKIN.bootstrap(napkin_data(random.Random(2), 300), resamples=10, progress=stop)

    def test_requests(self):
        for wrong in ({"resamples": 0}, {"level": 1.0}, {"level": 0.0}):
            with self.assertRaises(causal.RequestError):
                NAPKIN.bootstrap({}, **wrong)


if __name__ == "__main__":
    unittest.main()
