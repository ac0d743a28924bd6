"""The level at which a variable is pinned that the formula reads beside x and y."""
import os
import random
import tempfile
import unittest
from fractions import Fraction

from test_bootstrap import NAPKIN, napkin_data
from worked import read_example

import causal
from causal import Diagram
from causal.columns import in_order

DATA = napkin_data(random.Random(4), 400)


def with_levels(kinds):
    """The data with other levels of Z: one for 0, and one for 1."""
    return {**DATA, "Z": [kinds[z] for z in DATA["Z"]]}


def exact_values(effects):
    """The values as fractions."""
    return [effect.value.exact for effect in effects]


class Pinned(unittest.TestCase):
    """One rule: the first level in order, whatever comes first in the data."""

    def test_the_first_level_in_order(self):
        order = sorted(range(len(DATA["Z"])), key=DATA["Z"].__getitem__)
        ordered = [{name: [column[k] for k in places] for name, column in DATA.items()} for places in (order, order[::-1])]
        self.assertEqual([data["Z"][0] for data in ordered], [0, 1])
        for data in ordered:
            self.assertEqual(NAPKIN.effects(data).pinned, {"Z": 0})
        values = [sorted(map(str, NAPKIN.effects(data, exact=True))) for data in ordered]
        self.assertEqual(*values)

    def test_order(self):
        for low, high in ((9, 10), ("10", "9"), (0.5, 2), (False, True), (b"a", b"b"), ("Z", "a"), ((1, 2), (1, 3))):
            for kinds in ((low, high), (high, low)):
                with self.subTest(kinds):
                    self.assertEqual(NAPKIN.effects(with_levels(kinds)).pinned, {"Z": low})

    def test_order_of_what_has_none(self):
        self.assertEqual(in_order([2, "a", 1.5]), [1.5, 2, "a"])
        self.assertEqual(in_order([frozenset("a"), frozenset("b")]), in_order([frozenset("b"), frozenset("a")]))
        self.assertEqual(in_order(["b", None, "a"]), ["a", "b", None])

    def test_at(self):
        other = {**DATA, "Z": [1 - z for z in DATA["Z"]]}
        effects = NAPKIN.effects(DATA, at={"Z": 1}, exact=True)
        self.assertEqual(effects.pinned, {"Z": 1})
        self.assertEqual({str(effect) for effect in effects}, {str(effect) for effect in NAPKIN.effects(other, exact=True)})
        self.assertNotEqual({str(effect) for effect in effects}, {str(effect) for effect in NAPKIN.effects(DATA, exact=True)})

    def test_at_everywhere(self):
        effects = NAPKIN.effects(DATA, at={"Z": 1})
        contrast = NAPKIN.contrast(DATA, treated=1, control=0, outcome=1, at={"Z": 1})
        self.assertEqual(contrast, effects.contrast({"Y": 1}, {"X": 1}, {"X": 0}))
        self.assertEqual(NAPKIN.bootstrap(DATA, at={"Z": 1}, resamples=2).effects, effects)

    def test_no_such_level(self):
        with self.assertRaisesRegex(causal.RequestError, "Z has no level '1' in the data; it has 0, 1"):
            NAPKIN.effects(DATA, at={"Z": "1"})
        with self.assertRaisesRegex(causal.RequestError, "no level can be given for X: the formula reads a level of Z"):
            NAPKIN.effects(DATA, at={"X": 1})
        with self.assertRaisesRegex(causal.RequestError, "no level can be given for X: the formula reads no such"):
            Diagram("dag { X -> Y }").effects({"X": [0], "Y": [0]}, "X", "Y", at={"X": 0})

    def test_what_is_printed(self):
        lines = str(NAPKIN.effects(DATA)).split("\n")
        self.assertEqual(lines[0], "pinned Z=0 (in the population every level gives the same)")
        self.assertEqual(NAPKIN.effects(DATA).text.split("\n"), ["pinned Z=0", *lines[1:]])


class Files(unittest.TestCase):
    """A file gives the same as its columns."""

    def file_of(self, data):
        rows = [",".join(data), *(",".join(map(str, row)) for row in zip(*data.values()))]
        folder = tempfile.TemporaryDirectory()
        self.addCleanup(folder.cleanup)
        path = os.path.join(folder.name, "counts.csv")
        with open(path, "w", encoding="utf-8") as file:
            file.write("\n".join([*rows, ""]))
        return path

    def test_the_first_level_in_order(self):
        for low, high in ((2, 10), ("a", "b"), (-1, -0.5), ("1e1", "11")):
            for data in (with_levels((low, high)), with_levels((high, low))):
                effects = NAPKIN.effects(self.file_of(data), exact=True)
                self.assertEqual(effects.pinned, {"Z": str(low)})
                self.assertEqual(sorted(exact_values(effects)), sorted(exact_values(NAPKIN.effects(data, at={"Z": low}, exact=True))))

    def test_at(self):
        path = self.file_of(DATA)
        effects = NAPKIN.effects(path, at={"Z": "1"}, exact=True)
        self.assertEqual(sorted(exact_values(effects)), sorted(exact_values(NAPKIN.effects(DATA, at={"Z": 1}, exact=True))))
        self.assertEqual(NAPKIN.bootstrap(path, at={"Z": "1"}, resamples=2).effects.pinned, {"Z": "1"})

    def test_what_python_reads_otherwise(self):
        path = self.file_of(DATA)
        with open(path, "ab") as file:
            file.write(b'0,0,1,1 \n')
        self.assertEqual(len(NAPKIN.effects(path)), 6)
        with open(path, "ab") as file:
            file.write(b'0,0,1\n')
        with self.assertRaises(causal.CountsError) as caught:
            NAPKIN.bootstrap(path, resamples=1)
        self.assertEqual((caught.exception.number, caught.exception.place), (1, 402))


class Spread(unittest.TestCase):
    """The value at each level."""

    def test_each_level(self):
        spread = NAPKIN.pin_spread(DATA, exact=True)
        self.assertEqual(list(spread), [NAPKIN.effects(DATA, at={"Z": z}, exact=True, short=False) for z in (0, 1)])
        apart = [abs(a - b) for a, b in zip(*map(exact_values, spread))]
        self.assertAlmostEqual(spread.widest, float(max(apart)))
        self.assertTrue(str(spread).endswith(f"at most {spread.widest:.6g} apart"))
        self.assertLess(spread.widest, 0.2)

    def test_the_same_in_a_model(self):
        cells = [(w, z, x, y) for w in (0, 1) for z in "ba" for x in (0, 1) for y in (0, 1)]
        data = {name: [cell[k] for cell in cells] for k, name in enumerate("WZXY")}
        spread = NAPKIN.pin_spread(data, exact=True)
        self.assertEqual(([effects.pinned["Z"] for effects in spread], spread.widest), (["a", "b"], 0))
        self.assertEqual(exact_values(spread[0]), [Fraction(1, 2)] * 4)

    def test_a_level_without_a_value(self):
        data = {name: [*column, column[0]] for name, column in DATA.items()}
        data["Z"][-1] = 2
        spread = NAPKIN.pin_spread(data)
        self.assertEqual((len(spread), spread.without_value), (2, ({"Z": 2},)))
        self.assertIn("no value at Z=2", str(spread))

    def test_nothing_is_pinned(self):
        with self.assertRaises(causal.RequestError):
            Diagram(read_example("kidney_stones.dag")).pin_spread({})

    def test_frame(self):
        try:
            import pandas
        except ImportError:
            raise unittest.SkipTest("no pandas") from None
        frame = NAPKIN.pin_spread(pandas.DataFrame(DATA)).frame()
        self.assertEqual((list(frame.columns[:3]), frame["Z"].tolist()), (["Z", "X", "Y"], [0] * 4 + [1] * 4))


if __name__ == "__main__":
    unittest.main()
