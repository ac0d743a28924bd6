"""Effects among the treated that have no formula, in data in which the exposure has two levels."""
import json
import os
import random
import tempfile
import unittest
import unittest.mock
import warnings
from collections import Counter
from fractions import Fraction

import causal
from causal import Diagram, _library

try:
    import numpy
except ImportError:
    numpy = None

NAPKIN = Diagram("dag { W -> Z -> X -> Y W <-> X W <-> Y }")
# The same in two groups, S, on which nothing acts.
GROUPS = Diagram("dag { S -> X S -> Y W -> Z -> X -> Y W <-> X W <-> Y }")
# Counts of a model: over everybody X changes nothing, and among those who had it Y is rarer by 1/24.
NUMBERS = [54, 42, 54, 42, 11, 13, 19, 21, 14, 18, 14, 18, 39, 33, 63, 57]
COUNTS = {**{name: [k >> bit & 1 for k in range(16)] for bit, name in zip((3, 2, 1, 0), "WZXY")}, "n": NUMBERS}
BELOW = {"W": [0] * 4, "Z": [0, 0, 1, 1], "X": [0, 1, 0, 1], "Y": [0, 1, 1, 0]}
SPLIT = "P(Y|do(X)) = P(X,Y) + P(X') * P(Y|do(X),X')"
ARMS = {"x": "X", "y": "Y", "treated": 1, "control": 0, "outcome": 1}


def rows_of(counts):
    """The cells of counts, each with its number."""
    names = [name for name in counts if name != "n"]
    return [({name: counts[name][k] for name in names}, counts["n"][k]) for k in range(len(counts["n"]))]


def number(rows, **at):
    """How many records have these levels."""
    return sum(count for row, count in rows if all(row[name] == level for name, level in at.items()))


def joint(rows, z, **at):
    """The joint effect of X on what else is told, at a level of Z: by hand, from the napkin's formula."""

    def part(**told):
        whole = sum(count for _, count in rows)
        ws = sorted({row["W"] for row, _ in rows})
        return sum(Fraction(number(rows, W=w), whole) * Fraction(number(rows, W=w, Z=z, **told), number(rows, W=w, Z=z)) for w in ws)

    return part(**at) / part(X=at["X"])


def by_hand(rows, z, x, had, **at):
    """The effect of X=x on the levels among those who had another level."""
    if x == had:
        return Fraction(number(rows, X=x, **at), number(rows, X=x))
    whole = number(rows)
    return (joint(rows, z, X=x, **at) - Fraction(number(rows, X=x, **at), whole)) / Fraction(number(rows, X=had), whole)


def answered(diagram, told, status=0):
    """The library, but with this answer of `evaluate`."""
    real = _library.KeptDiagram.run

    def run(kept, words, inputs=None):
        if words[0] != "evaluate":
            return real(kept, words, inputs)
        return _library.Reply(status, (json.dumps(told) + "\n").encode(), b"")

    return unittest.mock.patch.object(_library.KeptDiagram, "run", run)


class Answers(unittest.TestCase):
    """Answers that are written by hand."""

    SETS = {"y": ["Y"], "x": ["X"], "given": [], "observed": ["X'"], "pinned": [["Z", "1"]]}
    CELL = {"y": [["Y", "1"]], "x": [["X", "0"]], "given": [], "observed": [["X'", "1"]]}

    def test_values(self):
        cells = [{**self.CELL, "value": "25/48"}]
        with answered(NAPKIN, {"answer": "values", "exact": True, **self.SETS, "cells": cells}):
            found = NAPKIN.effects(COUNTS, "X", "Y", count="n", treated=True, exact=True, at={"Z": 1})
        self.assertEqual(found.text, "pinned Z=0\nP(Y=1|do(X=0),X'=1) = 25/48")
        self.assertIsInstance(found.formula, causal.TwoLevels)
        self.assertEqual((found.formula.equation, found.formula.free), (SPLIT, ("Z",)))
        self.assertEqual(found.formula.joint, NAPKIN.identify("X", "Y"))
        self.assertIn(f"two values of X: {SPLIT}", found.notes)
        self.assertFalse(found.formula.identifiable)

    def test_path(self):
        told = json.loads(causal.run(["treated", "g", "--x=X", "--y=Y", "--json"], {"g": NAPKIN.text}).out)
        with answered(NAPKIN, told, 1), self.assertRaisesRegex(causal.NotIdentifiable, "is not identifiable: X has more than two levels in the data") as refused:
            NAPKIN.effects(COUNTS, "X", "Y", count="n", treated=True)
        self.assertEqual(refused.exception.place, NAPKIN.treated("X", "Y"))

    def test_no_model(self):
        told = {"answer": "no model", **self.SETS, "less": self.CELL}
        data = {**COUNTS, "X": ["no" if x else "yes" for x in COUNTS["X"]]}
        with answered(NAPKIN, told, 1), self.assertRaises(causal.NoModelError) as refused:
            NAPKIN.effects(data, "X", "Y", count="n", treated=True)
        less = refused.exception.place
        self.assertIsInstance(less, causal.NoModel)
        self.assertFalse(less)
        self.assertEqual((less.y, less.x, less.given, less.pinned), ({"Y": 1}, {"X": "no"}, {"X'": "yes"}, {"Z": 1}))
        self.assertEqual(str(less), "no model of this diagram has these counts\nP(Y=1|do(X=no)) is less than P(X=no,Y=1)")
        self.assertEqual(str(refused.exception), str(less).replace("\n", ": "))

    def test_the_order_of_what_is_given(self):
        cell = {**self.CELL, "given": [["S", "0"]]}
        told = {"answer": "no model", **self.SETS, "given": ["S"], "less": cell}
        data = {**COUNTS, "S": [0, 1] * 8}
        with answered(GROUPS, told, 1), self.assertRaises(causal.NoModelError) as refused:
            GROUPS.effects(data, "X", "Y", count="n", given="S", treated=True)
        self.assertEqual(refused.exception.place.why, "P(S=0,Y=1|do(X=0)) is less than P(S=0,X=0,Y=1)")


class Values(unittest.TestCase):
    """Values over counts, by hand from the definitions."""

    def test_the_counts_of_a_model(self):
        found = NAPKIN.effects(COUNTS, "X", "Y", count="n", treated=True, exact=True)
        self.assertEqual(found.pinned, {"Z": 0})
        self.assertEqual(len(found), 8)
        for effect in found:
            wanted = by_hand(rows_of(COUNTS), 0, effect.x["X"], effect.given["X'"], Y=effect.y["Y"])
            self.assertEqual(effect.value.exact, wanted, str(effect))
        self.assertEqual(found.at(1, 0, {"X'": 1}).exact, Fraction(25, 48))
        # in a model the level at which Z stands changes nothing
        self.assertEqual(list(found), list(NAPKIN.effects(COUNTS, "X", "Y", count="n", treated=True, exact=True, at={"Z": 1})))

    def test_digits_enclose_the_fractions(self):
        exact, digits = (NAPKIN.effects(COUNTS, "X", "Y", count="n", treated=True, exact=exact) for exact in (True, False))
        for one, other in zip(exact, digits):
            self.assertEqual(one.cell, other.cell)
            self.assertLessEqual(other.value.lower, one.value.exact)
            self.assertGreaterEqual(other.value.upper, one.value.exact)

    def test_other_counts(self):
        source, seen = random.Random(11), Counter()
        for _ in range(60):
            data = {**COUNTS, "n": [source.randint(1, 9) for _ in range(16)]}
            rows = rows_of(data)
            wanted = {(x, had, y): by_hand(rows, 0, x, had, Y=y) for x in (0, 1) for had in (0, 1) for y in (0, 1)}
            try:
                found = NAPKIN.effects(data, "X", "Y", count="n", treated=True, exact=True)
                self.assertEqual({(it.x["X"], it.given["X'"], it.y["Y"]): it.value.exact for it in found}, wanted)
                seen["values"] += 1
            except causal.NoModelError as error:
                x, had, y = next(key for key, value in wanted.items() if value < 0)
                self.assertEqual((error.place.x, error.place.given, error.place.y), ({"X": x}, {"X'": had}, {"Y": y}))
                seen["no model"] += 1
        self.assertEqual(len(seen), 2, seen)

    def test_what_is_given(self):
        source = random.Random(5)
        counts = {**{name: [k >> bit & 1 for k in range(32)] for bit, name in enumerate("SWZXY")}, "n": [source.randint(20, 40) for _ in range(32)]}
        found = GROUPS.effects(counts, "X", "Y", count="n", given={"S": 1}, treated=True, exact=True)
        rows = [(row, count) for row, count in rows_of(counts) if row["S"] == 1]
        self.assertEqual(found.formula.joint.target, causal.Term(("S", "Y"), ("X",)))
        self.assertEqual([effect.given["S"] for effect in found], [1] * 8)
        same = found.at(1, 1, {"S": 1, "X'": 1}).exact
        self.assertEqual(same, Fraction(number(rows, X=1, Y=1), number(rows, X=1)))
        whole, inside = sum(counts["n"]), number(rows, X=1, Y=1)
        both = GROUPS.effects(counts, "X", ["S", "Y"], count="n", zero=False, short=False, exact=True).at({"S": 1, "Y": 1}, 1).exact
        self.assertEqual(found.at(1, 1, {"S": 1, "X'": 0}).exact, (both - Fraction(inside, whole)) / Fraction(number(rows, X=0), whole))

    def test_one_level(self):
        data = {name: [0 if name == "X" else level for level in levels] for name, levels in COUNTS.items()}
        found = NAPKIN.effects(data, "X", "Y", count="n", treated=True, exact=True)
        self.assertEqual([(effect.x["X"], effect.given["X'"]) for effect in found], [(0, 0)] * 2)
        self.assertEqual(found.at(1, 0).exact, Fraction(sum(NUMBERS[1::2]), 512))

    def test_refusals(self):
        with self.assertRaisesRegex(causal.NotIdentifiable, "X has more than two levels in the data") as refused:
            NAPKIN.effects({**COUNTS, "X": [k % 3 for k in range(16)]}, "X", "Y", count="n", treated=True)
        self.assertIsInstance(refused.exception.place, causal.Confounded)
        with self.assertRaisesRegex(causal.NoModelError, r"P\(Y=1\|do\(X=0\)\) is less than P\(X=0,Y=1\)") as refused:
            NAPKIN.effects(BELOW, "X", "Y", treated=True)
        self.assertEqual(refused.exception.place.given, {"X'": 1})
        # no record has W=1 and Z=0
        thin = {"W": [0, 1, 0, 1], "Z": [0, 1, 1, 1], "X": [0, 1, 1, 0], "Y": [0, 1, 0, 1]}
        with self.assertRaises(causal.EvaluationError):
            NAPKIN.effects(thin, "X", "Y", treated=True)
        several = Diagram("dag { W -> Z -> X -> Y W <-> X W <-> Y V -> Y }")
        with self.assertRaisesRegex(causal.NotIdentifiable, "is not identifiable$"):
            several.effects({**COUNTS, "V": [0, 1] * 8}, ["X", "V"], "Y", count="n", treated=True)

    def file_of(self, data):
        folder = tempfile.TemporaryDirectory()
        self.addCleanup(folder.cleanup)
        path = os.path.join(folder.name, "counts.csv")
        with open(path, "w", encoding="utf-8") as file:
            file.write("\n".join([",".join(data), *(",".join(map(str, row)) for row in zip(*data.values())), ""]))
        return path

    def test_files(self):
        found = NAPKIN.effects(self.file_of(COUNTS), "X", "Y", count="n", treated=True, exact=True)
        self.assertEqual(found.at("1", "0", {"X'": "1"}).exact, Fraction(25, 48))
        with self.assertRaises(causal.NoModelError) as refused:
            NAPKIN.effects(self.file_of(BELOW), "X", "Y", treated=True)
        self.assertEqual(refused.exception.place.x, {"X": "0"})
        # an empty field is a third level for the library, and is left out here
        blank = {name: [*levels, "" if name == "X" else levels[0]] for name, levels in COUNTS.items()}
        dropped = NAPKIN.effects(self.file_of(blank), "X", "Y", count="n", treated=True, exact=True, missing="drop")
        self.assertEqual((dropped.dropped, list(dropped)), (54, list(found)))
        with self.assertRaises(causal.NotIdentifiable):
            NAPKIN.effects(self.file_of(blank), "X", "Y", count="n", treated=True, missing="level")


class Intervals(unittest.TestCase):
    def test_the_effect_among_those_who_had_it(self):
        found = NAPKIN.contrast(COUNTS, **ARMS, count="n", observed=1, resamples=300, exact=True)
        self.assertEqual((found.treated.exact, found.control.exact), (Fraction(23, 48), Fraction(25, 48)))
        self.assertEqual(found.given, {"X'": 1})
        self.assertEqual((found.interval.resamples, found.interval.with_value), (300, 300))
        self.assertTrue(found.interval.difference.lower < float(found.difference) < found.interval.difference.upper)
        other = NAPKIN.contrast(COUNTS, **ARMS, count="n", observed=0, resamples=0, exact=True)
        self.assertEqual(other.difference.exact, Fraction(59, 112) - Fraction(53, 112))

    @unittest.skipIf(numpy is None, "no numpy")
    def test_many_at_once_as_one_by_one(self):
        """Draws by numpy are those by the library, those without a value too: some term has no records, or an effect is below 0."""
        small = {**COUNTS, "n": [5, 4, 5, 4, 1, 1, 2, 2, 1, 2, 1, 2, 4, 3, 6, 6]}
        with warnings.catch_warnings():
            warnings.simplefilter("ignore", causal.DataWarning)
            many = NAPKIN.bootstrap(small, "X", "Y", count="n", treated=True, resamples=200)
            with unittest.mock.patch("causal.values.MOST_CELLS", 0):
                single = NAPKIN.bootstrap(small, "X", "Y", count="n", treated=True, resamples=200)
        self.assertEqual([draw is None for draw in many.draws], [draw is None for draw in single.draws])
        self.assertTrue(20 < many.without_value < 180, many.without_value)
        for one, other in zip(many.draws, single.draws):
            if one is not None:
                for a, b in zip(one, other):
                    self.assertAlmostEqual(a, b, places=9)

    def test_resamples_without_a_model_are_counted(self):
        small = {**COUNTS, "n": [5, 4, 5, 4, 1, 1, 2, 2, 1, 2, 1, 2, 4, 3, 6, 6]}
        with self.assertWarnsRegex(causal.DataWarning, "resamples have no value"):
            found = NAPKIN.contrast(small, **ARMS, count="n", observed=1, resamples=100)
        self.assertLess(found.interval.with_value, 100)
        self.assertIn("of which", found.interval.notes[-2])

    @unittest.skipIf(numpy is None, "no numpy")
    def test_weights(self):
        data = {name: [level for level, count in zip(levels, NUMBERS) for _ in range(count)] for name, levels in COUNTS.items() if name != "n"}
        data["w"] = [0.5] * 512
        found = NAPKIN.contrast(data, **ARMS, observed=1, weights="w", resamples=50, exact=True)
        self.assertEqual(found.difference.exact, Fraction(-1, 24))
        self.assertIsNotNone(found.interval.difference)

    @unittest.skipIf(numpy is None, "no numpy")
    def test_models_need_a_formula(self):
        with self.assertRaisesRegex(causal.NotIdentifiable, "contrast"):
            NAPKIN.estimate(COUNTS, **ARMS, observed=1, count="n")


if __name__ == "__main__":
    unittest.main()
