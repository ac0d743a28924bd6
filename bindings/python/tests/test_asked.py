"""Effects by a set to adjust for, under a condition, by a short formula, and where cells have no record."""
import random
import re
import unittest
from fractions import Fraction
from itertools import product

from worked import read_example

import causal
from causal import Diagram

KIDNEY = Diagram(read_example("kidney_stones.dag"))
COUNTS = {
    "S": ["small"] * 4 + ["large"] * 4,
    "T": ["A", "A", "B", "B"] * 2,
    "R": ["success", "failure"] * 4,
    "n": [81, 6, 234, 36, 192, 71, 55, 25],
}


def random_table(source, names):
    """Counts of all combinations of two levels."""
    rows = list(product((0, 1), repeat=len(names)))
    data = {name: [row[k] for row in rows] for k, name in enumerate(names)}
    return {**data, "n": [source.randrange(3, 40) for _ in rows]}


def part(data, of, given):
    """The part of the records with the levels `given` that have the levels `of` too."""
    rows = list(zip(*data.values()))
    places = {name: k for k, name in enumerate(data)}
    among = [row for row in rows if all(row[places[name]] == level for name, level in given.items())]
    having = [row for row in among if all(row[places[name]] == level for name, level in of.items())]
    return Fraction(sum(row[-1] for row in having), sum(row[-1] for row in among))


class Adjusting(unittest.TestCase):
    """Effects by a set."""

    def test_the_same_as_by_the_formula(self):
        found, expected = [KIDNEY.effects(COUNTS, count="n", exact=True, set=it) for it in ("S", None)]
        self.assertEqual(str(found), str(expected))
        self.assertEqual(str(found.formula), str(KIDNEY.adjusts("S").formula))

    def test_by_hand(self):
        data = random_table(random.Random(1), "WZXY")
        diagram = Diagram("dag { W -> Z -> X -> Y W -> Y }")
        for members in (["W"], ["Z"], ["Z", "W"]):
            found = diagram.effects(data, "X", "Y", count="n", exact=True, set=members)
            for effect in found:
                value = sum(
                    part(data, cell, {}) * part(data, effect.y, {**effect.x, **cell})
                    for cell in (dict(zip(members, levels)) for levels in product((0, 1), repeat=len(members)))
                )
                self.assertEqual(effect.value.exact, value)

    def test_intervals_and_contrasts(self):
        drawn = KIDNEY.bootstrap(COUNTS, count="n", resamples=20, seed=1, set=["S"])
        self.assertEqual(drawn.draws, KIDNEY.bootstrap(COUNTS, count="n", resamples=20, seed=1).draws)
        asked = {"treated": "A", "control": "B", "outcome": "success", "count": "n", "exact": True}
        self.assertEqual(KIDNEY.contrast(COUNTS, **asked, set="S"), KIDNEY.contrast(COUNTS, **asked))

    def test_the_back_door(self):
        asked = {"count": "n", "exact": True, "set": "S"}
        self.assertEqual(str(KIDNEY.effects(COUNTS, **asked, back_door=True)), str(KIDNEY.effects(COUNTS, **asked)))
        below = Diagram("dag { X -> Y X -> D }")
        data = random_table(random.Random(2), "XYD")
        self.assertEqual(len(below.effects(data, "X", "Y", count="n", set="D", given=())), 4)
        with self.assertRaisesRegex(causal.RequestError, "forbidden: D") as caught:
            below.effects(data, "X", "Y", count="n", set="D", back_door=True)
        self.assertEqual(caught.exception.place.members, ("D",))

    def test_a_column_outside_of_the_set_is_not_read(self):
        diagram = Diagram("dag { X -> Y X <- A -> Y A <- B -> X }")
        data = random_table(random.Random(4), "XYA")
        self.assertEqual(len(diagram.effects(data, "X", "Y", count="n", set="A")), 4)

    def test_refusals(self):
        with self.assertRaisesRegex(causal.RequestError, "can't be adjusted for: not admissible: {}"):
            KIDNEY.effects(COUNTS, count="n", set=())
        with self.assertRaisesRegex(causal.RequestError, "not both"):
            KIDNEY.effects(COUNTS, count="n", set="S", given="S")
        with self.assertRaisesRegex(causal.RequestError, "set names it"):
            KIDNEY.effects(COUNTS, count="n", back_door=True)


class Given(unittest.TestCase):
    """Effects under a condition."""

    def test_a_condition_that_may_as_well_be_done(self):
        found = KIDNEY.effects(COUNTS, count="n", exact=True, given="S")
        self.assertEqual(len(found), 8)
        for effect in found:
            self.assertEqual(effect.value.exact, part(COUNTS, effect.y, effect.under))
        self.assertEqual(str(found[3]), "P(R=success|do(T=A),S=small) = 27/29")
        self.assertEqual(str(found.formula), str(KIDNEY.identify(given="S")))
        self.assertEqual(found.names, ("T", "S", "R"))

    def test_a_quotient(self):
        # W is behind X, so the condition is on what the intervention changes
        diagram = Diagram("dag { X -> W -> Y X -> Y W <-> Y }")
        data = random_table(random.Random(3), "XWY")
        found = diagram.effects(data, "X", "Y", count="n", exact=True, given="W")
        bounds = diagram.effects(data, "X", "Y", count="n", given="W")
        for effect, bound in zip(found, bounds):
            self.assertEqual(effect.value.exact, part(data, effect.y, effect.under))
            self.assertLessEqual(bound.value.lower, effect.value.exact)
            self.assertLessEqual(effect.value.exact, bound.value.upper)
            self.assertLess(bound.value.upper - bound.value.lower, Fraction(1, 10**15))

    def test_the_formula_says_the_same(self):
        # P(Y|do(X),Z) of a front door with a covariate: the quotient of a joint effect
        diagram = Diagram("dag { X -> M -> Y X <-> Y Z -> Y Z <-> M }")
        data = random_table(random.Random(5), "XMYZ")
        joint = diagram.effects(data, "X", ["Y", "Z"], count="n", exact=True, short=False)
        found = diagram.effects(data, "X", "Y", count="n", exact=True, given="Z", short=False)
        for effect in found:
            both = [joint.at({"Y": level, **effect.given}, effect.x).exact for level in (0, 1)]
            self.assertEqual(effect.value.exact, both[effect.y["Y"]] / sum(both))

    def test_contrasts_means_and_intervals(self):
        asked = {"treated": "A", "control": "B", "outcome": "success", "count": "n", "exact": True}
        contrast = KIDNEY.contrast(COUNTS, **asked, given={"S": "large"})
        self.assertEqual(contrast.difference.exact, Fraction(192, 263) - Fraction(55, 80))
        data = {**COUNTS, "R": [1, 0] * 4}
        drawn = KIDNEY.bootstrap(data, count="n", resamples=30, seed=2, given="S")
        interval = drawn.contrast({"R": 1}, {"T": "A"}, {"T": "B"}, {"S": "large"})
        self.assertAlmostEqual(float(interval.contrast.difference), float(contrast.difference))
        self.assertLess(interval.difference.lower, interval.difference.upper)
        means = {(mean.x["T"], mean.given["S"]): float(mean.value) for mean in drawn.effect_means()}
        self.assertAlmostEqual(means["A", "large"], 192 / 263)
        self.assertAlmostEqual(float(drawn.mean_difference({"T": "A"}, {"T": "B"}, {"S": "large"}).value), float(contrast.difference))
        self.assertIn("T=A, S=large, mean", str(drawn.effect_means()[0]))
        try:
            frame = drawn.frame()
        except ImportError:
            return
        self.assertEqual(list(frame.columns), ["T", "S", "R", "estimate", "conf_low", "conf_high", "draws", "note"])

    def test_a_file(self):
        path = __file__.replace("test_asked.py", "../../../examples/kidney_stones.csv")
        found = KIDNEY.effects(path, count="count", exact=True, given="S")
        self.assertEqual({it.cell for it in found}, {it.cell for it in KIDNEY.effects(COUNTS, count="n", given="S")})

    def test_nothing_is_done(self):
        found = KIDNEY.effects(COUNTS, x=(), count="n", exact=True, given="S")
        self.assertEqual(str(found[3]), "P(R=success|S=small) = 15/17")

    def test_a_condition_that_the_formula_does_not_read(self):
        diagram = Diagram("dag { X -> Y Z }")
        data = random_table(random.Random(6), "XYZ")
        found = diagram.effects(data, "X", "Y", count="n", exact=True, given="Z")
        self.assertEqual([len(found), found.names], [8, ("X", "Z", "Y")])

    def test_a_pinned_variable(self):
        napkin = Diagram(read_example("napkin.dag"))
        data = random_table(random.Random(8), "WZXYV")
        diagram = Diagram(napkin.text.replace("dag {", "dag { V"))
        spread = diagram.pin_spread(data, "X", "Y", count="n", given="V")
        self.assertEqual([effects.pinned for effects in spread], [{"Z": 0}, {"Z": 1}])
        found = diagram.effects(data, "X", "Y", count="n", given="V", at={"Z": 1})
        self.assertEqual((found.effects, len(found)), (spread[1].effects, 8))

    def test_levels_with_marks(self):
        data = {**COUNTS, "S": ["a),S=b"] * 4 + ["|do("] * 4}
        found = KIDNEY.effects(data, count="n", given="S", exact=True)
        self.assertEqual(found.at({"R": "success"}, {"T": "A"}, {"S": "a),S=b"}).exact, Fraction(27, 29))

    def test_a_level_that_is_not_drawn(self):
        data = {**COUNTS, "n": [1, 0, 1, 1, 192, 71, 55, 25]}
        with self.assertWarnsRegex(causal.DataWarning, "45% of the resamples have no value"):
            drawn = KIDNEY.bootstrap(data, count="n", resamples=40, seed=3, given="S")
        self.assertEqual((len(drawn.effects), drawn.without_value > 0), (8, True))

    def test_refusals(self):
        bow = Diagram("dag { X -> Y X <-> Y Z -> Y }")
        with self.assertRaisesRegex(causal.NotIdentifiable, r"P\(Y\|do\(X\),Z\) is not identifiable"):
            bow.effects({}, "X", "Y", given="Z")
        with self.assertRaisesRegex(causal.RequestError, r"S has 'large', 'small'$"):
            KIDNEY.effects(COUNTS, count="n", given="S").at({"R": "success"}, {"T": "A"}, {"S": "none"})


class Zero(unittest.TestCase):
    """Cells that have no record, where a factor beside them is 0."""

    DIAGRAM = Diagram("dag { A -> B A -> X A -> Y B -> Y X -> Y }")
    # with A = 1 there is no record with B = 1
    DATA = {**random_table(random.Random(9), "ABXY"), "n": [2, 1, 1, 1, 1, 1, 2, 1, 3, 1, 1, 5, 0, 0, 0, 0]}

    def test_a_product_with_a_factor_0(self):
        found = self.DIAGRAM.effects(self.DATA, "X", "Y", count="n", exact=True, zero=True, short=False)
        self.assertEqual([effect.value.exact for effect in found], [Fraction(*it) for it in ((2, 3), (1, 3), (3, 8), (5, 8))])
        contrast = self.DIAGRAM.contrast(
            self.DATA, "X", "Y", treated=1, control=0, outcome=1, count="n", exact=True, zero=True, short=False, resamples=0
        )
        self.assertEqual(contrast.difference.exact, Fraction(5, 8) - Fraction(1, 3))

    def test_the_condition_without_a_record_is_named(self):
        with self.assertRaises(causal.EvaluationError) as caught:
            self.DIAGRAM.effects(self.DATA, "X", "Y", count="n", zero=False, short=False)
        sentence = "no record has A=1, B=1, X=0, which P(Y|A,B,X) is given; zero=True gives a value"
        self.assertEqual(caught.exception.sentence, sentence)
        self.assertEqual(caught.exception.place.cell, {"A": 1, "B": 1, "X": 0, "Y": 0})

    def test_a_divisor_that_is_no_term(self):
        diagram = Diagram("dag { X -> Y -> Z }")
        data = {"X": [0, 0, 1], "Y": [0, 1, 0], "Z": [0, 1, 0]}
        with self.assertRaises(causal.EvaluationError) as caught:
            diagram.effects(data, "X", "Y", given="Z", short=False)
        self.assertEqual(caught.exception.sentence.partition(";")[0], "a divisor is 0 at X=1, Z=1")

    def test_a_definition(self):
        napkin = Diagram(read_example("napkin.dag"))
        data = {**random_table(random.Random(10), "WZXY"), "n": [3] * 12 + [0] * 4}
        with self.assertRaises(causal.EvaluationError) as caught:
            napkin.effects(data, count="n", at={"Z": 1}, short=False)
        self.assertEqual(caught.exception.sentence.partition(";")[0], "no record has W=1, Z=1, which P(X|W,Z) is given")
        self.assertEqual(caught.exception.place[:2], (0, 3))

    def test_no_record_has_the_condition_that_is_named(self):
        source, named = random.Random(12), 0
        for _ in range(200):
            names = [f"v{k}" for k in range(5)]
            pairs = [(a, b) for k, a in enumerate(names) for b in names[k + 1 :]]
            edges, both = ([pair for pair in pairs if source.random() < part] for part in (0.6, 0.15))
            diagram = Diagram.from_edges(edges, bidirected=both, vertices=names)
            data = {name: [source.randrange(2) for _ in range(9)] for name in names}
            x, y, given = source.sample(names, 3)
            try:
                diagram.effects(data, x, y, given=source.choice([(), given]), zero=False, short=False)
            except causal.NotIdentifiable:
                continue
            except causal.EvaluationError as error:
                told = re.fullmatch(r"no record has (.*), which P\([^;]*\) is given;.*", error.sentence)
                if told:
                    named += 1
                    levels = dict(it.split("=") for it in told.group(1).split(", "))
                    records = zip(*([f"{level}" for level in data[name]] for name in levels))
                    self.assertNotIn(tuple(levels.values()), list(records))
                else:
                    self.assertIn("a divisor is 0 at", error.sentence)
        self.assertGreater(named, 40)

    def test_where_there_is_a_value_it_is_the_same(self):
        self.assertEqual(KIDNEY.effects(COUNTS, count="n", zero=True), KIDNEY.effects(COUNTS, count="n", zero=False))

    def test_more_draws_have_a_value(self):
        found, data = [], {**self.DATA, "n": [20] * 12 + [1] * 4}
        for zero in (False, True):
            with self.assertWarnsRegex(causal.DataWarning, "of the resamples have no value"):
                found.append(self.DIAGRAM.bootstrap(data, "X", "Y", count="n", resamples=60, seed=1, zero=zero, short=False))
        self.assertLess(found[1].without_value, found[0].without_value)

    def test_a_spread(self):
        napkin = Diagram(read_example("napkin.dag"))
        data = random_table(random.Random(10), "WZXY")
        # with W = 1 and Z = 1 there is no record with X = 0
        data["n"] = [0 if (w, z, x) == (1, 1, 0) else n for w, z, x, _, n in zip(*data.values())]
        found = [napkin.pin_spread(data, count="n", zero=zero).without_value for zero in (False, True)]
        self.assertEqual(found, [({"Z": 1},), ()])


class Short(unittest.TestCase):
    """Effects by a short formula."""

    HORMONES = Diagram(
        "dag { HRT [exposure] CHD [outcome] SES -> HRT SES -> Smoking SES -> CHD Age -> HRT Age -> Smoking Age -> CHD"
        " Smoking -> CHD HRT -> CHD }"
    )

    def test_the_formula_is_that_of_identify(self):
        data = random_table(random.Random(21), ["SES", "Age", "HRT", "CHD"])
        found = self.HORMONES.effects(data, count="n", exact=True, short=True)
        self.assertEqual(str(found.formula), str(self.HORMONES.identify(short=True)))
        by_set = self.HORMONES.effects(data, count="n", exact=True, set=["SES", "Age"])
        self.assertEqual(found.effects, by_set.effects)

    def test_a_column_that_the_short_formula_does_not_name_is_not_read(self):
        through = Diagram("dag { S -> B -> M S -> M B <-> M }")
        data = random_table(random.Random(22), "SM")
        found = through.effects(data, "S", "M", count="n", exact=True, short=True)
        for effect in found:
            self.assertEqual(effect.value.exact, part(data, effect.y, effect.x))
        with self.assertRaises(causal.CountsError):
            through.effects(data, "S", "M", count="n", short=False)

    def test_a_cell_that_only_the_long_formula_asks_for(self):
        data = random_table(random.Random(23), ["SES", "Age", "Smoking", "HRT", "CHD"])
        # among the first with a treatment nobody smokes
        data["n"] = [0 if (ses, smoking, hrt) == (0, 1, 1) else n for ses, _, smoking, hrt, _, n in zip(*data.values())]
        with self.assertRaises(causal.EvaluationError):
            self.HORMONES.effects(data, count="n", zero=False, short=False)
        found = self.HORMONES.effects(data, count="n", exact=True, short=True)
        self.assertEqual(found.effects, self.HORMONES.effects(data, count="n", exact=True, set=["SES", "Age"]).effects)

    def test_nothing_is_shorter(self):
        front_door = Diagram(read_example("front_door.dag"))
        data = random_table(random.Random(24), "XMY")
        found = [front_door.effects(data, count="n", exact=True, short=short) for short in (False, True)]
        self.assertEqual(found[0], found[1])

    def test_under_a_condition(self):
        chain = Diagram("dag { X -> Y -> Z }")
        data = random_table(random.Random(25), "XYZ")
        found = chain.effects(data, "X", "Y", count="n", exact=True, given="Z", short=True)
        self.assertEqual(str(found.formula), "P(Y|do(X),Z) = P(Y|X,Z)")
        for effect in found:
            self.assertEqual(effect.value.exact, part(data, effect.y, effect.under))

    def test_with_zero_cells(self):
        data = random_table(random.Random(26), ["SES", "Age", "HRT", "CHD"])
        # the part that takes no treatment isn't there where nobody is
        data["n"] = [0 if (ses, age) == (1, 1) else n for ses, age, _, _, n in zip(*data.values())]
        with self.assertRaises(causal.EvaluationError) as caught:
            self.HORMONES.effects(data, count="n", short=True, zero=False)
        self.assertIn("which P(CHD|HRT,SES,Age) is given", caught.exception.sentence)
        found = self.HORMONES.effects(data, count="n", exact=True, short=True, zero=True)
        self.assertEqual(found.effects, self.HORMONES.effects(data, count="n", exact=True, set=["SES", "Age"], zero=True).effects)

    def test_contrasts_and_intervals(self):
        data = random_table(random.Random(27), ["SES", "Age", "HRT", "CHD"])
        asked = {"treated": 1, "control": 0, "outcome": 1, "count": "n", "exact": True}
        contrast = self.HORMONES.contrast(data, **asked, short=True)
        self.assertEqual(contrast, self.HORMONES.contrast(data, **asked, set=["SES", "Age"]))
        drawn = self.HORMONES.bootstrap(data, count="n", resamples=20, seed=1, short=True)
        by_set = self.HORMONES.bootstrap(data, count="n", resamples=20, seed=1, set=["SES", "Age"])
        self.assertEqual(drawn.draws, by_set.draws)
        among = self.HORMONES.contrast(data, **asked, given={"SES": 1}, short=True)
        self.assertLess(abs(among.difference.exact), 1)

    def test_a_pinned_variable(self):
        napkin = Diagram(read_example("napkin.dag"))
        data = random_table(random.Random(28), "WZXY")
        plain, short = (napkin.pin_spread(data, count="n", exact=True, short=it) for it in (False, True))
        self.assertEqual(plain[0].formula.definitions, ("sum{W} P(W) * P(X|W,Z) * P(Y|X,W,Z)",))
        self.assertEqual(short[0].formula.definitions, ("sum{W} P(W) * P(X,Y|W,Z)",))
        self.assertEqual([effects.effects for effects in plain], [effects.effects for effects in short])

    def test_a_query_and_a_file(self):
        sql = causal.counts_query(self.HORMONES.identify(short=True), "records")
        self.assertNotIn("Smoking", sql)
        path = __file__.replace("test_asked.py", "../../../examples/kidney_stones.csv")
        found = KIDNEY.effects(path, count="count", exact=True, short=True)
        self.assertEqual({it.cell for it in found}, {it.cell for it in KIDNEY.effects(COUNTS, count="n")})

    def test_refusals(self):
        with self.assertRaises(causal.NotIdentifiable):
            Diagram(read_example("bow.dag")).effects({}, short=True)


if __name__ == "__main__":
    unittest.main()
