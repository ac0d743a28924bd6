"""No wrong turn in silence: what once gave another answer than was asked for, or a number that said more than it held."""
import datetime
import random
import re
import unittest
import warnings
from fractions import Fraction

from worked import read_example

import causal
from causal import Diagram

try:
    import pandas
except ImportError:
    pandas = None

needs_pandas = unittest.skipIf(pandas is None, "no pandas")
TWO = "dag { B [exposure] A [exposure] Y [outcome] A -> Y B -> Y }"


def two_arms():
    """Records with P(Y=1|A=1,B=0) = 0.3 and P(Y=1|A=0,B=1) = 0.5."""
    rows = [(a, b, y) for a in (0, 1) for b in (0, 1) for y in range(10)]
    chance = {(0, 0): 1, (1, 0): 3, (0, 1): 5, (1, 1): 8}
    return {"A": [a for a, _, _ in rows], "B": [b for _, b, _ in rows], "Y": [int(y < chance[a, b]) for a, b, y in rows]}


class Arms(unittest.TestCase):
    """Levels in the order in which the exposures were typed."""

    def risk(self, **asked):
        return float(Diagram(TWO).contrast(two_arms(), y="Y", outcome=1, resamples=0, **asked).treated)

    def test_they_follow_x(self):
        self.assertAlmostEqual(self.risk(x=["A", "B"], treated=(1, 0), control=(0, 0)), 0.3)
        self.assertAlmostEqual(self.risk(x=["B", "A"], treated=(1, 0), control=(0, 0)), 0.5)
        self.assertAlmostEqual(self.risk(treated={"A": 1, "B": 0}, control={"A": 0, "B": 0}), 0.3)

    def test_without_an_order_they_are_named(self):
        for x in ({}, {"x": {"A", "B"}}):
            with self.assertRaisesRegex(causal.RequestError, "given by name"):
                self.risk(**x, treated=(1, 0), control=(0, 0))

    def test_outcomes_too(self):
        data = {"X": [0, 1] * 4, "Y": [0, 0, 1, 1] * 2, "Z": [0, 1, 1, 1] * 2}
        diagram = Diagram("dag { Y X -> Y X -> Z }")
        asked = {"treated": 1, "control": 0, "resamples": 0}
        found = diagram.contrast(data, "X", ["Z", "Y"], outcome=(1, 0), **asked)
        self.assertEqual(found.outcome, {"Y": 0, "Z": 1})
        with self.assertRaisesRegex(causal.RequestError, "a level is needed for each"):
            diagram.contrast(data, "X", ["Z", "Y"], outcome=1, **asked)

    def test_an_arm_against_itself(self):
        data = {"X": [0, 1] * 4, "Y": [0, 0, 1, 1] * 2}
        edge = Diagram("dag { X -> Y }")
        for ask in (edge.contrast, edge.compare):
            with self.assertRaisesRegex(causal.RequestError, "treated and control are one arm: X=1"):
                ask(data, "X", "Y", treated=1, control=1, outcome=1)

    def test_an_interval_of_two(self):
        drawn = Diagram(TWO).bootstrap(two_arms(), ["A", "B"], "Y", resamples=20)
        self.assertAlmostEqual(float(drawn.contrast(1, (1, 0), (0, 0)).contrast.treated), 0.3)


class Roles(unittest.TestCase):
    """A role is one of a vertex."""

    def test_a_typing_error(self):
        edges = [("age", "statin"), ("age", "mi"), ("statin", "mi")]
        for role in ("exposure", "outcome", "latent", "adjusted"):
            with self.assertRaisesRegex(causal.RequestError, "no vertex has the name Statin.*did you mean statin"):
                Diagram.from_edges(edges, **{role: "Statin"})
        self.assertEqual(Diagram.from_edges(edges, vertices=["Statin"], latent="Statin").roles, {"Statin": "latent"})

    def test_a_file_that_was_meant(self):
        import os
        import tempfile

        with tempfile.TemporaryDirectory() as folder:
            open(os.path.join(folder, "counts.csv"), "w").close()
            with self.assertRaisesRegex(causal.FileMissing, r"there is no file .*count\.csv; did you mean .*counts\.csv\?"):
                Diagram("dag { X -> Y }").effects(os.path.join(folder, "count.csv"), "X", "Y")

    def test_a_role_without_an_edge(self):
        with self.assertWarnsRegex(causal.DiagramWarning, "the exposure Statin has no edge"):
            Diagram("dag { Statin [exposure] statin -> mi mi [outcome] }")

    def test_no_exposure(self):
        diagram = Diagram("dag { A [outcome] B -> A }")
        data = {"A": [0, 1], "B": [0, 1]}
        for ask in (diagram.identify, lambda: diagram.effects(data), lambda: diagram.evaluate(data), lambda: diagram.bootstrap(data)):
            with self.assertRaisesRegex(causal.RequestError, r"give x, or x=\[\]"):
                ask()
        self.assertEqual(str(diagram.identify(x=[])), "P(A) = P(A)")


class Sparse(unittest.TestCase):
    """Tests of what has nearly a level for each record."""

    def data(self, cut):
        source = random.Random(4)
        ages = [source.gauss(50, 10) for _ in range(400)]
        x = [int(source.random() < age / 100) for age in ages]
        y = [int(source.random() < 0.2 * it + age / 125) for it, age in zip(x, ages)]
        return {"age": [cut(age) for age in ages], "X": x, "Y": y}

    def test_no_test_of_a_number(self):
        diagram = Diagram("dag { age -> X -> Y }")
        for method in ("auto", "permutation"):
            test = diagram.test_implications(self.data(lambda age: age), method=method)[0]
            self.assertEqual((test.p_value, test.p_holm, test.method), (None, None, None))
            self.assertRegex(str(test), "no test: age has 400 levels in 400 records.*cut it")
        # and as what is given
        test = Diagram("dag { X <- age -> Y }").test_implications(self.data(lambda age: age))[0]
        self.assertEqual(test.p_value, None)
        self.assertIn("cut it", test.note)
        self.assertLess(diagram.test_implications(self.data(lambda age: age // 10))[0].p_value, 0.05)

    def test_some_are_told(self):
        with self.assertWarnsRegex(causal.DataWarning, "little power"):
            test = Diagram("dag { age -> X -> Y }").test_implications(self.data(lambda age: round(age * 3)), permutations=20)[0]
        self.assertIsNotNone(test.p_value)
        self.assertIn("little power", str(test))


class Told(unittest.TestCase):
    """What a number rests on stands beside it."""

    def test_lost_resamples(self):
        source = random.Random(1)
        data = {"S": [min(source.randrange(40), 20) for _ in range(120)], "T": [source.randrange(2) for _ in range(120)]}
        data["R"] = [source.randrange(2) for _ in range(120)]
        data = {name: column + extra for (name, column), extra in zip(data.items(), (list(range(21)) * 2, [0] * 21 + [1] * 21, [0, 1] * 21))}
        diagram = Diagram(read_example("kidney_stones.dag"))
        with self.assertWarnsRegex(causal.DataWarning, "of the resamples have no value"):
            drawn = diagram.bootstrap(data, resamples=100)
        found = drawn.contrast(1, 1, 0)
        for text in (str(drawn), str(found), found._repr_html_(), drawn._repr_html_()):
            self.assertIn(f"of which {drawn.without_value} had no value", text)
            self.assertIn("of the resamples have no value", text)

    def test_no_events(self):
        data = {"X": [0] * 226 + [1] * 100, "Y": [0] * 316 + [1] * 10}
        with self.assertWarnsRegex(causal.DataWarning, "width 0"):
            found = Diagram("dag { X -> Y }").contrast(data, "X", "Y", treated=1, control=0, outcome=1, resamples=50)
        for text in (str(found), found._repr_html_()):
            self.assertIn("risk under control has width 0: none of the records there has the outcome", text)
            self.assertIn("0.0133", text)

    def test_few_events(self):
        data = {"X": [0] * 226 + [1] * 100, "Y": [1] * 3 + [0] * 313 + [1] * 10}
        found = Diagram("dag { X -> Y }").contrast(data, "X", "Y", treated=1, control=0, outcome=1, resamples=50)
        self.assertIn("only 3 of 226 records under control are with the outcome", str(found))

    @needs_pandas
    def test_in_frames(self):
        data = pandas.DataFrame({"X": [0] * 20 + [1] * 20, "Y": [0] * 35 + [1] * 5})
        with warnings.catch_warnings():
            warnings.simplefilter("ignore")
            frame = Diagram("dag { X -> Y }").contrast(data, "X", "Y", treated=1, control=0, outcome=1, resamples=50).frame()
        self.assertIn("width 0", frame.attrs["doubts"][0])
        self.assertIn("50 resamples", frame.attrs["notes"][0])
        self.assertIn("width 0", frame["note"][1])
        self.assertIn("control: width 0", frame["note"][2])
        with warnings.catch_warnings():
            warnings.simplefilter("ignore")
            drawn = Diagram("dag { X -> Y }").bootstrap(data, "X", "Y", resamples=50).frame()
        self.assertIn("width 0", drawn["note"][0])

    def test_beside_each_effect(self):
        data = {"X": [0] * 226 + [1] * 100, "Y": [0] * 316 + [1] * 10}
        drawn = Diagram("dag { X -> Y }").bootstrap(data, "X", "Y", resamples=50)
        for text in (str(drawn), drawn._repr_html_()):
            self.assertIn("width 0: none of the records there has the outcome (by the rule of three up to 0.0133)", text)
        self.assertEqual(str(drawn.effect_means()[0]), "X=0, mean 0 [0, 0] (width 0: no resample differs)")
        some = {"X": [0] * 226 + [1] * 100, "Y": [1] * 3 + [0] * 313 + [1] * 10}
        self.assertIn("(only 3 of 226 records there are with the outcome", str(Diagram("dag { X -> Y }").bootstrap(some, "X", "Y", resamples=50)))

    def test_beside_means_and_comparisons(self):
        source = random.Random(1)
        data = {"S": [source.randrange(25) for _ in range(200)], "T": [source.randrange(2) for _ in range(200)]}
        data["R"] = [source.randrange(2) for _ in range(200)]
        data = {name: column + extra for (name, column), extra in zip(data.items(), (list(range(25)) * 2, [0] * 25 + [1] * 25, [0, 1] * 25))}
        diagram = Diagram(read_example("kidney_stones.dag"))
        with warnings.catch_warnings():
            warnings.simplefilter("ignore")
            drawn = diagram.bootstrap(data, resamples=100)
            found = diagram.compare(data, treated=1, control=0, outcome=1, resamples=100)
        lost = f"{drawn.without_value} of 100 resamples had no value"
        self.assertGreater(drawn.without_value, 0)
        for mean in (*drawn.effect_means(), drawn.mean_difference(1, 0)):
            self.assertIn(f"({lost})", str(mean))
        self.assertIn("by the formula, adjusted for {S}: ", str(found))
        for text in (str(found), found._repr_html_()):
            self.assertIn("of the resamples have no value", text)

    def test_notebooks(self):
        data = {"X": [0, 1] * 10, "Y": [0, 0, 1, 1] * 5}
        edge = Diagram("dag { X -> Y }")
        found = edge.contrast(data, "X", "Y", treated=1, control=0, outcome=1, resamples=20)
        effects, bounds = edge.effects(data, "X", "Y"), edge.bounds(data, "X", "Y")
        answers = [found.difference, found.e_value, effects[0], effects.effect_means()[0], bounds[0], bounds.difference(1, 1, 0)]
        answers += [*Diagram("dag { X -> Z -> Y }").implications({**data, "Z": data["X"]})]
        formula = edge.identify("X", "Y")
        answers += [Diagram("dag { X -> Z -> Y }").natural("X", "Y", through="Z"), formula.target, edge.separated("X", "Y").path]
        answers.append(edge.check_certificate(formula.certificate.replace("rule2see", "rule1out")).refusal)
        for it in answers:
            self.assertNotIn("Fraction(", it._repr_html_())
            self.assertIn("<pre>", it._repr_html_())

    def test_in_groups(self):
        data = {"X": [0] * 226 + [1] * 100, "Y": [0] * 316 + [1] * 10, "Z": [0, 1] * 163}
        with warnings.catch_warnings():
            warnings.simplefilter("ignore")
            found = Diagram("dag { X -> Y Z -> X Z -> Y }").contrast(
                data, "X", "Y", treated=1, control=0, outcome=1, resamples=50, given="Z"
            )
        self.assertIn("width 0: none of the records", found._repr_html_())
        self.assertIn("50 resamples", found._repr_html_())

    def test_frequencies(self):
        data = {"X": [0, 1] * 4, "Y": [0, 0, 1, 1] * 2, "w": [150, 200, 50, 400, 75, 125, 300, 100]}
        edge = Diagram("dag { X -> Y }")
        found = edge.contrast(data, "X", "Y", treated=1, control=0, outcome=1, count="w", resamples=20)
        for text in (str(found), found._repr_html_(), str(edge.bootstrap(data, "X", "Y", count="w", resamples=20))):
            self.assertIn("w holds frequencies: 1400 records", text)
        with self.assertRaisesRegex(causal.CountsError, "the weights of a survey are named by weights"):
            edge.effects({**data, "w": [0.5] * 8}, "X", "Y", count="w")

    def test_weights_that_look_like_frequencies(self):
        import os
        import tempfile

        edge, told = Diagram("dag { X -> Y }"), "w holds frequencies, so that 80 rows stand for 14000 records; but 76 rows are like another"
        data = {"X": [0, 1] * 40, "Y": [0, 0, 1, 1] * 20, "w": [150, 200, 50, 400, 75, 125, 300, 100] * 10}
        arms = {"treated": 1, "control": 0, "outcome": 1, "count": "w"}
        with tempfile.TemporaryDirectory() as folder:
            path = os.path.join(folder, "records.csv")
            with open(path, "w", encoding="utf-8") as file:
                file.write("X,Y,w\n" + "".join(f"{x},{y},{w}\n" for x, y, w in zip(*data.values())))
            for given in (data, path, [dict(zip(data, row)) for row in zip(*data.values())]):
                with self.assertWarnsRegex(causal.DataWarning, told):
                    edge.effects(given, "X", "Y", count="w")
        with self.assertWarnsRegex(causal.DataWarning, told):
            Diagram("dag { X Y }").test_implications(data, "w", permutations=5)
        # frequencies of a table stand in rows that differ, also where not all columns are read; and equal ones are no weights
        table = [(x, y, z, w) for x in (0, 1) for y in (0, 1) for z, w in enumerate(data["w"])]
        for given in (dict(zip("XYZw", zip(*table))), {**data, "w": [2] * 80}):
            with warnings.catch_warnings():
                warnings.simplefilter("error")
                edge.contrast(given, "X", "Y", **arms, resamples=0)

    def test_a_contrast_in_words(self):
        data = {"X": ["a", "b"] * 20, "Y": [0, 1, 1, 1] * 10}
        found = Diagram("dag { X -> Y }").contrast(data, "X", "Y", treated="a", control="b", outcome=1, resamples=0)
        self.assertTrue(str(found).startswith("treated: X=a; control: X=b; outcome: Y=1\nrisk under treated: 0.5\n"))
        self.assertNotIn("Fraction", found._repr_html_())
        sets = Diagram("dag { Z -> X -> Y <- Z }").adjustment_sets("X", "Y")
        for it in (sets, Diagram("dag { X -> Y X <-> Y }").identify("X", "Y"), Diagram("dag { A -> B }").separated("A", "B")):
            self.assertNotIn("(x=", it._repr_html_())


class Records(unittest.TestCase):
    """Records, and levels."""

    def test_dropped_records_by_their_counts(self):
        data = {"X": [None, 0, 0, 1, 1], "Y": [0, 0, 1, 0, 1], "n": [500, 10, 30, 20, 40]}
        edge = Diagram("dag { X -> Y }")
        with self.assertRaisesRegex(causal.MissingValues, "no value in 500 of 600 records"):
            edge.effects(data, "X", "Y", count="n")
        self.assertEqual(edge.effects(data, "X", "Y", count="n", missing="drop").notes, ("500 records left out that lack a value",))

    def test_numbers_in_order(self):
        found = Diagram("dag { X -> Y }").effects({"X": [2, 10, 1, 2, 10, 1], "Y": [1, 0, 1, 0, 1, 0]}, "X", "Y")
        self.assertEqual(found.levels, {"Y": [0, 1], "X": [1, 2, 10]})

    def test_a_file_and_a_frame_alike(self):
        import os
        import tempfile

        source = random.Random(5)
        data = {name: [source.randrange(12) % size for _ in range(300)] for name, size in zip(("S", "T", "R"), (2, 3, 12))}
        kidney = Diagram(read_example("kidney_stones.dag"))
        with tempfile.TemporaryDirectory() as folder:
            path = os.path.join(folder, "data.csv")
            with open(path, "w", encoding="utf-8") as file:
                file.write("S,T,R\n" + "".join(f"{s},{t},{r}\n" for s, t, r in zip(*data.values())))
            of_file, of_columns = kidney.effects(path, given="S"), kidney.effects(data, given="S")
            drawn = kidney.bootstrap(path, resamples=5)
        self.assertEqual([it.cell for it in of_file], [it.cell for it in of_columns])
        self.assertEqual(drawn.draws, kidney.bootstrap(data, resamples=5).draws)

    @needs_pandas
    def test_a_declared_level_without_a_record(self):
        edge = Diagram("dag { X -> Y }")
        for values in (pandas.Categorical([0] * 6, [0, 1]), pandas.Series([False] * 6)):
            found = edge.effects(pandas.DataFrame({"X": [0, 1] * 3, "Y": values}), "X", "Y", exact=True)
            self.assertEqual(found.at(1, 1).exact, 0)
        exposed = pandas.DataFrame({"X": pandas.Categorical([0] * 4, [0, 1]), "Y": [0, 1] * 2})
        self.assertEqual(edge.effects(exposed, "X", "Y").levels["X"], [0])

    @needs_pandas
    def test_an_ordered_category_stays_one(self):
        data = pandas.DataFrame({"X": pandas.Categorical(["low", "high"] * 2, ["low", "mid", "high"], ordered=True), "Y": [0, 1, 1, 0]})
        frame = Diagram("dag { X -> Y }").evaluate(data, "X", "Y")
        self.assertTrue(frame["X"].cat.ordered)
        self.assertEqual(list(frame["X"].cat.categories), ["low", "mid", "high"])

    def test_two_numbers_that_print_alike(self):
        data = {"X": [0.1 + 0.2, 0.3] * 10, "Y": [1, 0] * 10}
        found = Diagram("dag { X -> Y }").contrast(data, "X", "Y", treated=0.1 + 0.2, control=0.3, outcome=1, resamples=0)
        self.assertEqual(float(found.difference), 1.0)

    def test_days(self):
        days = [datetime.datetime(2020, 4, 3), datetime.datetime(2020, 1, 1)] * 2
        found = Diagram("dag { X -> Y }").effects({"X": days, "Y": [0, 1, 1, 0]}, "X", "Y")
        self.assertEqual(found[0].cell, "P(Y=0|do(X=2020-01-01))")

    def test_a_list_of_records(self):
        records = [{"X": 0, "Y": 0}, {"X": 0, "Y": 1}, {"X": 1, "Y": 1}]
        self.assertEqual(float(Diagram("dag { X -> Y }").effects(records, "X", "Y").at(1, 0)), 0.5)
        with self.assertRaises(causal.MissingValues):
            Diagram("dag { X -> Y }").effects([{"X": 0}, {"Y": 1}], "X", "Y")

    @needs_pandas
    def test_an_array_of_records(self):
        data = pandas.DataFrame({"X": [0, 0, 1], "Y": [0, 1, 1]})
        edge = Diagram("dag { X -> Y }")
        self.assertEqual(edge.effects(data.to_records(index=False), "X", "Y").effects, edge.effects(data, "X", "Y").effects)

    def test_answers_can_be_kept_in_sets(self):
        data, edge = {"X": [0, 1] * 10, "Y": [0, 0, 1, 1] * 5}, Diagram("dag { X -> Y }")
        for ask in (lambda: edge.effects(data, "X", "Y"), lambda: edge.bootstrap(data, "X", "Y", resamples=5)):
            self.assertEqual(len({ask(), ask()}), 1)
        arms = {"treated": 1, "control": 0, "outcome": 1}
        for resamples in (0, 5):
            contrasts = [edge.contrast(data, "X", "Y", **arms, resamples=resamples) for _ in range(2)]
            self.assertEqual(len({*contrasts}), 1)
        bounds, drawn = edge.bounds(data, "X", "Y"), edge.bootstrap(data, "X", "Y", resamples=5)
        held = [edge.effects(data, "X", "Y")[0], drawn.contrast(1, 1, 0), *drawn.effect_means(), edge.support(data, "X", "Y"), bounds[0]]
        held += [bounds.difference(1, 1, 0), edge.compare(data, "X", "Y", **arms, resamples=0), *Diagram("dag { X Y }").implications(data)]
        self.assertEqual(len({*held}), len(held))
        # what is equal has one hash, also where levels are of another type, or in another order
        one, other = (causal.effects.Effect({"Y": y}, x, drawn.effects[0].value) for y, x in ((1, {"A": 0, "B": 1}), (True, {"B": 1, "A": 0})))
        self.assertEqual(len({one, other}), 1)

    def test_too_many_cells_are_counted(self):
        source = random.Random(2)
        names = [f"c{k}" for k in range(11)]
        text = "dag { " + " ".join(f"{name} -> X {name} -> Y" for name in names) + " X -> Y }"
        data = {name: [source.randrange(4) for _ in range(100)] for name in [*names, "X", "Y"]}
        with self.assertRaisesRegex(causal.CountsError, r"67108864 combinations of levels.*\(levels: .*c0 4"):
            Diagram(text).effects(data, "X", "Y", zero=False)
        front = "dag { X -> M -> Y X <-> Y " + " ".join(f"{name} -> X {name} -> M {name} -> Y" for name in names) + " }"
        with self.assertRaisesRegex(causal.CountsError, "268435456 combinations of levels"):
            Diagram(front).effects({**data, "M": data["X"]}, "X", "Y")

    def test_strata_that_lack_an_arm(self):
        names = [f"c{k}" for k in range(10)]
        diagram = Diagram.from_edges([("X", "Y"), *((name, it) for name in names for it in "XY")], exposure="X", outcome="Y")
        source = random.Random(3)
        data = {name: [source.randrange(4) for _ in range(60)] for name in names}
        data.update(X=[0, 1] * 30, Y=[0, 0, 1] * 20)
        for ask in (diagram.effects, lambda data: diagram.contrast(data, treated=1, control=0, outcome=1, resamples=5)):
            with self.assertRaises(causal.EvaluationError) as caught:
                ask(data)
            place, told = caught.exception.place, str(caught.exception)
            self.assertEqual(set(place.cell), {*names, "X", "Y"})
            term = str(diagram.identify(short=True).divisor_at(place.definition, place.node).term)
            self.assertRegex(told, rf"no record has .*c0={place.cell['c0']}, .*which {re.escape(term)} is given")
            # bounds over the set would be refused, since all its combinations are too many; those that are named are there
            self.assertIn("bounds(data) what", told)
            self.assertNotIn("stratum", told)
        self.assertEqual(len(diagram.bounds(data)), 4)

    def test_strata_that_occur(self):
        source = random.Random(2)
        names = [f"c{k}" for k in range(10)]
        diagram = Diagram("dag { " + " ".join(f"{name} -> X {name} -> Y" for name in names) + " X -> Y }")
        # 40 strata of 4^10, each with records of both arms
        strata = [[source.randrange(4) for _ in names] for _ in range(40)]
        rows = [(*source.choice(strata), source.randrange(2), source.randrange(2)) for _ in range(2000)]
        data = dict(zip([*names, "X", "Y"], zip(*rows)))
        # by hand
        wanted, total = {0: Fraction(0), 1: Fraction(0)}, len(rows)
        for stratum in set(row[:10] for row in rows):
            own = [row[10:] for row in rows if row[:10] == stratum]
            for x in wanted:
                inside = [y for arm, y in own if arm == x]
                wanted[x] += Fraction(len(own), total) * Fraction(sum(inside), len(inside))
        found = diagram.effects(data, "X", "Y")
        for x, value in wanted.items():
            self.assertAlmostEqual(float(found.at(1, x)), float(value), places=15)
        self.assertEqual(found.formula, diagram.identify("X", "Y", short=True))
        self.assertIn("over the 40 strata of {c0,c1,c2,c3,c4,c5,c6,c7,c8,c9} that occur, of 1048576 combinations", found.notes)
        drawn = diagram.bootstrap(data, "X", "Y", resamples=50, seed=1)
        self.assertLess(drawn.intervals[1].lower, float(wanted[0]))
        self.assertIn("that occur", str(drawn))
        contrast = diagram.contrast(data, "X", "Y", treated=1, control=0, outcome=1, resamples=50)
        self.assertAlmostEqual(float(contrast.difference), float(wanted[1] - wanted[0]), places=12)
        try:
            import numpy  # noqa: F401
        except ImportError:
            pass
        else:
            weighted = {**data, "w": [1 + k % 3 for k in range(2000)], "v": [3.0] * 2000}
            by_weight = diagram.contrast(weighted, "X", "Y", treated=1, control=0, outcome=1, resamples=50, weights="v")
            self.assertAlmostEqual(float(by_weight.difference), float(wanted[1] - wanted[0]), places=9)
            drawn = diagram.contrast(weighted, "X", "Y", treated=1, control=0, outcome=1, resamples=50, weights="w", clusters="c0")
            self.assertIsNotNone(drawn.interval.difference)
            self.assertIn("that occur", str(drawn))
        # a stratum without one arm has no value, and is named
        thin = {name: [*held, *([3] * 2 if name not in "XY" else [1, 1])] for name, held in data.items()}
        with self.assertRaisesRegex(causal.EvaluationError, "c1=3, c2=3"):
            diagram.effects(thin, "X", "Y")


class Refusals(unittest.TestCase):
    """Each refusal has a type below one, and says what was meant."""

    def test_one_class(self):
        edge, data = Diagram("dag { X -> Y }"), {"X": [0, 1], "Y": [0, 1]}
        for ask in (
            lambda: edge.equivalent("dag { X -> Y }"),
            lambda: edge.contrast(data, "X", "Y", treated=1, control=0, outcome=1, given="C"),
            lambda: edge.rule_holds(4, "Y", "X"),
            lambda: edge.adjustment_sets("X", "Y", most=0),
            lambda: edge.instruments("X", "Y", most=True),
            lambda: edge.surrogate("X", "Y"),
            lambda: edge.bootstrap(data, "X", "Y", resamples=1.5),
            lambda: edge.bootstrap(data, "X", "Y", seed="x"),
            lambda: edge.bootstrap(data, "X", "Y", seed=random.Random(1)),
            lambda: edge.bootstrap(data, "X", "Y", level="high"),
            lambda: edge.effects(3, "X", "Y"),
            lambda: Diagram(3),
            lambda: edge.effects(data, "X", "Z"),
            lambda: edge.parents("Q"),
            lambda: edge.effects("no_such_file.csv", "X", "Y"),
            lambda: Diagram.from_file("no_such_file"),
            lambda: causal.read("no_such_file.dot"),
            lambda: causal.read("/"),
            lambda: edge.effects(data, "X", "Y", at=3),
            lambda: edge.bootstrap(data, "X", "Y", progress=3),
            lambda: edge.test_implications(data, progress=3),
            lambda: Diagram.from_edges(3),
            lambda: Diagram.from_edges([("", "Y")]),
            lambda: edge.simulate(5, levels="a"),
            lambda: edge.simulate(5, strength="a"),
            lambda: edge.paths(["X", "Y"], "Y"),
            lambda: causal.e_value("a"),
        ):
            with self.assertRaises(causal.Refusal) as caught:
                ask()
            self.assertNotIn("diagram', '--", str(caught.exception))

    def test_what_was_meant(self):
        data = {"x": [0, 1], "C ": [0, 1], "Y": [0, 1]}
        with self.assertRaisesRegex(causal.CountsError, "there is no column X; did you mean x"):
            Diagram("dag { X -> Y }").effects(data, "X", "Y")
        with self.assertRaisesRegex(causal.CountsError, "there is no column C; did you mean 'C '"):
            Diagram("dag { C -> Y }").effects(data, "C", "Y")
        with self.assertRaisesRegex(causal.TargetError, "did you mean X"):
            Diagram("dag { X -> Y }").identify("x", "Y")

    def test_what_would_answer(self):
        source = random.Random(3)
        data = {name: [source.randrange(2) for _ in range(60)] for name in ("A", "B", "X", "Y")}
        data = {name: [*column, value] for (name, column), value in zip(data.items(), (2, 2, 1, 1))}
        diagram = Diagram("dag { A -> X B -> A B -> Y X -> Y A -> Y }")
        with self.assertRaisesRegex(causal.EvaluationError, r"no record has .*; support\(data\).*estimate"):
            diagram.effects(data, "X", "Y")
        lone = Diagram("dag { A -> X B -> Y A -> B X -> Y }")
        data["B"][-1] = 1
        with self.assertRaisesRegex(causal.EvaluationError, r"; set=\['B'\] gives a value"):
            lone.effects(data, "X", "Y", set=["A"])

    def test_old_names_warn(self):
        data = {"S": [0, 1] * 4, "T": [0, 0, 1, 1] * 2, "R": [0, 1, 1, 0, 1, 0, 1, 1]}
        kidney = Diagram(read_example("kidney_stones.dag"))
        with self.assertWarnsRegex(DeprecationWarning, "adjust_for is named set now"):
            old = kidney.effects(data, adjust_for="S")
        self.assertEqual(old, kidney.effects(data, set="S"))
        with self.assertWarnsRegex(DeprecationWarning, "kind is named interval now"):
            kidney.bootstrap(data, kind="percentile", resamples=2)
        test = Diagram("dag { S -> T -> R }").test_implications(data)[0]
        for old_name, name in (("p", "p_value"), ("degrees", "df"), ("adjusted", "p_holm"), ("rmsea_lower", "rmsea_low"), ("rmsea_upper", "rmsea_high")):
            with self.assertWarnsRegex(DeprecationWarning, f"{old_name} is named {name} now"):
                self.assertEqual(getattr(test, old_name), getattr(test, name))
        with self.assertWarnsRegex(DeprecationWarning, "members is named set now"):
            self.assertTrue(kidney.adjusts(members="S"))
        with self.assertWarnsRegex(DeprecationWarning, "number is named rule now"):
            self.assertTrue(kidney.rule_holds(number=2, y="R", z="T", given="S"))
        for old_name, call in (("rule", lambda: kidney.rule), ("check", lambda: kidney.check), ("spread", lambda: kidney.spread)):
            with self.assertWarnsRegex(DeprecationWarning, f"{old_name} is named"):
                call()

    def test_warnings_stand_at_the_line_that_asked(self):
        data = {"X": [0, 1] * 4, "Y": [1, 0] * 4}
        edge = Diagram("dag { X -> Y }")
        calls = {
            causal.DataWarning: lambda: edge.contrast(data, "X", "Y", treated=1, control=0, outcome=1, resamples=5),
            causal.DiagramWarning: lambda: Diagram("dag { X Y == Z }"),
            DeprecationWarning: lambda: edge.effects(data, "X", "Y", adjust_for=[]),
        }
        for category, call in calls.items():
            with self.assertWarns(category) as caught:
                call()
            self.assertEqual(caught.filename, __file__)


if __name__ == "__main__":
    unittest.main()
