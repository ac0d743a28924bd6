"""Twelve whole analyses, each as it is typed, beside the truth of the model that it is drawn from, or the same number by hand."""
import os
import tempfile
import unittest
import warnings

from worked import read_example

import causal
from causal import Diagram

try:
    import numpy
    import pandas
except ImportError:
    raise unittest.SkipTest("no pandas") from None

SOURCE = 20


def chance(source, p):
    """Draws of 0 and 1."""
    return (source.random(len(p)) < p).astype(int)


def of_size(size):
    """A generator of its own for each analysis, and as many zeros."""
    return numpy.random.default_rng(SOURCE + size), numpy.zeros(size)


def standardized(frame, x, y, members):
    """The risk difference of two arms, standardised over strata by hand."""
    found = {}
    for arm in (0, 1):
        means = frame[frame[x] == arm].groupby(members, observed=True)[y].mean()
        weights = frame.groupby(members, observed=True).size() / len(frame)
        found[arm] = float((means * weights).sum())
    return found[1] - found[0]


class Analyses(unittest.TestCase):
    """Each is one analysis: a diagram, data, and what is asked for."""

    def setUp(self):
        # (a warning would be a workaround that is wanted)
        self.caught = warnings.catch_warnings()
        self.caught.__enter__()
        warnings.simplefilter("error", causal.DataWarning)
        warnings.simplefilter("error", causal.DiagramWarning)

    def tearDown(self):
        self.caught.__exit__(None, None, None)

    def near(self, found, wanted, delta):
        self.assertAlmostEqual(float(found), wanted, delta=delta)

    def test_confounding_with_names_of_another_language(self):
        source, zero = of_size(8000)
        age = source.choice(["moins de 40", "40 à 60", "plus de 60"], 8000, p=[0.3, 0.4, 0.3])
        old = numpy.select([age == "40 à 60", age == "plus de 60"], [0.3, 0.6], 0.0)
        drug = chance(source, 0.2 + old / 2)
        death = chance(source, 0.1 + 0.12 * drug + old / 3)
        frame = pandas.DataFrame({"âge (années)": pandas.Categorical(age, ["moins de 40", "40 à 60", "plus de 60", "inconnu"])})
        frame["traitement"], frame["décès à 30 jours"] = drug, death
        diagram = Diagram.from_edges(
            [("âge (années)", "traitement"), ("âge (années)", "décès à 30 jours"), ("traitement", "décès à 30 jours")],
            exposure="traitement", outcome="décès à 30 jours",
        )  # fmt: skip
        found = diagram.contrast(frame, treated=1, control=0, outcome=1, resamples=200, seed=1)
        self.near(found.difference, standardized(frame, "traitement", "décès à 30 jours", ["âge (années)"]), 1e-12)
        self.near(found.difference, 0.12, 0.03)
        self.assertIn(r"\text{décès à 30 jours}", diagram.identify().latex)
        with tempfile.TemporaryDirectory() as folder:
            report = diagram.report(frame, treated=1, control=0, outcome=1, resamples=50)
            report.save(os.path.join(folder, "report.html"))
            self.assertGreater(os.path.getsize(os.path.join(folder, "report.html")), 1000)

    def test_front_door(self):
        source, zero = of_size(40_000)
        hidden = chance(source, zero + 0.5)
        x = chance(source, 0.2 + 0.6 * hidden)
        m = chance(source, 0.1 + 0.7 * x)
        frame = pandas.DataFrame({"X": x, "M": m, "Y": chance(source, 0.1 + 0.3 * m + 0.4 * hidden)})
        found = Diagram(read_example("front_door.dag")).contrast(frame, treated=1, control=0, outcome=1, resamples=100, seed=1)
        self.near(found.difference, 0.21, 0.02)
        by_hand = 0.0
        for arm, sign in ((1, 1), (0, -1)):
            for level in (0, 1):
                inner = sum((frame.X == other).mean() * frame[(frame.X == other) & (frame.M == level)].Y.mean() for other in (0, 1))
                by_hand += sign * (frame[frame.X == arm].M == level).mean() * inner
        self.near(found.difference, by_hand, 1e-12)

    def test_napkin(self):
        source, zero = of_size(30_000)
        one, two = chance(source, zero + 0.5), chance(source, zero + 0.5)
        w = chance(source, 0.2 + 0.3 * one + 0.3 * two)
        z = chance(source, 0.2 + 0.6 * w)
        x = chance(source, 0.2 + 0.4 * z + 0.3 * one)
        frame = pandas.DataFrame({"W": w, "Z": z, "X": x, "Y": chance(source, 0.1 + 0.3 * x + 0.4 * two)})
        diagram = Diagram(read_example("napkin.dag"))
        for level in (0, 1):
            self.near(diagram.contrast(frame, treated=1, control=0, outcome=1, at={"Z": level}, resamples=0).difference, 0.3, 0.04)
        self.assertEqual(len(diagram.pin_spread(frame).effects), 2)

    def test_a_mediator(self):
        source, zero = of_size(20_000)
        c = chance(source, zero + 0.5)
        x = chance(source, 0.3 + 0.4 * c)
        m = chance(source, 0.2 + 0.4 * x + 0.2 * c)
        frame = pandas.DataFrame({"C": c, "X": x, "M": m, "Y": chance(source, 0.1 + 0.1 * x + 0.3 * m + 0.2 * c)})
        diagram = Diagram("dag { X [exposure] Y [outcome] C -> X -> M -> Y X -> Y C -> M C -> Y }")
        total = diagram.contrast(frame, treated=1, control=0, outcome=1, resamples=100, seed=1)
        self.near(total.difference, 0.22, 0.03)
        both = diagram.contrast(frame, x=["X", "M"], treated=(1, 0), control=(0, 0), outcome=1, resamples=100, seed=1)
        self.near(both.difference, 0.1, 0.03)

    def test_a_trial_with_noncompliance(self):
        source, zero = of_size(10_000)
        assigned, hidden = chance(source, zero + 0.5), chance(source, zero + 0.5)
        taken = assigned * chance(source, 0.3 + 0.6 * hidden)
        frame = pandas.DataFrame({"Z": assigned, "X": taken, "Y": chance(source, 0.3 + 0.2 * taken + 0.2 * hidden)})
        diagram = Diagram("dag { Z -> X -> Y X <-> Y }")
        self.near(diagram.contrast(frame, "Z", "Y", treated=1, control=0, outcome=1, resamples=100, seed=1).difference, 0.12, 0.03)
        with self.assertRaises(causal.NotIdentifiable) as refused:
            diagram.contrast(frame, "X", "Y", treated=1, control=0, outcome=1)
        self.assertIsInstance(refused.exception.place, causal.Hedge)
        bounds = diagram.bounds(frame, "X", "Y", instrument="Z").difference(1, 1, 0)
        self.assertTrue(float(bounds.at_least) <= 0.2 <= float(bounds.at_most))

    def test_two_treatments_over_time(self):
        source, zero = of_size(60_000)
        before = chance(source, zero + 0.5)
        first = chance(source, 0.3 + 0.4 * before)
        between = chance(source, 0.3 + 0.3 * before - 0.2 * first)
        second = chance(source, 0.2 + 0.5 * between)
        y = chance(source, 0.4 - 0.1 * first - 0.05 * second + 0.3 * between)
        frame = pandas.DataFrame({"L0": before, "A0": first, "L1": between, "A1": second, "Y": y})
        diagram = Diagram("dag { L0 -> A0 L0 -> L1 A0 -> L1 L1 -> A1 A0 -> Y A1 -> Y L1 -> Y }")
        found = diagram.contrast(frame, ["A1", "A0"], "Y", treated=(1, 1), control=(0, 0), outcome=1, resamples=100, seed=1)
        self.near(found.difference, -0.15 - 0.2 * 0.3, 0.02)
        # the levels stand in the order that was typed
        self.near(diagram.contrast(frame, ["A1", "A0"], "Y", treated=(1, 0), control=(0, 0), outcome=1, resamples=0).difference, -0.05, 0.02)

    def test_a_collider_that_must_not_be_adjusted_for(self):
        source, zero = of_size(20_000)
        one, two = chance(source, zero + 0.5), chance(source, zero + 0.5)
        m = chance(source, 0.1 + 0.4 * one + 0.4 * two)
        x = chance(source, 0.2 + 0.5 * one)
        frame = pandas.DataFrame({"M": m, "X": x, "Y": chance(source, 0.2 + 0.2 * x + 0.4 * two)})
        diagram = Diagram("dag { X [exposure] Y [outcome] X <-> M M <-> Y X -> Y }")
        refused = diagram.adjusts("M")
        self.assertEqual((bool(refused), str(refused.path)), (False, "X <-> M <-> Y"))
        with self.assertRaisesRegex(causal.RequestError, "can't be adjusted for"):
            diagram.contrast(frame, treated=1, control=0, outcome=1, set=["M"])
        self.near(diagram.contrast(frame, treated=1, control=0, outcome=1, resamples=100, seed=1).difference, 0.2, 0.03)

    def test_among_some(self):
        source, zero = of_size(30_000)
        sick = chance(source, zero + 0.4)
        x = chance(source, 0.3 + 0.3 * sick)
        frame = pandas.DataFrame({"S": sick, "X": x, "Y": chance(source, 0.1 + 0.1 * x + 0.2 * sick + 0.1 * x * sick)})
        diagram = Diagram("dag { S -> X -> Y <- S }")
        found = diagram.contrast(frame, "X", "Y", given={"S": 1}, treated=1, control=0, outcome=1, resamples=100, seed=1)
        self.near(found.difference, 0.2, 0.03)

    def test_twelve_variables(self):
        source, zero = of_size(50_000)
        ses, sex = source.integers(0, 3, 50_000), source.integers(0, 2, 50_000)
        smoke = chance(source, 0.2 + 0.1 * (2 - ses))
        age = numpy.minimum(4, source.poisson(1.6, 50_000))
        bmi = numpy.minimum(3, source.poisson(0.6 + 0.2 * ses, 50_000))
        chol = numpy.minimum(4, source.poisson(0.5 + 0.4 * bmi + 0.2 * smoke))
        statin = chance(source, numpy.minimum(0.02 + 0.08 * chol + 0.07 * age + 0.02 * ses, 0.95))
        bp = chance(source, 0.1 + 0.05 * bmi + 0.05 * age)
        ldl = chance(source, 0.6 - 0.3 * statin + 0.05 * chol)
        plaque = chance(source, 0.05 + 0.2 * ldl + 0.1 * smoke)
        visit = chance(source, 0.3 + 0.1 * ses)
        mi = chance(source, 0.02 + 0.15 * plaque + 0.05 * bp + 0.02 * age + 0.01 * sex)
        names = ["ses", "sex", "smoke", "age", "bmi", "chol", "statin", "bp", "ldl", "plaque", "visit", "mi"]
        frame = pandas.DataFrame(dict(zip(names, (ses, sex, smoke, age, bmi, chol, statin, bp, ldl, plaque, visit, mi))))
        diagram = Diagram(
            "dag { statin [exposure] mi [outcome] ses -> smoke ses -> bmi ses -> statin ses -> visit sex -> mi smoke -> chol smoke -> plaque"
            " age -> statin age -> bp age -> mi bmi -> chol bmi -> bp chol -> statin chol -> ldl statin -> ldl -> plaque -> mi bp -> mi }"
        )
        found = diagram.contrast(frame, treated=1, control=0, outcome=1, resamples=20, seed=1)
        self.near(found.difference, -0.3 * 0.2 * 0.15, 0.01)
        support = diagram.support(frame)
        self.assertGreater(len(support.records), 10)
        modelled = diagram.estimate(frame, treated=1, control=0, outcome=1, method="aipw")
        self.near(modelled.difference, -0.009, 0.01)
        tests = diagram.test_implications(frame)
        self.assertLess(sum(test.p_holm is not None and test.p_holm < 0.05 for test in tests), 3)

    def test_a_published_table(self):
        # the passengers of the Titanic, as R has them: survivors and dead, by class, sex and age
        cells = {
            ("1st", "Male", "Child"): (5, 0), ("1st", "Male", "Adult"): (57, 118), ("1st", "Female", "Child"): (1, 0),
            ("1st", "Female", "Adult"): (140, 4), ("2nd", "Male", "Child"): (11, 0), ("2nd", "Male", "Adult"): (14, 154),
            ("2nd", "Female", "Child"): (13, 0), ("2nd", "Female", "Adult"): (80, 13), ("3rd", "Male", "Child"): (13, 35),
            ("3rd", "Male", "Adult"): (75, 387), ("3rd", "Female", "Child"): (14, 17), ("3rd", "Female", "Adult"): (76, 89),
            ("Crew", "Male", "Adult"): (192, 670), ("Crew", "Female", "Adult"): (20, 3),
        }  # fmt: skip
        rows = [(*cell, level, number) for cell, both in cells.items() for level, number in zip(("Yes", "No"), both)]
        frame = pandas.DataFrame(rows, columns=["Class", "Sex", "Age", "Survived", "n"])
        diagram = Diagram("dag { Sex [exposure] Survived [outcome] Class -> Sex Class -> Survived Age -> Sex Age -> Survived Class <-> Age Sex -> Survived }")
        found = diagram.effects(frame, count="n").at("Yes", "Female")
        self.near(found, 0.753610928971963, 1e-13)

    def test_a_numeric_outcome_with_three_arms(self):
        source, zero = of_size(5000)
        c = source.integers(0, 3, 5000)
        dose = numpy.minimum(2, source.poisson(0.4 + 0.3 * c))
        frame = pandas.DataFrame({"C": c, "dose": dose, "days": source.poisson(2 + dose + c)})
        diagram = Diagram("dag { dose [exposure] days [outcome] C -> dose -> days <- C }")
        means = diagram.bootstrap(frame, resamples=50, seed=1).effect_means()
        for arm, mean in enumerate(means):
            inside = frame[frame.dose == arm].groupby("C").days.mean()
            self.near(mean.value, float((inside * frame.groupby("C").size() / 5000).sum()), 1e-9)
            self.assertTrue(mean.interval.lower < float(mean.value) < mean.interval.upper)
        self.near(diagram.estimate(frame, treated=2, control=0).difference, 2.0, 0.4)

    def test_random_diagrams_with_known_truth(self):
        source = numpy.random.default_rng(SOURCE)
        known = 0
        for _ in range(40):
            names, hidden = list("ABCDE"), [(a, b) for a in range(5) for b in range(a + 1, 5) if source.random() < 0.15]
            arrows = [(a, b) for a in range(5) for b in range(a + 1, 5) if source.random() < 0.4]
            diagram = Diagram.from_edges(
                [(names[a], names[b]) for a, b in arrows], bidirected=[(names[a], names[b]) for a, b in hidden], vertices=names
            )
            sizes = (2,) * (len(hidden) + 5)
            axes = numpy.indices(sizes)
            factors = []
            for vertex in range(5):
                parents = [len(hidden) + a for a, b in arrows if b == vertex] + [k for k, pair in enumerate(hidden) if vertex in pair]
                table = source.uniform(0.2, 0.8, (2,) * len(parents))
                up = table[tuple(axes[parent] for parent in parents)] if parents else table * numpy.ones(sizes)
                factors.append(numpy.where(axes[len(hidden) + vertex] == 1, up, 1 - up))
            seen = tuple(range(len(hidden)))
            joint = numpy.prod(factors, axis=0).sum(axis=seen) / 2 ** len(hidden)
            counts = numpy.rint(joint * 10**13).astype(int)
            data = {name: [int(at[k]) for at in numpy.ndindex(joint.shape)] for k, name in enumerate(names)}
            data["n"] = [int(counts[at]) for at in numpy.ndindex(joint.shape)]
            answer = diagram.identify("B", "E")
            for options in ({}, {"short": False}, {"short": False, "zero": False}):
                if not answer:
                    with self.assertRaises(causal.NotIdentifiable):
                        diagram.effects(data, "B", "E", count="n", **options)
                    continue
                known += 1
                found = diagram.effects(data, "B", "E", count="n", **options)
                done = numpy.prod([factor for vertex, factor in enumerate(factors) if vertex != 1], axis=0).sum(axis=seen) / 2 ** len(hidden)
                for arm in (0, 1):
                    self.near(found.at(1, arm), float(done[:, arm, :, :, 1].sum()), 1e-9)
        self.assertGreater(known, 60)


if __name__ == "__main__":
    unittest.main()
