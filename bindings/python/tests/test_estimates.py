"""Estimates by models over a proved formula: against statsmodels and scikit-learn, and what is told beside them."""
import os
import random
import tempfile
import unittest
import unittest.mock
import warnings

from worked import read_example

import causal
from causal import Diagram
from causal.estimates import by_influence

try:
    import numpy
except ImportError:
    raise unittest.SkipTest("no numpy") from None
try:
    import pandas
    import statsmodels.api
    import statsmodels.formula.api
except ImportError:
    statsmodels = None
try:
    import sklearn.linear_model
except ImportError:
    sklearn = None

needs_statsmodels = unittest.skipIf(statsmodels is None, "no statsmodels")
needs_sklearn = unittest.skipIf(sklearn is None, "no sklearn")
STUDY = Diagram("dag { drug [exposure] death [outcome] age -> drug age -> death sex -> drug sex -> death drug -> death }")
ARMS = {"treated": 1, "control": 0, "outcome": 1}


def study(size, seed=1):
    """Records in which a drug adds 0.1 or so to the risk."""
    source = random.Random(seed)
    data = {"age": [source.gauss(5, 1) for _ in range(size)], "sex": [source.choice(("f", "m")) for _ in range(size)]}
    data["drug"] = [int(source.random() < age / 10) for age in data["age"]]
    chances = [age / 20 + 0.1 * drug + 0.1 * (sex == "m") for age, drug, sex in zip(data["age"], data["drug"], data["sex"])]
    data["death"] = [int(source.random() < chance) for chance in chances]
    return data


class AgainstOthers(unittest.TestCase):
    """The same numbers as other packages have."""

    @needs_statsmodels
    def test_standardization(self):
        data = study(400)
        frame = pandas.DataFrame(data)
        binomial = statsmodels.api.families.Binomial()
        model = statsmodels.formula.api.glm("death ~ drug + age + sex", frame, family=binomial).fit(tol=1e-14)
        found = STUDY.estimate(data, **ARMS)
        for level, estimate in ((1, found.treated), (0, found.control)):
            self.assertAlmostEqual(float(estimate), model.predict(frame.assign(drug=level)).mean(), delta=1e-10)
        self.assertAlmostEqual(found.fits[0].log_likelihood, model.llf, places=8)

    @needs_statsmodels
    def test_three_levels(self):
        data = study(500)
        data["death"] = [min(2, death + (k % 5 == 0)) for k, death in enumerate(data["death"])]
        frame = pandas.DataFrame(data)
        model = statsmodels.formula.api.mnlogit("death ~ drug + age + sex", frame).fit(disp=0, tol=1e-14, maxiter=100)
        found = STUDY.estimate(data, treated=1, control=0, outcome=2)
        self.assertAlmostEqual(float(found.treated), model.predict(frame.assign(drug=1))[2].mean(), delta=1e-10)

    @needs_statsmodels
    def test_a_mean(self):
        data = study(300)
        data["death"] = [death + age for death, age in zip(data["death"], data["age"])]
        frame = pandas.DataFrame(data)
        model = statsmodels.formula.api.ols("death ~ drug + age + sex", frame).fit()
        found = STUDY.estimate(data, treated=1, control=0)
        self.assertAlmostEqual(float(found.difference), model.params["drug"], delta=1e-10)
        robust = model.get_robustcov_results("HC0").bse[list(model.params.index).index("drug")]
        width = (found.difference.interval.upper - found.difference.interval.lower) / 2 / 1.959963984540054
        self.assertAlmostEqual(width / robust, (300 / 299) ** 0.5, places=6)

    @needs_sklearn
    def test_weights_and_the_doubly_robust(self):
        data = study(400)
        learner = sklearn.linear_model.LogisticRegression(penalty=None, tol=1e-10, max_iter=10_000)
        for method in ("formula", "ipw", "aipw"):
            own = STUDY.estimate(data, **ARMS, method=method)
            other = STUDY.estimate(data, **ARMS, method=method, model=learner, resamples=5)
            self.assertAlmostEqual(float(own.difference), float(other.difference), places=5)
            self.assertEqual((own.interval_kind, other.interval_kind), ("influence", "percentile"))
            self.assertIn("LogisticRegression", str(other))

    def test_a_table_is_what_the_program_evaluates(self):
        kidney = Diagram(read_example("kidney_stones.dag"))
        data = {"S": ["s"] * 4 + ["l"] * 4, "T": ["A", "A", "B", "B"] * 2, "R": [1, 0] * 4, "n": [81, 6, 234, 36, 192, 71, 55, 25]}
        found = kidney.estimate(data, treated="A", control="B", outcome=1, count="n", model="table", smoothing=0, resamples=20)
        wanted = kidney.contrast(data, treated="A", control="B", outcome=1, count="n", resamples=0)
        for name in ("treated", "control", "difference", "ratio", "odds_ratio"):
            self.assertAlmostEqual(float(getattr(found, name)), float(getattr(wanted, name)), places=12)

    def test_other_formulas_by_tables(self):
        for name, x, y in (("front_door.dag", "X", "Y"), ("napkin.dag", "X", "Y")):
            diagram = Diagram(read_example(name))
            data = diagram.simulate(4000, seed=3)
            found = diagram.estimate(data, x, y, **ARMS, model="table", smoothing=0, resamples=2)
            wanted = diagram.contrast(data, x, y, **ARMS, resamples=0)
            self.assertAlmostEqual(float(found.difference), float(wanted.difference), places=12)
        self.assertEqual(found.pinned, {"Z": 0})
        among = Diagram("dag { X -> Y Z -> Y Z -> X }")
        data = among.simulate(500, seed=4)
        found = among.estimate(data, "X", "Y", **ARMS, given={"Z": 1}, model="table", smoothing=0, resamples=2)
        self.assertAlmostEqual(float(found.difference), float(among.contrast(data, "X", "Y", **ARMS, given={"Z": 1}, resamples=0).difference))


class Fixed:
    """A model that says the same of each row."""

    def fit(self, rows, wanted, sample_weight=None):
        self.classes_ = numpy.unique(wanted)
        return self

    def predict_proba(self, rows):
        return numpy.full((len(rows), len(self.classes_)), 1 / len(self.classes_))


def drawn_numbers(size, seed=5):
    """A hidden cause of X and Y, a number M between them, and a number C before all; with the risks under both levels of X."""
    source = numpy.random.RandomState(seed)
    hidden, c = source.uniform(size=size), source.normal(size=size)
    x = source.uniform(size=size) < 1 / (1 + numpy.exp(-(c + 2 * hidden - 1)))
    m = source.normal(x + 0.5 * c)

    def risk(m):
        return 1 / (1 + numpy.exp(-(m + hidden - 1 + 0.5 * c)))

    y = source.uniform(size=size) < risk(m)
    data = {"X": x.astype(int), "M": m, "C": c, "Y": y.astype(int)}
    return data, [float(risk(level + 0.5 * c + m - x - 0.5 * c).mean()) for level in (1, 0)]


class OtherFormulas(unittest.TestCase):
    """Numbers that are summed over, effects among the treated, and trials."""

    DOOR = Diagram("dag { X [exposure] Y [outcome] X -> M -> Y X <-> Y C -> X C -> M C -> Y }")

    def test_numbers_are_summed_over(self):
        data, truth = drawn_numbers(3000)
        found = self.DOOR.estimate(data, **ARMS, resamples=2)
        self.assertAlmostEqual(float(found.treated), truth[0], delta=0.05)
        self.assertAlmostEqual(float(found.control), truth[1], delta=0.05)
        self.assertIn("P(M|X,C): linear, with the errors of the records, 3 parameters", str(found))
        self.assertIn("as numbers: M, C", str(found))
        mean = self.DOOR.estimate({**data, "Y": data["Y"] + data["M"]}, treated=1, control=0, resamples=2)
        self.assertAlmostEqual(float(mean.difference), truth[0] - truth[1] + 1, delta=0.1)

    def test_classes_agree_with_levels(self):
        data, _ = drawn_numbers(1500)
        few = {**data, "C": numpy.round(data["C"]), "M": numpy.round(data["M"], 1)}
        levels = self.DOOR.estimate({**few, "M": numpy.clip(few["M"], -2.9, 3.3)}, **ARMS, resamples=2)
        classes = self.DOOR.estimate(few, **ARMS, resamples=2)
        self.assertIn("linear, with the errors of the records", str(levels.fits[0]))
        self.assertAlmostEqual(float(levels.difference), float(classes.difference), delta=0.03)

    @needs_statsmodels
    def test_the_treated(self):
        data = study(400)
        frame = pandas.DataFrame(data)
        model = statsmodels.formula.api.glm("death ~ drug + age + sex", frame, family=statsmodels.api.families.Binomial()).fit(tol=1e-14)
        for observed in (1, 0):
            found = STUDY.estimate(data, **ARMS, observed=observed, resamples=2)
            own = frame[frame["drug"] == observed]
            for level, estimate in ((1, found.treated), (0, found.control)):
                self.assertAlmostEqual(float(estimate), model.predict(own.assign(drug=level)).mean(), delta=1e-10)
        self.assertIn("among those for whom drug=0 was observed", str(found))
        bow = Diagram(read_example("bow.dag"))
        with self.assertRaises(causal.NotIdentifiable):
            bow.estimate(bow.simulate(50), **ARMS, observed=1)

    def test_the_treated_by_tables(self):
        kidney = Diagram(read_example("kidney_stones.dag"))
        data = {"S": ["s"] * 4 + ["l"] * 4, "T": ["A", "A", "B", "B"] * 2, "R": [1, 0] * 4, "n": [81, 6, 234, 36, 192, 71, 55, 25]}
        found = kidney.estimate(data, treated="A", control="B", outcome=1, count="n", observed="B", model="table", smoothing=0, resamples=2)
        self.assertAlmostEqual(float(found.treated), 270 / 350 * 81 / 87 + 80 / 350 * 192 / 263, places=12)
        self.assertAlmostEqual(float(found.control), 289 / 350, places=12)

    def test_a_trial(self):
        trial = Diagram(read_example("trial.dag"))
        held = {"Z": [0, 0, 0, 0, 1, 1, 1, 1] * 5, "X": [0, 0, 1, 1] * 10, "Y": [0, 1, 1, 1] * 10}
        asked = {**ARMS, "trials": {"Z": held}, "model": "table", "smoothing": 0, "resamples": 5}
        found = trial.estimate(None, **asked, at={"Z": 1})
        self.assertAlmostEqual(float(found.difference), 0.5, places=12)
        self.assertIn("P(Y|do(Z),X): table", str(found))
        self.assertEqual(found.pinned, {"Z": 1})
        with self.assertRaisesRegex(causal.NotIdentifiable, "no formula found from these experiments"):
            Diagram(read_example("bow.dag")).estimate(None, **{**asked, "trials": {"Y": held}})
        with self.assertRaisesRegex(causal.RequestError, "without set"):
            trial.estimate(None, **asked, set=[])

    def test_observations_and_a_trial(self):
        diagram = Diagram("dag { X [exposure] Y [outcome] X -> W -> Y X <-> W V -> Y V -> X }")
        observed = {"V": ["a", "a", "b", "b"] * 8, "W": [0, 1] * 16, "Y": [0, 1, 1, 1] * 4 + [1, 1, 0, 1] * 4}
        done = {"X": [0] * 10 + [1] * 10, "W": [0] * 8 + [1] * 2 + [0] * 4 + [1] * 6}
        asked = {**ARMS, "trials": {"X": done}, "model": "table", "smoothing": 0, "resamples": 5}
        found = diagram.estimate(observed, **asked)
        # P(Y=1|W=0) = 1/2 and P(Y=1|W=1) = 1 at each level of V
        self.assertAlmostEqual(float(found.treated), 0.4 * 0.5 + 0.6, places=12)
        self.assertAlmostEqual(float(found.control), 0.8 * 0.5 + 0.2, places=12)
        self.assertEqual(found.records, 52)
        with self.assertRaisesRegex(causal.RequestError, "data has their records"):
            diagram.estimate(None, **asked)


class Intervals(unittest.TestCase):
    """Intervals by influence functions and by draws."""

    def test_alike(self):
        data = study(400)
        data["age"] = [round(age) for age in data["age"]]
        for method in ("formula", "ipw", "aipw"):
            plain = STUDY.estimate(data, **ARMS, method=method)
            drawn = STUDY.estimate(data, **ARMS, method=method, interval="percentile", resamples=100)
            for a, b in zip(plain.rows[:3], drawn.rows[:3]):
                widths = [it.interval.upper - it.interval.lower for it in (a, b)]
                self.assertLess(abs(widths[0] / widths[1] - 1), 0.35)

    def test_of_trees(self):
        # how a number moves with a record's weight, against the models fitted anew to other weights
        source, held = random.Random(5), {name: [] for name in "WZXYM"}
        for _ in range(300):
            w, u = source.randrange(3), source.random()
            z = int(source.random() < 0.3 + 0.2 * w)
            x = int(source.random() < 0.2 + 0.5 * z)
            m = int(source.random() < 0.2 + 0.6 * x)
            for name, value in zip("WZXMY", (w, z, x, m, int(source.random() < 0.2 + 0.4 * m + 0.3 * u))):
                held[name].append(value)
        trial = {"X": [0, 1] * 40, "M": [int(source.random() < 0.2 + 0.6 * (k % 2)) for k in range(80)]}
        parts = Diagram("dag { X [exposure] Y [outcome] X -> M -> Y X <-> M W -> Y W -> X }")
        for name, diagram, more in (
            ("front door", Diagram(read_example("front_door.dag")), {}),
            ("napkin", Diagram(read_example("napkin.dag")), {}),
            ("the treated", Diagram("dag { X [exposure] Y [outcome] W -> X -> Y <- W }"), {"observed": 1}),
            ("a trial", parts, {"trials": {"X": trial}}),
        ):
            with self.subTest(name):
                kept = {}

                def spied(rows, estimator, *others):
                    kept.update(rows=rows, estimator=estimator)
                    return by_influence(rows, estimator, *others)

                with unittest.mock.patch("causal.estimates.by_influence", spied):
                    found = diagram.estimate(held, **ARMS, **more)
                self.assertEqual(found.interval_kind, "influence")
                weights, estimator = kept["rows"].weights, kept["estimator"]
                sources = weights if isinstance(weights, tuple) else (weights,)
                moves, place = estimator.moves(weights), 0
                for k, own in enumerate(sources):
                    for row in range(0, len(own), 3):
                        ends = []
                        for sign in (1, -1):
                            changed = [it.copy() for it in sources]
                            changed[k][row] *= 1 + sign * 1e-3
                            estimator.fit(tuple(changed) if isinstance(weights, tuple) else changed[0])
                            ends.append(estimator.numbers(None))
                        for arm in (0, 1):
                            slope = (ends[0][arm] - ends[1][arm]) / (2e-3 * own[row])
                            self.assertAlmostEqual(slope, moves[arm][place + row], delta=1e-4 * abs(slope) + 1e-8)
                    place += len(own)
                drawn = diagram.estimate(held, **ARMS, **more, interval="percentile", resamples=60)
                widths = [it.difference.interval.upper - it.difference.interval.lower for it in (found, drawn)]
                self.assertLess(abs(widths[0] / widths[1] - 1), 0.5)

    def test_a_survey(self):
        data = study(300)
        data["w"] = [1 + k % 3 for k in range(300)]
        data["psu"], data["h"] = [k // 5 for k in range(300)], [k // 150 for k in range(300)]
        found = STUDY.estimate(data, **ARMS, weights="w", clusters="psu", strata="h")
        drawn = STUDY.estimate(data, **ARMS, weights="w", clusters="psu", strata="h", interval="percentile", resamples=100)
        self.assertEqual(float(found.difference), float(drawn.difference))
        widths = [it.difference.interval.upper - it.difference.interval.lower for it in (found, drawn)]
        self.assertLess(abs(widths[0] / widths[1] - 1), 0.35)
        self.assertIn("weights w, clusters psu, strata h", str(found))

    def test_whole_weights_are_no_frequencies(self):
        source = random.Random(3)
        data = {"X": [0, 1] * 300, "Y": [source.randrange(2) for _ in range(600)], "w": [source.randrange(50, 400) for _ in range(600)]}
        edge = Diagram("dag { X -> Y }")
        with self.assertWarnsRegex(causal.DataWarning, "w holds frequencies, .* the weights of a survey are named by weights"):
            by = [edge.contrast(data, "X", "Y", **ARMS, resamples=300, **{kind: "w"}) for kind in ("count", "weights")]
        self.assertEqual(by[0].difference, by[1].difference)
        widths = [it.interval.difference.upper - it.interval.difference.lower for it in by]
        self.assertGreater(widths[1], 8 * widths[0])
        # the linearised interval of a weighted difference
        plain = edge.estimate(data, "X", "Y", **ARMS, weights="w").difference.interval
        self.assertLess(abs((plain.upper - plain.lower) / widths[1] - 1), 0.25)

    def test_fractional_weights(self):
        data = {"X": [0, 1] * 20, "Y": [0, 0, 1, 1] * 10, "w": [0.5, 1.5, 0.25, 1.25] * 10}
        found = Diagram("dag { X -> Y }").effects(data, "X", "Y", weights="w")
        self.assertAlmostEqual(float(found.at(1, 0)), 1 / 3, places=10)
        with self.assertRaisesRegex(causal.CountsError, "the weight of record 1"):
            Diagram("dag { X -> Y }").effects({**data, "w": [-1] * 40}, "X", "Y", weights="w")
        with self.assertRaisesRegex(causal.RequestError, "give one"):
            Diagram("dag { X -> Y }").bootstrap(data, "X", "Y", weights="w", count="w")


class Told(unittest.TestCase):
    """What is told beside the numbers."""

    def test_separation(self):
        data = study(200)
        data["death"] = data["drug"]
        with self.assertWarnsRegex(causal.DataWarning, "told apart perfectly"):
            found = STUDY.estimate(data, **ARMS)
        self.assertIn("told apart perfectly", str(found))
        self.assertIn("told apart perfectly", found._repr_html_())
        self.assertEqual(found._table()[0][-1], "note")
        self.assertIn("told apart perfectly", found._table()[1][0][-1])

    def test_lost_resamples(self):
        data = {"Z": ["a"] * 30 + ["b"] * 2, "X": [0, 1] * 16, "Y": [0, 0, 1, 1] * 8}
        among = Diagram("dag { X [exposure] Y [outcome] Z -> X -> Y <- Z }")
        with self.assertWarnsRegex(causal.DataWarning, "of the resamples have no value"):
            found = among.estimate(data, **ARMS, model="table", smoothing=0, resamples=50)
        self.assertIn("of the resamples have no value", str(found))
        self.assertGreater(found.without_value, 5)
        with self.assertRaisesRegex(causal.RequestError, "no record has some condition; give smoothing"):
            among.estimate({**data, "X": [0, 1] * 15 + [1, 1]}, **ARMS, model="table", smoothing=0)

    def test_computed(self):
        found = STUDY.estimate(study(200), **ARMS)
        for text in (str(found), found._repr_html_()):
            self.assertIn("computed: by the formula&#x27;s terms" if "<" in text else "computed: by the formula's terms", text)
            self.assertNotIn("proved", text)

    def test_a_model_that_warns(self):
        class Warner(Fixed):
            def fit(self, rows, wanted, sample_weight=None):
                warnings.warn("it didn't converge")
                return super().fit(rows, wanted)

        with self.assertWarnsRegex(causal.DataWarning, "its fit warned: it didn't converge"):
            found = STUDY.estimate(study(50), **ARMS, model=Warner(), resamples=2)
        self.assertIn("its fit warned: it didn't converge", str(found))

    def test_a_fit_that_stops_early(self):
        with unittest.mock.patch("causal.models.MOST_STEPS", 1), self.assertWarnsRegex(causal.DataWarning, "it didn't converge"):
            found = STUDY.estimate(study(200), **ARMS)
        self.assertFalse(found.fits[0].converged)
        self.assertIn("P(death|drug,age,sex): logistic, 4 parameters", str(found))
        self.assertIn("it didn't converge", str(found.frame()["note"][0]) if pandas else "it didn't converge")

    def test_what_a_model_cannot_take(self):
        class Narrow(Fixed):
            def fit(self, rows, wanted, sample_weight=None):
                raise ValueError("too many columns")

        class Blind(Fixed):
            def fit(self, rows, wanted, sample_weight=None):
                super().fit(rows, wanted)
                self.classes_ = self.classes_[:1]
                return self

            def predict_proba(self, rows):
                return super().predict_proba(rows)[:, :1]

        with self.assertRaisesRegex(causal.RequestError, r"the model Narrow of P\(death\|drug,age,sex\) can't be fitted: too many columns"):
            STUDY.estimate(study(50), **ARMS, model=Narrow())
        with self.assertWarnsRegex(causal.DataWarning, r"P\(death\|drug,age,sex\): no record that it was fitted to has death=1"):
            STUDY.estimate(study(50), **ARMS, model=Blind(), resamples=2)

    def test_extreme_weights(self):
        data = study(300)
        data["drug"] = [int(age > 5) if k % 50 else int(age <= 5) for k, age in enumerate(data["age"])]
        with warnings.catch_warnings(record=True) as caught:
            warnings.simplefilter("always")
            found = STUDY.estimate(data, **ARMS, method="ipw")
        self.assertTrue(any("extreme" in str(it.message) or "weights leave" in str(it.message) for it in caught))
        self.assertLess(sum(found.weighting.effective), sum(found.weighting.records))
        self.assertEqual([it.column for it in found.weighting.balance], ["age", "sex=m"])

    def test_balance(self):
        found = STUDY.estimate(study(2000), **ARMS, method="ipw")
        for it in found.weighting.balance:
            self.assertLess(abs(it.after), 0.02)
        self.assertGreater(abs(found.weighting.balance[0].before), 0.2)

    def test_refusals(self):
        data = study(50)
        for more, told in (
            ({"method": "matching"}, "method is"),
            ({"model": "forest"}, "a model is"),
            ({"model": 3}, "has the methods fit"),
            ({"interval": "bca"}, "interval is"),
            ({"model": "table", "interval": "influence"}, "percentile"),
            ({"set": ["age"]}, "can't be adjusted for"),
            ({"outcome": 7}, "death has no level 7"),
            ({"factors": "Sex"}, "factors names Sex, which is no vertex; did you mean sex"),
            ({"model": {"Death": "table"}}, "model names Death, which is no vertex; did you mean death"),
            ({"model": "table", "smoothing": -1}, "smoothing is a number of records from 0 on"),
            ({"level": 95}, "level lies between 0 and 1"),
            ({"control": 1}, "treated and control are one arm"),
            ({"at": 3}, "at names levels"),
        ):
            with self.subTest(more), self.assertRaisesRegex(causal.RequestError, told):
                STUDY.estimate(data, **{**ARMS, **more})
        front_door = Diagram(read_example("front_door.dag"))
        with self.assertRaisesRegex(causal.RequestError, "no set may be adjusted for"):
            front_door.estimate(front_door.simulate(50), **ARMS, method="aipw")
        napkin = Diagram(read_example("napkin.dag"))
        with self.assertRaisesRegex(causal.RequestError, "the mean of Y can't be had"):
            napkin.estimate(napkin.simulate(50), treated=1, control=0)
        text = {**data, "death": ["yes", "no"] * 25}
        with self.assertRaisesRegex(causal.RequestError, "isn't a number: give the level"):
            STUDY.estimate(text, treated=1, control=0)

    def test_many_levels(self):
        chain = Diagram("dag { X -> M -> Y X <-> Y }")
        source = random.Random(2)
        data = {"X": [source.randrange(2) for _ in range(200)], "M": [source.random() for _ in range(200)]}
        data["Y"] = [source.random() for _ in range(200)]
        with self.assertRaisesRegex(causal.RequestError, "Y has 200 levels: leave outcome out for its mean"):
            chain.estimate(data, "X", "Y", treated=1, control=0, outcome=data["Y"][0])
        for model, told in (("table", "a table can't have a row for each number that M may be"), (Fixed(), "the model Fixed can't give a chance")):
            with self.assertRaisesRegex(causal.RequestError, told):
                chain.estimate({**data, "Y": data["X"]}, "X", "Y", **ARMS, model={"M": model}, resamples=2)

    def test_an_exposure_of_many_numbers(self):
        data = study(200)
        dose = Diagram("dag { age [exposure] death [outcome] sex -> age -> death sex -> death }")
        found = dose.estimate(data, treated=6.0, control=5.0, outcome=1)
        self.assertEqual(found.arms, ({"age": 6.0}, {"age": 5.0}))
        self.assertIn("as numbers: age", str(found))
        with self.assertRaisesRegex(causal.RequestError, "age lies between .* and 50 beyond it"):
            dose.estimate(data, treated=50, control=5.0, outcome=1)
        with self.assertRaisesRegex(causal.RequestError, "weights need few levels of the exposure: age has 200"):
            dose.estimate(data, treated=6.0, control=5.0, outcome=1, method="ipw")


class Reports(unittest.TestCase):
    """Comparisons and reports."""

    DIAGRAM = Diagram('dag { T [exposure] "décès à 30 jours" [outcome] T -> "décès à 30 jours" "age (%)" -> T "age (%)" -> "décès à 30 jours" }')

    def test_a_comparison(self):
        diagram = Diagram("dag { X -> Y A -> B A -> X B -> Y }")
        data = diagram.simulate(2000, seed=7)
        found = diagram.compare(data, "X", "Y", **ARMS, resamples=100)
        self.assertEqual([way.name for way in found.ways], ["crude", "by the formula", "adjusted for {A}", "adjusted for {B}"])
        self.assertTrue(found.agree)
        self.assertIn("crude: risk difference", str(found))
        self.assertRegex(str(found), "natural bounds of the risk difference, whatever is hidden: at least -0[.][0-9]+, at most 0[.][0-9]+")
        self.assertLess(float(found.bounds.at_least), found.ways[1].difference[0])
        self.assertIn("by the formula: E-value", str(found))
        self.assertIn("e_value", found._table()[0])
        self.assertIsNone(diagram.compare({**data, "w": [1.5] * 2000}, "X", "Y", **ARMS, resamples=5, weights="w").bounds)

    def test_models_where_counts_have_no_value(self):
        source = random.Random(5)
        diagram = Diagram("dag { X -> Y A -> X A -> Y }")
        data = {"A": [source.randrange(60) for _ in range(200)], "X": [source.randrange(2) for _ in range(200)]}
        data["Y"] = [source.randrange(2) for _ in range(200)]
        found = diagram.compare(data, "X", "Y", **ARMS, resamples=20)
        self.assertEqual([way.kind for way in found.ways], ["counts", "models", "models"])
        self.assertIn("nothing but the formula is proved", str(found))

    def test_a_report(self):
        data = self.DIAGRAM.simulate(500, seed=2)
        report = self.DIAGRAM.report(data, **ARMS, resamples=50, title="A & B_1")
        for text in (report.html, report.markdown, report.latex):
            for part in ("SHA-256", "500 records were read", "nothing about them is proved", "crude"):
                self.assertIn(part, text)
        self.assertIn(r"\text{décès à 30 jours}", report.latex)
        self.assertIn(r"A \& B\_1", report.latex)
        with tempfile.TemporaryDirectory() as folder:
            report.save(os.path.join(folder, "a.html"))
            with self.assertRaises(causal.RequestError):
                report.save(os.path.join(folder, "a.doc"))
        bow = Diagram(read_example("bow.dag"))
        self.assertIn("isn't identified", bow.report().markdown)
        without = bow.report(bow.simulate(200, seed=1), **ARMS)
        for text in (without.html, without.markdown, without.latex):
            self.assertIn("These bounds hold in every model of the diagram", text)
            self.assertIn("at least", text)

    def test_a_report_has_the_derivation_and_what_was_left_out(self):
        kidney = Diagram(read_example("kidney_stones.dag"))
        data = {"S": ["s", None] * 20, "T": [0, 1, 1, 0] * 10, "R": [0, 1, None, 1, 1] * 8}
        report = kidney.report(data, **ARMS, missing="drop", resamples=20).markdown
        self.assertIn("rule2see", report)
        self.assertIn("24 records were left out, since they lack a value: R in 8; S in 20.", report)

    def test_latex_compiles(self):
        import shutil
        import subprocess

        if shutil.which("pdflatex") is None:
            raise unittest.SkipTest("no pdflatex")
        report = self.DIAGRAM.report(self.DIAGRAM.simulate(200, seed=2), **ARMS, resamples=20)
        with tempfile.TemporaryDirectory() as folder:
            report.save(os.path.join(folder, "report.tex"))
            words = ["pdflatex", "-halt-on-error", "-interaction=nonstopmode", "report.tex"]
            ended = subprocess.run(words, cwd=folder, capture_output=True, timeout=300)
            if b"not found" in ended.stdout and b".sty" in ended.stdout:
                raise unittest.SkipTest("pdflatex without amsmath")
            self.assertEqual(ended.returncode, 0, ended.stdout[-800:])


if __name__ == "__main__":
    unittest.main()
