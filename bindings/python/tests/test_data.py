"""Effects in data: columns, DataFrames and files."""
import math
import os
import random
import tempfile
import unittest
from fractions import Fraction

from worked import read_example

import causal
from causal import Diagram
from causal.columns import may_have_blanks

try:
    import pandas
except ImportError:
    pandas = None

needs_pandas = unittest.skipIf(pandas is None, "no pandas")

KIDNEY = Diagram(read_example("kidney_stones.dag"))
COUNTS = {
    "S": ["small"] * 4 + ["large"] * 4,
    "T": ["A", "A", "B", "B"] * 2,
    "R": ["success", "failure"] * 4,
    "n": [81, 6, 234, 36, 192, 71, 55, 25],
}
# Failure and success under A, and under B.
EXACT = [Fraction(127717, 762700), Fraction(634983, 762700), Fraction(1769, 8000), Fraction(6231, 8000)]


def exact_values(effects):
    """The values as fractions."""
    return [effect.value.exact for effect in effects]


class Columns(unittest.TestCase):
    """A mapping of columns, without pandas."""

    def test_counts(self):
        effects = KIDNEY.effects(COUNTS, count="n", exact=True)
        self.assertEqual(exact_values(effects), EXACT)
        self.assertEqual(effects[0].x, {"T": "A"})
        self.assertEqual(effects.at({"R": "failure"}, {"T": "B"}).exact, EXACT[2])

    def test_records(self):
        records = {name: [level for level, n in zip(COUNTS[name], COUNTS["n"]) for _ in range(n)] for name in "STR"}
        self.assertEqual(exact_values(KIDNEY.effects(records, exact=True)), EXACT)

    def test_bounds(self):
        for effect, true in zip(KIDNEY.effects(COUNTS, count="n"), EXACT):
            self.assertTrue(effect.value.lower <= true <= effect.value.upper)
            lower, upper = effect.value.floats()
            self.assertTrue(Fraction(lower) <= effect.value.lower and effect.value.upper <= Fraction(upper))
            with self.assertRaises(causal.RequestError):
                effect.value.exact

    def test_contrast(self):
        contrast = KIDNEY.contrast(COUNTS, treated="A", control="B", outcome="success", count="n", exact=True)
        self.assertEqual(contrast.difference.exact, EXACT[1] - EXACT[3])
        self.assertEqual(contrast.ratio.exact, EXACT[1] / EXACT[3])
        bounds = KIDNEY.contrast(COUNTS, treated="A", control="B", outcome="success", count="n")
        self.assertTrue(bounds.difference.lower < EXACT[1] - EXACT[3] < bounds.difference.upper)
        self.assertTrue(bounds.ratio.lower < EXACT[1] / EXACT[3] < bounds.ratio.upper)

    def test_contrast_with_zero(self):
        data = {"X": ["a", "b"], "Y": [1, 0]}
        contrast = Diagram("dag { X -> Y }").contrast(data, "X", "Y", treated="a", control="b", outcome=1, exact=True, resamples=0)
        self.assertEqual((contrast.difference.exact, contrast.ratio), (1, None))
        with self.assertRaises(causal.RequestError):
            Diagram("dag { X -> Y }").contrast(data, "X", "Y", treated="c", control="b", outcome=1, resamples=0)

    def test_several_exposures(self):
        data = {"A": [0, 0, 1, 1] * 2, "B": [0, 1] * 4, "Y": [1, 1, 0, 1, 0, 1, 1, 1]}
        diagram = Diagram("dag { A -> Y B -> Y }")
        effects = diagram.effects(data, ["A", "B"], "Y", exact=True)
        self.assertEqual(effects.at({"Y": 1}, {"B": 0, "A": 1}).exact, Fraction(1, 2))
        contrast = diagram.contrast(data, ["A", "B"], "Y", treated=[1, 1], control={"B": 0, "A": 0}, outcome=1, exact=True, resamples=0)
        self.assertEqual(contrast.difference.exact, Fraction(1, 2))

    def test_nothing_is_done(self):
        effects = KIDNEY.effects(COUNTS, x=[], y="R", count="n", exact=True)
        self.assertEqual(str(effects), "P(R=failure) = 69/350\nP(R=success) = 281/350")

    def test_a_pinned_variable(self):
        napkin = Diagram(read_example("napkin.dag"))
        cells = [(w, z, x, y) for w in (0, 1) for z in "ba" for x in (0, 1) for y in (0, 1)]
        data = {name: [cell[k] for cell in cells] for k, name in enumerate("WZXY")}
        effects = napkin.effects(data, exact=True)
        self.assertEqual((effects.pinned, exact_values(effects)), ({"Z": "a"}, [Fraction(1, 2)] * 4))
        self.assertTrue(effects.text.startswith("pinned Z=a\n"))
        self.assertTrue(str(effects).startswith("pinned Z=a (in the population every level gives the same)\n"))

    def test_any_values_are_levels(self):
        levels = [(1, 2), frozenset("a"), None.__class__, b"x", "a,b\n\"c\"", 2.5, True, Fraction(1, 3)]
        data = {"X": levels, "Y": levels[::-1]}
        effects = Diagram("dag { X -> Y }").effects(data, "X", "Y", exact=True)
        self.assertEqual(len(effects), 64)
        self.assertEqual({effect.x["X"] for effect in effects}, set(levels))

    def test_a_vertex_named_count(self):
        data = {"count": ["a", "b", "a"], "count_": [0, 1, 0], "n": [1, 2, 3]}
        effects = Diagram('dag { count -> count_ }').effects(data, "count", "count_", count="n", exact=True)
        self.assertEqual(exact_values(effects), [1, 0, 0, 1])

    def test_the_counts_are_no_variable(self):
        data = {"X": ["a", "b"], "Y": [1, 3]}
        for ask in (Diagram.effects, Diagram.bootstrap):
            with self.assertRaisesRegex(causal.RequestError, "the column Y can't hold the counts"):
                ask(Diagram("dag { X -> Y }"), data, [], "Y", count="Y")
        with self.assertRaises(causal.RequestError):
            Diagram("dag { A -> B -> C }").implications({"A": [1], "B": [1], "C": [1]}, count="B")


class Refused(unittest.TestCase):
    """Data that is refused, with its place."""

    def refused(self, data, **options):
        with self.assertRaises(causal.CausalError) as caught:
            KIDNEY.effects(data, **options)
        return caught.exception

    def test_no_column(self):
        error = self.refused({"S": [], "R": []})
        self.assertEqual((type(error), error.number, error.place), (causal.CountsError, 2, "T"))

    def test_no_records(self):
        self.assertEqual(self.refused({"S": [], "T": [], "R": []}).number, 7)
        self.assertEqual(self.refused({**COUNTS, "n": [0] * 8}, count="n").number, 7)

    def test_no_count(self):
        for wrong in (-1, 1.5, "x", "-1", float("inf"), [], 1j):
            with self.subTest(wrong):
                error = self.refused({**COUNTS, "n": [1] * 7 + [wrong]}, count="n")
                self.assertEqual((type(error), error.number, error.place), (causal.CountsError, 4, 8))
        self.assertEqual(self.refused({**COUNTS, "n": [10**15] * 8}, count="n").number, 6)

    def test_counts_as_whole_floats_and_texts(self):
        for kind in (float, str):
            effects = KIDNEY.effects({**COUNTS, "n": list(map(kind, COUNTS["n"]))}, count="n", exact=True)
            self.assertEqual(exact_values(effects), EXACT)

    def test_no_support(self):
        data = {name: column[:6] for name, column in COUNTS.items()}
        error = self.refused(data, count="n")
        self.assertEqual((type(error), error.number), (causal.EvaluationError, 1))
        self.assertEqual(error.place, (None, 3, {"S": "large", "T": "B", "R": "failure"}))

    def test_missing(self):
        data = {**COUNTS, "T": [None, *COUNTS["T"][1:]], "S": [float("nan"), *COUNTS["S"][1:]], "other": [None] * 8}
        error = self.refused(data, count="n")
        self.assertEqual((type(error), error.place), (causal.MissingValues, ("T", 81)))
        effects = KIDNEY.effects(data, count="n", missing="drop")
        self.assertEqual((effects.dropped, effects.at({"R": "failure"}, {"T": "A"}).lower > 0), (81, True))
        self.assertEqual(self.refused(data, missing="skip").number, None)

    def test_levels_of_dropped_records_are_gone(self):
        data = {"X": ["a", "b", "c"], "Y": [0, 1, None]}
        self.assertEqual(len(Diagram("dag { X -> Y }").effects(data, "X", "Y", missing="drop")), 4)

    def test_different_lengths(self):
        self.assertIsInstance(self.refused({**COUNTS, "R": ["success"]}), causal.RequestError)

    def test_not_identifiable(self):
        with self.assertRaises(causal.NotIdentifiable) as caught:
            Diagram(read_example("bow.dag")).effects({})
        self.assertEqual(caught.exception.place.roots, ("Y",))


class Files(unittest.TestCase):
    """CSV files, which the library reads itself."""

    def setUp(self):
        folder = tempfile.TemporaryDirectory()
        self.addCleanup(folder.cleanup)
        self.path = os.path.join(folder.name, "counts.csv")

    def effects(self, text, diagram=KIDNEY, **options):
        with open(self.path, "wb") as file:
            file.write(text)
        return diagram.effects(self.path, **options)

    def test_file(self):
        effects = self.effects(read_example("kidney_stones.csv"), count="count", exact=True)
        self.assertEqual(exact_values(effects), EXACT)

    def test_path_object(self):
        self.effects(read_example("kidney_stones.csv"), count="count")
        import pathlib

        self.assertEqual(exact_values(KIDNEY.effects(pathlib.Path(self.path), count="count", exact=True)), EXACT)

    def test_levels_as_they_stand(self):
        text = 'X,Y\r\n"a,b",d\r\n"say ""hi""",c\r\n'.encode() + b"\xff,c\r\n"
        effects = self.effects(text, Diagram("dag { X -> Y }"), x="X", y="Y", exact=True)
        self.assertEqual([effect.x["X"] for effect in effects][::2], ["a,b", 'say "hi"', "\udcff"])
        self.assertEqual([effect.y["Y"] for effect in effects][:2], ["c", "d"])

    def test_refused_record(self):
        with self.assertRaises(causal.CountsError) as caught:
            self.effects(b"S,T,R\na,b,c\na,b\n")
        self.assertEqual((caught.exception.number, caught.exception.place), (1, 2))

    def test_no_support(self):
        text = b"".join(read_example("kidney_stones.csv").splitlines(keepends=True)[:-2])
        with self.assertRaises(causal.EvaluationError) as caught:
            self.effects(text, count="count")
        self.assertEqual(caught.exception.place.cell, {"S": "large", "T": "B", "R": "success"})

    def test_no_file(self):
        with self.assertRaises(FileNotFoundError):
            KIDNEY.effects(self.path + "x")

    def test_bootstrap_over_a_file(self):
        self.effects(b"\xef\xbb\xbf" + read_example("kidney_stones.csv"), count="count")
        one = KIDNEY.bootstrap(self.path, count="count", resamples=20)
        other = KIDNEY.bootstrap({**COUNTS, "count": COUNTS["n"]}, count="count", resamples=20)
        self.assertEqual(one.draws, other.draws)


class Blanks(unittest.TestCase):
    """Empty fields of a file are missing values."""

    TEXT = b"S,T,R,n,other\na,x,1,3,\na,x,0,2,\na,y,1,4,\na,y,0,1,\nb,x,1,2,\nb,x,0,2,\nb,y,1,1,\nb,y,0,6,\n"

    def setUp(self):
        folder = tempfile.TemporaryDirectory()
        self.addCleanup(folder.cleanup)
        self.path = os.path.join(folder.name, "counts.csv")

    def put(self, text):
        """Writes the file, and gives its path."""
        with open(self.path, "wb") as file:
            file.write(text)
        return self.path

    def test_blanks_elsewhere_do_not_matter(self):
        exact = KIDNEY.effects(self.put(self.TEXT), count="n", exact=True)
        plain = KIDNEY.effects(self.put(self.TEXT.replace(b",\n", b",z\n")), count="n", exact=True)
        self.assertEqual((exact.effects, exact.dropped), (plain.effects, 0))

    def test_they_are_missing(self):
        for blank in (b"", b'""'):
            path = self.put(self.TEXT + b"a," + blank + b",1,7,\n" + blank + b",x,1,7,z\n")
            with self.assertRaises(causal.MissingValues) as caught:
                KIDNEY.effects(path, count="n")
            self.assertEqual(caught.exception.place, ("T", 7))
            effects = KIDNEY.effects(path, count="n", exact=True, missing="drop")
            whole = KIDNEY.effects(self.put(self.TEXT), count="n", exact=True)
            self.assertEqual((effects.effects, effects.dropped), (whole.effects, 14))

    def test_each_end_of_lines(self):
        for end in (b"\n", b"\r\n", b"\r"):
            plain = self.TEXT.replace(b",\n", b",z\n").replace(b"\n", end)
            self.assertFalse(may_have_blanks(plain))
            for line in (b",x,1,7,z", b"a,x,,7,z", b"a,x,1,7,", b'"",x,1,7,z', b'a,x,1,7,""'):
                self.assertTrue(may_have_blanks(plain + line + end))
                self.assertTrue(may_have_blanks(line + end + plain))
            effects = KIDNEY.effects(self.put(plain + b",x,1,7,z" + end), count="n", missing="drop")
            self.assertEqual(effects.dropped, 7)

    def test_as_a_level(self):
        path = self.put(self.TEXT + b"a,,1,7,\n,x,1,7,z\nb,,0,1,\n,,1,1,\n,y,1,1,\n")
        effects = KIDNEY.effects(path, count="n", missing="level")
        self.assertEqual({effect.x["T"] for effect in effects}, {"x", "y", ""})
        with self.assertRaises(causal.EvaluationError) as caught:
            KIDNEY.effects(self.put(self.TEXT + b",x,1,7,z\n"), count="n", missing="level")
        self.assertEqual(caught.exception.place.cell["S"], "")

    def test_a_blank_count(self):
        path = self.put(self.TEXT + b"a,x,1,,\n")
        for missing in ("error", "drop"):
            with self.assertRaises(causal.CountsError) as caught:
                KIDNEY.effects(path, count="n", missing=missing)
            self.assertEqual((caught.exception.number, caught.exception.place), (4, 9))

    def test_bootstrap(self):
        path = self.put(self.TEXT + b",x,1,7,z\n")
        with self.assertRaises(causal.MissingValues):
            KIDNEY.bootstrap(path, count="n", resamples=1)
        self.assertEqual(KIDNEY.bootstrap(path, count="n", resamples=1, missing="drop").effects.dropped, 7)

    def test_implications(self):
        chain = Diagram("dag { S -> T -> R }")
        path = self.put(self.TEXT + b",x,1,7,z\n")
        with self.assertRaises(causal.MissingValues):
            chain.implications(path, count="n")
        found = chain.implications(path, count="n", missing="drop")
        self.assertEqual((found.implications, found.dropped), (chain.implications(self.put(self.TEXT), count="n").implications, 7))
        self.assertEqual(chain.implications(path, count="n", missing="level").dropped, 0)

    def test_levels_of_frames(self):
        data = {"X": ["a", None, "b", float("nan")], "Y": [0, 1, 1, 0]}
        effects = Diagram("dag { X -> Y }").effects(data, "X", "Y", exact=True, missing="level")
        self.assertEqual([effect.x["X"] for effect in effects][::2], ["a", "b", None])
        self.assertEqual(exact_values(effects)[4:], [Fraction(1, 2)] * 2)

    @needs_pandas
    def test_the_number_is_kept(self):
        frame = KIDNEY.evaluate(self.put(self.TEXT + b",x,1,7,z\n"), count="n", missing="drop")
        self.assertEqual(frame.attrs, {"pinned": {}, "dropped": 7, "notes": ["7 records left out that lack a value"]})
        text = str(KIDNEY.effects(self.path, count="n", missing="drop"))
        self.assertTrue(text.startswith("7 records left out that lack a value\nP("))


class Polars:
    """What the package reads of a DataFrame of polars."""

    class Column:
        """A series."""

        def __init__(self, values, categories=None):
            self.values, self.shape, self.dtype = values, (len(values),), type("Type", (), {"categories": categories})()

        def __iter__(self):
            return iter(self.values)

        def to_list(self):
            """The values."""
            return self.values

    def __init__(self, columns, **categories):
        self.columns = list(columns)
        self.held = [self.Column(values, categories.get(name)) for name, values in columns.items()]
        self.shape = (len(self.held[0].values), len(self.held))

    def to_series(self, place):
        """The column at a place."""
        return self.held[place]


class Arrow:
    """What the package reads of a table of pyarrow."""

    class Column:
        """A column in chunks."""

        def __init__(self, values):
            self.values = values

        def __iter__(self):
            return iter(["a scalar"] * len(self.values))

        def to_pylist(self):
            """The values."""
            return self.values

    def __init__(self, columns):
        self.column_names, self.columns, self.held = list(columns), [], list(columns.values())
        self.shape = (len(self.held[0]), len(self.held))

    def column(self, place):
        """The column at a place."""
        return self.Column(self.held[place])


class Kinds(unittest.TestCase):
    """Data of other kinds: read, or refused in plain words."""

    def test_polars(self):
        self.assertEqual(exact_values(KIDNEY.effects(Polars(COUNTS), count="n", exact=True)), EXACT)
        enum = Polars.Column(["B", "A"])
        effects = KIDNEY.effects(Polars(COUNTS, T=enum), count="n", exact=True)
        self.assertEqual([effect.x["T"] for effect in effects], ["B", "B", "A", "A"])
        with self.assertRaises(causal.MissingValues):
            KIDNEY.effects(Polars({**COUNTS, "S": [None] * 8}), count="n")

    def test_polars_itself(self):
        try:
            import polars
        except ImportError:
            raise unittest.SkipTest("no polars") from None
        data = polars.DataFrame({**COUNTS, "T": polars.Series(COUNTS["T"], dtype=polars.Enum(["B", "A"]))})
        self.assertEqual([effect.x["T"] for effect in KIDNEY.effects(data, count="n")], ["B", "B", "A", "A"])
        self.assertEqual([effect.x["T"] for effect in KIDNEY.effects(data.lazy(), count="n")], ["B", "B", "A", "A"])

    def test_arrow(self):
        self.assertEqual(exact_values(KIDNEY.effects(Arrow(COUNTS), count="n", exact=True)), EXACT)
        with self.assertRaises(causal.CountsError):
            KIDNEY.effects(Arrow({"S": []}))

    def test_arrow_itself(self):
        try:
            import pyarrow
        except ImportError:
            raise unittest.SkipTest("no pyarrow") from None
        self.assertEqual(exact_values(KIDNEY.effects(pyarrow.table(COUNTS), count="n", exact=True)), EXACT)

    def test_what_is_no_data(self):
        lazy = type("LazyFrame", (), {"collect": None})()
        array = type("ndarray", (), {"shape": (2, 2)})()
        plain = [(None, "no NoneType$"), (3, "no int$"), ([1], "no list$")]
        for data, told in (*plain, (lazy, r"no LazyFrame; collect\(\)"), (array, "an array has no")):
            for ask in (KIDNEY.effects, KIDNEY.bootstrap):
                with self.subTest(told), self.assertRaisesRegex(causal.RequestError, told):
                    ask(data)

    def test_what_is_no_column(self):
        for column in (None, 3, "abc", b"abc", {"a": 1}):
            with self.subTest(column), self.assertRaisesRegex(causal.RequestError, "the column S is no list of values"):
                KIDNEY.effects({**COUNTS, "S": column}, count="n")

    def test_what_is_no_level(self):
        with self.assertRaisesRegex(causal.RequestError, "the column S has a value that can't be a level"):
            KIDNEY.effects({**COUNTS, "S": [[1]] * 8}, count="n")

    def test_what_is_no_name_of_counts(self):
        with self.assertRaisesRegex(causal.RequestError, "count is the name of a column, and no int"):
            KIDNEY.effects(COUNTS, count=3)

    @needs_pandas
    def test_arrays(self):
        import numpy

        columns = {name: numpy.array(values) for name, values in COUNTS.items()}
        effects = KIDNEY.effects(columns, count="n", exact=True)
        self.assertEqual((exact_values(effects), type(effects[0].x["T"])), (EXACT, str))
        days = numpy.array(["2020-01-01", "2021-01-01"] * 4, dtype="M8[ns]")
        self.assertEqual(len(KIDNEY.effects({**columns, "T": days}, count="n")), 4)
        for wrong in (numpy.zeros((8, 2)), numpy.zeros(())):
            with self.assertRaises(causal.RequestError):
                KIDNEY.effects({**columns, "S": wrong}, count="n")

    @needs_pandas
    def test_na_of_pandas(self):
        data = {**COUNTS, "S": [pandas.NA, *COUNTS["S"][1:]], "T": [pandas.NaT, *COUNTS["T"][1:]]}
        with self.assertRaises(causal.MissingValues) as caught:
            KIDNEY.effects(data, count="n")
        self.assertEqual(caught.exception.place, ("T", 81))
        self.assertEqual(KIDNEY.effects(data, count="n", missing="drop").dropped, 81)

    @needs_pandas
    def test_a_series_in_a_mapping(self):
        kinds = pandas.Categorical(COUNTS["T"], ["B", "A"])
        effects = KIDNEY.effects({**COUNTS, "T": pandas.Series(kinds)}, count="n", exact=True)
        self.assertEqual([effect.x["T"] for effect in effects], ["B", "B", "A", "A"])


@needs_pandas
class PandasModes(unittest.TestCase):
    """What pandas 2 does by default and pandas 1.5 can be told to do: copies on writing, and types that know a missing value."""

    def test_copy_on_write(self):
        with pandas.option_context("mode.copy_on_write", True):
            frame = pandas.DataFrame(COUNTS)
            view, kept = frame[["S", "T", "R", "n"]], frame.copy()
            self.assertEqual(exact_values(KIDNEY.effects(view, count="n", exact=True)), EXACT)
            drawn = KIDNEY.bootstrap(view, count="n", resamples=20, seed=1).draws
            self.assertEqual(drawn, KIDNEY.bootstrap(COUNTS, count="n", resamples=20, seed=1).draws)
            pandas.testing.assert_frame_equal(frame, kept)

    def test_types(self):
        plain = KIDNEY.contrast(COUNTS, treated="A", control="B", outcome="success", count="n", exact=True)
        kinds = [{}, {"n": "Int64"}, {"S": "string", "T": "string", "R": "string", "n": "UInt16"}]
        kinds += [{"S": "category", "T": "string", "n": "float64"}, {"S": "string[python]", "R": "object", "n": "Int32"}]
        try:
            kinds.append({"T": "string[pyarrow]", "n": "int64[pyarrow]"})
            pandas.DataFrame(COUNTS).astype(kinds[-1])
        except (ImportError, TypeError):
            kinds.pop()
        for types in kinds:
            with self.subTest(types=types):
                frame = pandas.DataFrame(COUNTS).astype(types)
                found = KIDNEY.contrast(frame, treated="A", control="B", outcome="success", count="n", exact=True)
                self.assertEqual((found.difference, found.ratio), (plain.difference, plain.ratio))

    def test_a_missing_string(self):
        frame = pandas.DataFrame(COUNTS).astype({"S": "string", "n": "Int64"})
        frame.loc[0, "S"] = pandas.NA
        with self.assertRaises(causal.MissingValues) as caught:
            KIDNEY.effects(frame, count="n")
        self.assertEqual(caught.exception.place, ("S", 81))
        self.assertEqual(KIDNEY.effects(frame, count="n", missing="drop").dropped, 81)


class Requests(unittest.TestCase):
    """What is asked of effects that aren't there."""

    def test_the_levels_that_are_there(self):
        data = {"X": ["1", "0", "1"], "Y": ["0", "1", "1"]}
        effects = Diagram("dag { X -> Y }").effects(data, "X", "Y")
        told = "there is no effect P(Y=1|do(X=1)) in the data; Y has '0', '1' (did you mean '1'?); X has '0', '1' (did you mean '1'?)"
        with self.assertRaises(causal.RequestError) as caught:
            effects.at({"Y": 1}, {"X": 1})
        self.assertEqual(str(caught.exception), told)

    def test_levels_by_name(self):
        for wrong in ({"T": "A", "S": "small"}, {}, {"S": "small"}):
            with self.assertRaisesRegex(causal.RequestError, "a level is needed for each of T"):
                KIDNEY.contrast(COUNTS, treated=wrong, control="B", outcome="success", count="n")

    def test_moderate_data(self):
        source = random.Random(3)
        data = {"S": [], "T": [], "R": [], "n": []}
        for s in range(12):
            for t in (0, 1):
                for r in (0, 1):
                    for name, value in zip("STRn", (s, t, r, source.randrange(2000, 7000))):
                        data[name].append(value)
        contrast = KIDNEY.contrast(data, treated=1, control=0, outcome=1, count="n")
        self.assertTrue(-1 < float(contrast.difference) < 1 and float(contrast.ratio) > 0)
        with self.assertRaisesRegex(causal.EvaluationError, r"a number passes 2\^127 .*exact=False"):
            KIDNEY.contrast(data, treated=1, control=0, outcome=1, count="n", exact=True)

    def test_parts_of_effects(self):
        effects = KIDNEY.effects(COUNTS, count="n")
        self.assertEqual((effects[1:3], effects[-1]), (effects.effects[1:3], effects.effects[-1]))


@needs_pandas
class Frames(unittest.TestCase):
    """DataFrames in and out."""

    def test_many_rows_are_counted_alike(self):
        from unittest import mock

        from causal.tables import table_of

        source = random.Random(8)
        kinds = {
            "text": [source.choice(["b", "a", "C"]) for _ in range(300)],
            "gaps": [source.choice(["b", None, "a"]) for _ in range(300)],
            "whole": pandas.array([source.choice([2, 10, None]) for _ in range(300)], dtype="Int64"),
            "float": [source.choice([0.1 + 0.2, 0.3, -1.5, float("nan")]) for _ in range(300)],
            "mixed": [source.choice(["x", 1, 2.5, None]) for _ in range(300)],
            "truth": [source.random() < 2 for _ in range(300)],
            "class": pandas.Categorical([source.choice(["low", "high"]) for _ in range(300)], ["low", "mid", "high"], ordered=True),
            "day": pandas.to_datetime([source.choice(["2020-04-03", "2020-01-01"]) for _ in range(300)]),
            "string": pandas.array([source.choice(["b", "a"]) for _ in range(300)], dtype="string"),
        }
        data = pandas.DataFrame({**kinds, "n": [source.randrange(4) for _ in range(300)]})
        for names in (["text", "float"], ["gaps", "whole"], ["mixed"], ["truth", "class"], ["day", "string"], list(kinds)):
            for count in (None, "n"):
                for missing in ("drop", "level"):
                    found = []
                    for many in (1, 1 << 30):
                        with mock.patch("causal.frames.MANY_ROWS", many):
                            found.append(table_of(data, names, count, missing, ["truth", "class"]))
                    first, second = ({**vars(it), "counts": {k: n for k, n in it.counts.items() if n}} for it in found)
                    self.assertEqual(repr(first), repr(second), (names, count, missing))
        with mock.patch("causal.frames.MANY_ROWS", 1), self.assertRaisesRegex(causal.MissingValues, "gaps has no value in .* of 300 records"):
            table_of(data, ["gaps"])

    def test_frame(self):
        frame = KIDNEY.evaluate(pandas.DataFrame(COUNTS), count="n", exact=True)
        self.assertEqual(list(frame.columns), ["T", "R", "estimate", "exact"])
        self.assertEqual(frame["exact"].tolist(), EXACT)
        self.assertEqual(frame["estimate"].tolist(), [float(value) for value in EXACT])

    def test_bounds(self):
        frame = KIDNEY.evaluate(pandas.DataFrame(COUNTS), count="n")
        self.assertEqual(list(frame.columns), ["T", "R", "estimate", "from", "to"])
        for low, value, high, true in zip(frame["from"], frame["estimate"], frame["to"], EXACT):
            self.assertTrue(low <= value <= high and Fraction(low) <= true <= Fraction(high) and high - low < 1e-15)

    def test_columns_with_the_names_of_values(self):
        data = pandas.DataFrame({"from": ["a", "b"], "estimate": [0, 1]})
        frame = Diagram("dag { from -> estimate }").evaluate(data, "from", "estimate")
        self.assertEqual(list(frame.columns), ["from", "estimate", "estimate_", "from_", "to"])

    def test_pinned(self):
        cells = [(w, z, x, y) for w in (0, 1) for z in "ba" for x in (0, 1) for y in (0, 1)]
        frame = Diagram(read_example("napkin.dag")).evaluate(pandas.DataFrame(cells, columns=list("WZXY")))
        self.assertEqual((list(frame.columns[:3]), set(frame["Z"])), (["Z", "X", "Y"], {"a"}))
        self.assertEqual(frame.attrs, {"pinned": {"Z": "a"}, "dropped": 0, "notes": ["pinned Z=a (in the population every level gives the same)"]})

    def test_categories_in_their_order(self):
        data = pandas.DataFrame({"X": ["low", "high", "low", "high"], "Y": [1, 0, 0, 1]})
        data["X"] = pandas.Categorical(data["X"], ["none", "high", "low"], ordered=True)
        frame = Diagram("dag { X -> Y }").evaluate(data, "X", "Y", exact=True)
        self.assertEqual(frame["X"].tolist(), ["high", "high", "low", "low"])

    def test_kinds_of_columns(self):
        columns = {
            "whole": pandas.Series([3, 1, 3, 1]),
            "float": pandas.Series([0.5, 1.5, 0.5, 1.5]),
            "text": pandas.Series(["x", "y", "x", "y"], dtype="string"),
            "bool": pandas.Series([True, False, True, False]),
            "date": pandas.Series(pandas.to_datetime(["2020-01-01", "2021-01-01"] * 2)),
            "category": pandas.Series(["x", "y", "x", "y"], dtype="category"),
            "nullable": pandas.Series([3, 1, 3, 1], dtype="Int64"),
        }
        for name, column in columns.items():
            with self.subTest(name):
                data = pandas.DataFrame({"X": column, "Y": ["a", "a", "b", "b"]})
                effects = Diagram("dag { X -> Y }").effects(data, "X", "Y", exact=True)
                self.assertEqual([effect.x["X"] for effect in effects][::2], sorted(column.tolist()[:2]))
                self.assertEqual(exact_values(effects), [Fraction(1, 2)] * 4)

    def test_missing(self):
        gaps = {
            "float": pandas.Series([1.0, float("nan"), 1.0, 2.0]),
            "object": pandas.Series(["a", None, "a", "b"]),
            "string": pandas.Series(["a", None, "a", "b"], dtype="string"),
            "Int64": pandas.Series([1, None, 1, 2], dtype="Int64"),
            "category": pandas.Series(["a", None, "a", "b"], dtype="category"),
            "date": pandas.Series(pandas.to_datetime(["2020-01-01", None, "2020-01-01", "2021-01-01"])),
        }
        for name, column in gaps.items():
            with self.subTest(name):
                data = pandas.DataFrame({"X": column, "Y": [0, 1, 1, 1], "unused": [None] * 4})
                diagram = Diagram("dag { X -> Y }")
                with self.assertRaises(causal.MissingValues) as caught:
                    diagram.evaluate(data, "X", "Y")
                self.assertEqual(caught.exception.place, ("X", 1))
                effects = diagram.effects(data, "X", "Y", exact=True, missing="drop")
                self.assertEqual((exact_values(effects), effects.dropped), ([Fraction(1, 2), Fraction(1, 2), 0, 1], 1))

    def test_columns_of_the_frame(self):
        data = pandas.DataFrame([[0, "a", 1], [1, "b", 0]], columns=[1, "X", 1])
        with self.assertRaises(causal.CountsError) as caught:
            Diagram("dag { X -> 1 }").evaluate(data, "X", "1")
        self.assertEqual((caught.exception.number, caught.exception.place), (3, "1"))
        effects = Diagram("dag { X -> 1 }").effects(data.iloc[:, :2], "X", "1", exact=True)
        self.assertEqual(exact_values(effects), [1, 0, 0, 1])

    def test_no_records(self):
        with self.assertRaises(causal.CountsError) as caught:
            KIDNEY.evaluate(pandas.DataFrame(COUNTS)[:0])
        self.assertEqual(caught.exception.number, 7)

    def test_an_index_is_no_column(self):
        data = pandas.DataFrame(COUNTS).set_index("n", append=True)
        with self.assertRaises(causal.CountsError):
            KIDNEY.evaluate(data, count="n")

    def test_counts_with_gaps(self):
        data = pandas.DataFrame({**COUNTS, "n": [None, *COUNTS["n"][1:]]})
        with self.assertRaises(causal.MissingValues):
            KIDNEY.evaluate(data, count="n")
        self.assertEqual(KIDNEY.effects(data, count="n", missing="drop").dropped, 1)

    def test_a_table_of_pivots(self):
        counts = pandas.DataFrame(COUNTS).groupby(["S", "T", "R"], sort=False)["n"].sum().reset_index()
        self.assertEqual(KIDNEY.evaluate(counts, count="n", exact=True)["exact"].tolist(), EXACT)

    def test_html(self):
        self.assertIn("<table", KIDNEY.effects(pandas.DataFrame(COUNTS), count="n")._repr_html_())

    def test_bootstrap_frame(self):
        frame = KIDNEY.bootstrap(pandas.DataFrame(COUNTS), count="n", resamples=50).frame()
        self.assertEqual(list(frame.columns), ["T", "R", "estimate", "conf_low", "conf_high", "draws", "note"])
        self.assertTrue((frame["conf_low"] < frame["estimate"]).all() and (frame["estimate"] < frame["conf_high"]).all())

    def test_nothing_to_draw(self):
        data = pandas.DataFrame({"X": ["a", "b"], "Y": [0, 1]})
        with self.assertWarnsRegex(causal.DataWarning, "100% of the resamples have no value"):
            frame = Diagram("dag { X -> Y }").bootstrap(data, "X", "Y", resamples=1, seed=2).frame()
        self.assertTrue(math.isnan(frame["conf_low"][0]))

    def test_adjacency(self):
        names = ["X", "größe", 3]
        matrix = pandas.DataFrame([[0, 1, 1], [0, 0, 2], [0, 0, 0]], index=names, columns=names)
        diagram = Diagram.from_pandas(matrix, bidirected=[("X", "3")], exposure="X")
        self.assertEqual(diagram.edges, (("X", "größe"), ("X", "3"), ("größe", "3")))
        self.assertEqual((diagram.bidirected, diagram.roles), ((("X", "3"),), {"X": "exposure"}))
        for wrong in (matrix.iloc[:2], matrix.set_axis(["a", "b", "c"], axis=0), matrix.where(matrix > 0)):
            with self.assertRaises(causal.RequestError):
                Diagram.from_pandas(wrong)


if __name__ == "__main__":
    unittest.main()
