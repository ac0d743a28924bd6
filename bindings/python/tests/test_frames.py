"""Data frames that count their own records, each tested where its library is there: the same answers as of the records."""
import unittest

from test_databases import COUNTS, KIDNEY, by_cell, random_records, records_of
from worked import read_example

import causal
from causal import Diagram

NAPKIN = Diagram(read_example("napkin.dag"))


class Kinds:
    """What holds of each kind of data frame; `frame` makes one of columns."""

    def test_effects_of_records_and_of_counts(self):
        expected = by_cell(KIDNEY.effects(COUNTS, count="n", exact=True))
        self.assertEqual(by_cell(KIDNEY.effects(self.frame(COUNTS), count="n", exact=True)), expected)
        self.assertEqual(by_cell(KIDNEY.effects(self.frame(records_of(COUNTS, "n")), exact=True)), expected)

    def test_random_records(self):
        data = random_records(400, 5)
        found, expected = [NAPKIN.effects(it, exact=True, at={"Z": 1}) for it in (self.frame(data), data)]
        self.assertEqual(by_cell(found), by_cell(expected))
        self.assertEqual(len(NAPKIN.pin_spread(self.frame(data))), 2)

    def test_intervals_and_tests_come_from_the_counts(self):
        answers = [KIDNEY.bootstrap(self.frame(it), resamples=10, seed=1) for it in (records_of(COUNTS, "n"), random_order(COUNTS))]
        self.assertEqual(answers[0].draws, answers[1].draws)
        chain, data = Diagram("dag { W -> Z -> X -> Y }"), random_records(200, 3)
        tests, others = [chain.test_implications(it, method="permutation", permutations=5) for it in (self.frame(data), data)]
        for test, other in zip(tests, others):
            self.assertAlmostEqual(test.statistic, other.statistic)

    def test_missing_values(self):
        diagram = Diagram("dag { X -> Y }")
        data = {"X": ["a", "a", "b", "b", None, None, "a"], "Y": [0.0, 1.0, 0.0, 1.0, 1.0, 1.0, None]}
        with self.assertRaisesRegex(causal.MissingValues, "X has no value in 2 of 7 records"):
            diagram.effects(self.frame(data), "X", "Y")
        found, expected = [diagram.effects(it, "X", "Y", missing="drop", exact=True) for it in (self.frame(data), data)]
        self.assertEqual((found.dropped, by_cell(found)), (3, by_cell(expected)))
        data = {"X": ["a", "b", None, "a", "b"], "Y": [0, 1, 1, 1, 0]}
        found, expected = [diagram.effects(it, "X", "Y", missing="level", exact=True) for it in (self.frame(data), data)]
        self.assertEqual(by_cell(found), by_cell(expected))
        data = {"X": ["a", "a", "b", "b", "a"], "Y": [0, 1, 0, 1, 0], "n": [1.0, 2.0, 3.0, 4.0, None]}
        found, expected = [diagram.effects(it, "X", "Y", count="n", missing="drop") for it in (self.frame(data), data)]
        self.assertEqual((found.dropped, by_cell(found)), (1, by_cell(expected)))
        with self.assertRaises(causal.MissingValues):
            diagram.effects(self.frame(data), "X", "Y", count="n")

    def test_refusals(self):
        for wrong in (-1, 0.5):
            with self.assertRaises(causal.CountsError) as caught:
                KIDNEY.effects(self.frame({**COUNTS, "n": [*COUNTS["n"][:-1], wrong]}), count="n")
            self.assertEqual(caught.exception.number, 4)
        with self.assertRaises(causal.CountsError) as caught:
            KIDNEY.effects(self.frame({"S": ["a"], "T": ["b"]}))
        self.assertEqual((caught.exception.number, caught.exception.place), (2, "R"))

    def test_names(self):
        diagram = Diagram('dag { "a.b `c`" -> count }')
        data = {"a.b `c`": [0, 0, 1, 1], "count": [0, 1, 1, 1]}
        found, expected = [diagram.effects(it, "a.b `c`", "count", exact=True) for it in (self.frame(data), data)]
        self.assertEqual(by_cell(found), by_cell(expected))


def random_order(counts):
    """The records in another order."""
    return {name: values[::-1] for name, values in records_of(counts, "n").items()}


class Dask(Kinds, unittest.TestCase):
    """Data frames of Dask."""

    def setUp(self):
        try:
            import dask.dataframe
            import pandas
        except ImportError:
            self.skipTest("no dask")
        self.frame = lambda data: dask.dataframe.from_pandas(pandas.DataFrame(data), npartitions=3)

    def test_categories_and_texts_for_counts(self):
        import dask.dataframe
        import pandas

        data = pandas.DataFrame(COUNTS).astype({"T": "category"})
        found = KIDNEY.effects(dask.dataframe.from_pandas(data, npartitions=2), count="n", exact=True)
        self.assertEqual(by_cell(found), by_cell(KIDNEY.effects(COUNTS, count="n", exact=True)))
        with self.assertRaises(causal.CountsError):
            KIDNEY.effects(self.frame({**COUNTS, "n": ["many"] * 8}), count="n")


class Polars(Kinds, unittest.TestCase):
    """Data frames of polars."""

    def setUp(self):
        try:
            import polars
        except ImportError:
            self.skipTest("no polars")
        self.frame = lambda data: polars.LazyFrame(data, strict=False)

    def test_one_that_is_not_lazy(self):
        expected = by_cell(KIDNEY.effects(COUNTS, count="n", exact=True))
        self.assertEqual(by_cell(KIDNEY.effects(self.frame(COUNTS).collect(), count="n", exact=True)), expected)


class Spark(Kinds, unittest.TestCase):
    """Data frames of Spark."""

    def setUp(self):
        try:
            from pyspark.sql import SparkSession
        except ImportError:
            self.skipTest("no pyspark")
        session = SparkSession.builder.master("local[1]").getOrCreate()
        self.frame = lambda data: session.createDataFrame(list(zip(*data.values())), list(data))


if __name__ == "__main__":
    unittest.main()
