"""Tables of a database: the same answers as of their records, and the query that counts them."""
import random
import sqlite3
import unittest

from worked import read_example

import causal
from causal import Diagram, counts_query
from causal.databases import DatabaseTable, identifier

try:
    import duckdb
except ImportError:
    duckdb = None

KIDNEY = Diagram(read_example("kidney_stones.dag"))
NAPKIN = Diagram(read_example("napkin.dag"))
COUNTS = {
    "S": ["small"] * 4 + ["large"] * 4,
    "T": ["A", "A", "B", "B"] * 2,
    "R": ["success", "failure"] * 4,
    "n": [81, 6, 234, 36, 192, 71, 55, 25],
}


def held(data, connect=sqlite3.connect, kind=""):
    """A connection with the columns as the table `records`."""
    connection = connect(":memory:")
    connection.execute(f"CREATE TABLE records ({', '.join(f'{identifier(name)} {kind}' for name in data)})")
    connection.executemany(f"INSERT INTO records VALUES ({', '.join('?' * len(data))})", list(zip(*data.values())))
    return connection, "records"


def records_of(data, count):
    """The records that a table of counts stands for."""
    return {name: [v for v, n in zip(data[name], data[count]) for _ in range(n)] for name in data if name != count}


def by_cell(effects):
    """The values of effects by their levels."""
    return {(tuple(effect.y.items()), tuple(effect.x.items())): effect.value for effect in effects}


def random_records(size, seed):
    """Records of two levels for each variable of the napkin, which depend on one another."""
    source = random.Random(seed)
    w = [source.choice(["a", "b"]) for _ in range(size)]
    z = [source.randrange(2) if source.random() < 0.5 else int(level == "a") for level in w]
    x = [source.randrange(2) if source.random() < 0.5 else level for level in z]
    y = [source.randrange(3) if source.random() < 0.7 else level for level in x]
    return {"W": w, "Z": z, "X": x, "Y": y}


class FakeCursor:
    """A cursor whose `execute` gives nothing, as the DB-API has it."""

    def __init__(self, cursor):
        self.cursor = cursor

    def execute(self, query):
        self.cursor.execute(query)

    def fetchmany(self, most):
        return self.cursor.fetchmany(most)

    @property
    def description(self):
        return self.cursor.description


class Bare:
    """A connection that has cursors alone."""

    def __init__(self, connection):
        self.connection = connection

    def cursor(self):
        return FakeCursor(self.connection.cursor())


class Answers(unittest.TestCase):
    """What is answered of a table of a database."""

    def test_effects_of_records_and_of_counts(self):
        expected = by_cell(KIDNEY.effects(COUNTS, count="n", exact=True))
        self.assertEqual(by_cell(KIDNEY.effects(held(COUNTS), count="n", exact=True)), expected)
        self.assertEqual(by_cell(KIDNEY.effects(held(records_of(COUNTS, "n")), exact=True)), expected)

    def test_a_connection_with_cursors_alone(self):
        connection, table = held(COUNTS)
        found = KIDNEY.effects((Bare(connection), table), count="n", exact=True)
        self.assertEqual(by_cell(found), by_cell(KIDNEY.effects(COUNTS, count="n", exact=True)))

    def test_random_records(self):
        for seed in range(5):
            data = random_records(400, seed)
            there = held(data)
            for at in ({"Z": 0}, {"Z": 1}):
                found, expected = [NAPKIN.effects(it, exact=True, at=at) for it in (there, data)]
                self.assertEqual(by_cell(found), by_cell(expected))
            self.assertEqual(len(NAPKIN.pin_spread(there)), 2)

    def test_evaluate(self):
        try:
            import pandas
        except ImportError:
            self.skipTest("no pandas")
        found, expected = [KIDNEY.evaluate(data, count="n", exact=True) for data in (held(COUNTS), COUNTS)]
        order = ["T", "R"]
        pandas.testing.assert_frame_equal(
            found.sort_values(order).reset_index(drop=True), expected.sort_values(order).reset_index(drop=True)
        )

    def test_contrast(self):
        asked = {"treated": "A", "control": "B", "outcome": "success", "count": "n", "exact": True}
        self.assertEqual(KIDNEY.contrast(held(COUNTS), **asked), KIDNEY.contrast(COUNTS, **asked))

    def test_bootstrap_is_the_same_in_whatever_order_the_rows_are(self):
        turned = {name: values[::-1] for name, values in COUNTS.items()}
        one, other, third = [
            KIDNEY.bootstrap(data, count=count, resamples=20, seed=3)
            for data, count in ((held(COUNTS), "n"), (held(turned), "n"), (held(records_of(turned, "n")), None))
        ]
        self.assertEqual(one, other)
        self.assertEqual(one.draws, third.draws)

    def test_implications(self):
        data = random_records(300, 9)
        chain = Diagram("dag { W -> Z -> X -> Y }")
        found, expected = [[abs(pair.difference.value) for pair in chain.implications(it)] for it in (held(data), data)]
        self.assertEqual(found, expected)
        found, expected = [chain.test_implications(it, method="permutation", permutations=20) for it in (held(data), data)]
        self.assertEqual([test.df for test in found], [test.df for test in expected])
        for test, other in zip(found, expected):
            self.assertAlmostEqual(test.statistic, other.statistic)

    def test_the_query_gives_the_counts(self):
        data = held(records_of(COUNTS, "n"))
        cursor = data[0].execute(counts_query(KIDNEY, "records"))
        columns = dict(zip([column[0] for column in cursor.description], zip(*cursor.fetchall())))
        found, expected = KIDNEY.effects(columns, count="count", exact=True), KIDNEY.effects(data, exact=True)
        self.assertEqual(by_cell(found), by_cell(expected))

    def test_duckdb(self):
        if duckdb is None:
            self.skipTest("no duckdb")
        counts = {**COUNTS, "n": list(map(str, COUNTS["n"]))}
        connection, _ = held(counts, duckdb.connect, "VARCHAR")
        connection.execute("CREATE TEMPORARY TABLE t AS SELECT S, T, R, CAST(n AS INTEGER) AS n FROM records")
        found = KIDNEY.effects((connection, "t"), count="n", exact=True)
        self.assertEqual(by_cell(found), by_cell(KIDNEY.effects(COUNTS, count="n", exact=True)))


class Missing(unittest.TestCase):
    """Values that are missing."""

    DATA = {"X": ["a", "a", "b", "b", None, None, "a"], "Y": [0, 1, 0, 1, 1, 1, None]}
    DIAGRAM = Diagram("dag { X -> Y }")

    def test_they_are_refused(self):
        for data in (self.DATA, held(self.DATA)):
            with self.assertRaises(causal.MissingValues) as caught:
                self.DIAGRAM.effects(data, "X", "Y")
            self.assertEqual(caught.exception.place, ("X", 2))
            self.assertIn("2 of 7 records", str(caught.exception))

    def test_they_are_left_out_and_counted(self):
        found, expected = [self.DIAGRAM.effects(it, "X", "Y", missing="drop") for it in (held(self.DATA), self.DATA)]
        self.assertEqual((found.dropped, expected.dropped), (3, 3))
        self.assertEqual(by_cell(found), by_cell(expected))
        query = counts_query(self.DIAGRAM, "records", "X", "Y", missing="drop")
        self.assertEqual(sum(row[-1] for row in held(self.DATA)[0].execute(query)), 4)

    def test_they_are_a_level(self):
        data = {"X": ["a", "b", None, "a", "b"], "Y": [0, 1, 1, 1, 0]}
        found, expected = [self.DIAGRAM.effects(it, "X", "Y", missing="level", exact=True) for it in (held(data), data)]
        self.assertEqual(by_cell(found), by_cell(expected))
        self.assertEqual(found.levels["X"], ["a", "b", None])

    def test_a_count(self):
        data = {"X": ["a", "a", "b", "b", "a"], "Y": [0, 1, 0, 1, 0], "n": [1, 2, 3, 4, None]}
        found, expected = [self.DIAGRAM.effects(it, "X", "Y", count="n", missing="drop") for it in (held(data), data)]
        self.assertEqual((found.dropped, by_cell(found)), (expected.dropped, by_cell(expected)))
        for missing, error in (("error", causal.MissingValues), ("level", causal.CountsError)):
            for it in (data, held(data)):
                with self.assertRaises(error):
                    self.DIAGRAM.effects(it, "X", "Y", count="n", missing=missing)


class Names(unittest.TestCase):
    """Names of columns and of tables."""

    def test_names_with_quotes(self):
        x, y, table = "x] DROP TABLE records; --", "y's `count`", 'a "table"; --'
        diagram = Diagram.from_edges([(x, y)], exposure=x, outcome=y)
        connection, _ = held({x: ["a", "b", "b"], y: [0, 0, 1]})
        connection.execute(f"CREATE TABLE {identifier(table)} AS SELECT * FROM records")
        self.assertEqual([float(effect.value) for effect in diagram.effects((connection, table), exact=True)], [1.0, 0.0, 0.5, 0.5])
        self.assertEqual(len(connection.execute(counts_query(diagram, ("main", table))).fetchall()), 3)

    def test_a_variable_that_is_named_count(self):
        diagram = Diagram("dag { count -> r }")
        data = {"count": [0, 0, 1, 1], "r": [0, 1, 1, 1]}
        self.assertEqual(by_cell(diagram.effects(held(data), "count", "r")), by_cell(diagram.effects(data, "count", "r")))
        self.assertIn('AS "count_"', counts_query(diagram, "t", "count", "r"))

    def test_a_column_that_is_not_there(self):
        for diagram in (Diagram("dag { X -> Z }"), Diagram("dag { X -> x }")):
            with self.assertRaises(causal.CountsError) as caught:
                diagram.effects(held({"X": [0, 1], "Y": [0, 1]}), "X", diagram.vertices[1])
            self.assertEqual((caught.exception.number, caught.exception.place), (2, diagram.vertices[1]))
        with self.assertRaises(sqlite3.OperationalError):
            held({"X": [0]})[0].execute(counts_query(Diagram("dag { X -> Z }"), "records", "X", "Z"))

    def test_backticks(self):
        query = counts_query(Diagram("dag { X -> Y }"), ("s", "t"), "X", "Y", quote="`")
        self.assertIn("FROM `s`.`t` r", query)
        for name in ("a`b", "a\\b"):
            with self.assertRaises(causal.RequestError):
                identifier(name, "`")


class Refusals(unittest.TestCase):
    """What can't be asked."""

    def test_counts(self):
        for wrong in (-1, 0.5, "many"):
            with self.assertRaises(causal.CountsError) as caught:
                KIDNEY.effects(held({**COUNTS, "n": [*COUNTS["n"][:-1], wrong]}), count="n")
            self.assertEqual(caught.exception.number, 4)

    def test_texts_that_the_engine_takes_for_one(self):
        connection = sqlite3.connect(":memory:")
        connection.execute("CREATE TABLE records (X TEXT COLLATE NOCASE, Y)")
        connection.executemany("INSERT INTO records VALUES (?, ?)", [("a", 1), ("A", 0), ("b", 1), ("b", 0)])
        connection.execute("CREATE VIEW apart AS SELECT X COLLATE BINARY AS X, Y FROM records")
        connection.execute("CREATE VIEW alike AS SELECT LOWER(X) AS X, Y FROM records")
        diagram = Diagram("dag { X -> Y }")
        with self.assertRaisesRegex(causal.RequestError, "the column X"):
            diagram.effects((connection, "records"), "X", "Y")
        self.assertEqual(diagram.effects((connection, "apart"), "X", "Y").levels["X"], ["A", "a", "b"])
        self.assertEqual([float(it.value) for it in diagram.effects((connection, "alike"), "X", "Y", exact=True)], [0.5] * 4)

    def test_too_many_levels(self):
        connection = sqlite3.connect(":memory:")
        numbers = "WITH RECURSIVE k(n) AS (SELECT 0 UNION ALL SELECT n + 1 FROM k LIMIT 1048577) SELECT n AS X FROM k"
        connection.execute(f"CREATE VIEW records AS {numbers}")
        with self.assertRaises(causal.CountsError) as caught:
            DatabaseTable(connection, "records").grouped(["X"])
        self.assertEqual(caught.exception.number, 5)

    def test_answers_without_a_formula(self):
        bow = Diagram("dag { X -> Y X <-> Y }")
        with self.assertRaises(causal.NotIdentifiable):
            counts_query(bow, "t", "X", "Y")
        surrogate = Diagram("dag { X -> Z -> Y X <-> Z Z <-> Y }").surrogate("Z", "Y", experiments="Z")
        for answer in (bow.identify("X", "Y"), bow.adjusts((), "X", "Y"), bow.implications(), surrogate):
            with self.assertRaises(causal.RequestError):
                counts_query(answer, "t")

    def test_requests(self):
        answer = KIDNEY.identify()
        for words in ({"x": "T"}, {"missing": "never"}, {"count": "T"}, {"quote": "'"}):
            with self.assertRaises(causal.RequestError):
                counts_query(answer, "t", **words)
        for table in ("", (), ("a", ""), "a\0b"):
            with self.assertRaises(causal.RequestError):
                counts_query(answer, table)
        for table in ("", None, 3):
            with self.assertRaises(causal.RequestError):
                KIDNEY.effects((sqlite3.connect(":memory:"), table))


if __name__ == "__main__":
    unittest.main()
