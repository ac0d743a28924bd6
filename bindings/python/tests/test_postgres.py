"""Tables of PostgreSQL, with a server that the tests start. CAUSAL_TEST_RECORDS says how many records the large one has (200,000)."""
import getpass
import glob
import os
import pwd
import shutil
import subprocess
import tempfile
import unittest

from worked import read_example

import causal
from causal import Diagram

try:
    import psycopg2
except ImportError:
    psycopg2 = None

KIDNEY = Diagram(read_example("kidney_stones.dag"))
PROGRAMS = sorted(glob.glob("/usr/lib/postgresql/*/bin"))


def user_of_server():
    """The user that runs the server, which refuses to be root."""
    return "postgres" if os.geteuid() == 0 else getpass.getuser()


class Server(unittest.TestCase):
    """A server of its own, which listens in a folder alone."""

    @classmethod
    def setUpClass(cls):
        if psycopg2 is None:
            raise unittest.SkipTest("no psycopg2")
        if not PROGRAMS:
            raise unittest.SkipTest("no postgresql")
        try:
            owner = pwd.getpwnam(user_of_server())
        except KeyError:
            raise unittest.SkipTest("no user that may run postgresql") from None
        cls.folder = tempfile.mkdtemp()
        os.chown(cls.folder, owner.pw_uid, owner.pw_gid)
        cls.data = os.path.join(cls.folder, "data")
        cls.run_program("initdb", "-D", cls.data, "-A", "trust", "-E", "UTF8", "--locale=C.UTF-8", "-U", "tester")
        options = f"-c listen_addresses= -c unix_socket_directories={cls.folder} -c fsync=off"
        cls.run_program("pg_ctl", "-D", cls.data, "-w", "-t", "120", "-l", os.path.join(cls.folder, "log"), "-o", options, "start")
        cls.connection = psycopg2.connect(host=cls.folder, user="tester", dbname="postgres")
        cls.connection.autocommit = True

    @classmethod
    def tearDownClass(cls):
        cls.connection.close()
        cls.run_program("pg_ctl", "-D", cls.data, "-m", "immediate", "stop")
        shutil.rmtree(cls.folder, ignore_errors=True)

    @classmethod
    def run_program(cls, name, *words):
        user = {"user": user_of_server()} if os.geteuid() == 0 else {}
        with open(os.devnull, "wb") as nothing:
            command = [os.path.join(PROGRAMS[-1], name), *words]
            subprocess.run(command, stdout=nothing, stderr=nothing, stdin=subprocess.DEVNULL, cwd=cls.folder, check=True, timeout=240, **user)

    def execute(self, *queries):
        with self.connection.cursor() as cursor:
            for query in queries:
                cursor.execute(query)

    def test_counts(self):
        self.execute(
            'CREATE TABLE kidney ("S" text, "T" text, "R" integer, n bigint)',
            "INSERT INTO kidney VALUES ('small','A',1,81),('small','A',0,6),('small','B',1,234),('small','B',0,36),"
            "('large','A',1,192),('large','A',0,71),('large','B',1,55),('large','B',0,25)",
        )
        found = KIDNEY.effects((self.connection, "kidney"), count="n", exact=True)
        self.assertEqual(str(found.at(1, "A").exact), "634983/762700")
        self.assertEqual(KIDNEY.support((self.connection, "kidney"), count="n").records, ((263, 80), (87, 270)))
        estimate = KIDNEY.estimate((self.connection, "kidney"), treated="A", control="B", outcome=1, count="n")
        self.assertEqual(estimate.records, 700)

    def test_many_records(self):
        size = int(os.environ.get("CAUSAL_TEST_RECORDS", "200000"))
        self.execute(
            f'CREATE TABLE many AS SELECT k % 2 AS "S", (k / 2) % 2 AS "T", (k / 4) % 3 % 2 AS "R" FROM generate_series(1, {size}) k'
        )
        found = KIDNEY.contrast((self.connection, "many"), treated=1, control=0, outcome=1, resamples=50)
        self.assertAlmostEqual(float(found.treated), 1 / 3, places=3)
        self.assertIn("50 resamples", str(found))

    def test_nulls(self):
        self.execute('CREATE TABLE gaps AS SELECT * FROM (VALUES (1, 1, 1), (1, NULL, 0), (1, 0, 1), (1, 0, 0)) v ("S", "T", "R")')
        with self.assertRaisesRegex(causal.MissingValues, "T has no value in 1 of 4 records"):
            KIDNEY.effects((self.connection, "gaps"))
        self.assertEqual(KIDNEY.effects((self.connection, "gaps"), missing="drop").dropped, 1)

    def test_schemas_and_names(self):
        self.execute('CREATE SCHEMA "Clinic"', 'CREATE TABLE "Clinic"."All Records" AS SELECT 1 AS "S", k % 2 AS "T", k / 2 AS "R" FROM generate_series(0, 3) k')
        found = KIDNEY.effects((self.connection, ("Clinic", "All Records")), exact=True)
        self.assertEqual(str(found.at(1, 1).exact), "1/2")
        self.execute("CREATE TABLE folded (S integer, T integer, R integer)")
        with self.assertRaisesRegex(causal.CountsError, "no column (S|T|R); did you mean (s|t|r)"):
            KIDNEY.effects((self.connection, "folded"))

    def test_a_collation_without_case(self):
        try:
            self.execute("CREATE COLLATION folded_case (provider = icu, locale = 'und-u-ks-level2', deterministic = false)")
        except psycopg2.Error:
            raise unittest.SkipTest("postgresql without icu") from None
        self.execute(
            'CREATE TABLE letters ("S" text COLLATE folded_case, "T" integer, "R" integer)',
            "INSERT INTO letters VALUES ('a', 0, 0), ('A', 0, 1), ('A', 1, 0), ('a', 1, 1)",
        )
        with self.assertRaisesRegex(causal.RequestError, "takes several texts of the column S for one"):
            KIDNEY.effects((self.connection, "letters"))

    def test_the_query(self):
        self.execute('CREATE TABLE asked AS SELECT k % 2 AS "S", k / 2 % 2 AS "T", k / 4 AS "R" FROM generate_series(0, 7) k')
        with self.connection.cursor() as cursor:
            cursor.execute(causal.counts_query(KIDNEY, "asked"))
            rows = cursor.fetchall()
            names = [column[0] for column in cursor.description]
        data = {name: list(column) for name, column in zip(names, zip(*rows))}
        self.assertEqual(KIDNEY.effects(data, count="count").effects, KIDNEY.effects((self.connection, "asked")).effects)


if __name__ == "__main__":
    unittest.main()
