"""The program `causal` in this process: what it writes, which files it reads, and how it explains a refusal."""
import contextlib
import io
import json
import os
import re
import subprocess
import sys
import tempfile
import unittest

from worked import TOP, all_cases, read_example

from causal import program
from causal.version import VERSION

PACKAGE = os.path.dirname(os.path.dirname(os.path.abspath(program.__file__)))


class Bytes(io.TextIOWrapper):
    """A stream of text over bytes in memory."""

    def __init__(self, content=b""):
        super().__init__(io.BytesIO(content), encoding="utf-8")

    def held(self):
        """What was written, or what is given."""
        self.flush()
        return self.buffer.getvalue()


def ran(words, given=b""):
    """The status and both outputs of a run with this standard input."""
    out, err, before = Bytes(), Bytes(), sys.stdin
    sys.stdin = Bytes(given)
    try:
        with contextlib.redirect_stdout(out), contextlib.redirect_stderr(err):
            status = program.main(words)
    finally:
        sys.stdin = before
    return status, out.held().decode(), err.held().decode()


def started(words, **options):
    """A run as a process of its own."""
    command = [sys.executable, "-m", "causal.program", *words]
    environment = {**os.environ, "PYTHONPATH": PACKAGE}
    return subprocess.run(command, env=environment, stderr=subprocess.PIPE, timeout=100, **options)


class InAFolder(unittest.TestCase):
    """Runs in a folder of files."""

    def setUp(self):
        folder = tempfile.TemporaryDirectory()
        self.addCleanup(folder.cleanup)
        self.addCleanup(os.chdir, os.getcwd())
        os.chdir(folder.name)
        self.put("bow.dag", read_example("bow.dag"))
        self.put("wrong.dag", "dag {\n\tgröße -- B\n}".encode())

    def put(self, name, content):
        """Writes a file."""
        with open(name, "wb") as file:
            file.write(content)


class Worked(InAFolder):
    """The worked cases, over files."""

    def check_case(self, case):
        for name, content in case.inputs.items():
            if name != "-":
                self.put(name, content)
        status, out, err = ran(case.words, case.inputs.get("-", b""))
        self.assertEqual((status, out), (case.status, case.out))
        self.assertTrue(err.startswith(case.err) and bool(err) == bool(case.err), err)

    def test_cases(self):
        number = 0
        for case in all_cases():
            names = [name for name in case.inputs if name != "-"]
            is_answered_here = case.words[:1] in (["--help"], ["--version"])
            if is_answered_here or case.fails or case.status == 6 or any(not name or "/" in name or "\0" in name for name in names):
                continue
            number += 1
            with self.subTest(case.name):
                self.check_case(case)
                for name in names:
                    os.remove(name)
        self.assertGreater(number, 180)


class Refusals(InAFolder):
    """Each refusal has the library's line, a sentence, and the line of the file with a caret."""

    def refused(self, *words, given=b""):
        status, out, err = ran(words, given)
        self.assertEqual(out, "")
        return status, err.splitlines()

    def test_a_place_in_the_graph(self):
        status, lines = self.refused("graph", "wrong.dag")
        sentence = "this edge has no direction (line 2, column 8):"
        self.assertEqual((status, lines), (3, ["causal: graph fault 5: byte 15", sentence, "\tgröße -- B", "\t      ^"]))
        self.assertEqual(self.refused("graph", "-", given=b"dag { a")[1][-1], "       ^")

    def test_a_place_in_the_second_graph(self):
        self.put("fork.dag", read_example("fork.dag"))
        status, lines = self.refused("equivalent", "fork.dag", "wrong.dag")
        self.assertEqual((status, lines[0], lines[2]), (4, "causal: second graph fault 5: byte 15", "\tgröße -- B"))

    def test_a_name(self):
        told = (3, ["causal: target fault 1: Q", "the name is not in the graph: Q"])
        self.assertEqual(self.refused("identify", "bow.dag", "--x", "Q"), told)
        self.assertEqual(self.refused("identify", "bow.dag", "--x", "Q", "--latex"), told)

    def test_an_object(self):
        status, out, err = ran(["identify", "bow.dag", "--x", "Q", "--json"])
        self.assertEqual((status, json.loads(out)["fault"]["name"]), (3, "Q"))
        self.assertEqual(err.splitlines(), ["causal: target fault 1: Q", "the name is not in the graph: Q"])

    def test_counts(self):
        self.put("kidney.dag", read_example("kidney_stones.dag"))
        self.put("few.csv", b"S,T,R\na,b,c\na,B,c\nA,b,c\n")
        status, lines = self.refused("evaluate", "kidney.dag", "few.csv")
        self.assertEqual((status, lines[0].startswith("causal: evaluation fault 1: ")), (5, True))
        self.assertIn("a divisor is 0 over these counts", lines[1])
        self.put("few.csv", b"S,T,R\na,b\n")
        sentence = "this record has another number of fields than the header: record 1"
        self.assertEqual(self.refused("evaluate", "kidney.dag", "few.csv"), (4, ["causal: counts fault 1: row 1", sentence]))

    def test_words(self):
        status, lines = self.refused("separate")
        self.assertEqual((status, len(lines), lines[1]), (2, 2, "`causal --help` shows the commands and their options"))
        self.assertEqual(self.refused(), (status, lines))

    def test_what_cannot_be_read(self):
        os.mkdir("folder")
        reasons = {"nothing": "No such file or directory", "folder": "Is a directory"}
        for name, reason in reasons.items():
            for words in (["graph", name], ["check", "bow.dag", name]):
                with self.subTest(words=words):
                    self.assertEqual(self.refused(*words), (6, ["causal: read failed", f"{name}: {reason}"]))


class Reads(InAFolder):
    """Which files are read, and how often."""

    def reads(self, *words):
        """The status, and the names that were read, with the most bytes of each."""
        read, kept = [], program.content_of

        def content_of(name, most):
            read.append((name.decode(), most))
            return kept(name, most)

        program.content_of = content_of
        try:
            return ran(words)[0], read
        finally:
            program.content_of = kept

    def limits(self, graph, second=0):
        """The most bytes that are asked for, where the library tells them."""
        return (graph + 1, second + 1) if program.knows_inputs() else (program.MOST + 1,) * 2

    def test_the_second_only_where_it_is_asked_for(self):
        graph, second = self.limits(1 << 20, 64 << 20)
        self.assertEqual(self.reads("check", "wrong.dag", "absent"), (3, [("wrong.dag", graph)]))
        self.assertEqual(self.reads("check", "bow.dag", "absent"), (6, [("bow.dag", graph), ("absent", second)]))
        self.assertEqual(self.reads("check", "absent", "bow.dag"), (6, [("absent", graph)]))

    def test_a_name_given_twice(self):
        status, read = self.reads("check", "bow.dag", "bow.dag")
        self.assertEqual((status, [name for name, _ in read]), (4, ["bow.dag"]))

    def test_nothing(self):
        self.assertEqual(self.reads("survey", "1"), (0, []))
        self.assertEqual(self.reads("identify", "bow.dag", "--y"), (2, []))

    def test_too_long(self):
        self.put("long.dag", b"dag {}".ljust((1 << 20) + 5))
        self.assertEqual(ran(["graph", "long.dag"])[2].splitlines()[0], "causal: graph fault 12: over 1048576 bytes")


class Processes(InAFolder):
    """The program as a process: its streams may be closed."""

    def test_help_and_version(self):
        for words, told in ((["--help"], program.USAGE), (["--version"], f"causal {VERSION}\n")):
            end = started(words, stdout=subprocess.PIPE)
            self.assertEqual((end.returncode, end.stdout.decode(), end.stderr), (0, told, b""))

    def test_the_version_is_that_of_the_repository(self):
        with open(os.path.join(TOP, "VERSION"), encoding="utf-8") as file:
            self.assertEqual(file.read(), f"{VERSION}\n")

    def test_help_names_each_command(self):
        commands = ran(["nothing"])[2].splitlines()[0].split(" are ")[1].split()
        shown = [line.split()[0] for line in program.USAGE.splitlines() if line.startswith("    ")]
        self.assertEqual(shown, [*commands, "causal", "causal"])

    @unittest.skipUnless(os.path.exists(os.path.join(TOP, "portable", "usage.h")), "no portable/usage.h")
    def test_help_is_that_of_the_program_in_c(self):
        with open(os.path.join(TOP, "portable", "usage.h"), encoding="utf-8") as file:
            lines = re.findall(r'^ *"(.*)\\n"', file.read(), re.MULTILINE)
        self.assertEqual(program.USAGE.splitlines(), lines)

    def test_standard_input(self):
        end = started(["separate", "-"], input=read_example("collider.dag"), stdout=subprocess.PIPE)
        self.assertEqual((end.returncode, end.stdout[:13], end.stderr), (1, b"not separated", b""))

    @unittest.skipUnless(os.path.exists("/dev/full"), "no /dev/full")
    def test_an_output_that_fails(self):
        with open("/dev/full", "wb") as full:
            end = started(["graph", "bow.dag"], stdout=full)
        self.assertEqual((end.returncode, end.stderr), (7, b"causal: write failed\n"))

    def test_an_output_that_nobody_reads(self):
        reader, writer = os.pipe()
        os.close(reader)
        end = started(["graph", "bow.dag"], stdout=writer)
        os.close(writer)
        self.assertEqual((end.returncode, end.stderr), (7, b"causal: write failed\n"))

    @unittest.skipUnless(hasattr(os, "fork"), "no fork")
    def test_closed_streams(self):
        end = started(["graph", "bow.dag"], preexec_fn=lambda: os.close(1))
        self.assertEqual((end.returncode, end.stderr), (7, b"causal: write failed\n"))
        end = started(["graph", "-"], preexec_fn=lambda: os.close(0))
        self.assertEqual((end.returncode, end.stderr.splitlines()[0]), (6, b"causal: read failed"))

    @unittest.skipUnless(os.name == "posix", "words are no bytes")
    def test_a_word_that_is_not_utf_8(self):
        end = started([b"graph", b"\xff"], stdout=subprocess.PIPE)
        self.assertEqual((end.returncode, end.stdout, end.stderr), (2, b"", b""))

    def test_no_library(self):
        environment = {**os.environ, "PYTHONPATH": PACKAGE, "CAUSAL_LIBRARY": os.path.join(TOP, "VERSION")}
        command = [sys.executable, "-m", "causal.program", "survey", "1"]
        end = subprocess.run(command, env=environment, stdout=subprocess.PIPE, stderr=subprocess.PIPE)
        self.assertEqual((end.returncode, end.stdout), (70, b""))
        self.assertIn(b"can't be used", end.stderr)


if __name__ == "__main__":
    unittest.main()
