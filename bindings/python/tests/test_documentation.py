"""The examples of the docstrings, of the README and of the tutorials."""
import doctest
import importlib.machinery
import importlib.util
import os
import pkgutil
import subprocess
import sys
import tempfile
import unittest

import causal

HERE = os.path.dirname(os.path.abspath(__file__))
OPTIONAL = ("numpy", "pandas", "networkx", "matplotlib", "igraph")
# Calls that need a package which their example doesn't name.
CALLS = {"networkx": "to_networkx(", "matplotlib": ".plot(", "numpy": ".estimate("}


def lacking_in(test):
    """The first package that an example imports and that isn't there."""
    for name in OPTIONAL:
        needed = any(name in example.source for example in test.examples)
        try:
            importlib.import_module(name)
        except ImportError:
            if needed or name in CALLS and CALLS[name] in test.docstring:
                return name
    return None


def skip(name):
    """Ends a test as skipped."""

    def set_up(test):
        raise unittest.SkipTest(f"no {name}")

    return set_up


def example(test):
    """The examples of one docstring as a test, skipped by name where a package isn't there."""
    lacking = lacking_in(test)
    return doctest.DocTestCase(test, setUp=skip(lacking) if lacking else None)


def load_tests(loader, tests, pattern):
    finder = doctest.DocTestFinder(exclude_empty=True)
    for module in [causal, *(importlib.import_module(f"causal.{info.name}") for info in pkgutil.iter_modules(causal.__path__))]:
        for test in finder.find(module):
            if test.examples:
                tests.addTest(example(test))
    top = os.path.join(HERE, "..")
    tutorials = sorted(os.listdir(os.path.join(top, "tutorial")))
    for name in ["README.md", *(os.path.join("tutorial", name) for name in tutorials if name.endswith(".md"))]:
        with open(os.path.join(top, name), encoding="utf-8") as file:
            tests.addTest(example(doctest.DocTestParser().get_doctest(file.read(), {}, name, name, 0)))
    return tests


class Scripts(unittest.TestCase):
    """The scripts beside the tutorials."""

    def test_a_hundred_million_with_fewer(self):
        top = os.path.join(HERE, "..")
        with tempfile.TemporaryDirectory() as folder:
            command = [sys.executable, os.path.join(top, "tutorial", "hundred_million.py"), os.path.join(folder, "patients.db"), "20000"]
            environment = {**os.environ, "PYTHONPATH": os.pathsep.join([top, os.environ.get("PYTHONPATH", "")])}
            told = subprocess.run(command, env=environment, stdout=subprocess.PIPE, check=True, universal_newlines=True).stdout
        self.assertIn("12 rows stand for 20000 records", told)
        self.assertRegex(told, r"risk difference 0\.\d+, from 0\.\d+ to 0\.\d+")


class EachPublicName(unittest.TestCase):
    """Each public function and class of the package has a docstring, and is listed."""

    def test_dir(self):
        self.assertLessEqual({*causal.__all__, "__version__"}, set(dir(causal)))
        for name in dir(causal):
            self.assertIsNotNone(getattr(causal, name, None) or name == "annotations", name)

    def test_the_site_has_each(self):
        loader = importlib.machinery.SourceFileLoader("build", os.path.join(HERE, "..", "docs", "build"))
        build = importlib.util.module_from_spec(importlib.util.spec_from_loader("build", loader))
        loader.exec_module(build)
        self.assertEqual(sorted(causal.__all__), sorted(name for _, names in build.REFERENCE.values() for name in names))
        self.assertEqual(build.inline("a `b` and [c](tutorial/d.md)"), "a ``b`` and :doc:`c <d>`")

    def test_docstrings(self):
        for name in causal.__all__:
            self.assertTrue(getattr(causal, name).__doc__, name)
        for name, method in vars(causal.Diagram).items():
            if not name.startswith("_"):
                self.assertTrue(method.__doc__, name)


if __name__ == "__main__":
    unittest.main()
