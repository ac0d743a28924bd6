#!/usr/bin/env python3
"""beside.py [--runs N] [--seed N] NATIVE PROGRAM..: runs with random inputs, of each program beside the native one.

A run is a command on a random diagram, for some commands with random counts, a certificate or a second diagram; with
--words most are of any words. The programs have to end with the status of the native one, and to write the same. The runs are shared
out among as many processes as there are processors.
"""
from __future__ import annotations

import argparse
import concurrent.futures
import os
import random
import subprocess
import sys
import tempfile
from collections import Counter
from typing import Callable, NamedTuple


class Ending(NamedTuple):
    status: int
    out: bytes
    err: bytes


def ending(program: str, words: list[str]) -> Ending:
    ran = subprocess.run([program, *words], stdin=subprocess.DEVNULL, stdout=subprocess.PIPE, stderr=subprocess.PIPE, timeout=120)
    return Ending(ran.returncode, ran.stdout, ran.stderr)


class Run:
    """The words and files of one run, by its seed. Files are written into the current folder."""

    def __init__(self, seed: int, native: str, of_words: float) -> None:
        self.random, self.native = random.Random(seed), native
        self.names = [f"v{i}" for i in range(self.random.randint(2, 10))]
        self.hidden = {name for name in self.names[1:-1] if self.random.random() < 0.25}
        self.write("g", self.diagram())
        self.command, words = self.random.choice(list(COMMANDS.items()))
        if of_words and self.random.random() < of_words:
            self.command, words = "words", any_words
        self.words = words(self)

    @staticmethod
    def write(name: str, text: str | bytes) -> None:
        with open(name, "wb") as file:
            file.write(text if isinstance(text, bytes) else text.encode())

    def diagram(self) -> str:
        """A diagram over the names, some of which are hidden; now and then it isn't well formed."""
        r = self.random
        rows = [name + " [latent]" * (name in self.hidden) + " [adjusted]" * (r.random() < 0.05) for name in self.names]
        for i, a in enumerate(self.names):
            for b in self.names[i + 1:]:
                edge = r.choices(["", "->", "<->", "<-"], [50, 35, 12, 0.5])[0]
                rows += [f"{a} {edge} {b}"] * bool(edge)
        r.shuffle(rows)
        return "dag {\n" + "\n".join(rows) + "\n}" * (r.random() < 0.98) + "\n"

    def counts(self) -> str:
        """Counts for all names, some with blanks or odd numbers."""
        r = self.random
        levels = [r.randint(1, 3) for _ in self.names]
        rows = [",".join(["count", *self.names])]
        for _ in range(r.randint(1, 300)):
            count = r.choices([str(r.randrange(50)), str(r.randrange(10 ** 9)), "-1", ""], [95, 4, 0.05, 0.05])[0]
            rows.append(",".join([count, *(str(r.randrange(most)) for most in levels)]))
        return "\n".join(rows) + "\n"

    def some(self, *flags: str) -> list[str]:
        """Each of some flags, or not."""
        return [flag for flag in flags if self.random.random() < 0.4]

    def names_for(self, *options: str) -> list[str]:
        """Disjoint lists of names for some options; seldom with hidden ones."""
        left = [name for name in self.names if name not in self.hidden or self.random.random() < 0.1]
        self.random.shuffle(left)
        words = []
        for option in options:
            count = min(len(left), self.random.choice([1, 1, 1, 2]))
            words += [option, ",".join(left[:count]) or "{}"]
            left = left[count:]
        return words

    def effect(self) -> list[str]:
        return ["--x", self.names[0], "--y", self.names[-1]] if self.random.random() < 0.7 else self.names_for("--x", "--y")

    def on_counts(self, *words: str) -> list[str]:
        self.write("counts", self.counts())
        return [*words, "counts", "--count", "count"]

    def check(self) -> list[str]:
        """The certificate of an answer, sometimes with a byte changed."""
        certificate = ending(self.native, ["identify", "g", *self.effect(), "--certificate"]).out
        if certificate and self.random.random() < 0.3:
            at = self.random.randrange(len(certificate))
            certificate = certificate[:at] + bytes([self.random.randrange(32, 127)]) + certificate[at + 1:]
        self.write("certificate", certificate)
        return ["check", "g", "certificate"]

    def equivalent(self) -> list[str]:
        self.write("h", self.diagram())
        return ["equivalent", "g", "h", *(self.names_for("--x", "--y", "--given") if self.random.random() < 0.5 else [])]


def any_words(run: Run) -> list[str]:
    """Words of which few are understood: empty ones, long ones, options and names."""
    r = run.random
    known = ["", "g", "-", "--", "--x", "--y", "--given", "--x=v0", "--json", "--most", "0", "-1", "v0", "v0,v1", "{}", "é", "nothing", ".",
             *(words.split()[0] for words in COMMANDS), "a" * r.choice([200, 4096, 65536, 70000, 131071])]
    return [r.choice(known) for _ in range(r.randrange(1, 6))]


COMMANDS: dict[str, Callable[[Run], list[str]]] = {
    "graph": lambda it: ["graph", "g", *it.some("--project")],
    "separate": lambda it: ["separate", "g", *it.names_for("--x", "--y", "--given")],
    "rule": lambda it: ["rule", "g", "--rule", str(it.random.randint(1, 3)), *it.names_for("--y", "--z", "--do", "--given")],
    "identify": lambda it: ["identify", "g", *it.effect(), *it.some("--certificate", "--latex")[:1], *it.some("--short")],
    "identify given": lambda it: ["identify", "g", *it.names_for("--x", "--y", "--given"), *it.some("--short")],
    "check": Run.check,
    "adjust": lambda it: ["adjust", "g", *it.effect(), *it.some("--back-door")],
    "adjust set": lambda it: ["adjust", "g", *it.names_for("--x", "--y", "--set"), *it.some("--back-door")],
    "evaluate": lambda it: [*it.on_counts("evaluate", "g"), *it.effect(), *it.some("--exact")],
    "implications": lambda it: ["implications", "g"],
    "implications over counts": lambda it: it.on_counts("implications", "g"),
    "equivalent": Run.equivalent,
    "surrogate": lambda it: ["surrogate", "g", *it.effect(), "--experiments", ";".join(it.names_for("--do", "--do")[1::2])],
}


def try_runs(native: str, programs: list[str], of_words: float, seeds: range) -> tuple[Counter[str], list[str]]:
    """How often each command was run with which status, and what differs."""
    met: Counter[str] = Counter()
    wrong = []
    with tempfile.TemporaryDirectory() as folder:
        os.chdir(folder)
        for seed in seeds:
            run = Run(seed, native, of_words)
            wanted = ending(native, run.words)
            met[f"{run.command} {wanted.status}"] += 1
            for program in programs:
                got = ending(program, run.words)
                if got != wanted:
                    wrong.append(f"{program}, run {seed}: {' '.join(run.words)}: {got}, and not {wanted}")
        os.chdir("/")
    return met, wrong


def main() -> int:
    parser = argparse.ArgumentParser(description=__doc__, formatter_class=argparse.RawDescriptionHelpFormatter)
    parser.add_argument("--runs", type=int, default=2000)
    parser.add_argument("--seed", type=int, default=0)
    parser.add_argument("--words", action="store_true", help="most runs of words that aren't understood")
    parser.add_argument("native", metavar="NATIVE")
    parser.add_argument("programs", metavar="PROGRAM", nargs="+")
    options = parser.parse_args()
    native, *programs = map(os.path.abspath, [options.native, *options.programs])
    size = 20
    batches = [range(at, min(at + size, options.seed + options.runs)) for at in range(options.seed, options.seed + options.runs, size)]
    of_words = 0.8 if options.words else 0.0
    met: Counter[str] = Counter()
    wrong: list[str] = []
    with concurrent.futures.ProcessPoolExecutor() as pool:
        for of_batch, faults in pool.map(try_runs, [native] * len(batches), [programs] * len(batches), [of_words] * len(batches), batches):
            met += of_batch
            wrong += faults
    print(*wrong[:20], sep="\n")
    print(f"{options.runs} runs of {len(programs)} programs beside the native one, {len(wrong)} differ; by command and status:")
    print(", ".join(f"{what}: {count}" for what, count in sorted(met.items())))
    return 1 if wrong else 0


if __name__ == "__main__":
    sys.exit(main())
