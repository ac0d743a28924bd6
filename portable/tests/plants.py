#!/usr/bin/env python3
"""plants.py [--turn N [--of M]] [--only TEXT] [--jobs N]: makes wrong edits of what nothing proves, and says which no test tells.
plants.py --stale: says which edits can't be made, since what they replace doesn't stand there once, and for which no test is noted; that
needs no tools.

plant_list.py has them. Each is made in a copy of portable/ and of what its tests read; then the tests run that look at the edited
file, up to the first that fails. They take from a run without an edit what that made, and compile and run only what an edit has changed.
Status 1 where an edit isn't told though it changes something, 77 where the tests' tools aren't here.

With --write what told of an edit is written to plants_told, which has a line for each; what told of it before looks first. With
--turn N every tenth (or M-th) edit is made, from the N-th on.
"""
from __future__ import annotations

import argparse
import concurrent.futures
import os
import re
import shutil
import subprocess
import sys
import tempfile
import time
from typing import NamedTuple

from plant_list import PLANTS, Plant
from targets import FOUND, HERE, TARGETS, TOP, why_missing

# What tests read of the sources; and what of it they don't, which is large.
COPIED = ["portable", "include", "examples", "VERSION", ".ci/refused-memory", ".ci/refuse.c"]
LEFT_OUT = shutil.ignore_patterns("__pycache__", "causal_code.c")
SKIPPED = 77
MOST_SECONDS = 30
STALE = "it can't be made"
TOLD = f"{HERE}/plants_told"


class Part:
    """A test: its words, in a copy of the sources."""

    def __init__(self, *words: str) -> None:
        self.words = words

    def __str__(self) -> str:
        return " ".join(self.words).replace("portable/tests/", "")


PROGRAMS = "24"  # so many random programs
CALLS = Part("portable/tests/calls.py", "--first", "gcc", "arm", "s390x", "sanitized")
REFUSALS = Part("portable/tests/refusals.py")
DATA = Part("portable/tests/data_programs.py", "--again", "KEPT/data", "tcc")
DATA_OF_HEADER = Part("portable/tests/data_programs.py", "--again", "KEPT/data", "--header", "arm", "s390x")
OPERATIONS = Part("portable/tests/operations.py", "--again", "KEPT/operations", "--first", "tcc")
RANDOM = Part("portable/tests/random_programs.py", "--again", "KEPT/random", PROGRAMS)
OF_HEADER = [Part("portable/tests/operations.py", "--again", "KEPT/operations", "--header", "--first", target)
             for target in ("tcc", "gcc", "gcc-plain", "x87", "s390x")]
UNUSUAL = Part("portable/tests/unusual.py", "--more", "--first", "--kept", "KEPT/unusual", "BASE", "PLANTED")
REFUSED = Part(".ci/refused-memory", "--few", "PLANTED")
WORDS = Part("portable/tests/beside.py", "--runs", "120", "--words", "BASE", "SANITIZED")


def parts_of(file: str) -> list[Part]:
    """The tests that look at a file, those first that are quick, or tell most."""
    if file == "causal.c":
        return [CALLS]
    if file == "portable.h":
        return [OF_HEADER[0], CALLS, *OF_HEADER[1:], DATA_OF_HEADER]
    if file == "main.c":
        return [UNUSUAL, CALLS, REFUSED, WORDS]
    if file in ("wasm_to_c/stack.py", "wasm_to_c/program.py", "wasm_to_c/objects.py"):
        return [REFUSALS, DATA, OPERATIONS, RANDOM]
    return [OPERATIONS, REFUSALS, DATA, RANDOM]


def key_of(plant: Plant) -> str:
    return f"{plant.file} | {plant.name}"


def told_before() -> dict[str, str]:
    """What told of each edit that was made so far."""
    with open(TOLD, encoding="utf-8") as file:
        rows = [line.rstrip("\n").rpartition(" | ") for line in file if line.strip()]
    return {key: part for key, _, part in rows}


def write_told(found: dict[str, str]) -> None:
    """Writes what told of each edit, in the order of the list."""
    told = {**told_before(), **found}
    with open(TOLD, "w", encoding="utf-8") as file:
        file.writelines(f"{key_of(it)} | {told[key_of(it)]}\n" for it in PLANTS if told.get(key_of(it)))


def run(words: list[str], folder: str) -> subprocess.CompletedProcess[str]:
    """(What a wrong edit makes may never end: no process has more than some seconds of a processor.)"""
    try:
        return subprocess.run(["sh", "-c", f'ulimit -t {MOST_SECONDS} && exec "$@"', "sh", *words], cwd=folder, stdin=subprocess.DEVNULL, stdout=subprocess.PIPE, stderr=subprocess.STDOUT, text=True,
                              errors="replace", timeout=900, env={**os.environ, "PYTHONDONTWRITEBYTECODE": "1"})
    except subprocess.TimeoutExpired:
        return subprocess.CompletedProcess(words, 1, "no end")


def copy_to(folder: str) -> None:
    for name in COPIED:
        target = f"{folder}/{name}"
        os.makedirs(os.path.dirname(target), exist_ok=True)
        if os.path.isdir(f"{TOP}/{name}"):
            shutil.copytree(f"{TOP}/{name}", target, ignore=LEFT_OUT)
        else:
            shutil.copy2(f"{TOP}/{name}", target)


def told_line(text: str) -> str:
    """Of what a test says the line that tells: an error's last one, or the first that no good run has."""
    rows = [row.strip() for row in text.splitlines() if row.strip()] or ["(nothing)"]
    if any(row.startswith("Traceback") for row in rows):
        return rows[-1][:200]
    usual = re.compile(r"\d+ functions, \d+ calls$|[\w-]+: all calls hold$|[\w-]+: \d+ functions differ|skipped: ")
    return next((row for row in rows if not usual.match(row)), rows[-1])[:200]


class Base:
    """What is made once: what the tests leave without an edit, and the compiled library for the programs."""

    def __init__(self, room: str, plants: list[Plant]) -> None:
        self.room, self.kept, self.base = room, f"{room}/kept", f"{room}/base"
        self.told = told_before()
        os.environ[FOUND] = " ".join(name for name in TARGETS if not why_missing(name))
        files = {plant.file for plant in plants}
        if files - {"main.c", "causal.c"}:
            self.run("operations.py", "--keep", f"{self.kept}/operations", "tcc")
            self.run("data_programs.py", "--keep", f"{self.kept}/data", "tcc")
        if files - {"main.c", "causal.c", "portable.h"}:
            self.run("random_programs.py", "--keep", f"{self.kept}/random", PROGRAMS)
        if "main.c" in files:
            for source in "causal", "causal_code":
                # (gcc takes half a minute; and it has no function by which tcc makes a double of an integer)
                words = ["tcc", "-w", "-DSOFT_DOUBLES", "-I", "include", "-c", f"portable/{source}.c", "-o", f"{room}/{source}.o"]
                subprocess.run(words, cwd=TOP, check=True)
            if not self.link(TOP, self.base):
                sys.exit("plants: gcc doesn't link the program as it is")
            os.makedirs(self.kept, exist_ok=True)
            self.run("unusual.py", "--more", "--kept", f"{self.kept}/unusual", self.base)

    @staticmethod
    def run(name: str, *words: str) -> None:
        ran = run([sys.executable, f"{HERE}/{name}", *words], TOP)
        if ran.returncode not in (0, SKIPPED):
            sys.exit(f"plants: {name} fails without an edit: {ran.stdout[-2000:]}")

    def link(self, folder: str, program: str, *options: str) -> bool:
        words = ["gcc", "-O1", *options, "-I", "include", "portable/main.c", f"{self.room}/causal.o", f"{self.room}/causal_code.o", "-o", program]
        return run(words, folder).returncode == 0


class Told(NamedTuple):
    """The test that tells of a wrong edit, or nothing; and the first of what it says."""
    part: str
    said: str = ""

    @property
    def is_stale(self) -> bool:
        return self.part == STALE


def told_by(plant: Plant, base: Base, number: int) -> Told:
    """What tells of a wrong edit."""
    folder = f"{base.room}/{number}"
    copy_to(folder)
    path = f"{folder}/portable/{plant.file}"
    with open(path, encoding="utf-8") as file:
        text = file.read()
    if text.count(plant.old) != 1:
        return Told(STALE, f"what it replaces stands {text.count(plant.old)} times")
    with open(path, "w", encoding="utf-8") as file:
        file.write(text.replace(plant.old, plant.new))
    if plant.file == "main.c":
        if not base.link(folder, f"{folder}/planted") or not base.link(folder, f"{folder}/sanitized", "-g0", "-fsanitize=address,undefined"):
            return Told(STALE, "it doesn't compile")
    names = {"KEPT": base.kept, "BASE": base.base, "PLANTED": f"{folder}/planted", "SANITIZED": f"{folder}/sanitized"}
    found = Told("")
    before = base.told.get(key_of(plant))
    for part in sorted(parts_of(plant.file), key=lambda it: str(it) != before):
        words = [names.get(head, head) + slash + rest for head, slash, rest in (word.partition("/") for word in part.words)]
        ran = run([sys.executable, *words], folder)
        if ran.returncode not in (0, SKIPPED):
            found = Told(str(part), told_line(ran.stdout))
            break
    subprocess.run(["chmod", "-R", "u+rwX", folder], check=False)
    shutil.rmtree(folder)
    return found


def tell_stale() -> int:
    """Says which edits can't be made, and which have no test."""
    stale = 0
    for plant in PLANTS:
        with open(f"{TOP}/portable/{plant.file}", encoding="utf-8") as file:
            count = file.read().count(plant.old)
        if count != 1:
            print(f"{plant.file}: {plant.name}: what it replaces stands {count} times")
            stale += 1
    told = told_before()
    lacking = [key_of(plant) for plant in PLANTS if not plant.why and key_of(plant) not in told]
    if lacking:
        print("no test is noted for", *lacking, sep="\n  ")
    print(f"{len(PLANTS)} wrong edits: {stale} can't be made, {sum(bool(plant.why) for plant in PLANTS)} change nothing, {len(lacking)} have no test")
    return 1 if stale or lacking else 0


def main() -> int:
    parser = argparse.ArgumentParser(description=__doc__, formatter_class=argparse.RawDescriptionHelpFormatter)
    parser.add_argument("--turn", type=int)
    parser.add_argument("--of", type=int, default=10)
    parser.add_argument("--only", default="", help="those whose file or name has this in it")
    parser.add_argument("--jobs", type=int, default=2)
    parser.add_argument("--stale", action="store_true", help="only say which edits can't be made, or have no test")
    parser.add_argument("--write", action="store_true", help="write what told of each to plants_told")
    options = parser.parse_args()
    if options.stale:
        return tell_stale()
    for tool in ("gcc", "tcc", "clang", "node", "wat2wasm"):
        if not shutil.which(tool):
            print(f"skipped: plants: no {tool}")
            return SKIPPED
    plants = [plant for plant in PLANTS if options.only in f"{plant.file}: {plant.name}"]
    if options.turn is not None:
        plants = plants[options.turn % options.of::options.of]
    began, wrong, equivalent = time.monotonic(), 0, 0
    with tempfile.TemporaryDirectory() as room:
        os.chmod(room, 0o755)
        base = Base(room, plants)
        with concurrent.futures.ThreadPoolExecutor(options.jobs) as pool:
            for plant, told in zip(plants, pool.map(told_by, plants, [base] * len(plants), range(len(plants)))):
                is_fault = told.is_stale or bool(told.part) == bool(plant.why)
                said = f"{told.part}: {told.said}" if told.part else f"nothing, since {plant.why}" if plant.why else "NOTHING"
                print(f"{plant.file}: {plant.name}: {'FAULT: ' if is_fault else ''}{said}", flush=True)
                wrong += is_fault
                equivalent += not told.part and bool(plant.why)
                if options.write and not is_fault:
                    write_told({key_of(plant): told.part})
    print(f"{len(plants)} wrong edits of {len(PLANTS)} in {time.monotonic() - began:.0f} s: {wrong} not told, {equivalent} change nothing")
    return 1 if wrong else 0


if __name__ == "__main__":
    sys.exit(main())
