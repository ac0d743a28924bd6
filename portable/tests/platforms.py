#!/usr/bin/env python3
"""platforms.py [--keep FOLDER] [TARGET..]: compiles the C for each target (targets.py), and runs there what holds of the library.

- The worked cases of crates/worked_cases over inputs in memory, by bindings/c/cases.c: what each prints is as expected.
- What include/causal.h says besides, by bindings/c/edges.c.
- The program: an answer from a file, one from standard input, and a status.

A target whose tools aren't here is skipped by name. The targets are tested at once, as many as there are processors.
"""
from __future__ import annotations

import argparse
import concurrent.futures
import os
import re
import shutil
import subprocess
import sys
import tempfile
import time

from targets import PORTABLE, TARGETS, TOP, Failed, Target, why_missing

C = f"{TOP}/bindings/c"
INCLUDE = ["-I", f"{TOP}/include"]
CASES = f"{TOP}/crates/worked_cases"
# Words with their input, what they print and their status.
FRONT_DOOR = "P(Y|do(X)) = sum{M} P(M|X) * (sum{X} P(X) * P(Y|X,M))\n"
ASKED = [
    (["identify", "front_door.dag"], "", FRONT_DOOR, 0),
    (["identify", "-"], "dag { X -> M -> Y X <-> Y X [exposure] Y [outcome] }", FRONT_DOOR, 0),
    (["separate", "é.dag", "--x", "é", "--y", "B"], "", "separated: {é} from {B} given {}\n", 0),
    (["identify", "nothing.dag"], "", "", 6),
    (["identify", "."], "", "", 6),
]


def parts() -> int:
    """In how many parts the code may be compiled, by its first lines."""
    with open(f"{PORTABLE}/causal_code.c", encoding="ascii") as file:
        found = re.search(r"^ \* parts: (\d+)$", file.read(1000), re.M)
    if not found:
        raise Failed("causal_code.c doesn't say of how many parts it is")
    return int(found[1])


def make(folder: str, target: Target) -> None:
    """Compiles the library once, and three programs over it."""
    library = [f"{folder}/causal.o"]
    target.compile(library[0], *INCLUDE, "-c", f"{PORTABLE}/causal.c")
    for part in range(1, parts() + 1) if target.in_parts else [0]:
        library.append(f"{folder}/code{part}.o")
        target.compile(library[-1], *INCLUDE, *([f"-DPART={part}"] if part else []), "-c", f"{PORTABLE}/causal_code.c")
    programs = {"main": f"{PORTABLE}/main.c", "cases": f"{C}/cases.c"}
    if target.has_edges:
        programs["edges"] = f"{C}/edges.c"
    for name, source in programs.items():
        target.compile(f"{folder}/{name}.exe", *INCLUDE, source, *library, *target.links)


def run(folder: str, target: Target, name: str, *words: str, given: str = "") -> tuple[int, str]:
    """The status of a program and what it prints, in lines as they are written here."""
    ran = subprocess.run([*target.runs, f"{folder}/{name}.exe", *words], input=given.encode(), stdout=subprocess.PIPE,
                         stderr=subprocess.PIPE, cwd=folder, env={**os.environ, "WINEDEBUG": "-all"})
    return ran.returncode, ran.stdout.decode(errors="replace").replace("\r\n", "\n")


def test_cases(folder: str, target: Target) -> None:
    status, printed = run(folder, target, "cases", "../flat")
    with open(f"{folder}/../expected", encoding="utf-8", newline="") as file:
        expected = file.read().replace("\r\n", "\n")
    if status or printed != expected:
        parts = [text.split("\n== ") for text in (expected, printed)]
        first = next((pair for pair in zip(*parts) if pair[0] != pair[1]), (len(parts[0]), len(parts[1])))
        raise Failed(f"the worked cases differ, status {status}: {first}")


def test_edges(folder: str, target: Target) -> None:
    if not target.has_edges:
        return
    status, printed = run(folder, target, "edges")
    if (status, printed) != (0, "edges: all hold\n"):
        raise Failed(f"edges: status {status}: {printed}")


def test_program(folder: str, target: Target) -> None:
    shutil.copyfile(f"{TOP}/examples/front_door.dag", f"{folder}/front_door.dag")
    with open(f"{folder}/é.dag", "w", encoding="utf-8") as file:
        file.write("dag { é -> A A <- B }")
    for words, given, printed, status in ASKED:
        got = run(folder, target, "main", *words, given=given)
        if got != (status, printed):
            raise Failed(f"{' '.join(words)}: {got}")


def test(folder: str, name: str) -> str:
    """Tests a target; why it fails, or nothing."""
    target, began = TARGETS[name], time.monotonic()
    os.makedirs(f"{folder}/{name}", exist_ok=True)
    try:
        make(f"{folder}/{name}", target)
        made = time.monotonic()
        for one in test_cases, test_edges, test_program:
            one(f"{folder}/{name}", target)
    except Failed as failed:
        print(f"{name}: {failed}", flush=True)
        return name
    print(f"{name}: compiled in {made - began:.0f} s, all as expected after {time.monotonic() - made:.0f} s more", flush=True)
    return ""


def main() -> int:
    parser = argparse.ArgumentParser(description=__doc__, formatter_class=argparse.RawDescriptionHelpFormatter)
    parser.add_argument("--keep", metavar="FOLDER", help="where to leave what is made")
    parser.add_argument("targets", nargs="*", metavar="TARGET", help=", ".join(TARGETS))
    options = parser.parse_args()
    here = []
    for name in options.targets or TARGETS:
        if why_missing(name):
            print(f"skipped: the C on {name}: {why_missing(name)}")
        else:
            here.append(name)
    folder = os.path.abspath(options.keep or tempfile.mkdtemp())
    os.makedirs(folder, exist_ok=True)
    words = [f"{C}/flatten.py", f"{CASES}/data/cases.json", f"{CASES}/stdout", f"{folder}/flat", f"{folder}/expected"]
    subprocess.run([sys.executable, *words], check=True)
    with concurrent.futures.ThreadPoolExecutor(os.cpu_count()) as pool:
        failed = [name for name in pool.map(lambda name: test(folder, name), here) if name]
    if not options.keep:
        shutil.rmtree(folder)
    return 1 if failed else 0 if here else 77


if __name__ == "__main__":
    sys.exit(main())
