#!/usr/bin/env python3
"""random_programs.py [--keep FOLDER | --again FOLDER] [--seed N] COUNT: random programs, compiled natively and by way of WebAssembly and
wasm_to_c.

Each is a program in C with structs, arrays, constant tables, pointers, loops, switches, recursion, numbers of 128 bits and doubles
(program_maker.py), which gives one number for each of some calls. A clang that has wasm64 makes an object of it, at a level that
turns with the seed, and its translation is compiled by gcc, clang and tcc in turn. A program with an instruction that wasm_to_c
doesn't know is passed over, and counted. Where the two differ, the program, its object and its translation are kept. With --again only those
programs are compiled whose translation isn't as an earlier run with --keep left it in the folder, and up to the first that differs.

Status 77 where such a clang or gcc isn't here.
"""
from __future__ import annotations

import argparse
import os
import shutil
import subprocess
import sys
import tempfile

from program_maker import Maker
from targets import GCC, PORTABLE, wasm_clang

PLAIN = ["-fno-vectorize", "-fno-slp-vectorize"]
LEVELS = [["-O0"], ["-O1"], ["-O2"], ["-Os"], ["-Oz"], ["-O3"], ["-Os", "-msimd128", *PLAIN], ["-O2", *PLAIN]]
COMPILERS = [[GCC, "-O0"], [GCC, "-O1"], [GCC, "-O2"], [GCC, "-O3"], ["clang", "-O1"], ["clang", "-O2"], ["tcc"]]
QUIET = ["-w", "-fwrapv", "-ffp-contract=off"]

# Calls a program with some seeds, and prints what it gives.
CALLER = """#include <inttypes.h>
#include <stdint.h>
#include <stdio.h>
#include <stdlib.h>
uint64_t NAME(uint64_t);
void causal_trap(void) { abort(); }
int main(void) {
  uint64_t x = 1;
  for (int i = 0; i < 40; i++) {
    printf("%016" PRIx64 "\\n", NAME(i < 8 ? (uint64_t)i : i < 12 ? ~(uint64_t)0 >> (i * 5) : x));
    x = x * 6364136223846793005u + 1442695040888963407u;
  }
  return 0;
}
"""


def run(words: list[str]) -> None:
    subprocess.run(words, check=True)


def ending(program: str) -> tuple[int, bytes]:
    ran = subprocess.run([os.path.abspath(program)], stdout=subprocess.PIPE, timeout=300)
    return ran.returncode, ran.stdout


def try_program(seed: int, clang: str, compilers: list[list[str]]) -> str:
    """What came of a program: "same", "different", or why it was passed over."""
    with open("p.c", "w", encoding="ascii") as file:
        file.write(Maker(seed).program())
    run([GCC, "-O1", *QUIET, "-DNAME=causal_t", "-o", "native", "p.c", "caller.c"])
    target = ["--target=wasm64-unknown-unknown", "-mbulk-memory", "-msign-ext", "-ffreestanding", *LEVELS[seed % len(LEVELS)]]
    run([clang, *target, *QUIET, "-c", "p.c", "-o", "p.o"])
    made = subprocess.run([sys.executable, f"{PORTABLE}/wasm_to_c", "p.o", "t.c"], capture_output=True, text=True)
    if made.returncode:
        return made.stderr.strip()
    compiler = compilers[seed // len(LEVELS) % len(compilers)]
    run([*compiler, "-w", "-I", PORTABLE, "-DNAME=causal_t_code", "-o", "made", "t.c", "caller.c"])
    return "same" if ending("native") == ending("made") else "different"


def keep(seed: int) -> None:
    for name in ("p.c", "p.o", "t.c", "native"):
        shutil.copy(name, f"{seed}.{name}")


def try_again(seed: int, kept: str, compiler: list[str]) -> str:
    """What comes of a program that an earlier run kept."""
    made = subprocess.run([sys.executable, f"{PORTABLE}/wasm_to_c", f"{kept}/{seed}.p.o", "t.c"], capture_output=True, text=True)
    if made.returncode:
        return "different"
    with open("t.c", encoding="ascii") as code, open(f"{kept}/{seed}.t.c", encoding="ascii") as before:
        if code.read() == before.read():
            return "same"
    run([*compiler, "-w", "-I", PORTABLE, "-DNAME=causal_t_code", "-o", "made", "t.c", "caller.c"])
    return "same" if ending(f"{kept}/{seed}.native") == ending("made") else "different"


def main() -> int:
    parser = argparse.ArgumentParser(description=__doc__, formatter_class=argparse.RawDescriptionHelpFormatter)
    parser.add_argument("--keep", metavar="FOLDER", help="where to leave what is made")
    parser.add_argument("--again", metavar="FOLDER", help="what an earlier run with --keep left")
    parser.add_argument("--seed", type=int, default=0)
    parser.add_argument("count", type=int)
    options = parser.parse_args()
    if not shutil.which(GCC) or not wasm_clang():
        print(f"skipped: random programs: no {'clang with wasm64' if shutil.which(GCC) else GCC}")
        return 77
    kept = options.again and os.path.abspath(options.again)
    folder = options.keep or tempfile.mkdtemp()
    os.makedirs(folder, exist_ok=True)
    os.chdir(folder)
    with open("caller.c", "w", encoding="ascii") as file:
        file.write(CALLER)
    compilers = [it for it in COMPILERS if shutil.which(it[0])]
    results: dict[str, int] = {}
    for seed in range(options.seed, options.seed + options.count):
        result = try_again(seed, kept, compilers[-1]) if kept else try_program(seed, wasm_clang()[0], compilers)
        results[result] = results.get(result, 0) + 1
        if result == "different":
            print(f"{seed}: different")
            if kept:
                break
        if not kept and (options.keep or result == "different"):
            keep(seed)
    for result, count in sorted(results.items()):
        print(f"{count} programs: {result}")
    if not options.keep and (kept or "different" not in results):
        shutil.rmtree(folder)
    return 1 if "different" in results else 0


if __name__ == "__main__":
    sys.exit(main())
