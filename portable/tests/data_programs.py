#!/usr/bin/env python3
"""data_programs.py [--keep FOLDER | --again FOLDER] [TARGET..]: programs with addresses in their data, compiled natively and by way of
WebAssembly and wasm_to_c.

The addresses lead into the middle of tables, to tables that no code names, and past offsets of both kinds. A clang that has wasm64
makes the objects, with a segment for each table and with one for all. Data that may change, or that wants more than 16 bytes of
alignment, stops the translator. Each target (targets.py) that is here compiles the C; without a target gcc, and machines of 32 bits and
with the other order of bytes.

With --again the objects are those that an earlier run with --keep left in the folder, and only those are compiled whose translation
isn't as that run left it; with --header, where portable.h may have changed and the translator hasn't, all are. Status 77 where clang or
gcc isn't here.
"""
from __future__ import annotations

import argparse
import os
import shutil
import subprocess
import sys
import tempfile

from targets import GCC, PORTABLE, TARGETS, Failed, wasm_clang, why_missing

USUAL = ["gcc", "arm", "s390x"]

PROGRAM = """
typedef unsigned char byte; typedef unsigned long long L;
static const byte bytes[40] = {3,1,4,1,5,9,2,6,5,3,5,8,9,7,9,3,2,3,8,4,6,2,6,4,3,3,8,3,2,7,9,5,0,2,8,8,4,1,9,7};
static const byte more[5] = {200, 201, 202, 203, 204};
typedef struct row { const byte *p; L n; const struct row *next; } row;
static const row last[2] = {{more + 2, 11, 0}, {bytes + 39, 12, 0}};
static const row rows[5] = {{bytes + 7, 3, last}, {bytes + 1, 5, last + 1}, {more + 4, 9, rows + 3}, {bytes, 7, 0}, {bytes + 39, 1, rows}};
static const row *const tables[3] = {rows + 1, rows + 4, rows};
static const L numbers[4] = {0x0102030405060708ull, 0x8000000000000001ull, 7, ~0ull};
EXPORT L causal_t(L s) {
  L h = numbers[s & 3];
  for (const row *r = tables[s % 3]; r; r = r->next) h = h * 31 + r->n * 1000 + r->p[0] + r->p[-(int)(s >> 3 & 0)];
  h += (tables[s % 3] == rows + 1) + 2 * (rows[s % 5].next == last) + 4 * (rows[s % 5].p == bytes);
  return h + rows[s % 5].n + bytes[s % 40] + ((const byte *)(numbers + 1))[s & 7];
}
"""
CALLER = """#include <stdio.h>
#include <stdlib.h>
unsigned long long NAME(unsigned long long);
void causal_trap(void) { abort(); }
#if defined(MADE) && defined(__BYTE_ORDER__) && __BYTE_ORDER__ == __ORDER_BIG_ENDIAN__
void causal_data_begin(void);
#else
static void causal_data_begin(void) {}
#endif
int main(void) {
  causal_data_begin();
  for (unsigned long long i = 0; i < 200; i++) printf("%llx\\n", NAME(i));
  return 0;
}
"""
# A place in the data as a number behind a load, with a constant as the address and with a sum; a table behind one of an odd size, whose
# words are reached by | since it is a multiple of 16; and another behind it in its segment.
ASSEMBLY = """ .section .text.causal_t,"",@
 .globl causal_t
 .export_name causal_t, causal_t
 .type causal_t,@function
causal_t:
 .functype causal_t (i64) -> (i64)
 i64.const 8
 i64.load table+8
 i64.const 0
 i64.load table+8
 i64.const 10
 i64.mul
 i64.add
 local.get 0
 i64.const 3
 i64.and
 i64.load8_u table+25
 i64.add
 i64.const 0
 i64.load8_u odd+2
 i64.add
 i64.const before
 i64.const 8
 i64.or
 i64.load 0
 i64.add
 end_function
 .section .rodata.odd,"",@
odd:
 .int8 9
 .int8 8
 .int8 50
 .size odd, 3
 .section .rodata.table,"",@
 .p2align 4
before:
 .int64 5
 .int64 4000
 .size before, 16
table:
 .int64 1
 .int64 2
 .int64 300
 .int64 0x8877665544332211
 .int64 table+8
 .size table, 40
"""
OF_ASSEMBLY = "".join(f"{300 + 20 + 50 + 4000 + (0x8877665544332211 >> 8 >> 8 * (i & 3) & 255):x}\n" for i in range(200))
# How the tables are compiled.
TABLES = {f"tables{level}{sections}": [level, sections] for level in ("-O0", "-Os", "-O2") for sections in ("-fdata-sections", "-fno-data-sections")}
# Data, and what stops the translator.
REFUSED = {
    "static long long x; EXPORT long long causal_t(long long s) { x += s; return x; }": "which isn't constant",
    "static long long x[3] = {1, 2, 3}; EXPORT long long causal_t(long long s) { x[s] += 1; return x[0]; }": "which isn't constant",
    "static const long long x[8] __attribute__((aligned(32))) = {1, 2, 3}; EXPORT long long causal_t(long long s) { return x[s]; }":
        "is aligned to more than 16 bytes",
    "static long long f(long long s) { return s + 1; } static long long g(long long s) { return s - 1; }"
    "static long long (*const x[2])(long long) = {f, g}; EXPORT long long causal_t(long long s) { return x[s & 1](s); }": "",
    "extern const long long x[4]; EXPORT long long causal_t(long long s) { return x[s]; }": "isn't data",
}


def write(name: str, text: str) -> None:
    with open(name, "w", encoding="ascii") as file:
        file.write(text)


def translated(name: str) -> str:
    """Translates an object; what stopped it."""
    made = subprocess.run([sys.executable, f"{PORTABLE}/wasm_to_c", f"{name}.o", "t.c"], capture_output=True, text=True)
    return made.stderr if made.returncode else ""


def printed(words: list[str]) -> str:
    subprocess.run([*words, "-o", "program"], check=True)
    return subprocess.run(["./program"], stdout=subprocess.PIPE, text=True).stdout


def is_kept(name: str) -> bool:
    """Whether a translation is as it is kept; it is kept then where none is."""
    with open("t.c", encoding="ascii") as made:
        code = made.read()
    if not os.path.exists(f"{name}.c"):
        write(f"{name}.c", code)
        return False
    with open(f"{name}.c", encoding="ascii") as before:
        return before.read() == code


def given_by(target: str, code: str) -> str:
    """What a program prints as a target compiles it."""
    it = TARGETS[target]
    try:
        it.compile("made", "-w", "-I", PORTABLE, "-DMADE", "-DNAME=causal_t_code", code, "caller.c", *it.links)
    except Failed as failed:
        return str(failed)
    return subprocess.run([*it.runs, "./made"], stdout=subprocess.PIPE, text=True).stdout


def differs(name: str, expected: str, targets: list[str], is_of_header: bool) -> bool:
    stopped = "" if is_of_header else translated(name)
    if not stopped and not is_of_header and is_kept(name):
        return False
    for target in targets:
        got = stopped or given_by(target, f"{name}.c" if is_of_header else "t.c")
        if got != expected:
            print(f"{name} on {target}: differs: {' '.join(got[:300].split())}")
            return True
    return False


def make_objects() -> None:
    """Makes the objects and what the programs print, in the current folder."""
    target = [*wasm_clang(), "--target=wasm64-unknown-unknown", "-ffreestanding", "-w", "-c"]
    export = '-DEXPORT=__attribute__((export_name("causal_t")))'
    write("p.c", PROGRAM)
    write("p.s", ASSEMBLY)
    write("caller.c", CALLER)
    write("expected", printed([GCC, "-O1", "-w", "-DEXPORT=", "-DNAME=causal_t", "p.c", "caller.c"]))
    for name, options in TABLES.items():
        subprocess.run([*target, *options, export, "p.c", "-o", f"{name}.o"], check=True)
    subprocess.run([*target, "p.s", "-o", "assembly.o"], check=True)
    for number, program in enumerate(REFUSED):
        write("p.c", program)
        subprocess.run([*target, "-O2", export, "p.c", "-o", f"refused{number}.o"], check=True)


def count_wrong(targets: list[str], is_of_header: bool) -> int:
    """How many of the objects in the current folder give something else than they have to."""
    with open("expected", encoding="ascii") as file:
        expected = file.read()
    wrong = sum(differs(name, expected, targets, is_of_header) for name in TABLES) + differs("assembly", OF_ASSEMBLY, targets, is_of_header)
    if is_of_header:
        return wrong
    for number, (program, why) in enumerate(REFUSED.items()):
        said = translated(f"refused{number}")
        if not said.startswith("wasm_to_c: ") or why not in said:
            print(f"{program}: {said}, and not {why}")
            wrong += 1
    return wrong


def main() -> int:
    parser = argparse.ArgumentParser(description=__doc__, formatter_class=argparse.RawDescriptionHelpFormatter)
    parser.add_argument("--keep", metavar="FOLDER", help="where to leave what is made")
    parser.add_argument("--again", metavar="FOLDER", help="what an earlier run with --keep left")
    parser.add_argument("--header", action="store_true", help="with --again: all, with the translations that are there")
    parser.add_argument("targets", nargs="*", metavar="TARGET", help=", ".join(TARGETS))
    options = parser.parse_args()
    if not shutil.which(GCC) or not wasm_clang():
        print(f"skipped: data programs: no {'clang with wasm64' if shutil.which(GCC) else GCC}")
        return 77
    kept = os.path.abspath(options.keep or options.again or ".")
    here = [name for name in options.targets or USUAL if not why_missing(name)]
    for name in options.targets or USUAL:
        if name not in here:
            print(f"skipped: data programs on {name}: {why_missing(name)}")
    with tempfile.TemporaryDirectory() as folder:
        if options.again:
            shutil.copytree(kept, folder, dirs_exist_ok=True)
        os.chdir(folder)
        if not options.again:
            make_objects()
        wrong = count_wrong(here, options.header)
        os.chdir("/")
        if options.keep:
            shutil.copytree(folder, kept, dirs_exist_ok=True)
    print(f"programs with addresses in their data: {wrong} wrong")
    return 1 if wrong else 0


if __name__ == "__main__":
    sys.exit(main())
