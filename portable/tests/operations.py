#!/usr/bin/env python3
"""operations.py [--keep FOLDER | --again FOLDER] [--first] [TARGET..]: each instruction that wasm_to_c knows, as the C gives it and as
WebAssembly does.

operation_cases.py has a function for each instruction and for what else the translation has to keep. wabt's wat2wasm makes one
object of all; wasm_to_c makes C of it, and node runs the same object. Each function is called with edge values and others, and the
results have to be the same bit for bit, on each target (targets.py) that is here. What has to end the program does so on both.
Without a target all are tested. Behind them gcc looks at the C with its warnings as errors, where it is here.

With --again only those functions are compiled and called whose C isn't as an earlier run with --keep left it in the folder; and with
--header, where portable.h may have changed and the translator hasn't, those of one instruction each.

Status 77 where wat2wasm or node isn't here.
"""
from __future__ import annotations

import argparse
import os
import re
import shutil
import struct
import subprocess
import sys
import tempfile
from typing import NamedTuple

from operation_cases import Case, cases, is_of_header, traps
from targets import PORTABLE, TARGETS, WARNINGS, Failed, Target, why_missing

HEAD = """(module (import "env" "memory" (memory i64 1)) (import "env" "__stack_pointer" (global $sp (mut i64)))
(import "env" "__multi3" (func $multi3 (param i64 i64 i64 i64 i64)))
(import "env" "__lshrti3" (func $lshrti3 (param i64 i64 i64 i32)))
(import "env" "__ashlti3" (func $ashlti3 (param i64 i64 i64 i32)))
(func $add7 (param i64) (result i64) (i64.add (local.get 0) (i64.const 7)))
(func $poke (param i64) (result i64) (i64.store (local.get 0) (i64.const 11)) (i64.load offset=8 (local.get 0)))
(func $poke_too (param i64 i64) (result i64) (i64.store (local.get 1) (i64.const 12)) (local.get 0))
"""

# Runs the object in node: run.js OBJECT CALLS RESULTS. The three functions are those that the C has in portable.h.
SCRIPT = """
const fs = require("fs");
const [object, calls, results, ...traps] = process.argv.slice(2);
function memory64() {
  try { return new WebAssembly.Memory({ initial: 1n, address: "i64" }); }
  catch { return new WebAssembly.Memory({ initial: 1, index: "i64" }); }
}
const memory = memory64(), mask = (1n << 64n) - 1n;
const wide = (low, high) => (BigInt.asUintN(64, high) << 64n) | BigInt.asUintN(64, low);
const put = (to, r) => {
  const view = new DataView(memory.buffer);
  view.setBigUint64(Number(to), r & mask, true);
  view.setBigUint64(Number(to) + 8, (r >> 64n) & mask, true);
};
const env = { memory, __stack_pointer: new WebAssembly.Global({ value: "i64", mutable: true }, 60000n),
  __multi3: (to, a, b, c, d) => put(to, wide(a, b) * wide(c, d)),
  __lshrti3: (to, a, b, n) => put(to, wide(a, b) >> BigInt(n & 127)),
  __ashlti3: (to, a, b, n) => put(to, wide(a, b) << BigInt(n & 127)) };
const made = new WebAssembly.Instance(new WebAssembly.Module(fs.readFileSync(object)), { env }).exports;
const file = fs.readFileSync(calls), numbers = new BigUint64Array(file.buffer, file.byteOffset, file.length / 8), out = [];
for (let at = 0; at < numbers.length;) {
  const call = made["causal_t" + numbers[at]], width = Number(numbers[at + 1]), count = Number(numbers[at + 2]);
  at += 3;
  for (let i = 0; i < count; i++, at += width) out.push(BigInt.asUintN(64, call(...numbers.subarray(at, at + width))));
}
fs.writeFileSync(results, new Uint8Array(new BigUint64Array(out).buffer));
for (const words of traps) {
  const [number, ...row] = words.split(" ");
  let ended = false;
  try { made["causal_t" + number](...row.map(BigInt)); } catch { ended = true; }
  if (!ended) throw new Error("no trap in " + words);
}
"""

# The same in C: the program reads calls from its input, and writes results to its output, all with the least byte first. With
# words it makes the one call that they say.
CALLER = """#include "portable.h"
#include <stdio.h>
%(heads)s
void trap(void) { abort(); }
static int get(L *x) {
  *x = 0;
  for (int i = 0; i < 8; i++) {
    int byte = getchar();
    if (byte == EOF) return 0;
    *x |= (L)byte << 8 * i;
  }
  return 1;
}
%(calls)s
static L (*const calls[])(const L *) = {
%(rows)s
};
static L call(L number, const L *a) { return calls[number](a); }
int main(int words, char **word) {
  L number, width, count, a[8], x;
  if (words > 1) {
    for (int i = 2; i < words; i++) a[i - 2] = strtoull(word[i], NULL, 10);
    printf("%%d\\n", (int)call(strtoull(word[1], NULL, 10), a));
    return 0;
  }
  while (get(&number)) {
    get(&width);
    get(&count);
    while (count--) {
      for (L i = 0; i < width; i++) get(&a[i]);
      x = call(number, a);
      for (int i = 0; i < 8; i++) putchar((int)(x >> 8 * i & 255));
    }
  }
  return 0;
}
"""


def write(path: str, text: str) -> None:
    with open(path, "w", encoding="utf-8") as file:
        file.write(text)


def is_as_it_stands(name: str, content: bytes) -> bool:
    """Writes a file where it doesn't stand there already; whether it did."""
    if os.path.exists(name):
        with open(name, "rb") as file:
            if file.read() == content:
                return True
    with open(name, "wb") as file:
        file.write(content)
    return False


class Called(NamedTuple):
    """A function that is called: its number, its case, the calls as the programs read them, and what node gives."""
    number: int
    case: Case
    calls: bytes
    expected: bytes

    def row(self, at: int) -> tuple[int, ...]:
        """The arguments of a call."""
        return struct.unpack_from(f"<{self.case.width}Q", self.calls, 24 + 8 * self.case.width * at)


class Ending(NamedTuple):
    """A call that has to end the program: the number of its function, and its words."""
    number: int
    words: list[str]


def make_object(tested: list[Case]) -> None:
    """Writes the object, the calls and what node gives, into the current folder, where an earlier run hasn't left them."""
    functions = [*tested, *(case for case, _ in traps())]
    text = HEAD + "\n".join(case.text(number) for number, case in enumerate(functions)) + ")\n"
    packed = []
    for number, case in enumerate(tested):
        rows = case.calls()
        words = [number, case.width, len(rows), *(word for row in rows for word in row)]
        packed.append(struct.pack(f"<{len(words)}Q", *words))
    is_kept = [is_as_it_stands("ops.wat", text.encode()), is_as_it_stands("calls", b"".join(packed))]
    if not all(is_kept) or not os.path.exists("expected"):
        subprocess.run(["wat2wasm", "--enable-memory64", "-r", "-o", "ops.o", "ops.wat"], check=True)
        run_in_node(len(tested))


def read(path: str) -> bytes:
    with open(path, "rb") as file:
        return file.read()


def all_called(tested: list[Case], folder: str) -> list[Called]:
    """The functions with their calls, from the files in a folder."""
    calls, expected = read(f"{folder}/calls"), read(f"{folder}/expected")
    found, at, begin = [], 0, 0
    for number, case in enumerate(tested):
        _, width, count = struct.unpack_from("<3Q", calls, at)
        end, given = at + 24 + 8 * width * count, begin + 8 * count
        found.append(Called(number, case, calls[at:end], expected[begin:given]))
        at, begin = end, given
    return found


def all_endings(first: int) -> list[Ending]:
    return [Ending(first + number, [str(first + number), *map(str, row)]) for number, (_, row) in enumerate(traps())]


# --- the C

def translate(source: str) -> str:
    subprocess.run([sys.executable, f"{PORTABLE}/wasm_to_c", source, "ops.c"], check=True, stdout=subprocess.DEVNULL)
    return read("ops.c").decode("ascii")


def bodies_of(code: str) -> tuple[str, dict[str, str]]:
    """What of the C isn't an exported function, and these by their names."""
    bodies: dict[str, str] = {}
    rest = []
    for piece in re.split(r"^(?=L causal_t\d+_code\([^;\n]*\{)", re.sub(r"^#(if IS_IN\(\d+\)|endif)\n", "", code, flags=re.M), flags=re.M):
        found = re.match(r"L causal_t(\d+)_code\([^;\n]*\{", piece)
        if found:
            bodies[found[1]] = piece
        else:
            rest.append(piece)
    return "".join(rest), bodies


def changed(code: str, before: str) -> set[int]:
    """The numbers of the functions whose C isn't as it was; all, where something besides them isn't."""
    (rest, bodies), (rest_before, bodies_before) = bodies_of(code), bodies_of(before)
    return {int(number) for number, body in bodies.items() if rest != rest_before or body != bodies_before.get(number)}


def write_caller(functions: dict[int, Case]) -> None:
    """Writes what calls the functions, by their numbers."""
    heads, calls_of_c = [], []
    for number, case in functions.items():
        heads.append(f"L causal_t{number}_code({','.join(['L'] * case.width)});")
        arguments = ",".join(f"a[{i}]" for i in range(case.width))
        calls_of_c.append(f"static L call{number}(const L *a) {{ return causal_t{number}_code({arguments}); }}")
    rows = ",\n".join(f"call{number}" if number in functions else "0" for number in range(max(functions) + 1))
    write("caller.c", CALLER % {"heads": "\n".join(heads), "calls": "\n".join(calls_of_c), "rows": rows})


def run_in_node(count: int) -> None:
    write("run.js", SCRIPT)
    words = ["run.js", "ops.o", "calls", "expected", *(" ".join(it.words) for it in all_endings(count))]
    if subprocess.run(["node", "--experimental-wasm-memory64", *words], stderr=subprocess.DEVNULL).returncode:
        subprocess.run(["node", *words], check=True)  # a later node has it without an option


# --- the tests

def differences(called: list[Called], got: bytes) -> list[str]:
    """A line for each function whose results differ."""
    found, begin = [], 0
    for it in called:
        end = begin + len(it.expected)
        if it.expected != got[begin:end]:
            pairs = [(it.expected[at:at + 8], got[begin + at:begin + at + 8]) for at in range(0, end - begin, 8)]
            at = next(at for at, (wanted, given) in enumerate(pairs) if wanted != given)
            wanted, given = (word[::-1].hex() for word in pairs[at])
            found.append(f"{it.case.name} of {' '.join(map(hex, it.row(at)))}: {wanted}, and not {given}")
        begin = end
    return found


def has_warnings() -> bool:
    """Whether gcc warns of something in the C: a constant that its type doesn't hold, a shift by more than there is."""
    if not shutil.which("gcc"):
        print("skipped: warnings of operations: no gcc")
        return False
    # (parentheses for readers, and comparisons with constants that are always true)
    words = ["gcc", "-fsyntax-only", *WARNINGS, "-Wno-parentheses", "-Wno-type-limits", "-I", PORTABLE, "ops.c"]
    ran = subprocess.run(words, stderr=subprocess.PIPE, text=True)
    print(ran.stderr[:2000], end="")
    return ran.returncode != 0


def test(name: str, target: Target, called: list[Called], endings: list[Ending]) -> bool:
    """Whether the target's results are those of node."""
    try:
        # (some constants give comparisons that are always true)
        target.compile(name, "-w", "-I", PORTABLE, "ops.c", "caller.c", *target.links)
    except Failed as failed:
        print(f"{name}: {failed}")
        return False
    ran = subprocess.run([*target.runs, f"./{name}"], input=b"".join(it.calls for it in called), capture_output=True)
    wrong = differences(called, ran.stdout)
    for it in endings:
        # (what a signal leaves is written to nowhere)
        if subprocess.run([*target.runs, f"./{name}", *it.words], stdout=subprocess.DEVNULL, stderr=subprocess.DEVNULL).returncode == 0:
            wrong.append(f"{' '.join(it.words)}: no end")
    print(f"{name}: {len(wrong)} functions differ, status {ran.returncode}", *wrong[:12], sep="\n  ", flush=True)
    return not wrong and not ran.returncode and len(ran.stdout) == sum(len(it.expected) for it in called)


def test_all(names: list[str], is_first: bool, called: list[Called], endings: list[Ending]) -> int:
    """How many targets fail, and whether gcc warns."""
    wrong = 0
    for name in names:
        if why_missing(name):
            print(f"skipped: operations on {name}: {why_missing(name)}")
        else:
            wrong += not test(name, TARGETS[name], called, endings)
        if wrong and is_first:
            return wrong
    return wrong + has_warnings()


def run(options: argparse.Namespace) -> int:
    """Tests in the current folder; how much is wrong."""
    tested = cases()
    if not options.again:
        make_object(tested)
    folder = options.again or "."
    called, endings = all_called(tested, folder), all_endings(len(tested))
    before = read(f"{folder}/ops.c").decode("ascii") if options.again else ""
    code = before if options.header else translate(f"{folder}/ops.o")
    if options.again:
        wanted = {it.number for it in called if is_of_header(it.case)} | {it.number for it in endings} if options.header else changed(code, before)
        called, endings = [it for it in called if it.number in wanted], [it for it in endings if it.number in wanted]
        rest, bodies = bodies_of(code)
        write("ops.c", rest + "".join(body for number, body in bodies.items() if int(number) in wanted))
    print(f"{len(called)} functions, {sum(len(it.expected) // 8 for it in called)} calls")
    if not called and not endings:
        return 0
    functions = {it.number: it.case for it in called}
    functions.update({len(tested) + at: case for at, (case, _) in enumerate(traps()) if len(tested) + at in {it.number for it in endings}})
    write_caller(functions)
    return test_all(options.targets or list(TARGETS), options.first, called, endings)


def main() -> int:
    parser = argparse.ArgumentParser(description=__doc__, formatter_class=argparse.RawDescriptionHelpFormatter)
    parser.add_argument("--keep", metavar="FOLDER", help="where to leave what is made; what node gives is taken from there")
    parser.add_argument("--again", metavar="FOLDER", help="what an earlier run with --keep left")
    parser.add_argument("--header", action="store_true", help="with --again: the functions of one instruction each")
    parser.add_argument("--first", action="store_true", help="end at the first target that fails")
    parser.add_argument("targets", nargs="*", metavar="TARGET", help=", ".join(TARGETS))
    options = parser.parse_args()
    for tool in ("wat2wasm", "node"):
        if not shutil.which(tool):
            print(f"skipped: operations: no {tool}")
            return 77
    options.again = options.again and os.path.abspath(options.again)
    folder = options.keep or tempfile.mkdtemp()
    os.makedirs(folder, exist_ok=True)
    os.chdir(folder)
    wrong = run(options)
    if not options.keep:
        shutil.rmtree(folder)
    return 1 if wrong else 0


if __name__ == "__main__":
    sys.exit(main())
