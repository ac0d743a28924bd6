#!/usr/bin/env python3
"""side_by_side.py [--code FILE] [--quick] [--turn N [--of M]] OBJECT [SEED..]: the object that the C was made of, run by node,
and the C, call by call.

Both run the worked cases on the same memory: data, stack and heap lie at the same addresses on both sides. Into a sum goes each call
of each function, with its arguments and its result; it is compared after each call from outside, with what that gives and a sum of
the whole memory. Where they differ, both run again up to that call, and the function in which they first differ is told.

The C is portable/causal_code.c (or FILE) as it stands, but that each function has another one around it that notes its calls, that
frames lie in the memory, and that the data is copied there (side_by_side.h, side_by_side.c). The object's functions get others around
them too, and are linked by what the compiler wrote at their relocations; side_by_side.cjs runs them. With --turn N every tenth (or
M-th) case is run, from the N-th on. Of an object that exports `causal_t` the seeds are the arguments of its calls.
Status 77 where node or cc isn't here.
"""
from __future__ import annotations

import argparse
import concurrent.futures
import itertools
import json
import os
import re
import shutil
import struct
import subprocess
import sys
import tempfile
from typing import Any

from targets import PORTABLE, TOP

sys.path.insert(0, f"{PORTABLE}/wasm_to_c")
from objects import CONSTANT, DATA, FUNCTION_INDEX, GLOBAL_INDEX, OFFSET, TYPES, WORD, Module, Reader  # noqa: E402
from program import Program  # noqa: E402

sys.path.insert(0, f"{TOP}/bindings/c")
from flatten import inputs_of, needs_devices  # noqa: E402

# Where things lie: the data, the stack down to it, what callers pass, the heap, and what functions note.
BASE, STACK, HEAP, END, LOG_END = 0x10000000, 0x10200000, 0x10600000, 0x30000000, 0x40000000
ROOM = STACK
OUT, OUT_ROOM, ERR_ROOM = HEAP - 0x180000, 1 << 20, 1 << 16
KEPT, NAMES, NAMES_ROOM = HEAP - 0x40000, HEAP - 0x30000, 1 << 16  # a diagram with its names
SIZES = HEAP - 0x1000
MOST_OF_CASE = 1 << 21  # larger inputs have no place
FACTOR = 6364136223846793005
CODES = {letter: code for code, letter in TYPES.items()}
# A value as numbers of 64 bits: in WebAssembly what stands behind it, and in C.
AS_NUMBERS = {"I": [b"\xad"], "L": [b""], "W": [b"\xbd"], "V": [b"\xfd\x1d\x00", b"\xfd\x1d\x01"]}
AS_NUMBERS_IN_C = {"I": ["(L){}"], "L": ["{}"], "W": ["bits_of({})"], "V": ["get8({},0)", "get8({},1)"]}


# --- the object, linked

def unsigned(number: int) -> bytes:
    out = bytearray()
    while True:
        out.append(number & 127 | (128 if number > 127 else 0))
        number >>= 7
        if not number:
            return bytes(out)


def signed(number: int) -> bytes:
    out = bytearray()
    while not -64 <= number < 64:
        out.append(number & 127 | 128)
        number >>= 7
    return bytes([*out, number & 127])


def padded(number: int, size: int) -> bytes:
    """A number in LEB128 of so many bytes."""
    return bytes((number >> 7 * i & 127) | (128 if i < size - 1 else 0) for i in range(size))


def section(kind: int, rows: list[bytes]) -> bytes:
    content = unsigned(len(rows)) + b"".join(rows)
    return bytes([kind]) + unsigned(len(content)) + content


def named(text: str) -> bytes:
    return unsigned(len(text)) + text.encode()


class Linked:
    """The module that node runs, and the data."""

    def __init__(self, module: Module, where: dict[int, int]) -> None:
        self.module, self.where = module, where
        self.imports, self.total = len(module.imports), len(module.signatures)
        self.bytes = bytearray(module.data)
        self.offsets = self.segment_offsets()
        self.data = self.patched()

    def segment_offsets(self) -> list[int]:
        """Where the compiler thinks that each segment lies."""
        start = next(at for kind, at in self.module.sections if kind == DATA) if self.module.segments else 0
        r = Reader(self.module.data, start, len(self.module.data))
        found = []
        for _ in range(r.unsigned() if start else 0):
            r.unsigned(), r.byte()
            found.append(r.signed())
            r.byte()
            r.take(r.unsigned())
        return found

    def moved(self, symbol: int, number: int) -> int:
        """An address that the compiler wrote, where the data lies here."""
        segment = self.module.symbols[symbol].number
        if segment is None or segment not in self.where:
            return 0
        return BASE + self.where[segment] + number - self.offsets[segment]

    def wrapper(self, index: int) -> int:
        """The number of the function around another one; imported ones have none."""
        return index + self.total - self.imports if index >= self.imports else index

    def patched(self) -> bytes:
        """Links what is relocated; the data as it lies in memory."""
        for at, relocation in self.module.relocations.items():
            r = Reader(self.module.data, at, at + 10)
            if relocation.kind == FUNCTION_INDEX:
                self.bytes[at:at + 5] = padded(self.wrapper(r.unsigned()), 5)
            elif relocation.kind == GLOBAL_INDEX:
                self.bytes[at:at + 5] = padded(0, 5)
            elif relocation.kind in (OFFSET, CONSTANT):
                self.bytes[at:at + 10] = padded(self.moved(relocation.symbol, r.unsigned() if relocation.kind == OFFSET else r.signed()), 10)
            elif relocation.kind == WORD:
                number = struct.unpack("<Q", self.module.data[at:at + 8])[0]
                self.bytes[at:at + 8] = struct.pack("<Q", self.moved(relocation.symbol, number))
        data = bytearray(max([0, *(self.where[it] + len(self.module.segments[it].content) for it in self.where)]))
        for it, place in self.where.items():
            start, content = self.module.segments[it]
            data[place:place + len(content)] = self.bytes[start:start + len(content)]
        return bytes(data)

    def mixed(self, text: bytes) -> bytes:
        """The sum with one more number, which the code gives."""
        return b"\x23\x01" + text + b"\x85\x42" + signed(FACTOR) + b"\x7e\x24\x01"

    def noted(self, what: int) -> bytes:
        """The sum behind the beginning or the end of a function, where notes are made: two words at the global 2."""
        words = b"\x23\x02\x42" + signed(what) + b"\x37\x03\x00" + b"\x23\x02\x23\x01\x37\x03\x08"
        return b"\x23\x02\x42" + signed(LOG_END) + b"\x54\x04\x40" + words + b"\x23\x02\x42\x10\x7c\x24\x02\x0b"

    def wrapped(self, index: int) -> bytes:
        """A function around another one."""
        takes, gives = self.module.signatures[index]
        text = self.mixed(b"\x42" + signed(index))
        for at, letter in enumerate(takes):
            text += b"".join(self.mixed(b"\x20" + unsigned(at) + part) for part in AS_NUMBERS[letter])
        text += self.noted(2 * index) + b"".join(b"\x20" + unsigned(at) for at in range(len(takes))) + b"\x10" + unsigned(index)
        if gives:
            room = unsigned(len(takes))
            text += b"\x21" + room + b"".join(self.mixed(b"\x20" + room + part) for part in AS_NUMBERS[gives])
        text += self.noted(2 * index + 1) + (b"\x20" + room if gives else b"")
        body = (b"\x01\x01" + bytes([CODES[gives]]) if gives else b"\x00") + text + b"\x0b"
        return unsigned(len(body)) + body

    def text(self) -> bytes:
        types = self.module.types
        rows = [b"\x60" + unsigned(len(it.takes)) + bytes(CODES[x] for x in it.takes) + unsigned(len(it.gives)) + bytes(CODES[x] for x in it.gives)
                for it in types]
        own = [unsigned(types.index(it)) for it in self.module.signatures[self.imports:]]
        imports = [named("env") + named(name) + b"\x00" + unsigned(types.index(it)) for name, it in zip(self.module.imports, self.module.signatures)]
        imports += [named("env") + named("memory") + b"\x02\x04" + unsigned(LOG_END >> 16), named("env") + named("stack") + b"\x03\x7e\x01"]
        exports = [named(name) + b"\x00" + unsigned(self.wrapper(index)) for index, name in self.module.exported().items()]
        exports += [named("sum") + b"\x03\x01", named("log") + b"\x03\x02"]
        bodies = [unsigned(end - start) + bytes(self.bytes[start:end]) for start, end in self.module.bodies]
        wrappers = [self.wrapped(index) for index in range(self.imports, self.total)]
        return (b"\0asm\1\0\0\0" + section(1, rows) + section(2, imports) + section(3, own + own)
                + section(6, [b"\x7e\x01\x42\x00\x0b", b"\x7e\x01\x42" + signed(LOG_END) + b"\x0b"]) + section(7, exports) + section(10, bodies + wrappers))


def mixes(letter: str, name: str) -> str:
    return "".join(f"mix({part.format(name)});" for part in AS_NUMBERS_IN_C[letter])


def traced(code: str, numbers: dict[str, int], exported: list[str]) -> str:
    """The C with a function around each."""
    heads, wrappers, calls = [], [], []

    def renamed(found: re.Match[str]) -> str:
        gives, name, inside = found[2], found[3], found[4]
        takes = [] if inside == "void" else [it.split(" ") for it in inside.split(",")]
        heads.append(f"static {gives} {name}_real({inside});")
        begin = f"mix({numbers[name]});" + "".join(mixes(*it) for it in takes) + f"note({2 * numbers[name]});"
        made = f"{name}_real({','.join(it for _, it in takes)});"
        end = (mixes(gives, "result") if gives != "void" else "") + f"note({2 * numbers[name] + 1});stack=kept;"
        body = f"{gives} result={made}{end}return result;" if gives != "void" else made + end
        wrappers.append(f"{found[1] or ''}{gives} {name}({inside}){{L kept=stack;{begin}{body}}}")
        if name in exported:
            row = ",".join(f"({letter})a[{at}]" for at, (letter, _) in enumerate(takes))
            calls.append(f'  if (!strcmp(name, "{name[:-5]}")) return (L){name}({row});')
        return f"static {gives} {name}_real({inside}){{"
    body = re.sub(r"^(PRIVATE |static )?(I|L|W|V|void) (\w+)\(([^()]*)\)\{", renamed, code, flags=re.M)
    body = body.replace('#include "portable.h"\n', '#include "portable.h"\n#include "tests/side_by_side.h"\n', 1)
    at = body.index("DATA_END\n") + len("DATA_END\n")
    caller = ["L call_code(const char *name, const L *a) {", *calls, "  abort();", "}"]
    return "\n".join([body[:at], *heads, body[at:], *wrappers, *caller, ""])


# --- the calls

def placed(*pieces: bytes) -> tuple[str, list[int]]:
    """Pieces one behind another in the callers' room, as what is put into memory, and where each begins."""
    starts, at, rows = [], ROOM, []
    for piece in pieces:
        starts.append(at)
        rows += [f"{at}:{piece.hex()}"] * bool(piece)
        at += (len(piece) + 31) // 16 * 16
    return ",".join(rows) or "-", starts


def row_of(name: str, written: str, *arguments: int | str) -> str:
    """A call; an argument @N is the word that stands at N."""
    return " ".join([name, written, *map(str, arguments)])


def calls_of(case: dict[str, Any]) -> list[str]:
    """A worked case as calls of all functions: each a name, what is put into memory, and the arguments."""
    text, words, inputs = b"", [], []
    for word in case["words"]:
        words += [len(text), len(text) + len(word.encode())]
        text += word.encode()
    for name, content in inputs_of(case).items():
        for it in (name.encode(), content):
            inputs += [len(text), len(text) + len(it)]
            text += it
    spans = [struct.pack(f"<{len(it)}Q", *it) for it in (words, inputs)]
    written, (at, at_words, at_inputs) = placed(text, *spans)
    of_words = [at, len(text), at_words, len(words) // 2]
    asked = [*of_words, at_inputs, len(inputs) // 4, OUT, OUT_ROOM, OUT + OUT_ROOM, ERR_ROOM, SIZES]
    rows = [row_of("causal_run", written, *asked), row_of("causal_inputs", written, *of_words, NAMES, NAMES_ROOM, SIZES)]
    for content in list(inputs_of(case).values())[:1]:
        kept, (at_text,) = placed(content)
        rows.append(row_of("causal_keep", kept, at_text, len(content), KEPT, NAMES, NAMES_ROOM, SIZES))
        rows += [row_of("causal_separated", "-", KEPT, *sets) for sets in ((1, 2, 0), (1, 2, 4), (1, 4, 2), (2, 8, 4))]
        rows += [row_of("causal_is_identifiable", "-", KEPT, *sets) for sets in ((1, 2), (1, 4), (2, 1))]
        rows += [row_of("causal_is_admissible", "-", KEPT, *sets) for sets in ((1, 2, 0), (1, 2, 4), (2, 4, 1))]
        rows.append(row_of("causal_ask", written, KEPT, NAMES, f"@{SIZES}", *asked))
    return rows


def cases_of(turn: int, step: int) -> list[dict[str, Any]]:
    """Each so manieth of the worked cases that have a place."""
    with open(f"{TOP}/crates/worked_cases/data/cases.json", encoding="utf-8") as file:
        cases = json.load(file)
    return [case for case in cases if not needs_devices(case) and sum(map(len, inputs_of(case).values())) <= MOST_OF_CASE][turn % step::step]


# --- both sides

class Sides:
    """What runs the calls, in the current folder."""

    def __init__(self, module: Module, code: str, calls: list[str], compiler: list[str]) -> None:
        program = Program(module)
        self.names = {index: program.name(index) for index in program.functions}
        self.numbers = {"base": BASE, "heap": HEAP, "end": END, "stack": STACK, "log_end": LOG_END}
        linked = Linked(module, program.where)
        text = traced(code, {name: index for index, name in self.names.items()}, list(program.exported.values()))
        for name, content in [("module.wasm", linked.text()), ("data", linked.data), ("traced.c", text.encode()),
                              ("calls", "".join(call + "\n" for call in calls).encode())]:
            with open(name, "wb") as file:
                file.write(content)
        found = re.search(r"^#define WORDS (\d+)$", code, re.M)
        macros = {"BASE_AT": BASE, "STACK_AT": STACK, "HEAP_AT": HEAP, "END_AT": END, "LOG_END": LOG_END, "FACTOR": FACTOR}
        words = ["-w", "-I", PORTABLE, *(f"-D{name}={number}ull" for name, number in macros.items())]
        subprocess.run([*compiler, *words, "-c", "traced.c", "-o", "traced.o"], check=True)
        words.append(f"-DWORDS={found[1] if found else 0}")
        subprocess.run(["cc", "-O2", *words, "-c", f"{PORTABLE}/tests/side_by_side.c", "-o", "side_by_side.o"], check=True)
        subprocess.run([*compiler, "side_by_side.o", "traced.o", "-o", "traced"], check=True)

    def run(self, *more: str) -> tuple[list[str], list[str]]:
        """The lines of node and of the C; with the number of a call they write logs, too."""
        node = ["node", "--experimental-wasm-memory64", f"{PORTABLE}/tests/side_by_side.cjs", "module.wasm", "data", "calls",
                json.dumps(self.numbers)]
        with concurrent.futures.ThreadPoolExecutor(2) as pool:
            logs = [[*more, f"log.{side}"] if more else [] for side in ("node", "c")]
            of_node, of_c = pool.map(lambda words: run(*words), [[*node, *logs[0]], ["./traced", "calls", *logs[1]]])
        return of_node, of_c

    def told(self, number: int) -> str:
        """Where a call first differs."""
        self.run(str(number))
        events = []
        for side in ("node", "c"):
            if not os.path.exists(f"log.{side}"):
                return "it isn't so in a second run"
            with open(f"log.{side}", "rb") as file:
                events.append(struct.iter_unpack("<QQ", file.read()))
        for one, other in zip(*events):
            if one != other:
                what, of_sum = divmod(one[0], 2)
                name = self.names.get(what, str(what))
                if one[0] != other[0]:
                    return f"where node comes to {name}, the C comes to {self.names.get(other[0] // 2, 'an end')}"
                return f"first in {'the result' if of_sum else 'an argument'} of {name}"
        return "in memory alone: all calls, arguments and results are the same"


def run(*words: str) -> list[str]:
    ran = subprocess.run(words, stdout=subprocess.PIPE, stderr=subprocess.PIPE, text=True)
    return [*ran.stdout.splitlines(), *([f"status {ran.returncode} {ran.stderr[:600]}"] if ran.returncode else [])]


def differ(sides: Sides, calls: list[str]) -> str:
    """What differs, or nothing."""
    of_node, of_c = sides.run()
    for number, (call, one, other) in enumerate(itertools.zip_longest(calls, of_node, of_c)):
        if one != other or call is None or one.startswith("status"):
            return f"call {number}, {(call or 'none').split(' ')[0]}: node has {one}, and the C {other}: {sides.told(number)}"
    return ""


def main() -> int:
    parser = argparse.ArgumentParser(description=__doc__, formatter_class=argparse.RawDescriptionHelpFormatter)
    parser.add_argument("--code", default=f"{PORTABLE}/causal_code.c")
    parser.add_argument("--quick", action="store_true", help="compile the C with tcc, or without optimization")
    parser.add_argument("--turn", type=int)
    parser.add_argument("--of", type=int, default=10)
    parser.add_argument("object", metavar="OBJECT")
    parser.add_argument("seeds", metavar="SEED", nargs="*")
    options = parser.parse_args()
    for tool in ("node", "cc"):
        if not shutil.which(tool):
            print(f"skipped: side by side: no {tool}")
            return 77
    compiler = ["cc", "-O1"] if not options.quick else ["tcc"] if shutil.which("tcc") else ["cc", "-O0"]
    with open(options.object, "rb") as file:
        module = Module(file.read())
    with open(options.code, encoding="ascii") as file:
        code = file.read()
    cases = [] if options.seeds else cases_of(*(0, 1) if options.turn is None else (options.turn, options.of))
    calls = [f"causal_t - {seed}" for seed in options.seeds] or [call for case in cases for call in calls_of(case)]
    with tempfile.TemporaryDirectory() as folder:
        os.chdir(folder)
        sides = Sides(module, code, calls, compiler)
        fault = differ(sides, calls)
        os.chdir("/")
    print(fault or f"{len(calls)} calls of {len(cases)} worked cases, {len(sides.names)} functions: the same on both sides")
    return 1 if fault else 0


if __name__ == "__main__":
    sys.exit(main())
