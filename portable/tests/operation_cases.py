"""What operations.py tests: functions in the text format of WebAssembly, each with the arguments that it is called with.

A function takes numbers of 64 bits and gives one. Operands of other types are made of them, and so are results made one.
"""
from __future__ import annotations

import itertools
import math
import os
import sys
from typing import Iterator, NamedTuple

sys.path.insert(0, os.path.join(os.path.dirname(os.path.dirname(os.path.abspath(__file__))), "wasm_to_c"))
from instructions import BITS, INSTRUCTIONS, NAMED, Instruction  # noqa: E402

EDGES = {
    32: [0, 1, 2, 7, 8, 15, 16, 31, 32, 33, 63, 64, 127, 128, 129, 255, 256, 32767, 32768, 65535, 65536, 0x7FFFFFFF, 0x80000000,
         0x80000001, 0xAAAAAAAA, 0x55555555, 0x12345678, 0xFFFFFF80, 0xFFFF8000, 0xFFFFFFFE, 0xFFFFFFFF],
    64: [0, 1, 2, 7, 31, 32, 33, 63, 64, 65, 127, 128, 255, 256, 32768, 65535, 0x7FFFFFFF, 0x80000000, 0xFFFFFFFF, 0x100000000,
         0x7FFFFFFFFFFFFFFF, 0x8000000000000000, 0x8000000000000001, 0xAAAAAAAAAAAAAAAA, 0x123456789ABCDEF0, 0xFFFFFFFF80000000,
         0xFFFFFFFFFFFF8000, 0xFFFFFFFFFFFFFF80, 0xFFFFFFFFFFFFFFFE, 0xFFFFFFFFFFFFFFFF, 0x0020000000000001,
         0x0040000000000003, 0xFFFFFFFFFFFFFBFF, 0xFFFFFFFFFFFFFC00]}
# 0, 1 and their neighbours, the least and the largest, infinite ones, and some whose digits go on.
DOUBLES = [0, 1 << 63, 0x3FF0000000000000, 0xBFF0000000000000, 0x3FF0000000000001, 0x3FEFFFFFFFFFFFFF, 0x4000000000000000,
           0x0000000000000001, 0x8000000000000001, 0x000FFFFFFFFFFFFF, 0x0010000000000000, 0x0010000000000001,
           0x7FEFFFFFFFFFFFFF, 0xFFEFFFFFFFFFFFFF, 0x7FF0000000000000, 0xFFF0000000000000, 0x3FB999999999999A,
           0x400921FB54442D18, 0x4340000000000000, 0x4340000000000001, 0x3CA0000000000000, 0x3CA0000000000001,
           0x1FF5555555555555, 0x5FE123456789ABCD, 0x3FD5555555555555]
# Halves of vectors
HALVES = [0, 0xFFFFFFFFFFFFFFFF, 0x8000000000000000, 0x8080808080808080, 0x7F7F7F7F7F7F7F7F, 0x0102030405060708,
          0xFF00FF01FE7F8081, 0x0001800080017FFF, 0x2C22202C0A0D5C00, 0x8877665544332211]
CONSTANTS = [0, 1, 5, 63, 127, -1, -2, -16, -(1 << 29), -(1 << 30), -(1 << 30) - 1, 1 << 30, -(1 << 31), (1 << 31) - 1, 1 << 31,
             1 - (1 << 31), (1 << 31) + 1]

# For what doesn't turn on edge values.
FEW = 60


def scrambled(count: int, seed: int) -> list[int]:
    """Numbers of 64 bits that look random and are the same everywhere."""
    found, x = [], seed
    for _ in range(count):
        x = (x * 6364136223846793005 + 1442695040888963407) % (1 << 64)
        found.append(x ^ x >> 29)
    return found


def near(numbers: list[int]) -> list[int]:
    """Doubles with exponents near each other, whose sums and products need care in rounding."""
    return [(x & 0x800FFFFFFFFFFFFF) | (1023 - 30 + (x >> 52) % 60) << 52 for x in numbers]


def tiny(numbers: list[int]) -> list[int]:
    """Doubles whose products and quotients come near the smallest ones."""
    return [(x & 0x800FFFFFFFFFFFFF) | ((x >> 52) % 1100) << 52 for x in numbers]


class Case(NamedTuple):
    """A function: its name, the types of its operands, its body, and at most how many edge values it is called with."""
    name: str
    takes: str
    body: str
    most: int = 1500

    @property
    def width(self) -> int:
        """How many numbers it takes."""
        return sum(2 if letter == "V" else 1 for letter in self.takes)

    def text(self, number: int) -> str:
        parameters = " ".join(["i64"] * self.width)
        return (f'(func $t{number} (export "causal_t{number}") (param {parameters}) (result i64)'
                f"(local $w f64) (local $v v128) (local $i i32) (local $l i64)\n  {self.body})")

    def calls(self) -> list[list[int]]:
        """The arguments of the calls."""
        if "V" in self.takes:
            return self.calls_with_vectors()
        edges = [DOUBLES if letter == "W" else EDGES[BITS[letter]] for letter in self.takes]
        count = math.prod(map(len, edges))
        if count > self.most:
            rows = [row_of(edges, i * 7919 % count) for i in range(min(300, self.most))]
        else:
            rows = [list(row) for row in itertools.product(*edges)]
        if self.takes == "WW":
            numbers = scrambled(6000, len(self.name))
            rows += [list(pair) for how in (near, tiny) for pair in zip(*[iter(how(numbers))] * 2)]
        return rows + in_rows(scrambled((40 if self.most > FEW else 10) * self.width, len(self.name)), self.width)

    def calls_with_vectors(self) -> list[list[int]]:
        count = 60 if self.width > 3 else 30
        edges = [[HALVES[(i * 7 + j * (i // 10 + 1)) % len(HALVES)] for j in range(self.width)] for i in range(count)]
        return edges + in_rows(scrambled(count * self.width, self.width), self.width)


def row_of(edges: list[list[int]], number: int) -> list[int]:
    """One of the rows that have an edge value in each place."""
    row = []
    for values in edges:
        number, at = divmod(number, len(values))
        row.append(values[at])
    return row


def in_rows(numbers: list[int], width: int) -> list[list[int]]:
    return [numbers[at:at + width] for at in range(0, len(numbers), width)]


def into(letter: str, at: int) -> str:
    """The operand that the parameters from `at` on make."""
    return {"I": f"(i32.wrap_i64 (local.get {at}))", "L": f"(local.get {at})",
            "W": f"(f64.reinterpret_i64 (local.get {at}))",
            "V": f"(i64x2.replace_lane 1 (i64x2.splat (local.get {at})) (local.get {at + 1}))"}[letter]


def operands(takes: str) -> list[str]:
    found, at = [], 0
    for letter in takes:
        found.append(into(letter, at))
        at += 2 if letter == "V" else 1
    return found


def out_of(letter: str, text: str) -> str:
    """The number that a result makes; what is no number as a double is one of them."""
    if letter in "IB":
        return f"(i64.extend_i32_u {text})"
    if letter == "W":
        return (f"(local.set $w {text}) (if (result i64) (f64.ne (local.get $w) (local.get $w)) "
                f"(then (i64.const -1)) (else (i64.reinterpret_f64 (local.get $w))))")
    if letter == "V":
        return (f"(local.set $v {text}) (i64.add (i64x2.extract_lane 0 (local.get $v)) "
                f"(i64.mul (i64x2.extract_lane 1 (local.get $v)) (i64.const -7046029254386353131)))")
    return text


def guarded(name: str, text: str) -> str:
    """A division: another number where it traps."""
    bits = int(name[1:3])
    a, b = operands({32: "II", 64: "LL"}[bits])
    is_bad = f"(i{bits}.eqz {b})"
    if name.endswith("div_s"):
        least = -(1 << (bits - 1))
        is_overflow = f"(i32.and (i{bits}.eq {a} (i{bits}.const {least})) (i{bits}.eq {b} (i{bits}.const -1)))"
        is_bad = f"(i32.or {is_bad} {is_overflow})"
    return f"(if (result i64) {is_bad} (then (i64.const 77)) (else {text}))"


def is_division(instruction: Instruction) -> bool:
    return instruction.name.split(".")[1] in ("div_s", "div_u", "rem_s", "rem_u")


# Puts the first two numbers into a frame, to which $l leads.
FILL = "(i64.store (local.get $l) (local.get 0)) (i64.store offset=8 (local.get $l) (local.get 1))"
READ = "(i64.load (local.get $l)) (i64.const 31) (i64.mul) (i64.load offset=8 (local.get $l)) (i64.add)"


def in_frame(body: str, fill: str = FILL) -> str:
    """A body within a frame of 64 bytes."""
    return (f"(local.set $l (i64.sub (global.get $sp) (i64.const 64))) (global.set $sp (local.get $l)) {fill} {body}"
            "(global.set $sp (i64.add (local.get $l) (i64.const 64)))")


def cases() -> list[Case]:
    """All that is tested."""
    found: list[Case] = []
    for _, instruction in sorted(INSTRUCTIONS.items()):
        if instruction.c is not None:
            found += accesses(instruction) if instruction.behind.startswith("memory") else calculations(instruction)
    return [*found, *with_constants(), *nested(), *copies(), *of_128_bits(), *runs(), *orders(), *waiting(),
            *updates(), *constants_within(), *vector_constants(), *jumps(), *more_jumps()]


def is_of_header(case: Case) -> bool:
    """Whether a case is of one instruction, of which portable.h has the meaning."""
    return case.name in NAMED or case.name.startswith(("__", "memory.", "16 bytes", "a store of "))


def accesses(instruction: Instruction) -> Iterator[Case]:
    """A load or store in the middle of a frame, at addresses that aren't aligned."""
    name = instruction.name
    is_wide = name in ("v128.load", "v128.store", "v128.load32_zero", "v128.store16_lane")
    for offset in (0,) if is_wide else (0, 1, 3, 5, 7, 8):
        place = f"offset={offset}" + (" 3" if instruction.behind == "memory lane" else "")
        if instruction.gives:
            vector = into("V", 0) if "V" in instruction.takes else ""
            yield Case(name, "LL", in_frame(out_of(instruction.gives, f"({name} {place} (local.get $l) {vector})")))
        else:
            letter = instruction.takes[1]
            store = f"(i64.store offset=16 (local.get $l) (i64.const 0)) ({name} {place} (local.get $l) {into(letter, 2)})"
            more = "(i64.const 31) (i64.mul) (i64.load offset=16 (local.get $l)) (i64.add)"
            yield Case(name, "LL" + letter, in_frame(store + READ + more))


def lanes_of(instruction: Instruction) -> list[str]:
    """The lanes that are tested: all of them, or for a shuffle bytes that follow each other and others."""
    if instruction.behind == "lane":
        return [str(lane) for lane in range({"i8": 16, "i1": 8, "i6": 2}[instruction.name[:2]])]
    if instruction.behind == "lanes":
        slides = [" ".join(str(first + i) for i in range(16)) for first in range(17)]
        return slides + [" ".join(str((k * i * 7 + k) % 32) for i in range(16)) for k in (1, 2, 3, 5)]
    return [""]


def calculations(instruction: Instruction) -> Iterator[Case]:
    name = instruction.name
    for lanes in lanes_of(instruction):
        text = out_of(instruction.gives, f"({name} {lanes} {' '.join(operands(instruction.takes))})")
        yield Case(name, instruction.takes, guarded(name, text) if is_division(instruction) and instruction.gives in "IL" else text)


def with_constants() -> Iterator[Case]:
    """Operations with one operand a constant: the translation writes many of them in another way."""
    for letter, bits in BITS.items():
        most = 1 << (bits - 1)
        constants = sorted({number % (1 << bits) for number in [*CONSTANTS, -most, most - 1]})
        for _, instruction in sorted(INSTRUCTIONS.items()):
            if instruction.takes != letter * 2 or instruction.c is None or instruction.behind:
                continue
            for number in constants:
                if is_division(instruction) and number in (0, (1 << bits) - 1):
                    continue
                x, y = into(letter, 0), f"(i{bits}.const {number if number < most else number - 2 * most})"
                yield Case(f"{instruction.name} constant right", letter, out_of(instruction.gives, f"({instruction.name} {x} {y})"))
                if not is_division(instruction):
                    yield Case(f"{instruction.name} constant left", letter, out_of(instruction.gives, f"({instruction.name} {y} {x})"))


def nested() -> Iterator[Case]:
    """Each operator within each other one, at both sides."""
    operators = ["add", "sub", "mul", "and", "or", "xor", "shl", "shr_u", "shr_s", "rotl", "eq", "lt_s", "lt_u"]
    for letter, bits in BITS.items():
        def number(operator: str, a: str, b: str, bits: int = bits) -> str:
            text = f"(i{bits}.{operator} {a} {b})"
            return f"(i64.extend_i32_u {text})" if bits == 64 and operator in ("eq", "lt_s", "lt_u") else text
        x, y, z = (into(letter, at) for at in range(3))
        for p, q in itertools.product(operators, repeat=2):
            yield Case(f"i{bits} ({p}) {q}", letter * 3, out_of(letter, number(q, number(p, x, y), z)), 150)
            yield Case(f"i{bits} {q} ({p})", letter * 3, out_of(letter, number(q, x, number(p, y, z))), 150)


def copies() -> Iterator[Case]:
    for to, source, size in ((0, 0, 16), (0, 1, 15), (1, 0, 15), (3, 3, 0), (8, 0, 8), (0, 8, 8), (2, 5, 7), (5, 2, 7)):
        places = [f"(i64.add (local.get $l) (i64.const {place}))" for place in (to, source)]
        yield Case(f"memory.copy {to} {source} {size}", "LL",
                   in_frame(f"(memory.copy {places[0]} {places[1]} (i64.const {size})) {READ}"))
    for to, size in ((0, 16), (1, 7), (3, 0), (15, 1)):
        yield Case(f"memory.fill {to} {size}", "LL",
                   in_frame(f"(memory.fill (i64.add (local.get $l) (i64.const {to})) (i32.wrap_i64 (local.get 1))"
                            f"(i64.const {size})) {READ}"))


def of_128_bits() -> Iterator[Case]:
    for name, takes in (("multi3", "LLLL"), ("lshrti3", "LLI"), ("ashlti3", "LLI")):
        arguments = " ".join(operands(takes))
        yield Case(f"__{name}", "VV" if name == "multi3" else takes, in_frame(f"(call ${name} (local.get $l) {arguments}) {READ}", ""))


def runs() -> Iterator[Case]:
    """A vector that is loaded byte by byte."""
    def loaded(lanes: list[int]) -> str:
        run = "(v128.load8_splat (local.get $l))"
        for lane in lanes:
            run = f"(v128.load8_lane offset={lane} {lane} (local.get $l) {run})"
        return run
    run = loaded([*range(1, 16)])
    yield Case("16 bytes that follow each other", "LL", in_frame(out_of("V", run)))
    yield Case("16 bytes, one of them another", "LL", in_frame(out_of("V", run.replace("offset=9 ", "offset=10 "))))
    yield Case("16 bytes, one of them in another lane", "LL", in_frame(out_of("V", run.replace("offset=9 9", "offset=9 8"))))
    yield Case("15 of 16 bytes", "LL", in_frame(out_of("V", loaded([*range(1, 9), *range(10, 16)]))))


def orders() -> list[Case]:
    """What is calculated before something else changes it."""
    read, store = "(i64.load (local.get $l))", "(i64.store (local.get $l) (i64.const 9))"
    return [
        Case("a local that is read before a call and set behind it", "LL",
             "(local.get 0) (call $add7 (local.get 1)) (i64.const 1) (i64.add) (local.set 0) (i64.const 1000003) (i64.mul)"
             "(local.get 0) (i64.add)"),
        Case("a read before a store", "LL", in_frame(
            f"{read} (local.get $l) (local.get 0) (local.set 0 (i64.const 5)) (i64.store) (local.get 0) (i64.add)"
            f"(i64.const 31) (i64.mul) {read} (i64.add)")),
        Case("two reads and a store between them", "LL", in_frame(f"{read} {store} {read} (i64.sub)")),
        Case("a read before a call that writes", "LL", in_frame(
            f"{read} (call $poke (local.get $l)) (i64.const 31) (i64.mul) (i64.add) {read} (i64.xor)")),
        Case("an argument that a settled value could overwrite", "LL", in_frame(
            f"{read} (local.get 1) (local.set 1 (i64.const 3)) (call $poke_too (local.get $l)) (i64.add) (local.get 1) (i64.mul)")),
        Case("a condition that a settled value could overwrite", "LL", in_frame(
            f"{read} (local.get 1) (local.set 1 (i64.const 3)) (i64.const 5) (i64.lt_u)"
            f"(if (result i64) (then {store} (i64.const 10)) (else (i64.const 20))) (i64.add)")),
        Case("a local that is set within an operand", "LL", "(i64.add (local.get 0) (i64.mul (local.tee 0 (local.get 1)) (local.get 0)))"),
        Case("a value under a block", "LL",
             "(local.get 0) (block (br_if 0 (i64.eqz (local.get 1))) (local.set 0 (i64.const 8))) (local.get 0) (i64.sub)"),
    ]


def jumps() -> list[Case]:
    """Choices, blocks and jumps, and comparisons as numbers."""
    return [
        Case("a choice in a choice", "LL",
             "(select (select (local.get 0) (local.get 1) (i64.eqz (local.get 0))) (local.get 1)"
             "(i32.wrap_i64 (i64.and (local.get 0) (i64.const 3))))"),
        Case("a choice of comparisons", "LL",
             "(i64.extend_i32_u (i32.add (select (i64.lt_s (local.get 0) (local.get 1)) (i64.eqz (local.get 1)) (i64.lt_u (local.get 0)"
             "(local.get 1))) (i32.shl (i64.gt_u (local.get 0) (local.get 1)) (i32.const 4))))"),
        Case("a comparison extended with its sign", "LL", "(i64.extend_i32_s (i64.lt_u (local.get 0) (local.get 1)))"),
        Case("a comparison with its sign turned", "LL",
             "(i64.extend_i32_s (i32.sub (i32.const 0) (i64.lt_u (local.get 0) (local.get 1))))"),
        Case("br_table with a value", "LL",
             "(block $c (result i64) (block $b (result i64) (block $a (result i64) (local.get 1) (br_table $a $c $b $a $c"
             "(i32.wrap_i64 (local.get 0)))) (i64.const 3) (i64.mul)) (i64.const 5) (i64.add))"),
        Case("br_if with a value", "LL",
             "(block $a (result i64) (br_if $a (local.get 0) (i64.eqz (local.get 1))) (local.get 1) (i64.add))"),
        Case("a loop that carries a local", "LL",
             "(local.set 1 (i64.and (local.get 1) (i64.const 15))) (loop $a (local.set 0 (i64.add (i64.mul (local.get 0) (i64.const 3))"
             "(local.tee $l (i64.add (local.get $l) (i64.const 1))))) (br_if $a (i64.lt_u (local.get $l) (local.get 1))))"
             "(local.get 0)"),
        Case("an if without else, and code that isn't reached", "LL",
             "(block $a (if (i64.eqz (local.get 0)) (then (local.set 1 (i64.const 4)) (br $a) (local.set 1 (i64.const 5))"
             "(block (loop (br 0))))) (local.set 1 (i64.add (local.get 1) (i64.const 1)))) (local.get 1)"),
    ]


# An expression that waits on the stack, with each thing that may change it before it is used. In it `read` stands for what it reads:
# the local 0, or the 8 bytes at $l.
WAITING = {
    "itself": "{read}",
    "a choice's first": "(select {read} (i64.const 77) (i32.wrap_i64 (local.get 1)))",
    "a choice's second": "(select (i64.const 77) {read} (i32.wrap_i64 (local.get 1)))",
    "a choice's condition": "(select (local.get 1) (i64.const 77) (i32.wrap_i64 {read}))",
    "a choice by a comparison": "(select (local.get 1) (i64.const 77) (i64.lt_u {read} (i64.const 1000)))",
    "a comparison": "(i64.extend_i32_u (i64.lt_u {read} (local.get 1)))",
    "a comparison turned": "(i64.extend_i32_u (i64.lt_u (local.get 1) {read}))",
    "a comparison as a number": "(i64.extend_i32_u (i32.add (i64.lt_u {read} (local.get 1)) (i32.const 3)))",
    "two comparisons": "(i64.extend_i32_u (i32.and (i64.ne {read} (i64.const 3)) (i64.lt_u (i64.const 8) {read})))",
    "no zero": "(i64.extend_i32_u (i64.eqz {read}))",
    "a sum with a constant": "(i64.add {read} (i64.const -5))",
    "bits by a constant": "(i64.and {read} (i64.const -16))",
    "bits turned": "(i64.xor {read} (i64.const -1))",
    "the left of a product": "(i64.mul {read} (local.get 1))",
    "the right of a product": "(i64.mul (local.get 1) {read})",
    "a number of places": "(i64.shl (local.get 1) {read})",
    "the left of a function": "(i64.rotl {read} (local.get 1))",
    "the right of a function": "(i64.rotl (local.get 1) {read})",
    "32 bits of it": "(i64.extend_i32_s (i32.sub (i32.wrap_i64 {read}) (i32.const 9)))",
    "an address": "(i64.load (i64.add (local.get $l) (i64.and {read} (i64.const 8))))",
    "an address with an offset": "(i64.load offset=4 (i64.add (local.get $l) (i64.and {read} (i64.const 4))))",
    "a byte of it": "(i64.load8_s (i64.add (local.get $l) (i64.and {read} (i64.const 7))))",
    "a double": "(i64.reinterpret_f64 (f64.neg (f64.reinterpret_i64 {read})))",
    "a lane": "(i64x2.extract_lane 1 (i64x2.add (i64x2.splat {read}) (i64x2.splat (local.get 1))))",
    "a lane that is put": "(i64x2.extract_lane 1 (i64x2.replace_lane 1 (i64x2.splat (local.get 1)) {read}))",
    "a slide": "(i64x2.extract_lane 0 (i8x16.shuffle 5 6 7 8 9 10 11 12 13 14 15 16 17 18 19 20 (i64x2.splat {read})"
               "(i64x2.splat (local.get 1))))",
    "16 bytes": "(i64x2.extract_lane 0 RUN)",
}
CHANGES = {
    "a set": "(local.set 0 (i64.const 5))",
    "a tee": "(drop (local.tee 0 (i64.const 5)))",
    "a store": "(i64.store (local.get $l) (i64.const 9))",
    "a store of a byte": "(i64.store8 offset=3 (local.get $l) (i64.const 9))",
    "a call": "(drop (call $poke (local.get $l)))",
    "a call that is set": "(local.set 0 (call $poke (local.get $l)))",
    "a fill": "(memory.fill (local.get $l) (i32.const 3) (i64.const 8))",
    "a copy": "(memory.copy (local.get $l) (i64.add (local.get $l) (i64.const 8)) (i64.const 8))",
    "a block": "(block (br_if 0 (i64.eqz (local.get 1))) (local.set 0 (i64.const 5)) (i64.store (local.get $l) (i64.const 9)))",
    "a loop": "(loop (local.set 0 (i64.const 5)) (i64.store (local.get $l) (i64.const 9)))",
    "a loop that runs twice": "(loop (local.set 0 (i64.add (local.get 0) (i64.const 5))) (i64.store (local.get $l) (local.get 0))"
                              "(local.set 1 (i64.extend_i32_u (i64.eqz (local.get 1)))) (br_if 0 (i32.wrap_i64 (local.get 1))))",
    "a branch": "(if (i64.eqz (local.get 1)) (then (local.set 0 (i64.const 5))) (else (i64.store (local.get $l) (i64.const 9))))",
}


def waiting() -> Iterator[Case]:
    run = "(v128.load8_splat (local.get $l))"
    for lane in range(1, 16):
        run = f"(v128.load8_lane offset={lane} {lane} (local.get $l) {run})"
    for (what, text), (change, then) in itertools.product(WAITING.items(), CHANGES.items()):
        for source, read in (("a local", "(local.get 0)"), ("memory", "(i64.load (local.get $l))")):
            value = text.replace("RUN", run).format(read=read)
            yield Case(f"{what} of {source}, and {change} behind it", "LL", in_frame(
                f"{value} {then} (i64.const 31) (i64.mul) (local.get 0) (i64.add) (i64.load (local.get $l)) (i64.add)"), FEW)


def vector_constants() -> Iterator[Case]:
    for k, lanes in enumerate((range(16), range(15, -1, -1), [255, *[0] * 15], [*[0] * 15, 255])):
        text = "(v128.const i8x16 " + " ".join(map(str, lanes)) + ")"
        yield Case(f"v128.const {k}", "LL", out_of("V", f"(i64x2.add {text} (i64x2.splat (local.get 0)))"), FEW)


def updates() -> Iterator[Case]:
    """A local that receives what is calculated with it."""
    operators = ["add", "sub", "mul", "and", "or", "xor", "shl", "shr_u"]
    for letter, kind, name in (("I", "i32", "$i"), ("L", "i64", "0")):
        first = "(local.set $i (i32.wrap_i64 (local.get 0)))" if letter == "I" else ""
        x, y, z = f"(local.get {name})", into(letter, 1), into(letter, 2)
        for p, q in itertools.product(operators, repeat=2):
            shapes = {"(xpy)qz": f"({kind}.{q} ({kind}.{p} {x} {y}) {z})", "xp(yqz)": f"({kind}.{p} {x} ({kind}.{q} {y} {z}))",
                      "(xpy)qx": f"({kind}.{q} ({kind}.{p} {x} {y}) {x})", "xp(yqx)": f"({kind}.{p} {x} ({kind}.{q} {y} {x}))"}
            for shape, text in shapes.items():
                yield Case(f"x={shape} of {kind} {p} {q}", letter * 3, f"{first} (local.set {name} {text}) {out_of(letter, x)}", FEW)


def constants_within() -> Iterator[Case]:
    """An operation with a constant as an operand of another one, and one of two constants."""
    inner, outer = ["add", "sub", "mul", "and", "or", "xor"], ["add", "sub", "mul", "and", "shl", "shr_u", "shr_s", "lt_u", "lt_s", "rotl"]
    for letter, bits in BITS.items():
        most = 1 << (bits - 1)
        numbers = sorted({n % (1 << bits) for n in (1, -1, -5, -(1 << 30) - 1, -(1 << 31), (1 << 31) - 1, 1 << 31, -most, -(3 << 30))})
        constants = {number: f"(i{bits}.const {number if number < most else number - 2 * most})" for number in numbers}
        for (number, constant), p, q in itertools.product(constants.items(), inner, outer):
            for pair in (into(letter, 0), constant), (constant, into(letter, 0)):
                whole = f"(i{bits}.{q} (i{bits}.{p} {' '.join(pair)}) {into(letter, 1)})"
                yield Case(f"i{bits}.{p} with {number:#x} in {q}", letter * 2, out_of("B" if q.startswith("lt") else letter, whole), FEW)
        for (a, first), (b, second), p in itertools.product(constants.items(), constants.items(), inner):
            text = f"(i{bits}.add (i{bits}.{p} {first} {second}) {into(letter, 0)})"
            yield Case(f"i{bits}.{p} of {a:#x} and {b:#x}", letter, out_of(letter, text), FEW)


def more_jumps() -> list[Case]:
    """Jumps that leave values behind, and stores that the others don't have."""
    return [
        Case("a br out of the function", "LL",
             "(block (br_if 1 (local.get 0) (i64.eqz (local.get 1))) (drop) (local.set 0 (i64.const 4)))"
             "(i64.add (i64.add (local.get 0) (local.get 1)) (i64.const 7))"),
        Case("a value under a block that a br leaves", "LL",
             "(i64.mul (local.get 0) (i64.const 3)) (block (result i64) (local.get 1) (i64.const 9) (br 0)) (i64.sub)"),
        Case("code behind a br that takes more than there is", "LL",
             "(local.get 1) (block $a (result i64) (local.get 0) (br $a) (i64.add)) (i64.sub)"),
        Case("a br in a loop to the block around it", "LL",
             "(block $out (loop $in (br_if $out (i64.lt_u (local.get 0) (i64.const 100))) (local.set 0 (i64.shr_u (local.get 0) (i64.const 3)))"
             "(br $in))) (local.get 0)"),
        Case("an address in the frame's words by |", "LL", in_frame(f"(i64.store (i64.or (local.get $l) (i64.const 8)) (local.get 0)) {READ}")),
        *(Case(f"a store of {number}", "LL", in_frame(f"({kind}.store (local.get $l) ({kind}.const {number})) {READ}"), FEW)
          for kind, number in (("i64", -1), ("i64", 1 << 31), ("i64", (1 << 63) - 1), ("i32", -1), ("i32", -(1 << 31)))),
    ]


def traps() -> list[tuple[Case, list[int]]]:
    """Calls that have to end the program, each with its arguments."""
    found = [(Case("unreachable", "L", "(if (i64.eqz (local.get 0)) (then (unreachable))) (local.get 0)"), [0])]
    for letter, bits in BITS.items():
        a, b = operands(letter * 2)
        for name in ("div_s", "div_u", "rem_s", "rem_u"):
            case = Case(f"i{bits}.{name} by 0", letter * 2, out_of(letter, f"(i{bits}.{name} {a} {b})"))
            found += [(case, [7, 0]), (case, [0, 0])]
        least = 1 << (bits - 1)
        text = out_of(letter, f"(i{bits}.div_s {a} {b})")
        found.append((Case(f"i{bits}.div_s of the least number by -1", letter * 2, text), [least, 2 * least - 1]))
    return found
