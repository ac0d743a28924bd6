"""The instructions that are known, each with its meaning in C, and a function's body as a list of them.

An instruction has its code, its name in the specification of WebAssembly, the types of its operands and of its result, the
level of its C (how tightly it binds), and its C. Types are letters, as the types of the C: I is a number of 32 bits, L one of
64, both unsigned; W a double; V a vector of 16 bytes. B is the result of a comparison in C, an int of 0 or 1.

Levels: 0 a name or number, 1 a call, 2 unary, 3 product, 4 sum, 5 shift, 6 order, 7 equality, 8 and, 9 xor, 10 or, 13 choice.

In the C, `a` and `b` are the operands, `p` an address and `k` a lane or lanes:

    {a}     between commas or parentheses
    {a:4}   beside an operator of level 4
    {a:4n}  the same, but a small constant may be an int, since what stands beside it has the type
    {b:s}   at the right of a comparison of signed numbers
    {b:m}   a number of places of a shift, of which the last 5 or 6 bits count

portable.h has the functions and macros that the C uses.
"""
from __future__ import annotations

import struct
from typing import NamedTuple

from objects import CONSTANT, FUNCTION_INDEX, GLOBAL_INDEX, OFFSET, Module, Reader, Relocation, stop

BITS = {"I": 32, "L": 64}


class Instruction(NamedTuple):
    """An instruction; `behind` says what stands behind its code in a body, and `c` is None where it is no expression or store."""
    name: str
    behind: str = ""
    takes: str = ""
    gives: str = ""
    level: int = 0
    c: str | None = None


# Of integers, for 32 and 64 bits alike: T is the type, S the signed one, # its bits.
INTEGERS = [
    (0x45, 0x50, "eqz", "T", "B", 2, "!{a:2}"),
    (0x46, 0x51, "eq", "TT", "B", 7, "{a:7}=={b:7n}"),
    (0x47, 0x52, "ne", "TT", "B", 7, "{a:7}!={b:7n}"),
    (0x48, 0x53, "lt_s", "TT", "B", 6, "(S){a:2}<{b:s}"),
    (0x49, 0x54, "lt_u", "TT", "B", 6, "{a:6}<{b:6n}"),
    (0x4A, 0x55, "gt_s", "TT", "B", 6, "(S){a:2}>{b:s}"),
    (0x4B, 0x56, "gt_u", "TT", "B", 6, "{a:6}>{b:6n}"),
    (0x4C, 0x57, "le_s", "TT", "B", 6, "(S){a:2}<={b:s}"),
    (0x4D, 0x58, "le_u", "TT", "B", 6, "{a:6}<={b:6n}"),
    (0x4E, 0x59, "ge_s", "TT", "B", 6, "(S){a:2}>={b:s}"),
    (0x4F, 0x5A, "ge_u", "TT", "B", 6, "{a:6}>={b:6n}"),
    (0x67, 0x79, "clz", "T", "T", 1, "clz#({a})"),
    (0x68, 0x7A, "ctz", "T", "T", 1, "ctz#({a})"),
    (0x69, 0x7B, "popcnt", "T", "T", 1, "popcnt#({a})"),
    (0x6A, 0x7C, "add", "TT", "T", 4, "{a:4n}+{b:4n}"),
    (0x6B, 0x7D, "sub", "TT", "T", 4, "{a:4n}-{b:3n}"),
    (0x6C, 0x7E, "mul", "TT", "T", 3, "{a:3n}*{b:3n}"),
    (0x6D, 0x7F, "div_s", "TT", "T", 1, "divs#({a},{b})"),
    (0x6E, 0x80, "div_u", "TT", "T", 1, "divu#({a},{b})"),
    (0x6F, 0x81, "rem_s", "TT", "T", 1, "rems#({a},{b})"),
    (0x70, 0x82, "rem_u", "TT", "T", 1, "remu#({a},{b})"),
    (0x71, 0x83, "and", "TT", "T", 8, "{a:8n}&{b:8n}"),
    (0x72, 0x84, "or", "TT", "T", 10, "{a:10n}|{b:10n}"),
    (0x73, 0x85, "xor", "TT", "T", 9, "{a:9n}^{b:9n}"),
    (0x74, 0x86, "shl", "TT", "T", 5, "{a:5}<<{b:m}"),
    (0x75, 0x87, "shr_s", "TT", "T", 1, "sar#({a},{b:m})"),
    (0x76, 0x88, "shr_u", "TT", "T", 5, "{a:5}>>{b:m}"),
    (0x77, 0x89, "rotl", "TT", "T", 1, "rotl#({a},{b})"),
    (0x78, 0x8A, "rotr", "TT", "T", 1, "rotr#({a},{b})"),
]

# From one type of number to another.
CONVERSIONS = [
    (0xA7, "i32.wrap_i64", "L", "I", 2, "(I){a:2}"),
    (0xAC, "i64.extend_i32_s", "I", "L", 2, "(L)(SL)(SI){a:2}"),
    (0xAD, "i64.extend_i32_u", "I", "L", 2, "(L){a:2}"),
    (0xC0, "i32.extend8_s", "I", "I", 2, "(I)(S1_){a:2}"),
    (0xC1, "i32.extend16_s", "I", "I", 2, "(I)(S2_){a:2}"),
    (0xC2, "i64.extend8_s", "L", "L", 2, "(L)(S1_){a:2}"),
    (0xC3, "i64.extend16_s", "L", "L", 2, "(L)(S2_){a:2}"),
    (0xC4, "i64.extend32_s", "L", "L", 2, "(L)(S4_){a:2}"),
    (0xB8, "f64.convert_i32_u", "I", "W", 1, "toW({a})"),
    (0xBA, "f64.convert_i64_u", "L", "W", 1, "toW({a})"),
    (0xBD, "i64.reinterpret_f64", "W", "L", 1, "bits_of({a})"),
    (0xBF, "f64.reinterpret_i64", "L", "W", 1, "double_of({a})"),
]

DOUBLES = [
    (0x61, "f64.eq", "WW", "B", 6, "({a})==({b})"),
    (0x62, "f64.ne", "WW", "B", 6, "({a})!=({b})"),
    (0x63, "f64.lt", "WW", "B", 6, "({a})<({b})"),
    (0x64, "f64.gt", "WW", "B", 6, "({a})>({b})"),
    (0x65, "f64.le", "WW", "B", 6, "({a})<=({b})"),
    (0x66, "f64.ge", "WW", "B", 6, "({a})>=({b})"),
    (0x99, "f64.abs", "W", "W", 1, "double_of(bits_of({a})&~((L)1<<63))"),
    (0x9A, "f64.neg", "W", "W", 1, "double_of(bits_of({a})^(L)1<<63)"),
    (0xA0, "f64.add", "WW", "W", 1, "addW({a},{b})"),
    (0xA1, "f64.sub", "WW", "W", 1, "subW({a},{b})"),
    (0xA2, "f64.mul", "WW", "W", 1, "mulW({a},{b})"),
    (0xA3, "f64.div", "WW", "W", 1, "divW({a},{b})"),
]

LOADS = [
    (0x28, "i32.load", "I", "R4({p})"),
    (0x29, "i64.load", "L", "R8({p})"),
    (0x2B, "f64.load", "W", "RW({p})"),
    (0x2C, "i32.load8_s", "I", "S1({p})"),
    (0x2D, "i32.load8_u", "I", "R1({p})"),
    (0x2E, "i32.load16_s", "I", "S2({p})"),
    (0x2F, "i32.load16_u", "I", "R2({p})"),
    (0x30, "i64.load8_s", "L", "X1({p})"),
    (0x31, "i64.load8_u", "L", "Z1({p})"),
    (0x32, "i64.load16_s", "L", "X2({p})"),
    (0x33, "i64.load16_u", "L", "Z2({p})"),
    (0x34, "i64.load32_s", "L", "X4({p})"),
    (0x35, "i64.load32_u", "L", "Z4({p})"),
    (0xFD00, "v128.load", "V", "RV({p})"),
    (0xFD07, "v128.load8_splat", "V", "splat1(R1({p}))"),
    (0xFD5C, "v128.load32_zero", "V", "words(Z4({p}),0)"),
    (0xFD5D, "v128.load64_zero", "V", "words(R8({p}),0)"),
]

STORES = [
    (0x36, "i32.store", "I", "P4({p},{b})"),
    (0x37, "i64.store", "L", "P8({p},{b})"),
    (0x39, "f64.store", "W", "PW({p},{b})"),
    (0x3A, "i32.store8", "I", "P1({p},{b})"),
    (0x3B, "i32.store16", "I", "P2({p},{b})"),
    (0x3C, "i64.store8", "L", "P1({p},{b})"),
    (0x3D, "i64.store16", "L", "P2({p},{b})"),
    (0x3E, "i64.store32", "L", "P4({p},{b})"),
    (0xFD0B, "v128.store", "V", "PV({p},{b})"),
]

LANE_ACCESSES = [
    (0xFD54, "v128.load8_lane", "V", "put1({b},{k},R1({p}))"),
    (0xFD59, "v128.store16_lane", "", "P2({p},get2({b},{k}))"),
]

LANES = [
    (0xFD16, "i8x16.extract_lane_u", "V", "I", "get1({a},{k})"),
    (0xFD17, "i8x16.replace_lane", "VI", "V", "put1({a},{k},{b})"),
    (0xFD19, "i16x8.extract_lane_u", "V", "I", "get2({a},{k})"),
    (0xFD1A, "i16x8.replace_lane", "VI", "V", "put2({a},{k},{b})"),
    (0xFD1D, "i64x2.extract_lane", "V", "L", "get8({a},{k})"),
    (0xFD1E, "i64x2.replace_lane", "VL", "V", "put8({a},{k},{b})"),
]

VECTORS = [
    (0xFD0F, "i8x16.splat", "I", "V", "splat1({a})"),
    (0xFD10, "i16x8.splat", "I", "V", "splat2({a})"),
    (0xFD12, "i64x2.splat", "L", "V", "splat8({a})"),
    (0xFD23, "i8x16.eq", "VV", "V", "eq1({a},{b})"),
    (0xFD24, "i8x16.ne", "VV", "V", "notV(eq1({a},{b}))"),
    (0xFD25, "i8x16.lt_s", "VV", "V", "lts1({a},{b})"),
    (0xFD26, "i8x16.lt_u", "VV", "V", "ltu1({a},{b})"),
    (0xFD2B, "i8x16.ge_s", "VV", "V", "notV(lts1({a},{b}))"),
    (0xFD4E, "v128.and", "VV", "V", "andV({a},{b})"),
    (0xFD50, "v128.or", "VV", "V", "orV({a},{b})"),
    (0xFD51, "v128.xor", "VV", "V", "xorV({a},{b})"),
    (0xFD53, "v128.any_true", "V", "I", "anyV({a})"),
    (0xFD64, "i8x16.bitmask", "V", "I", "mask1({a})"),
    (0xFD84, "i16x8.bitmask", "V", "I", "mask2({a})"),
    (0xFD6C, "i8x16.shr_s", "VI", "V", "shrs1({a},{b})"),
    (0xFD6D, "i8x16.shr_u", "VI", "V", "shru1({a},{b})"),
    (0xFD6E, "i8x16.add", "VV", "V", "add1({a},{b})"),
    (0xFD73, "i8x16.sub_sat_u", "VV", "V", "subsat1({a},{b})"),
    (0xFD87, "i16x8.extend_low_i8x16_s", "V", "V", "wide1({a})"),
    (0xFD8B, "i16x8.shl", "VI", "V", "shl2({a},{b})"),
    (0xFD8E, "i16x8.add", "VV", "V", "add2({a},{b})"),
    (0xFD95, "i16x8.mul", "VV", "V", "mul2({a},{b})"),
    (0xFDA7, "i32x4.extend_low_i16x8_s", "V", "V", "wide2({a})"),
    (0xFDCE, "i64x2.add", "VV", "V", "add8({a},{b})"),
    (0xFDD6, "i64x2.eq", "VV", "V", "eq8({a},{b})"),
]

# A shuffle of bytes, and one whose bytes follow each other.
SHUFFLE = Instruction("i8x16.shuffle", "lanes", "VV", "V", 1, "shuffle({a},{b},{k})")
SLIDE = Instruction("i8x16.shuffle", "lanes", "VV", "V", 1, "slide({a},{b},{k})")

# Those that are no expression: functions.py has a method named as each.
OTHERS = [
    (0x00, "unreachable", ""),
    (0x01, "nop", ""),
    (0x02, "block", "type"),
    (0x03, "loop", "type"),
    (0x04, "if", "type"),
    (0x05, "else", ""),
    (0x0B, "end", ""),
    (0x0C, "br", "number"),
    (0x0D, "br_if", "number"),
    (0x0E, "br_table", "numbers"),
    (0x0F, "return", ""),
    (0x10, "call", "function"),
    (0x1A, "drop", ""),
    (0x1B, "select", ""),
    (0x20, "local.get", "number"),
    (0x21, "local.set", "number"),
    (0x22, "local.tee", "number"),
    (0x23, "global.get", "global"),
    (0x24, "global.set", "global"),
    (0x41, "i32.const", "constant"),
    (0x42, "i64.const", "constant"),
    (0x44, "f64.const", "double"),
    (0xFD0C, "v128.const", "16 bytes"),
    (0xFC0A, "memory.copy", "two zeros"),
    (0xFC0B, "memory.fill", "zero"),
]


def of_integers() -> dict[int, Instruction]:
    """The operations of integers of both widths."""
    found = {}
    for code32, code64, name, takes, gives, level, c in INTEGERS:
        for code, letter in (code32, "I"), (code64, "L"):
            bits = str(BITS[letter])
            text = c.replace("(S)", f"(S{letter})").replace("#", bits)
            found[code] = Instruction(f"i{bits}.{name}", "", takes.replace("T", letter), gives.replace("T", letter), level, text)
    return found


def all_instructions() -> dict[int, Instruction]:
    """The operations by their codes. Those of two bytes have the first one eight bits higher."""
    found = of_integers()
    for code, name, takes, gives, level, c in CONVERSIONS + DOUBLES:
        found[code] = Instruction(name, "", takes, gives, level, c)
    for code, name, gives, c in LOADS:
        found[code] = Instruction(name, "memory", "L", gives, 1, c)
    for code, name, letter, c in STORES:
        found[code] = Instruction(name, "memory", "L" + letter, "", 1, c)
    for code, name, gives, c in LANE_ACCESSES:
        found[code] = Instruction(name, "memory lane", "LV", gives, 1, c)
    for code, name, takes, gives, c in LANES:
        found[code] = Instruction(name, "lane", takes, gives, 1, c)
    for code, name, takes, gives, c in VECTORS:
        found[code] = Instruction(name, "", takes, gives, 1, c)
    for code, name, behind in OTHERS:
        found[code] = Instruction(name, behind)
    found[0xFD0D] = SHUFFLE
    return found


INSTRUCTIONS = all_instructions()
NAMED = {instruction.name: instruction for instruction in INSTRUCTIONS.values()}
PREFIXES = (0xFC, 0xFD)

# --- bodies

# The relocation that may stand at a number, and where one has to.
RELOCATED = {"memory": OFFSET, "memory lane": OFFSET, "function": FUNCTION_INDEX, "global": GLOBAL_INDEX, "constant": CONSTANT}
ALWAYS_RELOCATED = ("function", "global")


class Step(NamedTuple):
    """An instruction in a body: what it is, the numbers behind it, and the relocation of the first of them."""
    instruction: Instruction
    numbers: tuple[int, ...]
    relocation: Relocation | None


def steps_of(module: Module, r: Reader) -> list[Step]:
    """The instructions of a body. Each relocation in it has to be one of theirs."""
    start, steps = r.at, []
    while r.at < r.end:
        steps.append(read_step(module, r))
    if sum(step.relocation is not None for step in steps) != len(module.relocations_in(start, r.end)):
        stop("a relocation of something else")
    return steps


def read_step(module: Module, r: Reader) -> Step:
    code = r.byte()
    if code in PREFIXES:
        second = r.unsigned()
        if second > 255:
            stop(f"the instruction {code:#x} {second}")
        code = code << 8 | second
    if code not in INSTRUCTIONS:
        stop(f"the instruction {code:#x}")
    instruction = INSTRUCTIONS[code]
    if instruction.behind.startswith("memory") and r.unsigned() & 64:  # the alignment, which is a hint
        stop("another memory")
    relocation = module.relocations.get(r.at) if instruction.behind in RELOCATED else None
    is_wrong = relocation and relocation.kind != RELOCATED[instruction.behind]
    if is_wrong or not relocation and instruction.behind in ALWAYS_RELOCATED:
        stop(f"{instruction.name} with the relocation {relocation}")
    return Step(instruction, read_numbers(instruction.behind, r), relocation)


def read_numbers(behind: str, r: Reader) -> tuple[int, ...]:
    """What stands behind the code of an instruction."""
    if behind in ("memory", "function", "global", "number"):
        return (r.unsigned(),)
    if behind == "memory lane":
        return r.unsigned(), r.byte()
    if behind == "lane":
        return (r.byte(),)
    if behind in ("constant", "type"):
        return (r.signed(),)
    if behind == "numbers":
        return (*r.rows(r.unsigned), r.unsigned())
    if behind == "double":
        return struct.unpack("<Q", r.take(8))
    if behind in ("16 bytes", "lanes"):
        return struct.unpack("<QQ", r.take(16))
    if any(r.take({"two zeros": 2, "zero": 1, "": 0}[behind])):
        stop("another memory")
    return ()
