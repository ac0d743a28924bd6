"""Expressions of C: their texts with the parentheses that they need, and what they depend on."""
from __future__ import annotations

import re
from typing import NamedTuple

from instructions import BITS, NAMED, Instruction

# Constants below it fit an int.
SMALL = 1 << 31
NOTHING: frozenset[str] = frozenset()


class Value(NamedTuple):
    """An expression without effect: its text, its level, its type, the variables that it reads, whether it reads memory, its number
    if it is a constant, and the run of bytes that it is."""
    text: str
    level: int
    type: str
    reads: frozenset[str] = NOTHING
    memory: bool = False
    number: int | None = None
    run: Run | None = None


class Run(NamedTuple):
    """A vector whose lanes up to `last` are the bytes from an address on."""
    start: Value
    last: int


def variable(name: str, letter: str) -> Value:
    return Value(name, 0, letter, frozenset([name]))


def literal(number: int, letter: str) -> str:
    return f"{number}u" if letter == "I" else f"{number}ull"


def constant(number: int, letter: str) -> Value:
    number &= (1 << BITS[letter]) - 1
    return Value(literal(number, letter), 0, letter, number=number)


def double(bits: int) -> Value:
    return Value(f"double_of({bits:#x}ull)", 1, "W")


def vector(low: int, high: int) -> Value:
    return Value(f"words({low:#x}ull,{high:#x}ull)", 1, "V")


def whole(v: Value) -> Value:
    """A value whose text has its type: a comparison becomes a number of 32 bits."""
    return Value(f"(I)({v.text})", 2, "I", v.reads, v.memory) if v.type == "B" else v


def beside(v: Value, level: int) -> str:
    """As an operand beside an operator. Parentheses also stand where C doesn't need them but compilers warn of their lack."""
    is_bare = v.level <= 2 or v.level == level and level in (3, 4, 8, 9, 10) or v.level == 3 and level == 4
    return v.text if is_bare else f"({v.text})"


def signed_right(v: Value) -> str:
    """As the right side of a comparison of signed numbers."""
    bits = BITS[v.type]
    if v.number is not None:
        number = v.number - (1 << bits) if v.number >> (bits - 1) else v.number
        if -SMALL < number < SMALL:
            return str(number)
    return f"(S{v.type}){beside(v, 2)}"


def shift_count(v: Value) -> str:
    """As the number of places of a shift, of which the last 5 or 6 bits count."""
    mask = BITS[v.type] - 1
    return str(v.number & mask) if v.number is not None else f"({beside(v, 8)}&{mask})"


def operand(v: Value, how: str, is_typed: bool) -> str:
    """The text of an operand in the way that a table says; `is_typed`: the other operand has the type."""
    if how == "":
        return v.text
    if how == "s":
        return signed_right(v)
    if how == "m":
        return shift_count(v)
    if how.endswith("n"):
        if v.number is not None and v.number < SMALL and is_typed:
            return str(v.number)
        how = how[:-1]
    return beside(v, int(how))


def filled(c: str, values: dict[str, Value], words: dict[str, str]) -> str:
    """The C of an instruction with its operands and words in it."""
    is_typed = any(v.number is None for v in values.values())

    def text(found: re.Match[str]) -> str:
        name, how = found[1], found[2] or ""
        return words[name] if name in words else operand(values[name], how, is_typed)
    return re.sub(r"\{(\w)(?::(\w+))?\}", text, c)


def applied(instruction: Instruction, *operands: Value, words: dict[str, str] | None = None) -> Value:
    """The expression of an instruction and its operands."""
    assert instruction.c is not None
    text = filled(instruction.c, dict(zip("ab", operands)), words or {})
    reads = NOTHING.union(*(v.reads for v in operands))
    return Value(text, instruction.level, instruction.gives, reads, any(v.memory for v in operands))


def choice(condition: Value, a: Value, b: Value) -> Value:
    """`a` where the condition isn't 0, else `b`."""
    parts = [v.text if v.level < 13 else f"({v.text})" for v in (condition, a, b)]
    reads = condition.reads | a.reads | b.reads
    return Value("{}?{}:{}".format(*parts), 13, a.type, reads, condition.memory or a.memory or b.memory)


def simpler(instruction: Instruction, a: Value, b: Value) -> Value | None:
    """Some operations with a constant, as one would write them; None for all others."""
    if b.number is None or instruction.name[:3] not in ("i32", "i64"):
        return None
    bits = BITS[a.type]
    less = (1 << bits) - b.number  # -b
    name = instruction.name[4:]
    if name == "add" and b.number >> (bits - 1) and less < SMALL:
        return Value(f"{beside(a, 4)}-{less}", 4, a.type, a.reads, a.memory)
    if name == "and" and less <= SMALL // 2:
        return Value(f"{beside(a, 8)}&-{less}", 8, a.type, a.reads, a.memory)
    if name == "xor" and less == 1:
        return Value(f"~{beside(a, 2)}", 2, a.type, a.reads, a.memory)
    return None


def calculated(instruction: Instruction, *operands: Value) -> Value:
    """The expression of an instruction. Some take a comparison as it stands, or give one; others take it as a number."""
    both = [v.type for v in operands]
    if instruction.name in ("i32.and", "i32.or", "i32.xor") and both == ["B", "B"]:
        return applied(instruction, *operands)._replace(type="B")
    if instruction.name == "i64.extend_i32_s" and both == ["B"]:  # it is 0 or 1, so it has no sign
        instruction = NAMED["i64.extend_i32_u"]
    if instruction.name not in ("i32.eqz", "i64.extend_i32_u"):
        operands = tuple(whole(v) for v in operands)
    return (simpler(instruction, *operands) if len(operands) == 2 else None) or applied(instruction, *operands)
