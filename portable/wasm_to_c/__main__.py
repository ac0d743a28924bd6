"""wasm_to_c MODULE.o OUT.c: the code of a relocatable object of wasm64 as portable C, for which portable.h has what it uses.

A function becomes a function, a frame on the stack an array on C's stack, an address an address: there is no memory of the
module's own, and no instance. What an object may hold and this doesn't know (tables, indirect calls, threads, data that changes,
frames of a size that isn't constant) stops it by name.

objects.py reads the object, instructions.py has the instructions with their C, expressions.py and runs.py make expressions of them,
stack.py keeps what later instructions use, functions.py translates a function, and program.py writes what is reached.

What makes the C right:
- An expression that stands in no statement yet has no effect, and says which variables it reads and whether it reads memory. Before
  a statement changes either, what it would change is put into a variable (stack.py).
- Every expression is of an unsigned type, or is a comparison (an int of 0 or 1) that becomes one before it is calculated with.
- Parentheses come from the levels in the tables of instructions.py.
"""
from __future__ import annotations

import sys

from objects import Module
from program import Program


def main(words: list[str]) -> None:
    if len(words) != 2:
        sys.exit(__doc__)
    source, target = words
    with open(source, "rb") as file:
        program = Program(Module(file.read()))
    with open(target, "w", encoding="ascii", newline="\n") as file:
        file.write(program.text())
    print(f"{len(program.functions)} functions, {len(program.data)} bytes of data, {len(program.addresses)} addresses in it")


main(sys.argv[1:])
