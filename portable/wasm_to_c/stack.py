"""What a function's instructions leave for later ones: the values on WebAssembly's stack, and the pointer of the stack in memory."""
from __future__ import annotations

from typing import Callable, NamedTuple

from expressions import NOTHING, Value, variable, whole
from objects import stop

# The letters of variables that hold values for later, by their types.
TEMPORARY = {"I": "y", "L": "x", "W": "w", "V": "q"}


class Label(NamedTuple):
    """A place in the code that jumps may go to, and its text, which is left out where none does."""
    name: str
    text: str


class Operands:
    """The values on the stack, which are expressions, and the statements so far.

    An expression on the stack stands in no statement yet. Before a statement changes a variable or memory that it reads, it is put
    into a variable of its own: it is settled.
    """

    def __init__(self) -> None:
        self.values: list[Value] = []
        self.statements: list[str | Label] = []
        self.temporaries: dict[str, str] = {}

    def push(self, v: Value) -> None:
        self.values.append(v)

    def pop_any(self) -> Value:
        """The value on top; it may be a comparison."""
        return self.values.pop()

    def pop(self) -> Value:
        return whole(self.values.pop())

    def pop_all(self, count: int) -> list[Value]:
        return [self.pop() for _ in range(count)][::-1]

    def top(self) -> Value:
        """The value on top, which stays."""
        return whole(self.values[-1])

    def drop_to(self, height: int) -> None:
        del self.values[height:]

    def emit(self, statement: str | Label) -> None:
        self.statements.append(statement)

    def temporary(self, letter: str, *read: Value) -> str:
        """A variable that neither the values on the stack nor those that a statement reads have in them."""
        taken = NOTHING.union(*(v.reads for v in self.values), *(v.reads for v in read))
        number = 0
        while f"{TEMPORARY[letter]}{number}" in taken:
            number += 1
        name = f"{TEMPORARY[letter]}{number}"
        self.temporaries[name] = letter
        return name

    def settle(self, changes: Callable[[Value], bool], *read: Value) -> None:
        """Settles the values that what follows changes. `read` are those that it reads, which are no longer on the stack."""
        for at, v in enumerate(self.values):
            if changes(v):
                v = whole(v)
                name = self.temporary(v.type, *read)
                self.emit(f"{name}={v.text};")
                self.values[at] = variable(name, v.type)

    def settle_memory(self, *read: Value) -> None:
        self.settle(lambda v: v.memory, *read)

    def settle_readers(self, name: str, *read: Value) -> None:
        self.settle(lambda v: name in v.reads, *read)

    def settle_all(self, *read: Value) -> None:
        self.settle(lambda v: v.number is None, *read)


# The pointer of the stack in memory, as a function finds it, and where its frame begins, once it has lowered the pointer.
TOP = Value("the pointer of the stack", 0, "L")
FRAME = Value("FRAME", 0, "L")
MOST_IN_FRAME = 1 << 24


class Frame:
    """The part of the stack in memory that a function takes, for which its C has an array.

    A function reads the pointer, lowers it once by a constant, and in the end gives it back. Where it does anything else, this stops.
    """

    def __init__(self, where: str) -> None:
        self.where = where
        self.size: int | None = None
        self.read_at: dict[str, int] = {}  # the variables that hold the pointer, and the step that last read each
        self.holders: set[str] = set()  # the variables that hold the frame's beginning

    def stop(self, why: str) -> None:
        stop(f"{why} in {self.where}")

    def read_pointer(self) -> Value:
        if self.size is not None:
            self.stop("the stack's pointer read after it was lowered")
        return TOP

    def lower(self, instruction: str, by: Value) -> Value:
        """The only thing that is calculated with the pointer."""
        if instruction != "i64.sub" or self.size is not None or by.number is None or not 0 < by.number < MOST_IN_FRAME:
            self.stop("a frame of no constant size")
        self.size = by.number
        return FRAME

    def write_pointer(self, v: Value) -> None:
        """The pointer goes to the frame's beginning or back to its end."""
        begin, _, size = v.text.partition("+")
        if begin != FRAME.text and begin not in self.holders or size not in ("", str(self.size)):
            self.stop(f"the stack's pointer as {v.text}")

    def check(self, instruction: str, a: Value) -> None:
        """An instruction on the frame's beginning: addresses are made of it by sums, and by `|` since it is a multiple of 16."""
        if a.text == FRAME.text and instruction != "i64.add" or a.text in self.holders and instruction == "i64.and":
            self.stop("a frame that is aligned")

    def assign(self, name: str, v: Value, is_in_block: bool, loop_begin: int | None) -> None:
        """A variable receives a value. It may come to hold the pointer outside of all blocks, where code runs once and in this
        order, and something else later, but not in a loop in which it was read as the pointer."""
        if v is TOP:
            if is_in_block:
                self.stop("a variable that is the stack's pointer in a block")
            self.read_at[name] = 0
        elif name in self.read_at:
            if loop_begin is not None and self.read_at[name] > loop_begin:
                self.stop("a variable that is the stack's pointer in a part of a loop")
            del self.read_at[name]
        if v.text == FRAME.text or v.text in self.holders:
            self.holders.add(name)
        else:
            self.holders.discard(name)
