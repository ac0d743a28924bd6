"""A function's body as C: its instructions one by one, each of which adds statements or leaves an expression for a later one."""
from __future__ import annotations

import re
from dataclasses import dataclass
from string import ascii_lowercase
from typing import TYPE_CHECKING

from expressions import SMALL, Value, applied, beside, calculated, choice, constant, double, filled, literal, variable, vector
from objects import TYPES, Reader, Relocation, stop
from instructions import SLIDE, Step, steps_of
from runs import followed, slide_of
from stack import TOP, Frame, Label, Operands

if TYPE_CHECKING:
    from program import Program

EMPTY = -64  # the type of a block without a result
ZERO = {"I": "0", "L": "0", "W": "0", "V": "{0,0}"}
# x = x + y is written x += y where y has none of these in it.
OPERATORS = {"+": 4, "-": 4, "*": 3, "&": 8, "|": 10, "^": 9}
UNSAFE_BEHIND = re.compile(r"[-+&|^*<>=?~ ]")


def local_name(index: int) -> str:
    """A letter, as long as there are some; variables that aren't locals have a number behind theirs."""
    return ascii_lowercase[index] if index < 26 else f"a{index}"


def assignment(name: str, v: Value) -> str:
    """The statement that gives a variable a value."""
    rest = v.text[len(name) + 1:]
    for operator, level in OPERATORS.items():
        if v.level == level and v.text.startswith(name + operator) and not UNSAFE_BEHIND.search(rest):
            return f"{name}{operator}={rest};"
    return f"{name}={v.text};"


@dataclass
class Block:
    """What a jump may go to: the type of its result and the variable for it, its label, the stack's height and the step where it
    begins."""
    kind: str
    result: str
    room: str
    label: str
    height: int
    begin: int


class Function:
    """The C of one function."""

    def __init__(self, program: Program, index: int) -> None:
        self.program, self.module, self.index = program, program.module, index
        self.takes, self.gives = self.module.signatures[index]
        body = Reader(self.module.data, *self.module.bodies[index - len(self.module.imports)])
        self.locals = self.takes + "".join(letter * count for count, letter in body.rows(lambda: (body.unsigned(), body.type())))
        self.steps, self.at = steps_of(self.module, body), 0
        self.operands, self.frame = Operands(), Frame(program.described(index))
        self.blocks = [Block("function", self.gives, "", "", 0, 0)]
        self.rooms: dict[str, str] = {}
        self.labels = 0
        self.used_labels: set[str] = set()
        self.calls: list[int] = []
        self.segments: list[int] = []
        self.translate()

    def translate(self) -> None:
        while self.at < len(self.steps):
            step = self.steps[self.at]
            self.at += 1
            instruction = step.instruction
            if instruction.behind.startswith("memory"):
                self.load_or_store(step)
            elif instruction.c is not None:
                self.expression(step)
            elif getattr(self, "do_" + instruction.name.replace(".", "_"))(step):
                self.skip_unreachable()
        if self.blocks:
            self.frame.stop("no end")

    def emit(self, statement: str) -> None:
        self.operands.emit(statement)

    # --- expressions, loads and stores

    def expression(self, step: Step) -> None:
        """An instruction on the values on top of the stack."""
        instruction = step.instruction
        values = [self.operands.pop_any() for _ in instruction.takes][::-1]
        if values[0] is TOP:
            self.operands.push(self.frame.lower(instruction.name, values[1]))
            return
        self.frame.check(instruction.name, values[0])
        if instruction.behind == "lane":
            self.operands.push(applied(instruction, *values, words={"k": str(step.numbers[0])}))
        elif instruction.behind == "lanes":
            self.operands.push(self.shuffled(step, *values))
        else:
            self.operands.push(calculated(instruction, *values))

    @staticmethod
    def shuffled(step: Step, a: Value, b: Value) -> Value:
        first = slide_of(step.numbers)
        if first is not None:
            return applied(SLIDE, a, b, words={"k": str(first)})
        return applied(step.instruction, a, b, words={"k": ",".join(f"{number:#x}ull" for number in step.numbers)})

    def load_or_store(self, step: Step) -> None:
        instruction = step.instruction
        value = self.operands.pop() if len(instruction.takes) == 2 else None
        base = self.operands.pop()
        address = self.address(step, base)
        words = {"p": address.text, "k": str(step.numbers[-1])}
        if not instruction.gives:
            assert value is not None and instruction.c is not None
            self.operands.settle_memory(value, base)
            if value.number is not None and value.number < SMALL:
                words["b"] = str(value.number)
            self.emit(filled(instruction.c, {"b": value}, words) + ";")
            return
        result = applied(instruction, *([base] if value is None else [base, value]), words=words)._replace(memory=True)
        self.operands.push(followed(step, address, value, result))

    def address(self, step: Step, base: Value) -> Value:
        """The sum of what is on the stack and of the number behind a load or store."""
        if step.relocation:
            place = self.place(step.relocation)
            if base.number is None or base.number >= SMALL:
                return Value(f"{beside(base, 4)}+{place}", 4, "L", base.reads, base.memory)
            return Value(f"{place}+{base.number}" if base.number else place, 4 if base.number else 1, "L")
        offset = step.numbers[0]
        if base.number is not None:
            return Value(literal((base.number + offset) % (1 << 64), "L"), 0, "L")
        return Value(f"{beside(base, 4)}+{offset}", 4, "L", base.reads, base.memory) if offset else base

    def place(self, relocation: Relocation) -> str:
        """What stands for a place in the data until it is known where the data lies."""
        place = self.module.place_of(relocation)
        self.segments.append(place.segment)
        return self.program.token(place)

    def do_i32_const(self, step: Step) -> None:
        if step.relocation:
            self.frame.stop("an address of 32 bits")
        self.operands.push(constant(step.numbers[0], "I"))

    def do_i64_const(self, step: Step) -> None:
        if step.relocation:
            self.operands.push(Value(self.place(step.relocation), 1, "L"))
        else:
            self.operands.push(constant(step.numbers[0], "L"))

    def do_f64_const(self, step: Step) -> None:
        self.operands.push(double(step.numbers[0]))

    def do_v128_const(self, step: Step) -> None:
        self.operands.push(vector(*step.numbers))

    def do_select(self, step: Step) -> None:
        condition, b, a = self.operands.pop_any(), self.operands.pop(), self.operands.pop()
        self.operands.push(choice(condition, a, b))

    def do_drop(self, step: Step) -> None:
        self.operands.pop_any()

    def do_nop(self, step: Step) -> None:
        pass

    # --- variables

    def do_local_get(self, step: Step) -> None:
        index = step.numbers[0]
        name = local_name(index)
        if name in self.frame.read_at:
            self.frame.read_at[name] = self.at
            self.operands.push(TOP)
        else:
            self.operands.push(variable(name, self.locals[index]))

    def do_local_set(self, step: Step) -> None:
        self.assign(local_name(step.numbers[0]), self.operands.pop())

    def do_local_tee(self, step: Step) -> None:
        index, v = step.numbers[0], self.operands.pop()
        self.assign(local_name(index), v)
        self.operands.push(v if v is TOP else variable(local_name(index), self.locals[index]))

    def assign(self, name: str, v: Value) -> None:
        self.note(name, v)
        if v is not TOP and v.text != name:
            self.operands.settle_readers(name, v)
            self.emit(assignment(name, v))

    def note(self, name: str, v: Value) -> None:
        """Has the frame know what a variable receives."""
        loops = [block.begin for block in self.blocks if block.kind == "loop"]
        self.frame.assign(name, v, len(self.blocks) > 1, loops[0] if loops else None)

    def is_stack_pointer(self, step: Step) -> None:
        assert step.relocation is not None
        if self.module.global_of(step.relocation) != "__stack_pointer":
            self.frame.stop("a global besides the stack's pointer")

    def do_global_get(self, step: Step) -> None:
        self.is_stack_pointer(step)
        self.operands.push(self.frame.read_pointer())

    def do_global_set(self, step: Step) -> None:
        self.is_stack_pointer(step)
        self.frame.write_pointer(self.operands.pop_any())

    # --- calls, and copies of memory

    def do_call(self, step: Step) -> None:
        assert step.relocation is not None
        index = self.module.function_of(step.relocation)
        takes, gives = self.module.signatures[index]
        arguments = self.operands.pop_all(len(takes))
        self.calls.append(index)
        self.operands.settle_memory(*arguments)
        text = f"{self.program.name(index)}({','.join(v.text for v in arguments)})"
        following = self.steps[self.at]
        if gives and following.instruction.name == "local.set":
            self.at += 1
            name = local_name(following.numbers[0])
            self.note(name, Value(text, 1, gives))
            self.operands.settle_readers(name, *arguments)
            self.emit(f"{name}={text};")
        elif gives and following.instruction.name != "drop":
            name = self.operands.temporary(gives)
            self.emit(f"{name}={text};")
            self.operands.push(variable(name, gives))
        else:
            self.at += bool(gives)
            self.emit(text + ";")

    def do_memory_copy(self, step: Step) -> None:
        self.change_memory("move")

    def do_memory_fill(self, step: Step) -> None:
        self.change_memory("fill")

    def change_memory(self, word: str) -> None:
        arguments = self.operands.pop_all(3)
        self.operands.settle_memory(*arguments)
        self.emit(f"{word}({','.join(v.text for v in arguments)});")

    # --- blocks

    def enter(self, kind: str, step: Step) -> None:
        """Begins a block. Nothing of what stands on the stack before it is calculated in it or behind it."""
        result, room = self.result_of(step.numbers[0]), ""
        if result:
            room = f"v{len(self.rooms) + 1}"
            self.rooms[room] = result
        self.labels += 1
        self.blocks.append(Block(kind, result, room, f"z{self.labels}", len(self.operands.values), self.at))

    def result_of(self, type: int) -> str:
        """The type of a block's result."""
        if type < 0:
            return "" if type == EMPTY else TYPES[type & 127]
        takes, gives = self.module.types[type]
        if takes or len(gives) > 1:
            self.frame.stop("a block with arguments or two results")
        return gives

    def do_block(self, step: Step) -> None:
        self.operands.settle_all()
        self.enter("block", step)

    def do_loop(self, step: Step) -> None:
        self.operands.settle_all()
        self.enter("loop", step)
        label = self.blocks[-1].label
        self.operands.emit(Label(label, f"{label}:"))

    def do_if(self, step: Step) -> None:
        condition = self.operands.pop_any()
        self.operands.settle_all(condition)
        self.enter("if", step)
        self.emit(f"if({condition.text}){{")

    def do_else(self, step: Step, is_reached: bool = True) -> None:
        block = self.blocks[-1]
        self.leave(block, is_reached)
        block.kind = "else"
        self.emit("}else{")

    def do_end(self, step: Step, is_reached: bool = True) -> None:
        block = self.blocks.pop()
        if block.kind == "function":
            if block.result and is_reached:
                self.emit(f"return {self.operands.pop().text};")
            return
        self.leave(block, is_reached)
        if block.kind in ("if", "else"):
            self.emit("}")
        if block.kind != "loop":
            self.operands.emit(Label(block.label, f"{block.label}:;"))
        if block.result:
            self.operands.push(variable(block.room, block.result))

    def leave(self, block: Block, is_reached: bool) -> None:
        """The end of a block or of a branch: its result goes to its variable."""
        if block.result and is_reached:
            self.emit(f"{block.room}={self.operands.pop().text};")
        self.operands.drop_to(block.height)

    # --- jumps: those that return True end what can be reached

    def jump(self, depth: int) -> str:
        """The statement that goes to a label. The value that goes with it stays on the stack."""
        block = self.blocks[-1 - depth]
        if block.kind == "function":
            return f"return {self.operands.top().text};" if block.result else "return;"
        self.used_labels.add(block.label)
        if block.result and block.kind != "loop":
            return f"{{{block.room}={self.operands.top().text};goto {block.label};}}"
        return f"goto {block.label};"

    def do_br(self, step: Step) -> bool:
        self.emit(self.jump(step.numbers[0]))
        return True

    def do_br_if(self, step: Step) -> None:
        condition = self.operands.pop_any()
        self.emit(f"\nif({condition.text}){self.jump(step.numbers[0])}\n")

    def do_br_table(self, step: Step) -> bool:
        value = self.operands.pop()
        *depths, rest = step.numbers
        labels: dict[int, str] = {}
        for number, depth in enumerate(depths):
            if depth != rest:
                labels[depth] = labels.get(depth, "") + f"case {number}:"
        cases = "".join(label + self.jump(depth) for depth, label in labels.items())
        self.emit(f"switch({value.text}){{{cases}default:{self.jump(rest)}}}")
        return True

    def do_return(self, step: Step) -> bool:
        self.emit(f"return {self.operands.pop().text};" if self.gives else "return;")
        return True

    def do_unreachable(self, step: Step) -> bool:
        self.emit("trap();")
        return True

    def skip_unreachable(self) -> None:
        """Passes over what can't be reached, up to the end of the block or its other branch."""
        self.operands.drop_to(self.blocks[-1].height)
        depth = 0
        while True:
            step = self.steps[self.at]
            self.at += 1
            name = step.instruction.name
            if name in ("block", "loop", "if"):
                depth += 1
            elif depth == 0 and name == "else":
                return self.do_else(step, is_reached=False)
            elif depth == 0 and name == "end":
                return self.do_end(step, is_reached=False)
            elif name == "end":
                depth -= 1

    # --- the text

    def text(self) -> str:
        """The function in C. Labels that nothing goes to are left out."""
        body = "".join(it if isinstance(it, str) else it.text * (it.name in self.used_labels) for it in self.operands.statements)
        return f"{self.program.head(self.index, named=True)}{{{self.declarations(body)}{in_lines(body)}}}\n"

    def declarations(self, body: str) -> str:
        """The variables of the function and its frame. What nothing reads is named, so that compilers don't warn of it."""
        of_type: dict[str, list[str]] = {}
        for index in range(len(self.takes), len(self.locals)):
            letter = self.locals[index]
            of_type.setdefault(letter, []).append(f"{local_name(index)}={ZERO[letter]}")
        for name, letter in {**self.operands.temporaries, **self.rooms}.items():
            of_type.setdefault(letter, []).append(name)
        text = "".join(f"{letter} {','.join(names)};" for letter, names in sorted(of_type.items()))
        if self.frame.size is not None:
            text += f"FRAME_OF({(self.frame.size + 7) // 8});"
        unread = [name for name in map(local_name, range(len(self.locals))) if not is_read(name, body)]
        return text + "".join(f"(void){name};" for name in unread)


def is_read(name: str, body: str) -> bool:
    return re.search(rf"\b{name}\b(?![-+&|^*]?=[^=])", body) is not None


def in_lines(body: str) -> str:
    """Breaks lines of more than 120 characters at the ends of statements."""
    rows = []
    for part in filter(None, body.split("\n")):
        at = 0
        while len(part) - at > 120:
            cut = part.rfind(";", at, at + 120)
            if cut < at:
                cut = part.find(";", at)
            rows.append(part[at:cut + 1])
            at = cut + 1
        if at < len(part):
            rows.append(part[at:])
    return "\n" + "\n".join(rows)
