#!/usr/bin/env python3
"""refusals.py: what wasm_to_c doesn't know stops it, by name, and what it writes of some constants.

Each row is the text of a function, or another change of an object, with what the translator has to say. wat2wasm makes the objects.
Status 77 where it isn't here.
"""
from __future__ import annotations

import os
import shutil
import subprocess
import sys
import tempfile
from typing import Callable

from targets import PORTABLE

sys.path.insert(0, f"{PORTABLE}/wasm_to_c")
from objects import CONSTANT, Module, Relocation  # noqa: E402
from program import Program  # noqa: E402

HEAD = """(module (import "env" "memory" (memory i64 1)) (import "env" "__stack_pointer" (global $sp (mut i64)))
(import "env" "another" (global $other (mut i64))) (import "env" "foreign" (func $foreign))
(func (export "causal_t") (param i64) (result i64) (local $l i64) (local $i i32) (local $v v128)
"""
LOWER = "(local.set $l (i64.sub (global.get $sp) (i64.const 64))) (global.set $sp (local.get $l))"
HOLD = "(local.set $l (global.get $sp))"

# A body, and what stops its translation.
BODIES = [
    (f"{LOWER} (i64.and (local.get $l) (i64.const -32))", "a frame that is aligned"),
    ("(i64.and (i64.sub (global.get $sp) (i64.const 64)) (i64.const -32))", "a frame that is aligned"),
    (f"{LOWER} (global.set $sp (i64.add (local.get $l) (i64.const 48))) (i64.const 0)", "the stack's pointer as"),
    (f"{LOWER} (global.set $sp (local.get 0)) (i64.const 0)", "the stack's pointer as"),
    (f"{LOWER} (global.get $sp)", "the stack's pointer read after it was lowered"),
    ("(i64.sub (global.get $sp) (local.get 0))", "a frame of no constant size"),
    ("(i64.add (global.get $sp) (i64.const 64))", "a frame of no constant size"),
    ("(i64.sub (global.get $sp) (i64.const 0))", "a frame of no constant size"),
    ("(i64.sub (global.get $sp) (i64.const 16777216))", "a frame of no constant size"),
    (f"{HOLD} (local.set 0 (i64.sub (local.get $l) (i64.const 16))) (i64.sub (local.get $l) (i64.const 16))", "a frame of no constant size"),
    (f"(block {HOLD}) (local.get 0)", "a variable that is the stack's pointer in a block"),
    (f"{HOLD} (loop $a (local.set 0 (i64.sub (local.get $l) (i64.const 16))) (local.set $l (i64.const 1)) (br_if $a (i32.const 0)))"
     "(local.get 0)", "a variable that is the stack's pointer in a part of a loop"),
    (f"{HOLD} (loop $a (local.set 0 (i64.sub (local.get $l) (i64.const 16)))"
     "(loop $b (local.set $l (i64.const 1)) (br_if $b (i32.const 0))) (br_if $a (i32.const 0))) (local.get 0)",
     "a variable that is the stack's pointer in a part of a loop"),
    ("(global.get $other)", "a global besides the stack's pointer"),
    ("(global.set $other (i64.const 1)) (i64.const 1)", "a global besides the stack's pointer"),
    ("(call $foreign) (i64.const 1)", "a call of foreign, which portable.h doesn't have"),
    ("(i64.trunc_f64_u (f64.const 1))", "the instruction 0xb1"),
    ("(local.set $v (i32x4.splat (i32.const 1))) (i64.const 1)", "the instruction 0xfd11"),
    ("(i64.reinterpret_f64 (f64.sqrt (f64.const 2)))", "the instruction 0x9f"),
    ("(memory.size)", "the instruction 0x3f"),
    ("(local.get 0) (block (param i64) (result i64) (i64.const 1) (i64.add))", "a relocation of something else"),
    ("(block (result i64 i64) (i64.const 1) (i64.const 2)) (i64.add)", "a relocation of something else"),
]
# A body, and what its C has in it.
WRITTEN = [
    ("(i64.load (i64.const 0x123456789a))", "R8(78187493530ull)"),
    ("(i64.load offset=5 (i64.const 0x123456789a))", "R8(78187493535ull)"),
    ("(i64.load offset=16 (i64.const -8))", "R8(8ull)"),
]
GOOD = "(i64.load offset=5 (local.get 0))"


def object_of(body: str) -> bytes:
    with open("one.wat", "w", encoding="ascii") as file:
        file.write(f"{HEAD}{body}))\n")
    subprocess.run(["wat2wasm", "--enable-memory64", "--enable-multi-memory", "-r", "-o", "one.o", "one.wat"], check=True)
    with open("one.o", "rb") as made:
        return made.read()


def said(translate: Callable[[], str]) -> str:
    """What stops a translation, or the C."""
    try:
        return translate()
    except SystemExit as stopped:
        return f"stopped: {stopped.code}"


def with_a_relocation(data: bytes) -> str:
    """The translation of an object with one more relocation, at the alignment of a load."""
    module = Module(data)
    place = module.data.index(b"\x29\x03\x05", module.bodies[0][0]) + 1
    module.relocations[place] = Relocation(CONSTANT, 0, 0)
    module.relocated = sorted(module.relocations)
    return Program(module).text()


def of_parts() -> list[tuple[str, str, str]]:
    """What is said of objects that no text of a function gives: what they are, what is said, and what has to be in it."""
    good = object_of(GOOD)
    at = good.index(b"\x29\x03\x05")
    other_memory = good[:at + 1] + bytes([0x43]) + good[at + 2:]
    unknown = good[:at] + bytes([0x2A]) + good[at + 1:]
    return [
        ("a good object", said(lambda: Program(Module(good)).text()), "R8(a+5)"),
        ("a load of another memory", said(lambda: Program(Module(other_memory)).text()), "stopped: wasm_to_c: another memory"),
        ("a load of a float", said(lambda: Program(Module(unknown)).text()), "stopped: wasm_to_c: the instruction 0x2a"),
        ("one more relocation", said(lambda: with_a_relocation(good)), "stopped: wasm_to_c: a relocation of something else"),
        ("no module", said(lambda: Program(Module(b"no module at all")).text()), "stopped: wasm_to_c: no module"),
    ]


def main() -> int:
    if not shutil.which("wat2wasm"):
        print("skipped: refusals: no wat2wasm")
        return 77
    wrong = 0
    with tempfile.TemporaryDirectory() as folder:
        os.chdir(folder)
        rows = of_parts()
        rows += [(body, said(lambda: Program(Module(object_of(body))).text()), f"stopped: wasm_to_c: {why}") for body, why in BODIES]
        rows += [(body, said(lambda: Program(Module(object_of(body))).text()), text) for body, text in WRITTEN]
        os.chdir("/")
    for what, got, wanted in rows:
        if wanted not in got or wanted.startswith("stopped") and not got.startswith(wanted):
            print(f"{what}: {got[-200:]}, and not {wanted}")
            wrong += 1
    print(f"{len(rows)} refusals and texts, {wrong} wrong")
    return 1 if wrong else 0


if __name__ == "__main__":
    sys.exit(main())
