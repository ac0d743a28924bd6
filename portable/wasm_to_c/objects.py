"""Reads a relocatable object of wasm64: its types, functions, data, symbols and relocations.

The form is that of the specification of WebAssembly and of the tool conventions for objects
(https://github.com/WebAssembly/tool-conventions/blob/main/Linking.md). What an object may hold beside this (tables,
threads, exceptions, a second memory) stops the reader by name.
"""
from __future__ import annotations

import sys
from bisect import bisect_left
from typing import Callable, NamedTuple, NoReturn, TypeVar

T = TypeVar("T")

# The types of WebAssembly, by the names of their types in C: 32 bits, 64 bits, a double, a vector of 16 bytes.
TYPES = {0x7F: "I", 0x7E: "L", 0x7C: "W", 0x7B: "V"}

# Sections, and those of them that say nothing the translation needs: the memory's size and the number of segments.
CUSTOM, TYPE, IMPORT, DECLARED, EXPORT, CODE, DATA = 0, 1, 2, 3, 7, 10, 11
PASSED_OVER = {5, 12}
# Imports
IMPORTED_FUNCTION, IMPORTED_TABLE, IMPORTED_MEMORY, IMPORTED_GLOBAL = range(4)
# Parts of the section "linking"
SEGMENT_INFO, SYMBOL_TABLE = 5, 8
# Symbols, and their flags
FUNCTION_SYMBOL, DATA_SYMBOL, GLOBAL_SYMBOL, SECTION_SYMBOL = range(4)
UNDEFINED, EXPORTED, EXPLICIT_NAME = 0x10, 0x20, 0x40
# Relocations: the kinds that the translation knows, and all kinds that have an addend
FUNCTION_INDEX, GLOBAL_INDEX, OFFSET, CONSTANT, WORD = 0, 7, 14, 15, 16
WITH_ADDEND = {3, 4, 5, 8, 9, 11, 14, 15, 16, 17, 21, 22, 23, 25}


def stop(why: str) -> NoReturn:
    sys.exit(f"wasm_to_c: {why}")


class Signature(NamedTuple):
    """The types of a function's parameters and results, a letter each."""
    takes: str
    gives: str


class Symbol(NamedTuple):
    """A function's or a global's symbol has its number, one of data its segment and its offset there, if it is defined."""
    kind: int
    number: int | None
    offset: int
    name: str | None
    flags: int


class Relocation(NamedTuple):
    kind: int
    symbol: int
    addend: int


class Place(NamedTuple):
    """A place in the data."""
    segment: int
    offset: int


class Segment(NamedTuple):
    """A piece of data: where it begins in the object's file, and its bytes."""
    start: int
    content: bytes


class SegmentInfo(NamedTuple):
    name: str
    align: int
    flags: int


class Reader:
    """The bytes of the object from a place on."""

    def __init__(self, data: bytes, at: int, end: int) -> None:
        self.data, self.at, self.end = data, at, end

    def byte(self) -> int:
        self.at += 1
        return self.data[self.at - 1]

    def unsigned(self) -> int:
        """A number in LEB128."""
        value = shift = 0
        while True:
            byte = self.byte()
            value |= (byte & 127) << shift
            shift += 7
            if byte < 128:
                return value

    def signed(self) -> int:
        """A number with its sign in LEB128."""
        value = shift = 0
        while True:
            byte = self.byte()
            value |= (byte & 127) << shift
            shift += 7
            if byte < 128:
                return value - (1 << shift) if byte & 64 else value

    def take(self, size: int) -> bytes:
        self.at += size
        return self.data[self.at - size:self.at]

    def name(self) -> str:
        return self.take(self.unsigned()).decode()

    def rows(self, read: Callable[[], T]) -> list[T]:
        return [read() for _ in range(self.unsigned())]

    def type(self) -> str:
        code = self.byte()
        if code not in TYPES:
            stop(f"the type {code:#x}")
        return TYPES[code]


class Module:
    """An object. Relocations have the place in the file of what they relocate."""

    def __init__(self, data: bytes) -> None:
        if data[:8] != b"\0asm\1\0\0\0":
            stop("no module")
        self.data = data
        self.types: list[Signature] = []
        self.imports: list[str] = []  # of functions
        self.globals: list[str] = []
        self.signatures: list[Signature] = []  # of the functions, those that are imported first
        self.exports: dict[int, str] = {}
        self.bodies: list[tuple[int, int]] = []
        self.segments: list[Segment] = []
        self.segment_info: list[SegmentInfo] = []
        self.symbols: list[Symbol] = []
        self.relocations: dict[int, Relocation] = {}
        self.sections: list[tuple[int, int]] = []  # the kind of each, and where it starts
        file = Reader(data, 8, len(data))
        while file.at < file.end:
            kind, size = file.byte(), file.unsigned()
            self.sections.append((kind, file.at))
            self.read_section(kind, Reader(data, file.at, file.at + size))
            file.at += size
        self.relocated = sorted(self.relocations)

    def read_section(self, kind: int, section: Reader) -> None:
        readers = {CUSTOM: self.read_custom, TYPE: self.read_types, IMPORT: self.read_imports, DECLARED: self.read_declared,
                   EXPORT: self.read_exports, CODE: self.read_code, DATA: self.read_data}
        if kind in readers:
            readers[kind](section)
        elif kind not in PASSED_OVER:
            stop(f"a section of kind {kind}")

    def read_types(self, r: Reader) -> None:
        def signature() -> Signature:
            if r.byte() != 0x60:
                stop("a type that is no function's")
            return Signature("".join(r.rows(r.type)), "".join(r.rows(r.type)))
        self.types = r.rows(signature)

    def read_imports(self, r: Reader) -> None:
        def limits() -> None:
            if r.byte() & 1:
                r.unsigned()
            r.unsigned()

        def one() -> None:
            r.name()
            name, kind = r.name(), r.byte()
            if kind == IMPORTED_FUNCTION:
                self.imports.append(name)
                self.signatures.append(self.types[r.unsigned()])
            elif kind == IMPORTED_TABLE:  # it is there always; calls by way of it aren't known
                r.byte()
                limits()
            elif kind == IMPORTED_MEMORY:
                limits()
            elif kind == IMPORTED_GLOBAL:
                r.take(2)
                self.globals.append(name)
            else:
                stop(f"an import of kind {kind}")
        r.rows(one)

    def read_declared(self, r: Reader) -> None:
        self.signatures += [self.types[index] for index in r.rows(r.unsigned)]

    def read_exports(self, r: Reader) -> None:
        for name, kind, index in r.rows(lambda: (r.name(), r.byte(), r.unsigned())):
            if kind == FUNCTION_SYMBOL:
                self.exports[index] = name

    def read_code(self, r: Reader) -> None:
        def body() -> tuple[int, int]:
            size = r.unsigned()
            r.take(size)
            return r.at - size, r.at
        self.bodies = r.rows(body)

    def read_data(self, r: Reader) -> None:
        def segment() -> Segment:
            if r.unsigned() != 0:
                stop("a segment without a place")
            if r.byte() != 0x42:
                stop("a segment whose place isn't constant")
            r.signed()
            r.byte()
            size = r.unsigned()
            return Segment(r.at, r.take(size))
        self.segments = r.rows(segment)

    def read_custom(self, r: Reader) -> None:
        name = r.name()
        if name == "linking":
            self.read_linking(r)
        elif name.startswith("reloc."):
            section, start = self.sections[r.unsigned()]
            if section in (CODE, DATA):
                self.read_relocations(r, start)

    def read_relocations(self, r: Reader, start: int) -> None:
        for _ in range(r.unsigned()):
            kind, offset, symbol = r.byte(), r.unsigned(), r.unsigned()
            addend = r.signed() if kind in WITH_ADDEND else 0
            self.relocations[start + offset] = Relocation(kind, symbol, addend)

    def read_linking(self, r: Reader) -> None:
        if r.unsigned() != 2:
            stop("linking of another version")
        while r.at < r.end:
            kind, size = r.byte(), r.unsigned()
            end = r.at + size
            if kind == SYMBOL_TABLE:
                self.symbols = r.rows(lambda: self.symbol(r))
            elif kind == SEGMENT_INFO:
                self.segment_info = r.rows(lambda: SegmentInfo(r.name(), 1 << r.unsigned(), r.unsigned()))
            r.at = end

    @staticmethod
    def symbol(r: Reader) -> Symbol:
        kind, flags = r.byte(), r.unsigned()
        if kind == DATA_SYMBOL:
            name = r.name()
            if flags & UNDEFINED:
                return Symbol(kind, None, 0, name, flags)
            segment, offset, _ = r.unsigned(), r.unsigned(), r.unsigned()
            return Symbol(kind, segment, offset, name, flags)
        index = r.unsigned()
        is_named = kind != SECTION_SYMBOL and (not flags & UNDEFINED or flags & EXPLICIT_NAME)
        return Symbol(kind, index, 0, r.name() if is_named else None, flags)

    def relocations_in(self, start: int, end: int) -> list[int]:
        """The places in a part of the file that have a relocation."""
        return self.relocated[bisect_left(self.relocated, start):bisect_left(self.relocated, end)]

    def exported(self) -> dict[int, str]:
        """The functions that the object exports: their names by their indices."""
        found = dict(self.exports)
        for symbol in self.symbols:
            is_shown = symbol.flags & EXPORTED and not symbol.flags & UNDEFINED
            if symbol.kind == FUNCTION_SYMBOL and is_shown and symbol.name and symbol.number is not None:
                found.setdefault(symbol.number, symbol.name)
        return found

    def function_names(self) -> dict[int, str]:
        """The names of functions in the compiler, by their indices."""
        found: dict[int, str] = {}
        for symbol in self.symbols:
            if symbol.kind == FUNCTION_SYMBOL and symbol.name and symbol.number is not None:
                found.setdefault(symbol.number, symbol.name)
        return found

    def function_of(self, relocation: Relocation) -> int:
        """The function that a relocation means."""
        symbol = self.symbols[relocation.symbol]
        if symbol.kind != FUNCTION_SYMBOL or symbol.number is None:
            stop(f"{symbol.name} isn't a function")
        return symbol.number

    def global_of(self, relocation: Relocation) -> str:
        """The name of the global that a relocation means."""
        symbol = self.symbols[relocation.symbol]
        if symbol.kind != GLOBAL_SYMBOL or symbol.number is None or symbol.number >= len(self.globals):
            stop(f"{symbol.name} isn't an imported global")
        return self.globals[symbol.number]

    def place_of(self, relocation: Relocation) -> Place:
        """The place in the data that a relocation means."""
        symbol = self.symbols[relocation.symbol]
        if symbol.kind != DATA_SYMBOL or symbol.number is None:
            stop(f"the place of {symbol.name} isn't data")
        return Place(symbol.number, symbol.offset + relocation.addend)
