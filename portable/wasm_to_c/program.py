"""Which functions and data are needed, where the data lies, and the file of C."""
from __future__ import annotations

import re
import struct
from collections import Counter
from typing import Iterator

from functions import Function, local_name
from objects import WORD, Module, Place, stop

# What the code may call that isn't in the object; portable.h has the inline ones, causal.c the heap.
CALLED = {"rattle_alloc", "rattle_realloc", "rattle_dealloc", "__multi3", "__lshrti3", "__ashlti3"}
MOST_ALIGNED = 16
WRITABLE = 2  # a flag of a segment
WIDTH = 118
PARTS = 8  # of the functions; portable/make says it in the first lines of the C
GENERIC = re.compile(r"::<.*")


def identifiers(names: dict[int, str]) -> dict[int, str]:
    """Names for the C: the last two words of what the compiler calls a function, with a number where others have them too."""
    found: dict[int, str] = {}
    met: Counter[str] = Counter()
    for index, name in sorted(names.items()):
        words = re.findall(r"[A-Za-z0-9_]+", GENERIC.sub("", name))
        short = "r_" + "_".join(words[-2:])
        met[short] += 1
        found[index] = short if met[short] == 1 else f"{short}_{met[short]}"
    return found


class Program:
    """The functions that the exported ones reach, and the data that these read."""

    def __init__(self, module: Module) -> None:
        self.module = module
        self.names = module.function_names()
        self.identifiers = identifiers(self.names)
        self.exported = {index: f"{name}_code" for index, name in module.exported().items()}
        self.functions: dict[int, Function] = {}
        self.segments: set[int] = set()
        self.reach()
        self.where, self.data = self.laid_out()
        self.addresses = self.addresses_in_data()

    def name(self, index: int) -> str:
        """The name of a function in the C."""
        if index in self.exported:
            return self.exported[index]
        if index >= len(self.module.imports):
            return self.identifiers.get(index, f"r_{index}")
        name = self.module.imports[index]
        if name not in CALLED:
            stop(f"a call of {name}, which portable.h doesn't have")
        return name.lstrip("_")

    def described(self, index: int) -> str:
        """A function's name in the C and in the compiler."""
        return f"{self.name(index)} {self.names.get(index, '')}"

    def head(self, index: int, named: bool) -> str:
        takes, gives = self.module.signatures[index]
        inside = ",".join(f"{letter} {local_name(at)}" if named else letter for at, letter in enumerate(takes)) or "void"
        storage = "" if index in self.exported else "PRIVATE "
        return f"{storage}{gives or 'void'} {self.name(index)}({inside})"

    # --- what is reached

    def reach(self) -> None:
        todo = sorted(self.exported)
        while todo:
            index = todo.pop()
            if index not in self.functions and index >= len(self.module.imports):
                function = self.functions[index] = Function(self, index)
                todo += function.calls
                self.reach_segments(function.segments)

    def reach_segments(self, todo: list[int]) -> None:
        todo = list(todo)
        while todo:
            segment = todo.pop()
            if segment in self.segments:
                continue
            self.segments.add(segment)
            info = self.module.segment_info[segment]
            if not info.name.startswith(".rodata") or info.flags & WRITABLE or info.align > MOST_ALIGNED:
                stop(f"the data {info.name}, which isn't constant or is aligned to more than {MOST_ALIGNED} bytes")
            todo += [place.segment for _, place in self.addresses_in(segment)]

    def addresses_in(self, segment: int) -> Iterator[tuple[int, Place]]:
        """The addresses in a segment: where each stands in it, and the place that it means."""
        start, content = self.module.segments[segment]
        for at in self.module.relocations_in(start, start + len(content)):
            relocation = self.module.relocations[at]
            if relocation.kind != WORD:
                stop(f"data with an address of kind {relocation.kind}")
            yield at - start, self.module.place_of(relocation)

    # --- where the data lies

    def laid_out(self) -> tuple[dict[int, int], bytes]:
        """The place of each segment, and the data."""
        where: dict[int, int] = {}
        data = bytearray()
        for segment in sorted(self.segments):
            align = max(self.module.segment_info[segment].align, 8 if any(self.addresses_in(segment)) else 1)
            data += bytes(-len(data) % align)
            where[segment] = len(data)
            data += self.module.segments[segment].content
        data += bytes(-len(data) % 8) or bytes(0 if data else 8)
        return where, bytes(data)

    def addresses_in_data(self) -> dict[int, int]:
        """The words of the data that are addresses, and the places that they mean."""
        found = {}
        for segment in sorted(self.segments):
            for offset, place in self.addresses_in(segment):
                at = self.where[segment] + offset
                if at % 8:
                    stop("an address that isn't aligned")
                found[at // 8] = self.where[place.segment] + place.offset
        return found

    @staticmethod
    def token(place: Place) -> str:
        """What stands for a place in the data until all places are known."""
        return f"@{place.segment}.{place.offset}@"

    def with_places(self, text: str) -> str:
        return re.sub(r"@(\d+)\.(-?\d+)@", lambda found: f"D({self.where[int(found[1])] + int(found[2])})", text)

    # --- the file

    def data_text(self) -> str:
        words = struct.unpack(f"<{len(self.data) // 8}Q", self.data)
        rows = [""]
        for at, number in enumerate(words):
            word = f"A({self.addresses[at]})," if at in self.addresses else f"N({number:#x}),"
            if len(rows[-1]) + len(word) > WIDTH:
                rows.append("")
            rows[-1] += word
        return "\n".join(rows)

    def text(self) -> str:
        order = sorted(self.functions)
        heads = "".join(self.head(index, named=False) + ";\n" for index in order)
        bodies = [self.with_places(self.functions[index].text()) for index in order]
        return (f"#define WORDS {len(self.data) // 8}\n#include \"portable.h\"\n"
                f"#if IS_IN(1)\nDATA = {{\n{self.data_text()}\n}};\nDATA_END\n#endif\n{heads}{in_parts(bodies)}")


def in_parts(bodies: list[str]) -> str:
    """The functions in parts of nearly even size, each of which can be compiled by itself."""
    total, done, last = sum(map(len, bodies)), 0, 0
    rows = []
    for body in bodies:
        part = done * PARTS // total + 1
        if part != last:
            rows.append("#endif\n" * (last > 0) + f"#if IS_IN({part})\n")
            last = part
        rows.append(body)
        done += len(body)
    return "".join(rows) + "#endif\n" * (last > 0)
