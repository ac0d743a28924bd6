"""Bytes that follow each other: a vector that is loaded byte by byte is one load, and some shuffles are two shifts."""
from __future__ import annotations

import re
import struct

from expressions import Run, Value
from instructions import Step

LAST_LANE = 15


def parts_of(address: Value) -> tuple[str, int]:
    """An address as a text and a number, of which it is the sum."""
    found = re.fullmatch(r"(.+)\+(\d+)", address.text) if address.level == 4 else None
    return (found[1], int(found[2])) if found else (address.text, 0)


def followed(step: Step, address: Value, vector: Value | None, result: Value) -> Value:
    """What a load gives. Byte p in all lanes, then byte p+1 in lane 1, and so on up to p+15 in lane 15 is a load of 16 bytes at p.

    What stands on the stack hasn't changed since it was put there: two addresses with one text are one address.
    """
    if step.instruction.name == "v128.load8_splat":
        return result._replace(run=Run(address, 0))
    if step.instruction.name != "v128.load8_lane" or vector is None or vector.run is None:
        return result
    start, last = vector.run
    base, first = parts_of(start)
    lane = step.numbers[1]
    if lane != last + 1 or parts_of(address) != (base, first + lane):
        return result
    if lane == LAST_LANE:
        return Value(f"RV({start.text})", 1, "V", result.reads, memory=True)
    return result._replace(run=Run(start, lane))


def slide_of(lanes: tuple[int, ...]) -> int | None:
    """Where the bytes of a shuffle begin, if they follow each other."""
    places = struct.pack("<QQ", *lanes)
    return places[0] if places[0] <= LAST_LANE and places == bytes(range(places[0], places[0] + 16)) else None
