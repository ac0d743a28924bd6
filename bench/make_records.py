#!/usr/bin/env python3
"""Writes a table of counts as CSV: `make_records.py RECORDS` (2000000 unless given), to standard output.

Five columns, of which the last is the count. The levels follow a linear congruential generator, so the file is the
same on every machine.
"""
import sys

RECORDS = int(sys.argv[1]) if len(sys.argv) > 1 else 2_000_000
LEVELS = [
    ["small", "large"],
    ["A", "B", "control"],
    ["female", "male"],
    ["2019", "2020", "2021", "2022", "2023", "2024", "2025"],
]


def main():
    state = 20260101
    out = sys.stdout
    out.write("stone,treatment,sex,year,count\n")
    lines = []
    for number in range(RECORDS):
        fields = []
        for levels in LEVELS:
            state = (state * 6364136223846793005 + 1442695040888963407) % 2**64
            fields.append(levels[(state >> 33) % len(levels)])
        state = (state * 6364136223846793005 + 1442695040888963407) % 2**64
        fields.append(str((state >> 33) % 1000))
        lines.append(",".join(fields))
        if len(lines) == 10000:
            out.write("\n".join(lines) + "\n")
            lines = []
    if lines:
        out.write("\n".join(lines) + "\n")


main()
