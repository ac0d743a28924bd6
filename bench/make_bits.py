#!/usr/bin/env python3
"""Writes a table of 2,000 records as CSV, to standard output: 20 columns v0 to v19 of two levels each, so 2^20 cells,
and a column of counts, each 1.

The levels follow a linear congruential generator, so the file is the same on every machine.
"""
import sys

RECORDS = 2_000
COLUMNS = 20


def main():
    state = 20260103
    lines = [",".join(f"v{k}" for k in range(COLUMNS)) + ",count"]
    for _ in range(RECORDS):
        fields = []
        for _ in range(COLUMNS):
            state = (state * 6364136223846793005 + 1442695040888963407) % 2**64
            fields.append(str((state >> 40) % 2))
        lines.append(",".join(fields) + ",1")
    sys.stdout.write("\n".join(lines) + "\n")


main()
