#!/usr/bin/env python3
"""Writes a table of counts as CSV, to standard output: the columns X, M, Y and count, one record a cell.

    make_cells.py [X M Y]    the numbers of levels; 4, 4 and 65536 where they are left out, which makes 2^20 cells

The counts follow a linear congruential generator, so the file is the same on every machine.
"""
import sys


def main():
    x_levels, m_levels, y_levels = map(int, sys.argv[1:4]) if len(sys.argv) == 4 else (4, 4, 65536)
    state = 20260102
    out = sys.stdout
    out.write("X,M,Y,count\n")
    for x in range(x_levels):
        for m in range(m_levels):
            lines = []
            for y in range(y_levels):
                state = (state * 6364136223846793005 + 1442695040888963407) % 2**64
                lines.append(f"x{x},m{m},y{y},{1 + (state >> 33) % 1000}\n")
            out.write("".join(lines))


main()
