#!/usr/bin/env python3
"""Writes the survey graph of a seed as graph text: `make_survey.py SEED` (1 unless given), to standard output.

The same generator as the command `survey`: 40 vertices, one draw for each pair in ascending order.
"""
import sys

SEED = int(sys.argv[1]) if len(sys.argv) > 1 else 1
VERTICES = 40


def main():
    state = SEED
    print("dag {")
    for v in range(VERTICES):
        print(f"v{v}")
    for i in range(VERTICES):
        for j in range(i + 1, VERTICES):
            state = (state * 6364136223846793005 + 1442695040888963407) % 2**64
            draw = (state >> 33) % 16
            if draw < 3:
                print(f"v{i} -> v{j}")
            elif draw == 3:
                print(f"v{i} <-> v{j}")
    print("}")


main()
