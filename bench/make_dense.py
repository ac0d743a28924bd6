#!/usr/bin/env python3
"""Prints a dense diagram as graph text: 64 vertices, 496 arrows and 110 bidirected edges.

Drawn as `make_survey.py` draws its graph, from the seed 102, with an arrow for one draw in four.
"""
SEED = 102
VERTICES = 64


def main():
    state = SEED
    print("dag {")
    for v in range(VERTICES):
        print(f"node{v}")
    for i in range(VERTICES):
        for j in range(i + 1, VERTICES):
            state = (state * 6364136223846793005 + 1442695040888963407) % 2**64
            draw = (state >> 33) % 16
            if draw < 4:
                print(f"node{i} -> node{j}")
            elif draw == 4:
                print(f"node{i} <-> node{j}")
    print("}")


main()
