#!/usr/bin/env python3
"""Prints a random diagram as graph text: `make_ascending.py [VERTICES [CHANCE]]`, 64 vertices and 593 arrows where nothing is said.

Each pair of vertices in ascending order is joined by an arrow with the chance. `python_calls.py` asks about such diagrams.
"""
import random
import sys


def edges_of(vertices, chance, source):
    """The edges of a random acyclic graph: each pair in ascending order with the chance."""
    pairs = [(f"v{a}", f"v{b}") for a in range(vertices) for b in range(a + 1, vertices)]
    return [pair for pair in pairs if source.random() < chance]


def main():
    vertices = int(sys.argv[1]) if len(sys.argv) > 1 else 64
    chance = float(sys.argv[2]) if len(sys.argv) > 2 else 0.3
    print("dag {")
    for v in range(vertices):
        print(f"v{v}")
    for cause, effect in edges_of(vertices, chance, random.Random(vertices)):
        print(f"{cause} -> {effect}")
    print("}")


if __name__ == "__main__":
    main()
