#!/usr/bin/env python3
"""Prints a diagram of 64 vertices with 2^31 minimal adjustment sets: each holds one of every pair."""
print("dag {\nX [exposure]\nY [outcome]\nX -> Y")
for i in range(31):
    print(f"A{i} -> X\nA{i} -> B{i}\nB{i} -> Y")
print("}")
