#!/usr/bin/env python3
"""Compares the short formulas of all pairs of a diagram with the procedure's: their lengths, their times, and that `check` accepts them.

    python3 bench/make_survey.py 1 > survey.dag
    python3 bench/short_formulas.py survey.dag [MOST]

The length of a formula is the number of its terms and citations, of the names in its terms and of those of its sums, each definition
counted once. The last line fails where the total is above MOST. CAUSAL names the program (./causal unless it is set).
"""
import json
import os
import re
import subprocess
import sys
import tempfile
import time

CAUSAL = os.environ.get("CAUSAL", "./causal")
PART = re.compile(r"P\(([^)]*)\)|sum\{([^}]*)\}|\bq\d+\b")


def length_of(text):
    """The length of an expression."""
    count = 0
    for part in PART.finditer(text):
        term, over = part.groups()
        if term is not None:
            count += 1 + len(re.findall(r"[^,|]+", term))
        elif over is not None:
            count += len(over.split(","))
        else:
            count += 1
    return count


def total_length(certificate):
    return length_of(certificate["formula"]) + sum(length_of(text) for text in certificate["defs"])


def certificate_for(file, x, y, *words):
    """The certificate as text, or nothing for a hedge; and the seconds that it took."""
    begin = time.perf_counter()
    run = subprocess.run([CAUSAL, "identify", file, "--x", x, "--y", y, "--certificate", *words], capture_output=True, text=True)
    seconds = time.perf_counter() - begin
    if run.returncode not in (0, 1):
        sys.exit(f"{x} on {y}: status {run.returncode}: {run.stderr}")
    return (run.stdout if run.returncode == 0 else None), seconds


def is_accepted(file, text):
    with tempfile.NamedTemporaryFile("w", suffix=".json") as certificate:
        certificate.write(text)
        certificate.flush()
        return subprocess.run([CAUSAL, "check", file, certificate.name], capture_output=True).returncode == 0


def main():
    file = sys.argv[1]
    most = int(sys.argv[2]) if len(sys.argv) > 2 else None
    with open(file) as it:
        names = sorted(set(re.findall(r"\bv\d+\b", it.read())), key=lambda name: int(name[1:]))
    effects = before = after = shorter = refused = longer = differ = 0
    slowest = 0.0
    for x in names:
        for y in names:
            if x == y:
                continue
            plain, _ = certificate_for(file, x, y)
            short, seconds = certificate_for(file, x, y, "--short")
            slowest = max(slowest, seconds)
            if (plain is None) != (short is None):
                differ += 1
            if plain is None or short is None:
                continue
            effects += 1
            one, other = total_length(json.loads(plain)), total_length(json.loads(short))
            before, after = before + one, after + other
            shorter += other < one
            longer += other > one
            refused += not is_accepted(file, short)
    print(f"effects {effects}, length {before} -> {after}, shorter {shorter}, longer {longer}, not accepted {refused}, answered otherwise {differ}")
    print(f"slowest process {slowest:.3f} seconds")
    if longer or refused or differ or most is not None and after > most:
        sys.exit(1)


if __name__ == "__main__":
    main()
