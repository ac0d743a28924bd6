#!/usr/bin/env python3
"""flatten.py CASES STDOUT FLAT EXPECTED: the worked cases in a form that a C program reads, and what it should print.

FLAT has pieces, each its length, a colon and its bytes. A case is its name, how many words it has, these, how many inputs,
and the name and the content of each. Cases with a further member (reads or writes that fail, a file that is cut) have no
counterpart over inputs in memory: they are left out, and counted.
"""
import json
import sys


MEMBERS = {"case", "words", "files", "pad", "bytes", "most"}


def piece(content):
    content = content.encode() if isinstance(content, str) else content
    return b"%d:%s" % (len(content), content)


def needs_devices(case):
    return bool(set(case) - MEMBERS)


def inputs_of(case):
    texts = {name: text.encode() for name, text in case.get("files", {}).items()}
    padded = {name: text.ljust(case.get("pad", 0)) for name, text in texts.items()}
    return {**padded, **{name: bytes(numbers) for name, numbers in case.get("bytes", {}).items()}}


def flat(case):
    inputs = inputs_of(case)
    pieces = [case["case"], str(len(case["words"])), *case["words"], str(len(inputs))]
    for name, content in inputs.items():
        pieces += [name, content]
    return b"".join(map(piece, pieces))


def answers(cases, printed):
    """Splits what the program prints into what it prints of each case."""
    starts, at = [], 0
    for case in cases:
        head = f"== {case['case']}: ".encode()
        at = printed.index(head, at)
        starts.append(at)
        at += len(head)
    return [printed[start:end] for start, end in zip(starts, [*starts[1:], len(printed)])]


def main(cases_file, stdout_file, flat_file, expected_file):
    with open(cases_file, encoding="utf-8") as file:
        cases = json.load(file)
    with open(stdout_file, "rb") as file:
        answered = list(zip(cases, answers(cases, file.read())))
    kept = [(case, answer) for case, answer in answered if not needs_devices(case)]
    with open(flat_file, "wb") as file:
        file.write(piece(str(len(kept))) + b"".join(flat(case) for case, _ in kept))
    with open(expected_file, "wb") as file:
        file.write(b"".join(answer for _, answer in kept))
    print(f"{len(kept)} cases; {len(cases) - len(kept)} that a caller has no inputs or outputs for are left out")


if __name__ == "__main__":
    main(*sys.argv[1:])
