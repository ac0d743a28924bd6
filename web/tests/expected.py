"""The worked cases of the repository, with what the program prints for each."""
import json
import pathlib
import re

TOP = pathlib.Path(__file__).resolve().parents[2]
CRATE = TOP / "crates/worked_cases"
# Reads that fail, outputs that refuse, cases that are run again and again or over inputs that are made: a page has none of these.
DEVICES = ("cuts", "each_write", "fails", "fails_err", "fails_out", "most", "repeats", "room")
MARK = "-- err\n"


def contents(case):
    """The inputs of a case, as bytes by name."""
    pad = case.get("pad", 0)
    files = {name: text.encode().ljust(pad) for name, text in case.get("files", {}).items()}
    return files | {name: bytes(numbers) for name, numbers in case.get("bytes", {}).items()}


def outcomes(cases):
    """The status and both outputs of each case, from the expected output."""
    rest = (CRATE / "stdout").read_text()
    found = []
    for i, case in enumerate(cases):
        head = re.compile(rf"== {re.escape(case['case'])}: (\d+)\n").match(rest)
        assert head, f"no outcome of {case['case']!r}"
        behind = rest[head.end():]
        end = len(behind)
        if i + 1 < len(cases):
            end = re.search(rf"^== {re.escape(cases[i + 1]['case'])}: \d+$", behind, re.M).start()
        out, _, err = behind[:end].partition(MARK)
        found.append((int(head[1]), out, err))
        rest = behind[end:]
    assert not rest
    return found


def load():
    """The cases that can be run over inputs in memory, and the number of those that can't."""
    cases = json.loads((CRATE / "data/cases.json").read_text())
    kept, left = [], 0
    for case, (status, out, err) in zip(cases, outcomes(cases)):
        if any(name in case for name in DEVICES):
            left += 1
        else:
            kept.append({"case": case["case"], "words": case["words"], "inputs": contents(case),
                         "status": status, "out": out, "err": err})
    return kept, left


if __name__ == "__main__":
    kept, left = load()
    print(len(kept), left)
