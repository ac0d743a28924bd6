"""The page's tests and draws beside those of the package of Python, which compute the same by the same methods."""
import json
import math
import pathlib
import random
import subprocess
import sys

WEB = pathlib.Path(__file__).resolve().parents[1]
sys.path.insert(0, str(WEB.parent / "bindings/python"))
from causal import independence  # noqa: E402
from causal.implications import Implication  # noqa: E402
from causal.tables import table_of  # noqa: E402

TABLES = 60


def random_table(source, few):
    """Columns of a few levels, of which the second and the third follow the first more or less."""
    size, levels = (40 if few else 2000), source.choice([2, 3])
    a = [source.randrange(levels) for _ in range(size)]
    c = [source.randrange(2) for _ in range(size)]
    strength = source.random()
    b = [x if source.random() < strength else source.randrange(levels) for x in a]
    return {"A": a, "B": b, "C": c}


def told(columns):
    """A table as the page has it."""
    names = list(columns)
    levels = [list(dict.fromkeys(columns[name])) for name in names]
    counts = {}
    for row in zip(*columns.values()):
        counts[row] = counts.get(row, 0) + 1
    cells = [{"at": [levels[i].index(value) for i, value in enumerate(row)], "count": count} for row, count in counts.items()]
    return {"names": names, "levels": [[str(level) for level in list_] for list_ in levels], "cells": cells}


def main():
    source = random.Random(55)
    columns = [random_table(source, few=k % 3 == 0) for k in range(TABLES)]
    given = [["C"] if k % 2 else [] for k in range(TABLES)]
    counts = [0, 3, 40, 957, 120_000, 7]
    asked = {"tables": [{"table": told(table), "a": "A", "b": "B", "given": names} for table, names in zip(columns, given)],
             "counts": counts, "draws": 2000}
    cases = WEB / "out/statistics.json"
    cases.write_text(json.dumps(asked))
    ran = subprocess.run(["node", sys.argv[1], cases], capture_output=True, text=True, check=True)
    found, wrong = json.loads(ran.stdout), []

    def close(what, got, wanted, within=1e-9):
        if got != wanted and not (got is not None and wanted is not None and abs(got - wanted) <= within * max(1, abs(wanted))):
            wrong.append(f"{what}: {got}, and in Python {wanted}")

    values = []
    for k, (table, names, got) in enumerate(zip(columns, given, found["tests"])):
        wanted = independence.tested(Implication("A", "B", tuple(names)), table_of(table, list(table)), "auto", 1000, 1)
        close(f"G2 of table {k}", got["statistic"], wanted.statistic)
        close(f"degrees of table {k}", got["degrees"], wanted.degrees)
        if got["method"] != (wanted.method or ""):
            wrong.append(f"method of table {k}: {got['method']}, and in Python {wanted.method}")
        by_draws = wanted.method == "permutation"
        spread = math.sqrt(wanted.p_value * (1 - wanted.p_value) / 1000) if by_draws else 0
        close(f"p of table {k}", got["p"], wanted.p_value, 6 * spread + 0.002 if by_draws else 1e-9)
        values.append(1 if got["p"] is None else got["p"])
    for k, (got, wanted) in enumerate(zip(found["holm"], independence.holm(values))):
        close(f"Holm's correction of table {k}", got, wanted)
    whole = sum(counts)
    wrong += [f"a draw has {size} records" for size in found["sums"] if size != whole]
    for count, mean in zip(counts, found["means"]):
        spread = math.sqrt(count * (1 - count / whole) / asked["draws"])
        if abs(mean - count) > 6 * spread:
            wrong.append(f"draws of {count} have {mean} in the mean")
    close("percentiles", found["interval"][0], 2.5)
    close("percentiles", found["interval"][1], 97.5)
    for line in wrong:
        print(f"differs: {line}")
    print(f"{TABLES} tests and {asked['draws']} draws beside the package of Python, {len(wrong)} wrong")
    sys.exit(bool(wrong))


if __name__ == "__main__":
    main()
