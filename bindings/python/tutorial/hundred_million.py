"""An effect with its interval in a table of SQLite with 100,000,000 records, and how long each step takes.

    python3 hundred_million.py FILE [RECORDS]

FILE is the database, which is made unless it is there (some 2 GB for 100,000,000 records). The records are those of the page
`database.md`: how ill a patient was, whether the drug was given, and whether the patient recovered; the drug adds 0.1 to everyone's
chance of recovery.
"""
import os
import random
import sqlite3
import sys
import time

import causal

DIAGRAM = causal.Diagram("dag { drug [exposure] recovered [outcome]  severity -> drug -> recovered <- severity }")
# How many of a thousand are this ill, the chance of the drug among them, and that of recovery without it.
SEVERITIES = {"mild": (500, 0.2, 0.8), "moderate": (300, 0.5, 0.6), "severe": (200, 0.8, 0.3)}
BATCH = 1_000_000


def cells():
    """Each combination of levels with its probability."""
    for severity, (part, drug_chance, recovery_chance) in SEVERITIES.items():
        for drug in (0, 1):
            for recovered in (0, 1):
                chance = recovery_chance + 0.1 * drug
                yield (
                    (severity, "yes" if drug else "no", recovered),
                    part * (drug_chance if drug else 1 - drug_chance) * (chance if recovered else 1 - chance),
                )


def make(connection, number, seed):
    """A table of so many patients, by chance."""
    connection.execute("PRAGMA journal_mode = OFF")
    connection.execute("PRAGMA synchronous = OFF")
    connection.execute("CREATE TABLE patients (severity TEXT, drug TEXT, recovered INTEGER)")
    source = random.Random(seed)
    records, weights = zip(*cells())
    for start in range(0, number, BATCH):
        chosen = source.choices(records, weights, k=min(BATCH, number - start))
        connection.executemany("INSERT INTO patients VALUES (?, ?, ?)", chosen)
    connection.commit()


def timed(name, step):
    """What a step gives; its name and its time are printed."""
    began, used = time.perf_counter(), time.process_time()
    found = step()
    print(f"{name}: {time.perf_counter() - began:.1f} s ({time.process_time() - used:.1f} s of this process)", flush=True)
    return found


def main():
    path, number = sys.argv[1], int(sys.argv[2]) if len(sys.argv) > 2 else 100_000_000
    is_there = os.path.exists(path)
    connection = sqlite3.connect(path)
    if not is_there:
        timed(f"{number} records made", lambda: make(connection, number, seed=1))
    rows = timed("counted by one GROUP BY", lambda: connection.execute(causal.counts_query(DIAGRAM, "patients")).fetchall())
    counts = dict(zip(("drug", "recovered", "severity", "count"), zip(*rows)))
    print(f"{len(rows)} rows stand for {sum(counts['count'])} records")
    answer = timed("1000 resamples", lambda: DIAGRAM.bootstrap(counts, count="count", resamples=1000, seed=1))
    contrast = answer.contrast({"recovered": 1}, {"drug": "yes"}, {"drug": "no"})
    print(f"risk difference {float(contrast.contrast.difference):.6f}", end=", ")
    print(f"from {contrast.difference.lower:.6f} to {contrast.difference.upper:.6f}")


if __name__ == "__main__":
    main()
