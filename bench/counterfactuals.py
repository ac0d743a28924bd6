#!/usr/bin/env python3
"""Times `treated` and `natural` with and without a certificate, and `check` of each certificate, on random diagrams.

    bench/counterfactuals.py PROGRAM [DIAGRAMS]    PROGRAM is crates/causal/out/causal; DIAGRAMS of each kind, 25 unless given

A diagram has 62 or 40 vertices, from 1.5 to 6 further arrows for each, and bidirected edges, a third as many as vertices. Each certificate has to be accepted:
the status is 1 where one isn't.
"""
import random
import statistics
import subprocess
import sys
import tempfile
import time
from pathlib import Path

KINDS = ((62, 1.5), (62, 3), (62, 6), (40, 4))


def drawn(source, size, more):
    """The text of a diagram in which each vertex but the first has an arrow from an earlier one."""
    arrows = {(source.randrange(v), v) for v in range(1, size)}
    arrows.update(tuple(sorted(source.sample(range(size), 2))) for _ in range(int(more * size)))
    hidden = {tuple(sorted(source.sample(range(size), 2))) for _ in range(size // 3)}
    edges = [f"V{a} -> V{b}" for a, b in sorted(arrows)] + [f"V{a} <-> V{b}" for a, b in sorted(hidden)]
    return f"dag {{ {' '.join(edges)} }}"


def timed(words):
    """The seconds of a run, its status and what it printed."""
    began = time.perf_counter()
    done = subprocess.run(words, capture_output=True, check=False)
    return time.perf_counter() - began, done.returncode, done.stdout


def main():
    if not 2 <= len(sys.argv) <= 3:
        sys.exit(__doc__)
    program, number = sys.argv[1], int(sys.argv[2]) if len(sys.argv) == 3 else 25
    times, refused = {}, 0
    with tempfile.TemporaryDirectory() as room:
        graph, certificate = Path(room, "graph.dag"), Path(room, "certificate.json")
        for size, more in KINDS:
            for seed in range(number):
                source = random.Random(f"{size} {more} {seed}")
                graph.write_text(drawn(source, size, more))
                x, m, y = (f"V{v}" for v in sorted(source.sample(range(size), 3)))
                for command in (["treated"], ["natural", "--through", m]):
                    words = [program, command[0], graph, "--x", x, "--y", y, *command[1:]]
                    for form in ([], ["--certificate"]):
                        seconds, status, printed = timed([*words, *form])
                        times.setdefault((" ".join([command[0], *form]), status), []).append(seconds)
                    if status == 0:
                        certificate.write_bytes(printed)
                        seconds, status, _ = timed([program, "check", graph, certificate])
                        times.setdefault((f"check, of {command[0]}", status), []).append(seconds)
                        refused += status != 0
    for (question, status), found in sorted(times.items()):
        print(f"{question}, status {status}: {len(found)} runs, median {1000 * statistics.median(found):.1f} ms, at most {1000 * max(found):.1f} ms")
    return 1 if refused else 0


if __name__ == "__main__":
    sys.exit(main())
