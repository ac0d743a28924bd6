#!/usr/bin/env python3
"""Times questions about data in the Python package: `python_data.py`, with bindings/python on the path of modules.

It prints the processor's time of a contrast with 1,000 resamples of a small table, of bounds with as many, of the tests of all implications of a
diagram of 12 variables over 50,000 records, of a contrast over these with 200 resamples, and of an estimate by models.
"""
import random
import time
import warnings

from causal import Diagram

SMALL = Diagram("dag { T [exposure] R [outcome] S -> T -> R <- S }")
TRIAL = Diagram("dag { T [exposure] R [outcome] S -> T -> R T <-> R }")
EDGES = "A -> C A -> D B -> D B -> E C -> F D -> F D -> G E -> G F -> X G -> X F -> H X -> H X -> Y H -> I G -> Y F -> Y A -> J B -> J"


def timed(name, call):
    start, clock = time.process_time(), time.perf_counter()
    call()
    print(f"{name}: {time.process_time() - start:.3f} s of processor, {time.perf_counter() - clock:.3f} s", flush=True)


def main():
    warnings.simplefilter("ignore")
    source = random.Random(1)
    data = {name: [source.randrange(2) for _ in range(500)] for name in "STR"}
    arms = {"treated": 1, "control": 0, "outcome": 1}
    SMALL.contrast(data, **arms, resamples=1)
    timed("contrast, 500 records, 1000 resamples", lambda: SMALL.contrast(data, **arms))
    timed("bounds, 500 records, 1000 resamples", lambda: TRIAL.bounds(data, instrument="S", resamples=1000))
    large = Diagram(f"dag {{ X [exposure] Y [outcome] {EDGES} }}")
    records = large.simulate(50_000, seed=2, levels=3)
    pairs = len(large.implications())
    timed(f"{pairs} tests, 50,000 records of 12 variables", lambda: large.test_implications(records))
    timed("contrast, 50,000 records, 200 resamples", lambda: large.contrast(records, **arms, resamples=200))
    timed("estimate, 50,000 records", lambda: large.estimate(records, **arms))


if __name__ == "__main__":
    main()
