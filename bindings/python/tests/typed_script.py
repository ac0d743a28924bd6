"""A script as a user writes it, for `mypy --strict`: each answer has the type that its documentation says."""
import sqlite3
from fractions import Fraction
from typing import Dict, List, Optional, Tuple

import causal
from causal import Diagram, Effect, Effects, Formula, Hedge, Implication, Value


def width(effects: Effects) -> float:
    """How wide the widest bounds are."""
    return max(upper - lower for lower, upper in (effect.value.floats() for effect in effects))


diagram = Diagram.from_edges([("S", "T"), ("S", "R"), ("T", "R")], exposure="T", outcome=["R"])
numbers = Diagram.from_edges([(1, 2)], exposure=1, outcome=2)
data: Dict[str, List[int]] = {"S": [0, 1] * 8, "T": [0, 0, 1, 1] * 4, "R": [0, 1, 1, 0, 1] * 3 + [0]}

answer = diagram.identify()
if isinstance(answer, Hedge):
    sets: Tuple[Tuple[str, ...], Tuple[str, ...]] = (answer.big, answer.small)
else:
    formula: Formula = answer
    latex: Optional[str] = formula.latex

separated: bool = bool(diagram.separated("S", "R", given="T")) or diagram.is_separated(["S"], "R")
first_set: Tuple[str, ...] = diagram.adjustment_sets()[0]
some_sets: Tuple[Tuple[str, ...], ...] = diagram.adjustment_sets()[:2]
instruments: causal.Instruments = diagram.instruments(most=3)
strata: List[Tuple[Tuple[str, ...], ...]] = [it.strata for it in instruments]

effects: Effects = diagram.effects(data, exact=True)
first: Effect = effects[0]
value: Value = first.value
exact: Fraction = value.exact
some: Tuple[Effect, ...] = effects[1:]
contrast = diagram.contrast(data, treated=1, control=0, outcome=1)
risk: float = float(contrast.difference)
ratio: Optional[Value] = contrast.ratio
pair: Implication = Diagram("dag { A -> B -> C }").implications()[0]
given: Tuple[str, ...] = pair.given
drawn = diagram.bootstrap(data, resamples=10, seed=1, progress=lambda done, of: print(done, of))
interval = drawn.contrast({"R": 1}, {"T": 1}, {"T": 0}).difference
lower: Optional[float] = None if interval is None else interval.lower
among: Effects = diagram.effects(data, given="S", short=True)
at_level: Value = among.at({"R": 1}, {"T": 1}, {"S": 0})
by_set = diagram.contrast(data, treated=1, control=0, outcome=1, set=["S"], back_door=True, zero=True)
in_stratum = diagram.bootstrap(data, resamples=10, given=["S"]).contrast({"R": 1}, {"T": 1}, {"T": 0}, {"S": 1}).ratio
from_dot: Diagram = Diagram.from_dot("digraph { X -> Y }", exposure="X")
tests = Diagram("dag { T -> S -> R }").test_implications(data, permutations=9)
size: float = tests[0].largest_difference + tests[0].rmsea_high
query: str = causal.counts_query(diagram, ("main", "records"), missing="drop")
query += causal.counts_query(diagram.adjusts("S"), "records")
connection: sqlite3.Connection = sqlite3.connect(":memory:")
connection.execute("CREATE TABLE records AS SELECT 0 AS S, 0 AS T, 0 AS R")
counted: Effects = diagram.effects((connection, "records"))

try:
    from_file: Diagram = causal.read("diagram.gml", outcome=["Y"])
except FileNotFoundError:
    from_file = from_dot

try:
    diagram.effects("counts.csv", at={"Z": 1})
except causal.EvaluationError as error:
    number: Optional[int] = error.number

reply = causal.run(["graph", "g"], {"g": "dag { A }"})
status: int = reply.status
written: bytes = reply.out + causal.run(["graph", b"g"], {b"g": b"dag {}"}).err
table: causal.SupportTable = diagram.support(data)
estimated: causal.Estimates = diagram.estimate(data, treated=1, control=0, outcome=1, method="aipw", interval="influence")
estimate_of: float = float(estimated.difference)
groups: causal.Contrasts = diagram.contrast(data, treated=1, control=0, outcome=1, given="S", resamples=0)
one: causal.Contrast = diagram.contrast(data, treated=1, control=0, outcome=1, given={"S": 1}, resamples=0)
walks: causal.Paths = diagram.paths("S", "R")
print(table, estimate_of, groups, one, walks, diagram.parents("R"), causal.e_value(2.0).value)
print(query, counted, at_level, by_set, in_stratum, size, from_file)
print(numbers, separated, first_set, some_sets, strata, exact, some, risk, ratio, given, lower, status, written, width(effects))
