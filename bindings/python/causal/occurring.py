"""An effect over the strata that occur, where all combinations of a set's levels are more than a formula reads.

A sum over a set of P(set) P(y | x, set) has a product with a factor 0 for each stratum without a record. With the rule that such a product
is 0 it is the same sum over the strata that have one, which are the levels of one variable here: the program evaluates that variable's
formula.
"""
from __future__ import annotations

from collections import Counter
from dataclasses import dataclass, replace
from typing import TYPE_CHECKING, Dict, List, Mapping, Optional, Sequence, Tuple

from causal.effects import Effects, levels_text
from causal.errors import EvaluationError, EvaluationPlace
from causal.estimators import pattern_of
from causal.formula import Term, nodes_of
from causal.names import printed_set
from causal.samples import Sample
from causal.tables import Cell, Table

if TYPE_CHECKING:
    from causal.treated import ValuedBy


@dataclass(frozen=True)
class Occurring:
    """A table in which a set is one variable, `name`, with a level for each stratum that has a record; and its diagram's edges.

    >>> from causal import Diagram
    >>> from causal.occurring import occurring_in
    >>> from causal.tables import table_of
    >>> data = {"A": [0, 0, 1, 1], "B": [0, 0, 2, 2], "X": [0, 1, 0, 1], "Y": [1, 0, 1, 1]}
    >>> formula = Diagram("dag { A -> X B -> X X -> Y A -> Y B -> Y }").identify("X", "Y", short=True)
    >>> found = occurring_in(formula, table_of(data, ["A", "B", "X", "Y"]), zero=True)
    >>> found.table.counts, found.edges
    ({(0, 0, 1): 1, (0, 1, 0): 1, (1, 0, 1): 1, (1, 1, 1): 1}, [('stratum', 'X'), ('stratum', 'Y'), ('X', 'Y')])
    >>> found.note
    'over the 2 strata of {A,B} that occur, of 4 combinations'
    """

    name: str
    members: Tuple[str, ...]
    table: Table
    edges: List[Tuple[str, str]]
    combinations: int
    # The number of each stratum, by its levels in the table that it was made of.
    strata: Dict[Cell, int]

    @property
    def note(self) -> str:
        """What was done."""
        return f"over the {len(self.table.levels[0])} strata of {printed_set(self.members)} that occur, of {self.combinations} combinations"

    def sample(self, sample: Sample, table: Table) -> Sample:
        """The records of a sample whose table this is made of, by their strata."""
        inside, others = _places(table.names, self.members), _places(table.names, self.table.names[1:])
        cells = sample.places_in(table)
        # (a stratum whose records all weigh 0 isn't there, and changes nothing)
        strata = [self.strata.get(tuple(cell[place] for place in inside), 0) for cell in cells]
        codes = (strata, *([cell[place] for cell in cells] for place in others))
        return Sample(self.table, codes, self.table.levels, sample.weights, sample.units, sample.strata)

    def told(self, effects: Effects, formula: "ValuedBy") -> Effects:
        """The effects as those of the formula that was asked for."""
        return replace(effects, formula=formula, remarks=(*effects.remarks, self.note))

    def retold(self, error: EvaluationError, formula: "ValuedBy", table: Table) -> EvaluationError:
        """A refusal as that of the formula that was asked for, over the table that this is made of."""
        cell, given = error.place and error.place.cell, pattern_of(formula)
        if error.number != 1 or not cell or self.name not in cell or given is None:
            return error
        number = list(self.table.levels[0]).index(cell[self.name])
        codes = next(codes for codes, stratum in self.strata.items() if stratum == number)
        there = {name: table.levels[place][code] for name, place, code in zip(self.members, _places(table.names, self.members), codes)}
        there.update((name, level) for name, level in cell.items() if name != self.name)
        tree, y = formula._known()[-1], formula.target.y
        node = next(number for number, it in enumerate(nodes_of(tree)) if "term" in it and set(it["term"]) == set(y))
        at = ", ".join(levels_text({name: there[name]}) for name in given)
        sentence = f"no record has {at}, which {Term(y, (), given)} is given"
        return EvaluationError(sentence, 1, EvaluationPlace(None, node, there), error.excerpt, error.printed)


def occurring_in(formula: "ValuedBy", table: Table, zero: bool) -> Optional[Occurring]:
    """The table over the strata that occur; None where the formula is no sum over a set, or a product with a factor 0 needn't be 0."""
    given, target = pattern_of(formula), formula.target
    if given is None or not zero or target.given:
        return None
    members = [name for name in given if name not in target.x]
    kept = [*target.x, *target.y]
    inside, places = _places(table.names, members), _places(table.names, kept)
    strata: Dict[Cell, int] = {}
    counts: Counter[Cell] = Counter()
    for cell, number in table.counts.items():
        if number:
            stratum = strata.setdefault(tuple(cell[place] for place in inside), len(strata))
            counts[(stratum, *(cell[place] for place in places))] += number
    name = "stratum"
    while name in table.names:
        name += "_"
    texts = [levels_text({it: table.levels[place][code] for it, place, code in zip(members, inside, stratum)}) for stratum in strata]
    levels = (texts, *(table.levels[place] for place in places))
    ranked = (tuple(range(len(strata))), *(table.ranked[place] for place in places))
    orders: Mapping[str, Sequence[object]] = {name: order for name, order in table.orders.items() if name in kept}
    merged = Table((name, *kept), levels, dict(counts), ranked, table.dropped, orders)  # type: ignore[arg-type]
    edges = [*((name, it) for it in kept), *((x, y) for x in target.x for y in target.y)]
    combinations = 1
    for place in inside:
        combinations *= len(table.levels[place])
    return Occurring(name, tuple(members), merged, edges, combinations, strata)


def _places(names: Sequence[str], wanted: Sequence[str]) -> List[int]:
    return [list(names).index(name) for name in wanted]
