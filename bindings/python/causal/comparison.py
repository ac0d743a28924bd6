"""One effect by several ways: crude, by the formula, and by each minimal set that may be adjusted for."""
from __future__ import annotations

from dataclasses import dataclass
from typing import TYPE_CHECKING, Any, Dict, List, Mapping, Optional, Sequence, Tuple, Union

from causal.bounds import EffectBounds, EffectDifference
from causal.columns import Data
from causal.contrasts import Contrast
from causal.display import html_table
from causal.effects import check_arms, levels_at, typed_order
from causal.errors import CausalError, EvaluationError
from causal.estimates import Estimates
from causal.evaluation import identified
from causal.formula import Term
from causal.framed import Framed
from causal.intervals import Interval
from causal.names import Names, printed_set

if TYPE_CHECKING:
    import matplotlib.axes

    from causal.diagram import Diagram


CRUDE = "crude"


@dataclass(frozen=True)
class Way:
    """One way to the effect: its name, the answer, or why there is none."""

    name: str
    answer: Union[Contrast, Estimates, None]
    reason: str = ""

    @property
    def difference(self) -> Tuple[Optional[float], Optional[Interval]]:
        """The risk difference with its interval."""
        if isinstance(self.answer, Contrast):
            return float(self.answer.difference), self.answer.interval.difference if self.answer.interval else None
        return (None, None) if self.answer is None else (self.answer.difference.estimate, self.answer.difference.interval)

    @property
    def kind(self) -> str:
        """What the answer rests on: counts, or models."""
        return "" if self.answer is None else "counts" if isinstance(self.answer, Contrast) else "models"

    @property
    def rests_on(self) -> Tuple[str, ...]:
        """What the intervals of a contrast rest on."""
        interval = self.answer.interval if isinstance(self.answer, Contrast) else None
        return tuple(note for note in interval.notes if note not in interval.lost) if interval else ()

    @property
    def doubts(self) -> Tuple[str, ...]:
        """What speaks against the numbers."""
        if isinstance(self.answer, Contrast):
            return (*self.answer.interval.lost, *self.answer.interval.doubts) if self.answer.interval else ()
        return () if self.answer is None else self.answer.doubts

    @property
    def row(self) -> List[Any]:
        """Both risks, the difference and its interval, and what has to be known beside them."""
        value, interval = self.difference
        risks: List[Any] = [None, None] if self.answer is None else [float(self.answer.treated), float(self.answer.control)]
        ends: List[Any] = [None, None] if interval is None else [interval.lower, interval.upper]
        told = self.answer.e_value if self.answer is not None and self.name != CRUDE else None
        return [self.name, self.kind, *risks, value, *ends, None if told is None else told.value, "; ".join(self.doubts) or self.reason]


@dataclass(frozen=True)
class Comparison(Framed):
    """The crude effect beside the adjusted ones. If the diagram is right, the adjusted ones estimate the same: `agree` says whether their
    intervals have a point in common. `bounds` has what the difference is at least and at most whatever the diagram leaves open, by the
    program's natural bounds: they take nothing but that who had an arm shows its outcome. It is None where they can't be asked for.
    """

    ways: Tuple[Way, ...]
    bounds: Optional[EffectDifference] = None

    @property
    def agree(self) -> bool:
        """Whether the intervals of the adjusted effects have a point in common."""
        held = [interval for _, interval in (way.difference for way in self.ways[1:]) if interval is not None]
        return not held or max(it.lower for it in held) <= min(it.upper for it in held)

    @property
    def notes(self) -> Tuple[str, ...]:
        """What the table says, in words."""
        found = told_of([(way.name, way.rests_on) for way in self.ways if way.kind == "counts"])
        found += [f"{way.name}: no value: {way.reason}" for way in self.ways if way.answer is None]
        found += told_of([(way.name, way.doubts) for way in self.ways])
        if not self.agree:
            found.append("the adjusted effects differ by more than their intervals: the data speaks against the diagram")
        if self.bounds is not None:
            found.append(f"natural bounds of the risk difference, whatever is hidden: {self.bounds}")
        value = self.ways[1].answer.e_value if len(self.ways) > 1 and self.ways[1].answer is not None else None
        found += [f"{self.ways[1].name}: {value}"] if value is not None else []
        found += ["by models: computed, and nothing but the formula is proved"] if any(way.kind == "models" for way in self.ways) else []
        return tuple(found)

    HEADS = ("way", "by", "risk_treated", "risk_control", "estimate", "conf_low", "conf_high", "e_value", "note")

    def _table(self) -> Tuple[Sequence[str], List[List[Any]]]:
        return self.HEADS, [way.row for way in self.ways]

    def __str__(self) -> str:
        lines = []
        for way in self.ways:
            value, interval = way.difference
            told = "no value" if value is None else f"{value:.6g} {interval or ''}".rstrip()
            lines.append(f"{way.name}: risk difference {told}" + (f" (by {way.kind})" if way.kind == "models" else ""))
        return "\n".join([*lines, *self.notes])

    def _repr_html_(self) -> str:
        return html_table(*self._table(), self.notes)

    def plot(self, ax: Optional["matplotlib.axes.Axes"] = None) -> "matplotlib.axes.Axes":
        """Draws the risk difference of each way with its interval: a forest plot. It needs matplotlib."""
        from causal.plotting import plot_intervals

        known = [(way.name, *way.difference) for way in self.ways]
        rows = [(name, value, it.lower, it.upper) for name, value, it in known if value is not None and it is not None]
        return plot_intervals(rows, "risk difference", ax)


def told_of(notes: Sequence[Tuple[str, Sequence[str]]]) -> List[str]:
    """Notes on several ways: one that is of all of them alone, and else with the names of those that it is of.

    >>> from causal.comparison import told_of
    >>> told_of([("a", ["x", "y"]), ("b", ["x"])])
    ['x', 'a: y']
    """
    names: Dict[str, List[str]] = {}
    for name, own in notes:
        for note in own:
            names.setdefault(note, []).append(name)
    return [note if len(of) == len(notes) else f"{', '.join(of)}: {note}" for note, of in names.items()]


def compared(
    diagram: "Diagram",
    data: Data,
    x: Optional[Names],
    y: Optional[Names],
    arms: Mapping[str, Any],
    words: Mapping[str, Any],
    most: int,
    model: Any,
) -> Comparison:
    """The effect by several ways: see `Diagram.compare`."""
    target = identified(diagram, x, y, None, True).target
    typed = typed_order(x), typed_order(y)
    named: Dict[str, Any] = {name: levels_at(target.x, arms[name], typed[0]) for name in ("treated", "control")}
    named["outcome"] = levels_at(target.y, arms["outcome"], typed[1])
    check_arms(named["treated"], named["control"])

    def way(name: str, asked: "Diagram", **more: Any) -> Way:
        try:
            return Way(name, asked.contrast(data, target.x, target.y, **named, **words, **more))
        except EvaluationError as error:
            try:
                shared = {key: value for key, value in words.items() if key not in ("interval", "progress")}
                return Way(name, asked.estimate(data, target.x, target.y, **named, **shared, **more, model=model))
            except CausalError:
                return Way(name, None, error.sentence)
        except CausalError as error:
            return Way(name, None, error.sentence)

    crude = type(diagram).from_edges([(a, b) for a in target.x for b in target.y], exposure=target.x, outcome=target.y)
    sets = diagram.adjustment_sets(target.x, target.y, most=most)
    ways = [way(CRUDE, crude), way("by the formula", diagram)]
    ways += [way(f"adjusted for {printed_set(members)}", diagram, set=members) for members in sets]
    return Comparison(tuple(ways), bounds_beside(diagram, data, target, named, words))


def bounds_beside(
    diagram: "Diagram", data: Data, target: Term, named: Mapping[str, Any], words: Mapping[str, Any]
) -> Optional[EffectDifference]:
    """The natural bounds of the risk difference; None where the records have weights, or there are none."""
    if any(words.get(name) for name in ("weights", "clusters", "strata", "given")):
        return None
    try:
        found = diagram.bounds(data, target.x, target.y, **{name: words[name] for name in ("count", "missing") if name in words})
        return found.difference(named["outcome"], named["treated"], named["control"]) if isinstance(found, EffectBounds) else None
    except CausalError:
        return None
