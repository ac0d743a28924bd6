"""What an interval rests on, told beside it: how many records have the outcome, and how many draws had a value.

It is counted here, and nothing about it is proved.
"""
from __future__ import annotations

from dataclasses import dataclass
from typing import Optional, Sequence, Tuple

from causal.intervals import Interval

# Fewer records with the outcome than these are few, and where more than this part of the resamples had no value they are many.
FEW_EVENTS, MANY_LOST = 5, 0.05
# Of so many records on, the rule of three says something.
MANY_RECORDS = 30


@dataclass(frozen=True)
class Support:
    """How many records there are with the levels of an arm, and in how many of them the outcome is."""

    events: int
    records: int

    @property
    def least(self) -> int:
        """How many there are with the outcome or without it, whichever are fewer."""
        return min(self.events, self.records - self.events)


def doubt_of(interval: Optional[Interval], support: Optional[Support], name: str = "", where: str = "there") -> str:
    """What speaks against the interval of a probability: that it has width 0, or that it rests on few events; else an empty text.

    >>> from causal.events import Support, doubt_of
    >>> from causal.intervals import Interval
    >>> doubt_of(Interval(0.0, 0.0, 100), Support(0, 226))
    'width 0: none of the records there has the outcome (by the rule of three up to 0.0133)'
    >>> doubt_of(Interval(0.01, 0.03, 100), Support(3, 226), where="under control")
    'only 3 of 226 records under control are with the outcome: no interval reaches its level there'
    >>> doubt_of(Interval(0.1, 0.3, 100), Support(50, 226))
    ''
    """
    if interval is not None and interval.is_point:
        which = "" if support is None else f": {'none' if not support.events else 'all'} of the records there has the outcome"
        bound = f" (by the rule of three up to {3 / support.records:.3g})" if support and not support.events and support.records >= MANY_RECORDS else ""
        return f"{f'the interval of the {name} has ' if name else ''}width 0{which}{bound}"
    if support is None or support.least >= FEW_EVENTS:
        return ""
    kind = "with" if support.least == support.events else "without"
    return f"only {support.least} of {support.records} records {where} are {kind} the outcome: no interval reaches its level there"


def lost_text(lost: int, resamples: int, what: str = "value") -> str:
    """How many resamples had no value, where some hadn't.

    >>> from causal.events import lost_text
    >>> lost_text(3, 200), lost_text(0, 200)
    ('3 of 200 resamples had no value', '')
    """
    return f"{lost} of {resamples} resamples had no {what}" if lost else ""


def many_lost(lost: int, resamples: int, since: str = "records are few at some levels") -> Tuple[str, ...]:
    """That many resamples had no value, where they had, and why: what is left of them says less.

    >>> from causal.events import many_lost
    >>> many_lost(3, 200), many_lost(100, 200)
    ((), ('50% of the resamples have no value, since records are few at some levels: the intervals say little',))
    """
    if lost <= MANY_LOST * resamples:
        return ()
    return (f"{100 * lost / resamples:.0f}% of the resamples have no value, since {since}: the intervals say little",)


def in_one(texts: Sequence[str]) -> str:
    """Texts as one, without those that are empty.

    >>> from causal.events import in_one
    >>> in_one(["a", "", "b"])
    'a; b'
    """
    return "; ".join(text for text in texts if text)
