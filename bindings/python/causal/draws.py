"""Draws of records with replacement, as the counts of a table. They are computed, and nothing about them is proved."""
from __future__ import annotations

import math
import random
from typing import Dict, List, Mapping, Optional, Sequence

from causal.errors import WrongType
from causal.tables import Cell

# Where the variance of a number of successes is larger, half of the trials are told apart first; also where the trials are more:
# the logarithm of the gamma function is too large there to say what is near 1.
WIDE, MANY = 10_000, 10**9


def seed_of(seed: Optional[int]) -> int:
    """The seed, or where there is none one that is drawn.

    >>> from causal.draws import seed_of
    >>> seed_of(3), seed_of(None) < 2**32
    (3, True)
    """
    if seed is None:
        return random.SystemRandom().randrange(2**32)
    if isinstance(seed, bool) or not hasattr(seed, "__index__"):
        raise WrongType(f"seed is a whole number, or None for one that is drawn, and no {type(seed).__name__}")
    return int(seed)


def binomial(source: random.Random, n: int, p: float) -> int:
    """A draw of how many of n trials succeed, each with probability p.

    A trial's success is that a uniform number is at most p. Where the number of successes is widely spread, or the trials
    are many, the middle one of the n numbers is drawn first (by its beta distribution), which leaves about half to ask about.

    >>> import random
    >>> from causal.draws import binomial
    >>> binomial(random.Random(1), 10, 0.0), binomial(random.Random(1), 10, 1.0)
    (0, 10)
    """
    successes = 0
    while 0 < p < 1 and (n > MANY or n * p * (1 - p) > WIDE):
        below = n // 2 + 1
        middle = source.betavariate(below, n + 1 - below)
        if middle <= p:
            successes += below
            n -= below
            p = (p - middle) / (1 - middle) if middle < 1 else 1.0
        else:
            n = below - 1
            p /= middle
    if p <= 0 or n == 0:
        return successes
    return successes + (n if p >= 1 else _near_mode(source.random(), n, p))


def _near_mode(left: float, n: int, p: float) -> int:
    """The number of successes that a uniform number stands for: it is used up by the probabilities, from the mode outward."""
    mode = min(int((n + 1) * p), n)
    odds = p / (1 - p)
    chances = math.lgamma(n + 1) - math.lgamma(mode + 1) - math.lgamma(n - mode + 1)
    up = down = math.exp(chances + mode * math.log(p) + (n - mode) * math.log1p(-p))
    left -= up
    low = high = mode
    # (beyond 0 and n the probabilities are 0; rounding may leave something when all are used up)
    while left > 0 and up + down > 1e-20:
        up *= odds * (n - high) / (high + 1)
        high += 1
        left -= up
        if left <= 0:
            return high
        down *= low / (odds * (n - low + 1))
        low -= 1
        left -= down
    return low if left <= 0 else mode


def drawn(source: random.Random, counts: Mapping[Cell, int]) -> Dict[Cell, int]:
    """As many records as the counts sum to, drawn with replacement: the counts of the draw, without those that are 0.

    >>> import random
    >>> from causal.draws import drawn
    >>> sum(drawn(random.Random(7), {(0,): 40, (1,): 60}).values())
    100
    """
    numbers = drawn_numbers(source, list(counts.values()))
    return {cell: number for cell, number in zip(counts, numbers) if number}


def drawn_numbers(source: random.Random, counts: Sequence[int]) -> List[int]:
    """The same for a list of counts, with those that are 0.

    >>> import random
    >>> from causal.draws import drawn_numbers
    >>> sum(drawn_numbers(random.Random(7), [40, 0, 60]))
    100
    """
    left = rest = sum(counts)
    found = []
    for count in counts:
        number = binomial(source, left, count / rest) if count and left else 0
        found.append(number)
        left -= number
        rest -= count
    return found


