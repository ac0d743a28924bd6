#!/usr/bin/env python3
"""Coverage of the Python package's 95 % intervals in simulated studies with known truth: `coverage.py [STUDIES] [SCENARIO ..]`.

bindings/python has to be on the path of modules. STUDIES is 300 unless given, or FIRST-LAST where several processes share them. Each
scenario draws as many studies from a model, each with a seed of its own, asks for the risk difference with its interval, and prints in how
many the interval holds the truth, with the standard error of that share.
"""
import functools
import random
import sys
import warnings
from math import exp

import causal
from causal import Diagram

CONFOUNDED = Diagram("dag { X [exposure] Y [outcome] Z -> X -> Y <- Z }")
TWO = Diagram("dag { X [exposure] Y [outcome] A -> X -> Y <- A B -> X B -> Y }")
FRONT_DOOR = Diagram("dag { X [exposure] Y [outcome] X -> M -> Y X <-> Y }")
MEDIATED = Diagram("dag { X [exposure] Y [outcome] C -> X -> M -> Y X -> Y C -> M C -> Y }")
NAPKIN = Diagram("dag { X [exposure] Y [outcome] W -> Z -> X -> Y W <-> X W <-> Y }")
OVER_TIME = Diagram("dag { L0 -> A0 L0 -> L1 A0 -> L1 L1 -> A1 A0 -> Y A1 -> Y L1 -> Y }")
IN_PARTS = Diagram("dag { X [exposure] Y [outcome] X -> W -> Y X <-> W V -> Y V -> X }")
ARMS = {"treated": 1, "control": 0, "outcome": 1}


def logistic(score):
    return 1 / (1 + exp(-score))


def chance(source, p):
    return int(source.random() < p)


def confounder(source, size):
    """A binary confounder; the truth is 0.2."""
    data = {"Z": [], "X": [], "Y": []}
    for _ in range(size):
        z = chance(source, 0.5)
        x = chance(source, 0.3 + 0.4 * z)
        for name, value in zip("ZXY", (z, x, chance(source, 0.2 + 0.2 * x + 0.3 * z))):
            data[name].append(value)
    return data, 0.2


def in_a_group(source, size):
    """The same, where x adds 0.1 in one group and 0.2 in the other; the truth is that of the second."""
    data = {"Z": [], "X": [], "Y": []}
    for _ in range(size):
        z = chance(source, 0.4)
        x = chance(source, 0.3 + 0.3 * z)
        for name, value in zip("ZXY", (z, x, chance(source, 0.1 + 0.1 * x + 0.2 * z + 0.1 * x * z))):
            data[name].append(value)
    return data, 0.2


def rare(source, size):
    """Risks of 1.8 and 3.8 %, with a confounder; the truth is 0.02."""
    data = {"Z": [], "X": [], "Y": []}
    for _ in range(size):
        z = chance(source, 0.5)
        x = chance(source, 0.3 + 0.4 * z)
        for name, value in zip("ZXY", (z, x, chance(source, 0.008 + 0.02 * x + 0.02 * z))):
            data[name].append(value)
    return data, 0.02


def napkin(source, size):
    """Two hidden causes, of W and X and of W and Y; the truth is 0.3."""
    data = {"W": [], "Z": [], "X": [], "Y": []}
    for _ in range(size):
        one, two = chance(source, 0.5), chance(source, 0.5)
        w = chance(source, 0.2 + 0.3 * one + 0.3 * two)
        z = chance(source, 0.2 + 0.6 * w)
        x = chance(source, 0.2 + 0.4 * z + 0.3 * one)
        for name, value in zip("WZXY", (w, z, x, chance(source, 0.1 + 0.3 * x + 0.4 * two))):
            data[name].append(value)
    return data, 0.3


def over_time(source, size):
    """Two treatments, of which the first acts on what the second is given by; the truth of both against none is -0.15 - 0.2 * 0.3."""
    data = {"L0": [], "A0": [], "L1": [], "A1": [], "Y": []}
    for _ in range(size):
        before = chance(source, 0.5)
        first = chance(source, 0.3 + 0.4 * before)
        between = chance(source, 0.3 + 0.3 * before - 0.2 * first)
        second = chance(source, 0.2 + 0.5 * between)
        y = chance(source, 0.4 - 0.1 * first - 0.05 * second + 0.3 * between)
        for name, value in zip(data, (before, first, between, second, y)):
            data[name].append(value)
    return data, -0.21


def both_arms(data):
    """The interval of both treatments against none."""
    arms = {"treated": (1, 1), "control": (0, 0), "outcome": 1}
    return OVER_TIME.contrast(data, ["A0", "A1"], "Y", **arms, resamples=400).interval.difference


def front_door(source, size):
    """A hidden cause of X and Y; the truth is 0.6 * 0.3."""
    data = {"X": [], "M": [], "Y": []}
    for _ in range(size):
        u = chance(source, 0.5)
        x = chance(source, 0.3 + 0.4 * u)
        m = chance(source, 0.2 + 0.6 * x)
        for name, value in zip("XMY", (x, m, chance(source, 0.2 + 0.3 * m + 0.3 * u))):
            data[name].append(value)
    return data, 0.18


def through_a_number(source, size):
    """A hidden cause of X and Y, and a number M between them; the truth is drawn once."""
    data = {"X": [], "M": [], "Y": []}
    for _ in range(size):
        u = source.random()
        x = chance(source, 0.3 + 0.4 * u)
        m = source.gauss(x, 1)
        for name, value in zip("XMY", (x, m, chance(source, logistic(m + 0.5 * u - 1)))):
            data[name].append(value)
    return data, number_truth()


@functools.lru_cache(maxsize=None)
def number_truth(draws=400_000):
    """The risk difference of `through_a_number`."""
    source = random.Random(0)
    drawn = [(source.random(), source.gauss(0, 1)) for _ in range(draws)]
    return sum(logistic(1 + e + 0.5 * u - 1) - logistic(e + 0.5 * u - 1) for u, e in drawn) / draws


def smooth(source, size, is_bent=False, is_bent_arm=False):
    """Two confounders with four levels each, a logistic truth; with `is_bent` the outcome has a square that main effects lack, and with
    `is_bent_arm` the arm has one."""
    data = {"A": [], "B": [], "X": [], "Y": []}
    for _ in range(size):
        a, b = (sum(chance(source, 0.35) for _ in range(3)) for _ in range(2))
        x = chance(source, logistic(-0.8 + 0.4 * a + 0.4 * b + (0.8 * (a - 1) ** 2 - 0.5 if is_bent_arm else 0.0)))
        y = chance(source, outcome(a, b, x, is_bent))
        for name, value in zip("ABXY", (a, b, x, y)):
            data[name].append(value)
    return data, truth(is_bent)


def outcome(a, b, x, is_bent):
    return logistic(-1.2 + 0.8 * x + 0.4 * a + 0.3 * b + (0.6 * (a - 1) ** 2 - 0.4 * a * b if is_bent else 0.0))


def truth(is_bent):
    """The risk difference of `smooth`."""
    part = {0: 0.65**3, 1: 3 * 0.65**2 * 0.35, 2: 3 * 0.65 * 0.35**2, 3: 0.35**3}
    return sum(part[a] * part[b] * (outcome(a, b, 1, is_bent) - outcome(a, b, 0, is_bent)) for a in part for b in part)


def among_the_treated(source, size):
    """The same; the truth is that among those with X=1."""
    data, _ = smooth(source, size)
    return data, treated_truth()


@functools.lru_cache(maxsize=None)
def treated_truth():
    """The risk difference of `smooth` among those with X=1."""
    part = {0: 0.65**3, 1: 3 * 0.65**2 * 0.35, 2: 3 * 0.65 * 0.35**2, 3: 0.35**3}
    weight = {(a, b): part[a] * part[b] * logistic(-0.8 + 0.4 * a + 0.4 * b) for a in part for b in part}
    moved = sum(own * (outcome(a, b, 1, False) - outcome(a, b, 0, False)) for (a, b), own in weight.items())
    return moved / sum(weight.values())


def mediated(source, size):
    """A mediator with a confounder of all; x adds 0.1 where the mediator is 0 and 0.2 where it is 1, and 0.4 to the mediator's chance."""
    data = {"C": [], "X": [], "M": [], "Y": []}
    for _ in range(size):
        c = chance(source, 0.5)
        x = chance(source, 0.3 + 0.4 * c)
        m = chance(source, 0.2 + 0.4 * x + 0.2 * c)
        for name, value in zip("CXMY", (c, x, m, chance(source, 0.1 + 0.1 * x + 0.3 * m + 0.2 * c + 0.1 * x * m))):
            data[name].append(value)
    return data


def mediated_smoothly(source, size):
    """The same with a logistic truth."""
    data = {"C": [], "X": [], "M": [], "Y": []}
    for _ in range(size):
        c = chance(source, 0.5)
        x = chance(source, 0.3 + 0.4 * c)
        m = chance(source, mediator(c, x))
        for name, value in zip("CXMY", (c, x, m, chance(source, mediated_outcome(c, x, m)))):
            data[name].append(value)
    return data


def mediator(c, x):
    return logistic(-1 + 1.2 * x + 0.8 * c)


def mediated_outcome(c, x, m):
    return logistic(-1.5 + 0.6 * x + 1.0 * m + 0.7 * c)


def world(x, through):
    """The risk of `mediated_smoothly` were x this, and the mediator as under another value."""

    def risk(c, m):
        return (mediator(c, through) if m else 1 - mediator(c, through)) * mediated_outcome(c, x, m)

    return sum(risk(c, m) for c in (0, 1) for m in (0, 1)) / 2


def in_parts(source, size):
    """Observations of V, W and Y, and a trial of X, half as large, in which W was measured."""
    observed, trial = {"V": [], "W": [], "Y": []}, {"X": [], "W": []}
    for _ in range(size):
        u, v = chance(source, 0.5), chance(source, 0.5)
        x = chance(source, 0.2 + 0.3 * v + 0.3 * u)
        w = chance(source, 0.2 + 0.4 * x + 0.2 * u)
        for name, value in zip("VWY", (v, w, chance(source, logistic(-1 + 1.2 * w + 0.7 * v)))):
            observed[name].append(value)
    for place in range(size // 2):
        x = place % 2
        trial["X"].append(x)
        trial["W"].append(chance(source, 0.2 + 0.4 * x + 0.2 * chance(source, 0.5)))
    moved = [logistic(0.2 + 0.7 * v) - logistic(-1 + 0.7 * v) for v in (0, 1)]
    return (observed, trial), 0.4 * sum(moved) / 2


def part_of(data, name, **more):
    return getattr(MEDIATED.mediate(data, through="M", **ARMS, resamples=400, **more), name).interval


def counted(diagram, data, **more):
    return diagram.contrast(data, **ARMS, resamples=400, **more).interval.difference


def modelled(diagram, data, **more):
    return diagram.estimate(data, **ARMS, **more).difference.interval


SCENARIOS = {
    "confounder-100": (confounder, 100, lambda data: counted(CONFOUNDED, data)),
    "confounder-500": (confounder, 500, lambda data: counted(CONFOUNDED, data)),
    "confounder-500-bca": (confounder, 500, lambda data: counted(CONFOUNDED, data, interval="bca")),
    "front-door-400": (front_door, 400, lambda data: counted(FRONT_DOOR, data)),
    "napkin-1000": (napkin, 1000, lambda data: counted(NAPKIN, data)),
    "over-time-800": (over_time, 800, both_arms),
    "in-a-group-500": (in_a_group, 500, lambda data: counted(CONFOUNDED, data, given={"Z": 1})),
    "rare-500": (rare, 500, lambda data: counted(CONFOUNDED, data)),
    "rare-500-bca": (rare, 500, lambda data: counted(CONFOUNDED, data, interval="bca")),
    "logistic-300": (smooth, 300, lambda data: modelled(TWO, data)),
    "logistic-1000": (smooth, 1000, lambda data: modelled(TWO, data)),
    "ipw-1000": (smooth, 1000, lambda data: modelled(TWO, data, method="ipw")),
    "aipw-300": (smooth, 300, lambda data: modelled(TWO, data, method="aipw")),
    "aipw-wrong-arm-1000": (
        lambda source, size: smooth(source, size, is_bent_arm=True), 1000, lambda data: modelled(TWO, data, method="aipw")
    ),
    "front-door-number-500": (
        through_a_number, 500, lambda data: modelled(FRONT_DOOR, data, resamples=200)
    ),
    "treated-500": (among_the_treated, 500, lambda data: modelled(TWO, data, observed={"X": 1})),
    "trial-600": (in_parts, 600, lambda data: modelled(IN_PARTS, data[0], trials={"X": data[1]})),
    "door-by-models-400": (front_door, 400, lambda data: modelled(FRONT_DOOR, data)),
    "direct-500": (lambda source, size: (mediated(source, size), 0.1 + 0.1 * 0.3), 500, lambda data: part_of(data, "direct")),
    "indirect-500": (lambda source, size: (mediated(source, size), 0.4 * 0.4), 500, lambda data: part_of(data, "indirect")),
    "direct-by-models-500": (
        lambda source, size: (mediated_smoothly(source, size), world(1, 0) - world(0, 0)), 500,
        lambda data: part_of(data, "direct", model="logistic"),
    ),
    "indirect-by-models-500": (
        lambda source, size: (mediated_smoothly(source, size), world(1, 1) - world(1, 0)), 500,
        lambda data: part_of(data, "indirect", model="logistic"),
    ),
    "aipw-wrong-outcome-1000": (
        lambda source, size: smooth(source, size, is_bent=True), 1000, lambda data: modelled(TWO, data, method="aipw")
    ),
}  # fmt: skip


def main(words):
    first, _, last = (words[0] if words else "300").rpartition("-")
    numbers = range(int(first), int(last) + 1) if first else range(int(last))
    studies = len(numbers)
    for name in words[1:] or SCENARIOS:
        held = without = 0
        for number in numbers:
            source = random.Random(f"{name} {number}")
            draw, size, ask = SCENARIOS[name]
            data, wanted = draw(source, size)
            try:
                interval = ask(data)
            except causal.EvaluationError:
                interval = None
            if interval is None:
                without += 1
            else:
                held += interval.lower <= wanted <= interval.upper
        share = held / max(studies - without, 1)
        error = (share * (1 - share) / max(studies - without, 1)) ** 0.5
        print(f"{name}: {100 * share:.1f} % of {studies - without} (se {100 * error:.1f}), {without} without a value", flush=True)


if __name__ == "__main__":
    warnings.simplefilter("ignore")
    main(sys.argv[1:])
