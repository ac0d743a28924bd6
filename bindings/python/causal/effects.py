"""Effects computed from data: the values of a formula over counts, and contrasts of them."""
from __future__ import annotations

import datetime
import math
import numbers
from dataclasses import dataclass, field
from decimal import Decimal
from fractions import Fraction
from typing import TYPE_CHECKING, AbstractSet, Any, Callable, Dict, Hashable, Iterator, List, Mapping, Optional, Sequence, Tuple, Union, overload

from causal.display import Printed, html_table
from causal.errors import RequestError
from causal.names import Names, names_of, printed_level, printed_name
from causal.objects import Told, name_in
from causal.vocabulary import Renamed, needed

if TYPE_CHECKING:
    import pandas

    from causal.contrasts import Contrast
    from causal.treated import ValuedBy

Level = Hashable
# Finds the level of a variable for what is told for it.
LevelOf = Callable[[str, str], Level]


@dataclass(frozen=True)
class Value(Printed):
    """A value between two fractions, which are equal where it is exact. `Effects` says what is proved to lie between them.

    >>> from fractions import Fraction
    >>> from causal.effects import Value
    >>> value = Value(Fraction(1, 3), Fraction(1, 3))
    >>> value.exact, value.is_exact
    (Fraction(1, 3), True)
    >>> Value(Fraction(0), Fraction(1, 2)).floats()
    (0.0, 0.5)
    """

    lower: Fraction
    upper: Fraction

    @property
    def is_exact(self) -> bool:
        """Whether the value is known exactly."""
        return self.lower == self.upper

    @property
    def exact(self) -> Fraction:
        """The value, where it is exact."""
        if not self.is_exact:
            raise RequestError("the value is known within bounds alone; ask for exact=True")
        return self.lower

    def __float__(self) -> float:
        return float((self.lower + self.upper) / 2)

    def __str__(self) -> str:
        if self.is_exact:
            return f"= {self.lower.numerator}/{self.lower.denominator}"
        return f"from {digits(self.lower)} to {digits(self.upper, up=True)}"

    def floats(self) -> Tuple[float, float]:
        """The bounds as floats, rounded outward, so that they still hold."""
        lower, upper = float(self.lower), float(self.upper)
        if Fraction(lower) > self.lower:
            lower = math.nextafter(lower, -math.inf)
        if Fraction(upper) < self.upper:
            upper = math.nextafter(upper, math.inf)
        return lower, upper

    def minus(self, other: "Value") -> "Value":
        """The difference.

        >>> from fractions import Fraction
        >>> from causal.effects import Value
        >>> Value(Fraction(1, 2), Fraction(3, 4)).minus(Value(Fraction(1, 8), Fraction(1, 4)))
        Value(lower=Fraction(1, 4), upper=Fraction(5, 8))
        """
        return Value(self.lower - other.upper, self.upper - other.lower)

    def over(self, other: "Value") -> Optional["Value"]:
        """The ratio, or None where the divisor may be 0.

        >>> from fractions import Fraction
        >>> from causal.effects import Value
        >>> Value(Fraction(1, 2), Fraction(3, 4)).over(Value(Fraction(1, 4), Fraction(1, 2)))
        Value(lower=Fraction(1, 1), upper=Fraction(3, 1))
        """
        return Value(self.lower / other.upper, self.upper / other.lower) if other.lower > 0 else None

    def odds(self) -> Optional["Value"]:
        """The odds, or None where the value may be 1.

        >>> from fractions import Fraction
        >>> from causal.effects import Value
        >>> Value(Fraction(1, 2), Fraction(3, 4)).odds()
        Value(lower=Fraction(1, 1), upper=Fraction(3, 1))
        """
        return Value(self.lower / (1 - self.lower), self.upper / (1 - self.upper)) if self.upper < 1 else None

    def times(self, factor: Fraction) -> "Value":
        """The value times a number.

        >>> from fractions import Fraction
        >>> from causal.effects import Value
        >>> Value(Fraction(1, 2), Fraction(3, 4)).times(Fraction(-2))
        Value(lower=Fraction(-3, 2), upper=Fraction(-1, 1))
        """
        ends = self.lower * factor, self.upper * factor
        return Value(min(ends), max(ends))

    def plus(self, other: "Value") -> "Value":
        """The sum.

        >>> from fractions import Fraction
        >>> from causal.effects import Value
        >>> Value(Fraction(1, 2), Fraction(3, 4)).plus(Value(Fraction(1), Fraction(1)))
        Value(lower=Fraction(3, 2), upper=Fraction(7, 4))
        """
        return Value(self.lower + other.lower, self.upper + other.upper)


def digits(value: Fraction, up: bool = False) -> str:
    """The value with 18 digits behind the point, and what has more of them rounded down, or `up`.

    >>> from fractions import Fraction
    >>> from causal.effects import digits
    >>> digits(Fraction(5, 4)), digits(Fraction(-1, 8))
    ('1.250000000000000000', '-0.125000000000000000')
    >>> digits(Fraction(2, 3)), digits(Fraction(2, 3), up=True)
    ('0.666666666666666666', '0.666666666666666667')
    """
    units = value * 10**18
    rounded = math.ceil(units) if up else math.floor(units)
    whole, behind = divmod(abs(rounded), 10**18)
    return f"{'-' if rounded < 0 else ''}{whole}.{behind:018d}"


def number_of(level: Level) -> Optional[Fraction]:
    """The number that a level is, or that it is written as in a file; None where it is none.

    >>> from causal.effects import number_of
    >>> number_of(0.5), number_of("12"), number_of("good")
    (Fraction(1, 2), Fraction(12, 1), None)
    """
    try:
        return Fraction(level) if isinstance(level, (str, numbers.Rational, float, Decimal)) else None
    except (ValueError, OverflowError, ZeroDivisionError):
        return None


@dataclass(frozen=True)
class Mean(Printed):
    """The mean of a numeric outcome under levels of the exposures, and of what is given. It is computed of proved probabilities,
    exactly or outward."""

    x: Dict[str, Level]
    value: Value
    given: Dict[str, Level] = field(default_factory=dict)

    def __hash__(self) -> int:
        return hash(self.value)

    def __str__(self) -> str:
        under = {**self.x, **self.given}
        return f"mean at {levels_text(under)} {self.value}" if under else f"mean {self.value}"


@dataclass(frozen=True)
class Effect(Printed):
    """One probability `P(y | do(x), given)`: the levels of y, of x and of what is given, and its value. Among the treated `given` has
    the levels of x that were observed as well, under the names with a prime."""

    y: Dict[str, Level]
    x: Dict[str, Level]
    value: Value
    given: Dict[str, Level] = field(default_factory=dict)

    def __hash__(self) -> int:
        return hash(self.value)

    @property
    def cell(self) -> str:
        """The probability, as it is printed."""
        return cell_text(self.y, self.x, self.given)

    @property
    def under(self) -> Dict[str, Level]:
        """The levels of x and of what is given."""
        return {**self.x, **self.given}

    def __str__(self) -> str:
        return f"{self.cell} {self.value}"


def level_text(level: Level) -> str:
    """A level as it is printed: a day without its hour.

    >>> import datetime
    >>> from causal.effects import level_text
    >>> level_text(datetime.datetime(2020, 4, 3)), level_text(1.5)
    ('2020-04-03', '1.5')
    """
    text = printed_level(str(level))
    return text[:10] if isinstance(level, datetime.datetime) and text.endswith(" 00:00:00") else text


def levels_text(cell: Mapping[str, Level]) -> str:
    """Levels of variables, as they are printed."""
    return ",".join(f"{printed_name(name)}={level_text(level)}" for name, level in cell.items())


def typed_order(names: Optional[Names]) -> Optional[Tuple[str, ...]]:
    """The names in the order in which they were typed, or None where they have none.

    >>> from causal.effects import typed_order
    >>> typed_order(["B", "A"]), typed_order({"B", "A"}), typed_order(None)
    (('B', 'A'), None, None)
    """
    return None if names is None or isinstance(names, AbstractSet) else names_of(names)


def levels_there(levels: Mapping[str, Sequence[Level]], asked: Mapping[str, Level]) -> str:
    """What levels the variables have of which another one was asked for.

    >>> from causal.effects import levels_there
    >>> levels_there({"T": ["a", "b"], "Y": [0, 1]}, {"T": "a", "Y": "1"})
    'Y has 0, 1 (did you mean 1?)'
    """
    told = []
    for name in [name for name in levels if name in asked and asked[name] not in levels[name]] or list(levels):
        alike = [level for level in levels[name] if name in asked and str(level) == str(asked[name])]
        told.append(f"{name} has {', '.join(map(repr, levels[name]))}" + (f" (did you mean {alike[0]!r}?)" if alike else ""))
    return "; ".join(told)


def levels_at(names: Sequence[str], levels: Any, typed: Optional[Sequence[str]] = None) -> Dict[str, Level]:
    """Levels by name, from a mapping, from a single level, or from a list in the order in which the names were typed.

    >>> from causal.effects import levels_at
    >>> levels_at(["T"], "A"), levels_at(["S", "T"], ["A", "small"], typed=["T", "S"])
    ({'T': 'A'}, {'S': 'small', 'T': 'A'})
    >>> levels_at(["S", "T"], ["small", "A"])
    Traceback (most recent call last):
        ...
    causal.errors.RequestError: levels of S, T are given by name, as in {'S': .., 'T': ..}: in a list their order isn't known
    """
    if isinstance(levels, Mapping):
        if set(levels) != set(names):
            raise RequestError(f"a level is needed for each of {', '.join(names)}, and was given for {', '.join(map(str, levels))}")
        return {name: levels[name] for name in names}
    if len(names) == 1:
        return {names[0]: levels}
    if isinstance(levels, (str, AbstractSet)) or not hasattr(levels, "__len__") or len(levels) != len(names):
        raise RequestError(f"a level is needed for each of {', '.join(names)}")
    if typed is None or set(typed) != set(names):
        shown = ", ".join(f"{name!r}: .." for name in names)
        raise RequestError(f"levels of {', '.join(names)} are given by name, as in {{{shown}}}: in a list their order isn't known")
    given = dict(zip(typed, levels))
    return {name: given[name] for name in names}


def cell_text(y: Mapping[str, Level], x: Mapping[str, Level], given: Mapping[str, Level]) -> str:
    """A probability as it is printed.

    >>> from causal.effects import cell_text
    >>> cell_text({"Y": 1}, {"X": "a"}, {})
    'P(Y=1|do(X=a))'
    """
    conditions = [*([f"do({levels_text(x)})"] if x else []), *([levels_text(given)] if given else [])]
    return f"P({levels_text(y)}{'|' if conditions else ''}{','.join(conditions)})"


@dataclass(frozen=True)
class Effects(Sequence[Effect]):
    """The effects of a formula over counts, at each level of the exposures and the outcomes.

    Each value is proved to be the formula's value over the counts, exactly or within the bounds, where the formula has one without
    `zero`; where it hasn't, it is the formula's value by that rule, in which a product with a factor 0 is 0. It covers the effect in each
    positive model that fits the diagram and that the counts match. That the counts are those of the data is tested. How far
    the counts of a sample are from those of the population isn't in it: see `Diagram.bootstrap`.

    `formula` is the formula, or where an effect among the treated has none the `TwoLevels` by which it has values, each of which is proved to
    lie in its bounds in each such model; `pinned` has the level at which each variable stands that the formula reads beside the target's
    sets; `exact` says whether exact fractions were asked for; `dropped` says how many records were left out since they lacked a
    value; `remarks` are further notes.

    >>> from causal import Diagram
    >>> effects = Diagram("dag{ X -> Y }").effects({"X": ["a", "a", "b"], "Y": [0, 1, 1]}, "X", "Y", exact=True)
    >>> print(effects)
    P(Y=0|do(X=a)) = 1/2
    P(Y=1|do(X=a)) = 1/2
    P(Y=0|do(X=b)) = 0/1
    P(Y=1|do(X=b)) = 1/1
    >>> effects.at({"Y": 1}, {"X": "a"}).exact
    Fraction(1, 2)
    """

    formula: ValuedBy
    effects: Tuple[Effect, ...]
    pinned: Dict[str, Level]
    exact: bool = False
    dropped: int = 0
    remarks: Tuple[str, ...] = ()
    # The exposures and the outcomes in the order in which they were typed, and the categories of ordered ones.
    typed: Tuple[Optional[Tuple[str, ...]], Optional[Tuple[str, ...]]] = field(default=(None, None), repr=False, compare=False)
    orders: Mapping[str, Sequence[Level]] = field(default_factory=dict, repr=False, compare=False)

    def __hash__(self) -> int:
        return hash(self.text)

    def __len__(self) -> int:
        return len(self.effects)

    @overload
    def __getitem__(self, index: int) -> Effect: ...

    @overload
    def __getitem__(self, index: slice) -> Tuple[Effect, ...]: ...

    def __getitem__(self, index: Union[int, slice]) -> Union[Effect, Tuple[Effect, ...]]:
        return self.effects[index]

    def __iter__(self) -> Iterator[Effect]:
        return iter(self.effects)

    @property
    def text(self) -> str:
        """The answer as the program prints it."""
        pins = [f"pinned {printed_name(name)}={level_text(level)}" for name, level in self.pinned.items()]
        return "\n".join([*pins, *map(str, self.effects)])

    def __str__(self) -> str:
        return "\n".join([*self.notes, *map(str, self.effects)])

    @property
    def notes(self) -> Tuple[str, ...]:
        """What the values rest on: the pinned levels, and how many records were left out."""
        pins = [f"pinned {printed_name(name)}={level_text(level)}" for name, level in self.pinned.items()]
        if pins:
            pins[-1] += " (in the population every level gives the same)"
        return (*pins, *([f"{self.dropped} records left out that lack a value"] if self.dropped else []), *self.remarks)

    @property
    def levels(self) -> Dict[str, List[Level]]:
        """The levels of each variable of y and of x, in the order of the effects.

        >>> from causal import Diagram
        >>> Diagram("dag{ X -> Y }").effects({"X": ["a", "a", "b"], "Y": [0, 1, 1]}, "X", "Y").levels
        {'Y': [0, 1], 'X': ['a', 'b']}
        """
        found: Dict[str, Dict[Level, None]] = {name: {} for name in (*self.formula.target.y, *self.names[: -len(self.formula.target.y)])}
        for effect in self.effects:
            for name, level in (*effect.y.items(), *effect.under.items()):
                found[name][level] = None
        return {name: list(levels) for name, levels in found.items()}

    def place(self, y: Any, x: Any, given: Optional[Mapping[str, Level]] = None) -> int:
        """The number of the effect at these levels."""
        target = self.formula.target
        y, x = levels_at(target.y, y, self.typed[1]), levels_at(target.x, x, self.typed[0])
        under = self._given(given)
        for k, effect in enumerate(self.effects):
            if effect.y == y and effect.x == x and effect.given == under:
                return k
        raise RequestError(f"there is no effect {cell_text(y, x, under)} in the data; {self._levels_there({**y, **x, **under})}")

    def _given(self, given: Optional[Mapping[str, Level]]) -> Dict[str, Level]:
        """The levels of what is given: where none are told, the only ones that there are."""
        if given is None and self.effects and all(effect.given == self.effects[0].given for effect in self.effects):
            return self.effects[0].given
        return dict(given or {})

    def _levels_there(self, asked: Mapping[str, Level]) -> str:
        """What levels the variables have of which another one was asked for."""
        return levels_there(self.levels, asked)

    def at(self, y: Any, x: Any, given: Optional[Mapping[str, Level]] = None) -> Value:
        """The value at these levels, which are given as in `Diagram.contrast`.

        >>> from causal import Diagram
        >>> effects = Diagram("dag{ X -> Y }").effects({"X": ["a", "a", "b"], "Y": [0, 1, 1]}, "X", "Y", exact=True)
        >>> effects.at(1, "a").exact
        Fraction(1, 2)
        """
        return self.effects[self.place(y, x, given)].value

    def only(self, given: Mapping[str, Level]) -> Tuple[int, ...]:
        """The numbers of the effects under these levels of what is given, or of some of it."""
        found = tuple(k for k, effect in enumerate(self.effects) if given.items() <= effect.given.items())
        if not found:
            raise RequestError(f"no effect is given {levels_text(given)}; {self._levels_there(given)}")
        return found

    def contrast(self, outcome: Any, treated: Any, control: Any, given: Optional[Mapping[str, Level]] = None) -> "Contrast":
        """The contrast of two levels of the exposures, at levels of what is given.

        >>> from causal import Diagram
        >>> effects = Diagram("dag{ X -> Y }").effects({"X": ["a", "a", "b"], "Y": [0, 1, 1]}, "X", "Y", exact=True)
        >>> effects.contrast({"Y": 1}, {"X": "a"}, {"X": "b"}).difference.exact
        Fraction(-1, 2)
        """
        from causal.contrasts import Contrast

        first, second = self.effects[self.place(outcome, treated, given)], self.effects[self.place(outcome, control, given)]
        check_arms(first.x, second.x)
        return Contrast(first.value, second.value, (first.x, second.x), first.y, first.given, self.notes)

    @property
    def numbers(self) -> Dict[Level, Fraction]:
        """The number of each level of the outcome, which has to be one variable with numbers for levels."""
        if len(self.formula.target.y) != 1:
            raise RequestError("a mean is of one outcome")
        name = self.formula.target.y[0]
        found = {level: number_of(level) for level in self.levels[name]}
        others = [repr(level) for level, number in found.items() if number is None]
        if others:
            raise RequestError(f"{name} has a level that is no number: {', '.join(others[:3])}")
        return {level: number for level, number in found.items() if number is not None}

    def effect_means(self) -> Tuple[Mean, ...]:
        """The mean of the outcome, which has numbers for levels, under each level of the exposures.

        >>> from causal import Diagram
        >>> effects = Diagram("dag{ X -> Y }").effects({"X": ["a", "a", "b"], "Y": [0, 5, 2]}, "X", "Y", exact=True)
        >>> print(*effects.effect_means(), sep="\\n")
        mean at X=a = 5/2
        mean at X=b = 2/1
        """
        of, name = self.numbers, self.formula.target.y[0]
        sums: Dict[Tuple[Level, ...], Mean] = {}
        for effect in self.effects:
            term = effect.value.times(of[effect.y[name]])
            key = tuple(effect.under.values())
            sums[key] = Mean(effect.x, sums[key].value.plus(term) if key in sums else term, effect.given)
        return tuple(sums.values())

    means = Renamed("effect_means")

    def mean(self, x: Any, given: Optional[Mapping[str, Level]] = None) -> Value:
        """The mean of the outcome under these levels of the exposures, and of what is given."""
        x, under = levels_at(self.formula.target.x, x, self.typed[0]), self._given(given)
        for mean in self.effect_means():
            if mean.x == x and mean.given == under:
                return mean.value
        raise RequestError(f"there is no mean at {levels_text({**x, **under})} in the data; {self._levels_there({**x, **under})}")

    def frame(self) -> "pandas.DataFrame":
        """A DataFrame with a row for each effect (it needs pandas).

        Its columns are the pinned variables, the exposures, what is given and the outcomes, then `estimate`, a float, and either `exact`, a
        `Fraction`, or `from` and `to`, the bounds as floats that are rounded outward. These are bounds for rounding, and no
        confidence interval. An ordered `Categorical` stays one. A value's column whose name a variable has is followed by `_`. What the values rest on stands in its
        `attrs`: `pinned`, the pinned levels, `dropped`, how many records were left out, and `notes`, both in words.

        >>> import pandas
        >>> from causal import Diagram
        >>> data = pandas.DataFrame({"X": ["a", "a", "b"], "Y": [0, 1, 1]})
        >>> print(Diagram("dag{ X -> Y }").effects(data, "X", "Y", exact=True).frame())
           X  Y  estimate exact
        0  a  0       0.5   1/2
        1  a  1       0.5   1/2
        2  b  0       0.0     0
        3  b  1       1.0     1
        """
        heads = ("estimate", "exact") if self.exact else ("estimate", "from", "to")
        values = [(float(e.value), *((e.value.exact,) if self.exact else e.value.floats())) for e in self.effects]
        return self.frame_with(heads, values)

    def to_frame(self) -> "pandas.DataFrame":
        """The same as `frame`."""
        return self.frame()

    def frame_with(self, heads: Sequence[str], values: Sequence[Sequence[Any]]) -> "pandas.DataFrame":
        """A DataFrame of the levels with further columns."""
        pandas = needed("pandas", "a DataFrame")
        names = [*self.pinned, *self.names]
        rows = [[*self.pinned.values(), *e.under.values(), *e.y.values(), *value] for e, value in zip(self.effects, values)]
        frame = pandas.DataFrame(rows, columns=[*names, *(_apart(head, names) for head in heads)])
        for name, order in self.orders.items():
            if name in names:
                frame[name] = pandas.Categorical(frame[name], categories=list(order), ordered=True)
        frame.attrs.update(pinned=dict(self.pinned), dropped=self.dropped, notes=list(self.notes))
        return frame

    @property
    def names(self) -> Tuple[str, ...]:
        """The variables of x, of what is given, and of y."""
        return (*self.formula.target.x, *self.formula.target.given, *self.formula.target.y)

    def _repr_html_(self) -> str:
        heads = ("estimate", "exact") if self.exact else ("estimate", "from", "to")
        values = [[str(e.value.exact)] if self.exact else [repr(bound) for bound in e.value.floats()] for e in self]
        rows = [[*e.under.values(), *e.y.values(), float(e.value), *value] for e, value in zip(self, values)]
        return html_table([*self.names, *heads], rows, self.notes)


def check_arms(treated: Mapping[str, Level], control: Mapping[str, Level]) -> None:
    """Refuses a contrast of an arm with itself.

    >>> from causal.effects import check_arms
    >>> check_arms({"X": 1}, {"X": 1})
    Traceback (most recent call last):
        ...
    causal.errors.RequestError: treated and control are one arm: X=1
    """
    if treated == control:
        raise RequestError(f"treated and control are one arm: {levels_text(treated)}")


def _apart(head: str, names: Sequence[str]) -> str:
    while head in names:
        head += "_"
    return head


@dataclass(frozen=True)
class Spread(Sequence[Effects]):
    """The effects at each level of what a formula reads beside x and y.

    In the population every level gives the same, where the diagram is right; over the counts of a sample they differ by chance.
    Where they differ by more, as the intervals of `Diagram.bootstrap` tell, the data speaks against the diagram. `Effects` says what is
    proved of each value; `without_value` has the levels at which some term has no records.

    >>> from causal import Diagram
    >>> napkin = Diagram("dag { W -> Z -> X -> Y  W <-> X  W <-> Y }")
    >>> data = {name: [k >> bit & 1 for k in range(16)] for bit, name in enumerate("WZXY")}
    >>> spread = napkin.pin_spread(data, "X", "Y")
    >>> [effects.pinned for effects in spread], spread.widest
    ([{'Z': 0}, {'Z': 1}], 0.0)
    """

    effects: Tuple[Effects, ...]
    without_value: Tuple[Dict[str, Level], ...] = ()

    def __len__(self) -> int:
        return len(self.effects)

    @overload
    def __getitem__(self, index: int) -> Effects: ...

    @overload
    def __getitem__(self, index: slice) -> Tuple[Effects, ...]: ...

    def __getitem__(self, index: Union[int, slice]) -> Union[Effects, Tuple[Effects, ...]]:
        return self.effects[index]

    def __iter__(self) -> Iterator[Effects]:
        return iter(self.effects)

    @property
    def widest(self) -> float:
        """How far the values of one effect are apart at most."""
        columns = zip(*([float(effect.value) for effect in effects] for effects in self.effects))
        return max((max(values) - min(values) for values in columns), default=0.0)

    def __str__(self) -> str:
        parts = [effects.text for effects in self.effects]
        parts += [f"no value at {levels_text(levels)}" for levels in self.without_value]
        return "\n".join([*parts, f"at most {self.widest:.6g} apart"])

    def frame(self) -> "pandas.DataFrame":
        """A DataFrame with the rows of each effect at each level (it needs pandas): see `Effects.frame`."""
        return needed("pandas", "a DataFrame").concat([effects.frame() for effects in self.effects], ignore_index=True)

    def to_frame(self) -> "pandas.DataFrame":
        """The same as `frame`."""
        return self.frame()

    def _repr_html_(self) -> str:
        if not self.effects:
            return html_table([], [], [f"no value at {levels_text(levels)}" for levels in self.without_value])
        free, names = list(self.effects[0].pinned), self.effects[0].names
        rows = [[*es.pinned.values(), *e.under.values(), *e.y.values(), float(e.value)] for es in self.effects for e in es]
        notes = [f"no value at {levels_text(levels)}" for levels in self.without_value]
        return html_table([*free, *names, "estimate"], rows, [*notes, f"at most {self.widest:.6g} apart"])


def value_of(told: Told) -> Value:
    """The value of a cell: an exact fraction, or two bounds."""
    lower, upper = (told["value"],) * 2 if "value" in told else (told["from"], told["to"])
    return Value(Fraction(lower), Fraction(upper))


def read_effects(
    told: Told,
    formula: ValuedBy,
    level_of: LevelOf = lambda name, level: level,
    dropped: int = 0,
    orders: Optional[Mapping[str, Sequence[Level]]] = None,
    typed: Tuple[Optional[Tuple[str, ...]], Optional[Tuple[str, ...]]] = (None, None),
    remarks: Tuple[str, ...] = (),
) -> Effects:
    """Reads the answer of `evaluate` for a formula.

    >>> from causal.effects import read_effects
    >>> from causal.formula import Formula, Term
    >>> cell = {"y": [["Y", "b"]], "x": [["X", "a"]], "given": [], "value": "1/3"}
    >>> read_effects({"exact": True, "pinned": [], "cells": [cell]}, Formula(Term(("Y",), ("X",)), "P(Y|X)"))[0]
    Effect(y={'Y': 'b'}, x={'X': 'a'}, value=Value(lower=Fraction(1, 3), upper=Fraction(1, 3)), given={})
    """

    def levels(pairs: Sequence[Tuple[str, Any]]) -> Dict[str, Level]:
        return {name: level_of(name, name_in(level)) for name, level in pairs}

    effects = [
        Effect(levels(cell["y"]), levels(cell["x"]), value_of(cell), levels([*cell["given"], *cell.get("observed", ())])) for cell in told["cells"]
    ]
    return Effects(formula, tuple(effects), levels(told.get("pinned", ())), told["exact"], dropped, remarks, typed, orders or {})
