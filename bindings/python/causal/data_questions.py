"""What a diagram is asked of data: effects, contrasts, intervals, tests, estimates and reports."""
from __future__ import annotations

from typing import TYPE_CHECKING, Any, Dict, Mapping, Optional, Union, cast, overload

from causal.errors import DataWarning, RequestError
from causal.names import Names
from causal.vocabulary import Renamed, renamed, warn

if TYPE_CHECKING:
    import pandas

    from causal.bootstrap import Bootstrap, Progress
    from causal.bounds import Bounded
    from causal.columns import Data
    from causal.comparison import Comparison
    from causal.contrasts import Contrast, Contrasts
    from causal.diagram import Diagram
    from causal.effects import Effects, Level, Spread
    from causal.estimates import Estimates
    from causal.evaluation import Given
    from causal.implications import Implications
    from causal.independence import IndependenceTests
    from causal.mediation import Mediation
    from causal.report import Report
    from causal.support import SupportTable


class DataQuestions:
    """The questions of a `Diagram` about data."""

    @property
    def _diagram(self) -> Diagram:
        return cast("Diagram", self)

    def implications(self, data: Optional[Data] = None, count: Optional[str] = None, *, missing: str = "error") -> Implications:
        """The testable independences: each pair of variables that some set separates, with one such set.

        A diagram may have other testable constraints, as the napkin's, which aren't listed.

        With data, each pair has the largest difference of the counts from its independence, and the levels where it is. The data,
        `count` and `missing` are as in `effects`, with a column for each variable of the pairs and their sets. A difference is no
        test: the counts of a sample differ from 0 by chance too.

        >>> from causal import Diagram
        >>> data = {"A": [0, 0, 1, 1], "B": [0, 0, 0, 0], "C": [0, 0, 0, 1]}
        >>> print(Diagram("dag { A <- B -> C }").implications(data))
        A from C given {B}
        largest difference 2 at A=0,C=0,B=0
        """
        from causal.implications import implications_of

        return implications_of(self._diagram, data, count, missing)

    def test_implications(
        self,
        data: Data,
        count: Optional[str] = None,
        *,
        missing: str = "error",
        method: str = "auto",
        permutations: int = 1000,
        seed: Optional[int] = 0,
        progress: Optional[Progress] = None,
    ) -> IndependenceTests:
        """Tests of the pairs of `implications`: whether the data is farther from each than chance lets expect.

        For each pair of `implications` G² is summed over the levels of its set, and compared with the chi-squared distribution of
        its degrees of freedom (it needs scipy), or, where the tables are too thin or scipy isn't there, with tables that are drawn
        with the same sums, as many as `permutations` says, from the seed. `method` may be "chi-squared" or "permutation" for all.
        The pairs are proved, as `implications` says; the tests are computed, and nothing about them is proved. Where a variable has
        nearly a level for each record, as a number that wasn't cut has, there is no test, and `note` says so.

        >>> from causal import Diagram
        >>> data = {"A": [0, 0, 0, 1, 1, 1] * 20, "B": [0] * 60 + [1] * 60, "C": ([0, 0, 1, 0, 1, 1]) * 20}
        >>> tests = Diagram("dag { A <- B -> C }").test_implications(data, method="permutation", permutations=200)
        >>> tests[0].a, tests[0].b, tests[0].given, tests[0].df, round(tests[0].statistic, 3)
        ('A', 'C', ('B',), 2, 13.592)
        >>> len(tests.rejected())
        1
        """
        from causal.independence import tests_of

        return tests_of(self._diagram, data, count, missing, method, permutations, seed, progress)

    # Effects in data.

    @renamed(adjust_for="set")
    def evaluate(
        self, data: Data, x: Optional[Names] = None, y: Optional[Names] = None, **options: Any
    ) -> "pandas.DataFrame":
        """The effects of x on y in the data, as a DataFrame (it needs pandas): see `effects`, which takes the same options and says what
        is proved, and `Effects.frame` for the columns.

        >>> import pandas
        >>> from causal import Diagram
        >>> data = pandas.DataFrame({"T": ["A", "A", "B", "B"], "R": ["good", "bad", "good", "good"]})
        >>> print(Diagram("dag { T -> R }").evaluate(data, "T", "R", exact=True))
           T     R  estimate exact
        0  A   bad       0.5   1/2
        1  A  good       0.5   1/2
        2  B   bad       0.0     0
        3  B  good       1.0     1
        """
        return self.effects(data, x, y, **options).frame()

    @renamed(adjust_for="set")
    def effects(
        self,
        data: Data,
        x: Optional[Names] = None,
        y: Optional[Names] = None,
        *,
        count: Optional[str] = None,
        exact: bool = False,
        missing: str = "error",
        at: Optional[Mapping[str, Level]] = None,
        set: Optional[Names] = None,
        back_door: bool = False,
        given: Optional[Given] = None,
        zero: bool = True,
        short: bool = True,
        treated: bool = False,
        weights: Optional[str] = None,
    ) -> Effects:
        """The effects of x on y in the data: the values of the formula of `identify` over the counts.

        The data is a DataFrame (of pandas; or of Dask, polars or Spark, which count their own records), a table of pyarrow, a mapping of
        columns, a list of records, the path of a CSV file, or a pair of a connection of the DB-API and the name of a table, of which the
        database counts the records (see `counts_query`). It has a column for each variable of the formula. `count` names a column of
        frequencies, how many records a row stands for; without it each row is a record. It isn't for the weights of a survey: `weights`
        names a column of those, whose sums are rounded to parts of a million of a million. Values are bounds of 18 digits, or with
        `exact` fractions. Each value is proved to be the formula's value over the counts, where the formula has one
        without `zero`; where it hasn't, it is the formula's value by the rule of `zero`. In each positive model
        that fits the diagram and that the counts match, it covers the effect. That the counts are those of the data is tested: Python counts the
        records, but those of a plain file, which the library reads itself. Nothing is said of sampling error: see `bootstrap`.

        Levels are the values of a column, whatever they are, in order: numbers by size, texts by their characters, a `Categorical` by
        its categories. A category, or a truth value, that no record has counts 0 where it is one of
        the outcome, and is left out elsewhere. A variable that the formula reads beside x and y is pinned at its first level in order,
        or at the one that `at` gives, as in `at={"Z": 1}`: see `pin_spread`.

        The formula is the one that `identify` gives with `short`. It often reads fewer columns, and asks for fewer combinations of levels
        that have a record. With `short=False` it is the procedure's own: in the population it has the same value, over a sample it may
        have another, and one may have a value where the other has none. With `zero` a product with a factor 0 is 0 whatever its other
        factors are, also where one of them has a condition that no record has; where there is a value with `zero=False`, it is the same.
        By that rule a sum over a set is one over its strata that occur: where all combinations of levels are more than a formula reads
        (2^20), the set is one variable with these strata as levels, which a note tells. What is proved then is of that variable's formula.

        With `set` the formula is that of a set to adjust for, which has to be admissible, or with `back_door` to meet the back-door
        criterion: see `adjusts`. With `given` the effect is that among those with the same values of these variables,
        `P(y | do(x), given)`: names give all levels, and a mapping, as `given={"sex": "f"}`, those at these levels.

        With `treated` the effect is that among those for whom each level of the exposures was observed, by the formula of `treated`,
        which reads no `set`, `zero` or `short`: what is given has the observed level besides, under the name of the exposure with a
        prime, as in `given={"T'": "B"}`. It is proved alike: the value covers the effect among these in each such model. Where there is no
        formula, but the joint effect of the only exposure has one, and the exposure has at most two levels in the data, values are a difference
        (`TwoLevels`): each such model's effect lies in their bounds. `NoModelError` is raised where one would be below 0, since no model of the
        diagram has such counts; a sample may have them by chance.

        A missing value in a used column, an empty field or `NA` in a file too, is refused as `MissingValues`; with `missing="drop"` its
        record is left out, and the answer's `dropped` counts these (which estimates the effect among complete records: whether
        that is the effect wanted isn't decided here); with `missing="level"` it is a level.

        `NotIdentifiable` is raised with a hedge (with `treated` a `Confounded`) where there is no formula, `EvaluationError` with a cell where a term has no
        records, and with what would answer.

        >>> from causal import Diagram
        >>> data = {"S": ["small", "small", "large", "large"] * 2, "T": ["A", "B"] * 4, "R": ["good"] * 5 + ["bad"] * 3}
        >>> print(Diagram("dag { S -> T -> R <- S }").effects(data, "T", "R", exact=True))
        P(R=bad|do(T=A)) = 1/4
        P(R=good|do(T=A)) = 3/4
        P(R=bad|do(T=B)) = 1/2
        P(R=good|do(T=B)) = 1/2
        >>> among = Diagram("dag { S -> T -> R <- S }").effects(data, "T", "R", given={"S": "small"}, exact=True)
        >>> print(among.at("good", "A"))
        = 1/1
        >>> through = Diagram("dag { T -> S -> R <- T S <-> R }").effects(data, "T", "R", exact=True)
        >>> print(through.formula, through.at("good", "A"), sep="; ")
        P(R|do(T)) = P(R|T); = 3/4
        >>> treated = Diagram("dag { S -> T -> R <- S }").effects(data, "T", "R", treated=True, exact=True)
        >>> print(treated.formula, treated.at("good", "A", {"T'": "B"}), sep="; ")
        P(R|do(T),T') = sum{S} P(S|T') * P(R|S,T); = 3/4
        >>> napkin, counts = Diagram("dag { W -> Z -> X -> Y W <-> X W <-> Y }"), {name: [k >> bit & 1 for k in range(16)] for bit, name in enumerate("WZXY")}
        >>> print(napkin.effects(counts, "X", "Y", treated=True, exact=True)[2])
        P(Y=0|do(X=0),X'=1) = 1/2
        """
        from causal.evaluation import Evaluation
        from causal.samples import Design

        way: Dict[str, Any] = {"set": set, "back_door": back_door, "given": given, "zero": zero, "short": short, "treated": treated}
        return Evaluation(self._diagram, x, y, count, missing, **way, design=Design(weights)).effects(data, exact, at)

    def bounds(
        self,
        data: Data,
        x: Optional[Names] = None,
        y: Optional[Names] = None,
        *,
        given: Optional[Names] = None,
        instrument: Optional[Names] = None,
        strata: Optional[Names] = None,
        set: Optional[Names] = None,
        count: Optional[str] = None,
        exact: bool = False,
        missing: str = "error",
        resamples: int = 0,
        level: float = 0.95,
        seed: Optional[int] = 0,
        progress: Optional[Progress] = None,
    ) -> Bounded:
        """What the effects of x on y are at least and at most in the data, whether or not there is a formula.

        Without `instrument` these are the natural bounds (Robins 1989; Manski 1990). An instrument, alone or in `strata` of further
        variables over which the bounds are summed, makes them narrower, as the arm that was assigned does in a trial in which some don't
        comply (Balke and Pearl 1997). With `given` they are those of `P(y | do(x), given)`. With `set`, which has to be admissible, a stratum
        that has records of an arm counts as the adjustment has it, and one that lacks some leaves open what would have been seen there:
        `effects` has no value then. The data, `count` and `missing` are as in `effects`.

        `EffectBounds` says what is proved. The answer counts as false where the set is no instrument (`NoInstrument`, with the reason), where
        it can't be adjusted for (`Adjustment`, with the reason), and where no model of the diagram has these counts (`NoModel`): all are
        proved too.

        With `resamples` each effect has an `interval` for the whole range between its ends, by percentiles of both over as many draws, as
        `EffectBounds` says; `level`, `seed` and `progress` are as in `bootstrap`. A draw has the levels of x, of y and of what is given that
        the data has. One that has no bounds (a condition lacks records, or bounds cross) is left out and counted (`without_value`): where
        these are many, a `DataWarning` says so. The bounds of the data are proved; the draws and the intervals are computed.

        >>> from causal import Diagram
        >>> study = {"X": [0, 0, 0, 1, 1, 1], "Y": [0, 0, 1, 0, 1, 1]}
        >>> print(Diagram("dag { X -> Y X <-> Y }").bounds(study, "X", "Y", exact=True).at(1, 1))
        P(Y=1|do(X=1)) at least 1/3, at most 5/6
        >>> many = {name: levels * 50 for name, levels in study.items()}
        >>> taken = Diagram("dag { X -> Y X <-> Y }").bounds(many, "X", "Y", resamples=200, seed=1).at(1, 1)
        >>> 0.25 < taken.interval.lower < 1/3, 5/6 < taken.interval.upper < 0.9
        (True, True)
        """
        from causal.bounds import BoundsQuestion

        question = BoundsQuestion(self._diagram, x, y, given, instrument, strata, count, exact, set)
        return question.over(data, missing, resamples, level, seed, progress)

    def pin_spread(
        self,
        data: Data,
        x: Optional[Names] = None,
        y: Optional[Names] = None,
        *,
        count: Optional[str] = None,
        exact: bool = False,
        missing: str = "error",
        given: Optional[Given] = None,
        zero: bool = True,
        short: bool = False,
    ) -> Spread:
        """The effects of x on y at each level at which the formula's further variables may be pinned: a check of the diagram.

        In the population each of these levels gives the same, where the diagram is right. The data is as in `effects`, and so are
        `given`, `zero` and `short`. (The formula of a set to adjust for has no such variables.)

        >>> from causal import Diagram
        >>> napkin = Diagram("dag { W -> Z -> X -> Y  W <-> X  W <-> Y }")
        >>> data = {name: [k >> bit & 1 for k in range(16)] for bit, name in enumerate("WZXY")}
        >>> print(napkin.pin_spread(data, "X", "Y", exact=True)[1])
        pinned Z=1 (in the population every level gives the same)
        P(Y=0|do(X=0)) = 1/2
        P(Y=1|do(X=0)) = 1/2
        P(Y=0|do(X=1)) = 1/2
        P(Y=1|do(X=1)) = 1/2
        """
        from causal.evaluation import Evaluation

        return Evaluation(self._diagram, x, y, count, missing, given=given, zero=zero, short=short).spread(data, exact)

    spread = Renamed("pin_spread")

    @overload
    def contrast(  # type: ignore[misc]
        self,
        data: Data,
        x: Optional[Names] = None,
        y: Optional[Names] = None,
        *,
        treated: Any,
        control: Any,
        outcome: Any,
        count: Optional[str] = None,
        exact: bool = False,
        missing: str = "error",
        at: Optional[Mapping[str, Level]] = None,
        set: Optional[Names] = None,
        back_door: bool = False,
        given: Optional[Mapping[str, Level]] = None,
        zero: bool = True,
        short: bool = True,
        observed: Any = None,
        resamples: int = 1000,
        level: float = 0.95,
        seed: Optional[int] = 0,
        interval: str = "percentile",
        progress: Optional[Progress] = None,
        weights: Optional[str] = None,
        clusters: Optional[str] = None,
        strata: Optional[str] = None,
    ) -> Contrast: ...

    @overload
    def contrast(
        self,
        data: Data,
        x: Optional[Names] = None,
        y: Optional[Names] = None,
        *,
        treated: Any,
        control: Any,
        outcome: Any,
        count: Optional[str] = None,
        exact: bool = False,
        missing: str = "error",
        at: Optional[Mapping[str, Level]] = None,
        set: Optional[Names] = None,
        back_door: bool = False,
        given: Names,
        zero: bool = True,
        short: bool = True,
        observed: Any = None,
        resamples: int = 1000,
        level: float = 0.95,
        seed: Optional[int] = 0,
        interval: str = "percentile",
        progress: Optional[Progress] = None,
        weights: Optional[str] = None,
        clusters: Optional[str] = None,
        strata: Optional[str] = None,
    ) -> Contrasts: ...

    @renamed(adjust_for="set", kind="interval")
    def contrast(
        self,
        data: Data,
        x: Optional[Names] = None,
        y: Optional[Names] = None,
        *,
        treated: Any,
        control: Any,
        outcome: Any,
        count: Optional[str] = None,
        exact: bool = False,
        missing: str = "error",
        at: Optional[Mapping[str, Level]] = None,
        set: Optional[Names] = None,
        back_door: bool = False,
        given: Optional[Given] = None,
        zero: bool = True,
        short: bool = True,
        observed: Any = None,
        resamples: int = 1000,
        level: float = 0.95,
        seed: Optional[int] = 0,
        interval: str = "percentile",
        progress: Optional[Progress] = None,
        weights: Optional[str] = None,
        clusters: Optional[str] = None,
        strata: Optional[str] = None,
    ) -> Union[Contrast, Contrasts]:
        """The risks under two levels of x, their difference, ratio and odds ratio, for a level of y, with intervals.

        The levels are given as they stand in the data. Where x or y has several variables, they are given by name, or in a list in the
        order in which x (or y) lists them; where x isn't given, by name alone. `given` as a mapping of variables to levels, as in
        `given={"sex": "f"}`, gives the contrast there; names give one for each level. Other options are as in `effects` and `bootstrap`.
        With `observed` both risks are those among the ones for whom this level of the exposures was observed, as `effects` has them with
        `treated`: with `treated=1, control=0, observed=1` the difference is the effect of treatment on the treated.
        Of both effects is proved what `effects` says; the difference and the ratios are computed from them, outward where they are bounds.
        The intervals are computed too, as `bootstrap` says; with `resamples=0` there are none.

        >>> from causal import Diagram
        >>> data = {"T": ["A", "A", "B", "B"] * 9, "R": [1, 0, 1, 1] * 9}
        >>> contrast = Diagram("dag { T -> R }").contrast(data, "T", "R", treated="A", control="B", outcome=1, resamples=0)
        >>> float(contrast.difference), float(contrast.ratio)
        (-0.5, 0.5)
        >>> print(contrast)
        treated: T=A; control: T=B; outcome: R=1
        risk under treated: 0.5
        risk under control: 1
        risk difference: -0.5
        risk ratio: 0.5
        odds ratio: none
        >>> stones = {"S": ["small", "large"] * 4, "T": ["A", "A", "B", "B"] * 2, "R": [1] * 4 + [0] * 4, "n": [81, 192, 234, 55, 6, 71, 36, 25]}
        >>> arms = {"treated": "A", "control": "B", "observed": "B", "outcome": 1}
        >>> among = Diagram("dag { S -> T -> R <- S }").contrast(stones, "T", "R", **arms, count="n", exact=True, resamples=0)
        >>> print(among.head[0], among.treated, among.control, sep="; ")
        treated: T=A; control: T=B; outcome: R=1; among: T'=B; = 33753/38135; = 289/350
        """
        from causal.contrasts import Contrasts
        from causal.evaluation import Evaluation
        from causal.intervals import check_asked
        from causal.samples import Design

        check_asked(resamples, level, interval, least=0)
        words: Dict[str, Any] = {"set": set, "back_door": back_door, "given": given, "zero": zero, "short": short, "observed": observed}
        design = Design(weights, clusters, strata)
        way = Evaluation(self._diagram, x, y, count, missing, **words, design=design)
        drawn = way.bootstrap(data, resamples, level, seed, at, interval, progress, exact) if resamples else None
        found = way.effects(data, exact, at) if drawn is None else drawn.effects

        def contrast_at(under: Optional[Mapping[str, Level]]) -> Contrast:
            plain = found.contrast(outcome, treated, control, under)
            if drawn is None:
                return plain
            interval = drawn.contrast(outcome, treated, control, under)
            for doubt in interval.doubts:
                if "width 0" in doubt:
                    warn(doubt, DataWarning)
            return plain.with_interval(interval)

        if isinstance(given, Mapping) or way.primes.keys() >= {*found.formula.target.given}:
            return contrast_at(None)
        groups = {tuple(effect.given.items()): effect.given for effect in found}
        return Contrasts(tuple(map(contrast_at, groups.values())))

    @renamed(adjust_for="set", kind="interval")
    def bootstrap(
        self,
        data: Data,
        x: Optional[Names] = None,
        y: Optional[Names] = None,
        *,
        count: Optional[str] = None,
        missing: str = "error",
        at: Optional[Mapping[str, Level]] = None,
        resamples: int = 1000,
        level: float = 0.95,
        seed: Optional[int] = 0,
        interval: str = "percentile",
        progress: Optional[Progress] = None,
        set: Optional[Names] = None,
        back_door: bool = False,
        given: Optional[Given] = None,
        zero: bool = True,
        short: bool = True,
        treated: bool = False,
        weights: Optional[str] = None,
        clusters: Optional[str] = None,
        strata: Optional[str] = None,
    ) -> Bootstrap:
        """The effects with intervals by the bootstrap: percentiles of resampled tables of counts, or with `interval="bca"` percentiles
        that are corrected for bias and accelerated, which asks once more for each cell of the table. With rare outcomes neither reaches
        its level, and the corrected one isn't the better one.

        As many records as there are are drawn with replacement, `resamples` times, and the effects computed again. What is
        proved is the value over the data's counts; the draws and the interval are only computed (by numpy for many tables at once, where
        that gives on the data what the program gives, and else by the program). A draw has the levels of x, of y, of what is given and
        of pinned variables that the data has; a level of another variable that isn't drawn is left out of that draw. A draw with a cell
        that has no value is left out and counted (`without_value`), and among the treated one that no model of the diagram has: where these
        are many, the interval says little, and a `DataWarning` says so. `set`, `back_door`, `given`, `zero`, `short` and `treated` are as in `effects`.

        Rows that `count` counts are drawn as that many records. A survey's records have `weights`, and may have been drawn as `clusters`,
        within `strata`, each the name of a column: then clusters (or single records) are drawn within the strata, one fewer than there
        are, with weights as much larger, for which numpy is needed; the only cluster of a stratum stays.

        The same data, seed and number of resamples give the same interval; `seed=None` draws a seed. `progress` is called after each
        table, with how many were and of how many: `lambda done, of: print(done, of)`, or what moves a bar. What it raises ends the
        bootstrap.

        >>> from causal import Diagram
        >>> data = {"T": ["A", "B"] * 40, "R": [1, 0, 1, 1] * 20}
        >>> answer = Diagram("dag { T -> R }").bootstrap(data, "T", "R", resamples=200, seed=3)
        >>> contrast = answer.contrast(1, "A", "B")
        >>> float(contrast.contrast.difference), contrast.difference.lower > 0, answer.without_value
        (0.5, True, 0)
        """
        from causal.evaluation import Evaluation
        from causal.samples import Design

        way: Dict[str, Any] = {"set": set, "back_door": back_door, "given": given, "zero": zero, "short": short, "treated": treated}
        asked = Evaluation(self._diagram, x, y, count, missing, **way, design=Design(weights, clusters, strata))
        return asked.bootstrap(data, resamples, level, seed, at, interval, progress)

    def support(
        self,
        data: Data,
        x: Optional[Names] = None,
        y: Optional[Names] = None,
        *,
        set: Optional[Names] = None,
        count: Optional[str] = None,
        missing: str = "error",
    ) -> SupportTable:
        """How many records each arm has in each stratum of a set: where one has none, the formula of the set has no value there.

        The set is the one given, or else the first minimal set that may be adjusted for. It is a count, and decides nothing.

        >>> from causal import Diagram
        >>> data = {"S": ["f", "f", "m", "m"], "T": [0, 1, 1, 1], "R": [0, 1, 0, 1]}
        >>> print(Diagram("dag { S -> T -> R <- S }").support(data, "T", "R"))
        S  T=0  T=1
        f    1    1
        m    0    2
        1 of 2 strata, with 2 of 4 records, lack an arm
        """
        from causal.support import support_table

        return support_table(self._diagram, data, x, y, set, count, missing)

    def mediate(
        self,
        data: Data,
        x: Optional[Names] = None,
        y: Optional[Names] = None,
        *,
        through: Names,
        treated: Any,
        control: Any,
        outcome: Any = None,
        count: Optional[str] = None,
        exact: bool = False,
        missing: str = "error",
        resamples: int = 1000,
        level: float = 0.95,
        seed: Optional[int] = 0,
        progress: Optional[Progress] = None,
        model: Any = None,
        smoothing: float = 1.0,
        factors: Names = (),
        interval: Optional[str] = None,
    ) -> Mediation:
        """How much of the effect of x on y goes through the mediators `through`, and how much past them: the natural direct and indirect
        effect, whose sum is the total one, in the data.

        `outcome` is the level of y whose risk is compared; without it means are, of a numeric y. The arms, `count` and `missing` are as in
        `contrast`, and intervals are percentiles of `resamples` bootstrap draws.

        The formula of `natural` is proved, and the risks are proved to be its values over the counts: `values` has them as bounds of 18
        digits, or with `exact` as fractions; differences are computed. A term without records leaves none, but where a product with a
        factor 0 hides it. With `model` values are by models of its terms, as in `estimate`, which says what `model`, `smoothing`, `factors` and `interval` are: then
        mediators and what lies before them may be numbers, and intervals are by influence functions where these are known.

        The proportion mediated means little where the two effects have opposite signs or the total may be near 0, and says so. A natural
        effect speaks of two values of x in one person, which no experiment shows: that of X and M together (`contrast` with both as x)
        asks for less.

        >>> from causal import Diagram
        >>> data = {"X": [0] * 40 + [1] * 40, "M": ([0] * 3 + [1]) * 10 + [0, 1, 1, 1] * 10, "Y": [0, 0, 1, 1, 0, 0, 0, 1] * 10}
        >>> found = Diagram("dag { X -> M -> Y X -> Y }").mediate(data, "X", "Y", through="M", treated=1, control=0, outcome=1, resamples=50)
        >>> round(float(found.direct) + float(found.indirect) - float(found.total), 12), found.direct.interval is not None
        (0.0, True)
        """
        from causal.mediation import mediated
        from causal.natural_estimates import ModelWords

        asked: Dict[str, Any] = {"treated": treated, "control": control, "outcome": outcome, "count": count, "missing": missing}
        asked.update(resamples=resamples, level=level, seed=seed, progress=progress)
        if model is not None:
            if exact:
                raise RequestError("values by models aren't exact")
            asked.update(words=ModelWords(model, smoothing, factors, interval))
        elif interval not in (None, "percentile"):
            raise RequestError("a mediation by counts has percentile intervals; model='logistic' has those by influence functions")
        else:
            asked.update(exact=exact)
        return mediated(self._diagram, data, x, y, through, **asked)

    def estimate(
        self,
        data: Optional[Data],
        x: Optional[Names] = None,
        y: Optional[Names] = None,
        *,
        treated: Any,
        control: Any,
        outcome: Any = None,
        method: str = "formula",
        model: Any = "logistic",
        smoothing: float = 1.0,
        factors: Names = (),
        set: Optional[Names] = None,
        back_door: bool = False,
        given: Optional[Mapping[str, Level]] = None,
        observed: Any = None,
        trials: Optional[Mapping[Any, Data]] = None,
        at: Optional[Mapping[str, Level]] = None,
        short: bool = True,
        count: Optional[str] = None,
        missing: str = "error",
        interval: Optional[str] = None,
        resamples: int = 1000,
        level: float = 0.95,
        seed: Optional[int] = 0,
        progress: Optional[Progress] = None,
        weights: Optional[str] = None,
        clusters: Optional[str] = None,
        strata: Optional[str] = None,
    ) -> Estimates:
        """Estimates of two arms by models: where tables are thin, or variables are numbers. **Computed, by these models: nothing but the
        formula is proved.** It needs numpy.

        Each term P(a | b) of the formula is modelled, and the formula summed over the levels; a term without a condition has the shares
        of the data. `model` is "logistic" (multinomial where there are more than two levels), "table" (the shares, with `smoothing` further
        records at each condition), or an object with `fit` and `predict_proba`, as those of scikit-learn; a mapping gives one for each
        variable that is modelled, as in `model={"Y": "table"}`. Without `outcome` the mean of a numeric outcome is estimated, by least
        squares. Numbers enter as they are, those of `factors` as categories; so do exposures with up to 10 levels. A number over which the
        formula sums, and that has many levels, is modelled by its mean with the errors of the records, and summed over in classes.

        `method="ipw"` weights the records by the chance of their arm given a set to adjust for, and `"aipw"` is the doubly robust estimator,
        right where the model of the arm or that of the outcome is. The set is `set`, or the first minimal one; in any case one that the
        program calls admissible.

        With `observed` the effect is that among those for whom this level of the exposure was observed, by the formula of `treated`, as
        `observed=1` for the treated. With `trials` it is that from trials on other variables, by the formula of `surrogate`: the records
        of each trial, by what was set in it, as in `trials={"Z": frame}`; `data` may then be None where no term is observed. Terms are
        read from the records that they are of, and each source is drawn anew by itself.

        Intervals are by influence functions, with what the models' fits add, or with `interval="percentile"` by the bootstrap, where the
        models are fitted anew `resamples` times; those are taken where a model is the user's own, a table, or a number that is summed over.
        `weights`, `clusters` and `strata` are as in `bootstrap`. What is wrong with a fit (it didn't converge, records are told apart
        perfectly, weights are extreme) is told beside the numbers, and warned of.

        >>> import random
        >>> from causal import Diagram
        >>> source = random.Random(1)
        >>> data = {"age": [source.gauss(50, 10) for _ in range(500)]}
        >>> data["drug"] = [int(source.random() < age / 100) for age in data["age"]]
        >>> data["death"] = [int(source.random() < age / 200 + 0.1 * drug) for age, drug in zip(data["age"], data["drug"])]
        >>> diagram = Diagram("dag { drug [exposure] death [outcome] age -> drug -> death <- age }")
        >>> found = diagram.estimate(data, treated=1, control=0, outcome=1)
        >>> found.difference.interval.lower < 0.1 < found.difference.interval.upper
        True
        >>> print(*found.notes[:2], sep="\\n")
        computed: by the formula's terms, with these models
        P(death|drug,age): logistic, 3 parameters, log-likelihood -297.381
        """
        from causal.estimates import estimated_by
        from causal.samples import Design

        words: Dict[str, Any] = {"treated": treated, "control": control, "outcome": outcome, "method": method, "model": model}
        words.update(smoothing=smoothing, factors=factors, set=set, back_door=back_door, given=given, at=at, short=short, count=count)
        words.update(observed=observed, trials=trials)
        words.update(missing=missing, interval=interval, resamples=resamples, level=level, seed=seed, progress=progress)
        return estimated_by(self._diagram, data, x, y, design=Design(weights, clusters, strata), **words)

    def compare(
        self,
        data: Data,
        x: Optional[Names] = None,
        y: Optional[Names] = None,
        *,
        treated: Any,
        control: Any,
        outcome: Any,
        most: int = 10,
        model: Any = "logistic",
        **options: Any,
    ) -> Comparison:
        """The crude effect, the one by the formula, and the one by each minimal set that may be adjusted for (`most` of them), in a table.

        If the diagram is right, all but the crude one estimate the same; where their intervals have no point in common, the answer says
        so. Beside them stand the E-value, and the natural bounds of the program, which hold whatever is hidden. Each is by counts where they
        have a value, as in `contrast`, which takes the same options (`count`, `missing`, `resamples`, `level`, `seed`, `weights` and so on);
        else it is by the `model`, as in `estimate`, and says so.

        >>> from causal import Diagram
        >>> diagram = Diagram("dag { T [exposure] R [outcome] S -> T -> R <- S }")
        >>> print(diagram.compare(diagram.simulate(400, seed=2), treated=1, control=0, outcome=1, resamples=200))
        crude: risk difference 0.10864 [0.0433486, 0.172755]
        by the formula: risk difference 0.103672 [0.0480298, 0.156314]
        adjusted for {S}: risk difference 0.103672 [0.0480298, 0.156314]
        95% percentile intervals of 200 resamples, of which 0 had no value; seed 0
        natural bounds of the risk difference, whatever is hidden: at least -0.375, at most 0.625
        by the formula: E-value 8.16772, of the interval 3.3776
        """
        from causal.comparison import compared

        arms = {"treated": treated, "control": control, "outcome": outcome}
        return compared(self._diagram, data, x, y, arms, options, most, model)

    def report(
        self,
        data: Optional[Data] = None,
        x: Optional[Names] = None,
        y: Optional[Names] = None,
        *,
        treated: Any = None,
        control: Any = None,
        outcome: Any = None,
        title: str = "A causal effect",
        most: int = 10,
        model: Any = "logistic",
        tests: bool = True,
        **options: Any,
    ) -> Report:
        """A report on an effect, for a supplement: the diagram, what it lets be adjusted for, the formula, the certificate, and with data
        how many records were read and left out, the support, the tests of the diagram, and the crude and the adjusted effects.

        It is given as HTML, Markdown or LaTeX: `report.save("study.html")`, by the ending. Options are as in `compare`.

        >>> from causal import Diagram
        >>> diagram = Diagram("dag { T [exposure] R [outcome] S -> T -> R <- S }")
        >>> print(diagram.report(title="Kidney stones").markdown.splitlines()[0])
        # Kidney stones
        """
        from causal.report import report_on

        arms = {"treated": treated, "control": control, "outcome": outcome}
        return report_on(self._diagram, data, x, y, arms, title, most, model, tests, options)
