"""Answers about causal diagrams with hidden confounders, from the proved library of `causal`.

A `Diagram` is asked: whether sets are separated, whether a rule of do-calculus applies, for a formula of an effect or a hedge, also
from experiments on other variables, for adjustment sets, for what it implies of data, and for effects in data. What each answer is
proved to say stands in its class and method. Nothing about causality is computed in Python: each question is a call of the library,
and the object of JSON in which it answers is read.

>>> import causal
>>> diagram = causal.Diagram("dag { X -> M -> Y X <-> Y }")
>>> print(diagram.identify("X", "Y"))
P(Y|do(X)) = sum{M} P(M|X) * (sum{X} P(X) * P(Y|X,M))
"""
from importlib import import_module as _import_module
from typing import TYPE_CHECKING, Any, List

from causal._library import Reply, run
from causal.answers import Adjustment, AdjustmentSets, CertificateRefusal, Check, Equivalence, Path, RuleAnswer, Separation
from causal.diagram import Diagram
from causal.errors import (
    CausalError,
    CertificateError,
    CountsError,
    DataWarning,
    DiagramError,
    DiagramWarning,
    EvaluationError,
    FileMissing,
    FileRefused,
    LibraryMissing,
    MissingValues,
    NoModelError,
    NotIdentifiable,
    PackageMissing,
    Refusal,
    RequestError,
    TargetError,
    UnreadableAnswer,
    WrongType,
)
from causal.formula import Formula, Hedge, HedgeSets, Term
from causal.surrogates import Stopped, StoppedHedge
from causal.version import VERSION

if TYPE_CHECKING:
    from causal.bootstrap import Bootstrap, MeanInterval
    from causal.bounds import CrossedBounds, EffectBound, EffectBounds, NoInstrument
    from causal.comparison import Comparison
    from causal.contrasts import Contrast, ContrastInterval, Contrasts
    from causal.derivation import AskedRule, Derivation, DerivationPart, Expression, Move
    from causal.effects import Effect, Effects, Mean, Spread, Value
    from causal.estimates import Estimate, Estimates
    from causal.forms import read
    from causal.implications import Difference, Implication, Implications
    from causal.independence import IndependenceTest, IndependenceTests
    from causal.instruments import Instrument, Instruments
    from causal.intervals import Interval
    from causal.mediation import Mediation
    from causal.models import Fit
    from causal.natural import NaturalFormula, NoNaturalFormula
    from causal.no_model import LessThanObserved, NoModel
    from causal.parts import PartsCheck, PartsRefusal
    from causal.queries import counts_query
    from causal.report import Report
    from causal.sensitivity import EValue, e_value
    from causal.support import SupportTable
    from causal.treated import Confounded, TwoLevels
    from causal.walks import Paths
    from causal.weighting import Balance, Weighting

__version__ = VERSION

# What questions about data need is imported when it is asked for first.
_LATER = {
    "AskedRule": "causal.derivation",
    "Balance": "causal.weighting",
    "Bootstrap": "causal.bootstrap",
    "Comparison": "causal.comparison",
    "Confounded": "causal.treated",
    "Contrast": "causal.contrasts",
    "ContrastInterval": "causal.contrasts",
    "Contrasts": "causal.contrasts",
    "CrossedBounds": "causal.bounds",
    "Derivation": "causal.derivation",
    "DerivationPart": "causal.derivation",
    "Difference": "causal.implications",
    "EValue": "causal.sensitivity",
    "Effect": "causal.effects",
    "EffectBound": "causal.bounds",
    "EffectBounds": "causal.bounds",
    "Effects": "causal.effects",
    "Estimate": "causal.estimates",
    "Estimates": "causal.estimates",
    "Expression": "causal.derivation",
    "Fit": "causal.models",
    "Implication": "causal.implications",
    "Implications": "causal.implications",
    "IndependenceTest": "causal.independence",
    "IndependenceTests": "causal.independence",
    "Instrument": "causal.instruments",
    "Instruments": "causal.instruments",
    "Interval": "causal.intervals",
    "LessThanObserved": "causal.no_model",
    "Mean": "causal.effects",
    "MeanInterval": "causal.bootstrap",
    "Mediation": "causal.mediation",
    "Move": "causal.derivation",
    "NaturalFormula": "causal.natural",
    "NoInstrument": "causal.bounds",
    "NoModel": "causal.no_model",
    "NoNaturalFormula": "causal.natural",
    "PartsCheck": "causal.parts",
    "PartsRefusal": "causal.parts",
    "Paths": "causal.walks",
    "Report": "causal.report",
    "Spread": "causal.effects",
    "SupportTable": "causal.support",
    "TwoLevels": "causal.treated",
    "Value": "causal.effects",
    "Weighting": "causal.weighting",
    "counts_query": "causal.queries",
    "e_value": "causal.sensitivity",
    "read": "causal.forms",
}

__all__ = [
    "Adjustment",
    "AdjustmentSets",
    "AskedRule",
    "Balance",
    "Bootstrap",
    "CausalError",
    "CertificateError",
    "CertificateRefusal",
    "Check",
    "Comparison",
    "Confounded",
    "Contrast",
    "ContrastInterval",
    "Contrasts",
    "CountsError",
    "CrossedBounds",
    "DataWarning",
    "Derivation",
    "DerivationPart",
    "Diagram",
    "DiagramError",
    "DiagramWarning",
    "Difference",
    "EValue",
    "Effect",
    "EffectBound",
    "EffectBounds",
    "Effects",
    "Equivalence",
    "Estimate",
    "Estimates",
    "EvaluationError",
    "Expression",
    "FileMissing",
    "FileRefused",
    "Fit",
    "Formula",
    "Hedge",
    "HedgeSets",
    "Implication",
    "Implications",
    "IndependenceTest",
    "IndependenceTests",
    "Instrument",
    "Instruments",
    "Interval",
    "LessThanObserved",
    "LibraryMissing",
    "Mean",
    "MeanInterval",
    "Mediation",
    "MissingValues",
    "Move",
    "NaturalFormula",
    "NoInstrument",
    "NoModel",
    "NoModelError",
    "NoNaturalFormula",
    "NotIdentifiable",
    "PackageMissing",
    "PartsCheck",
    "PartsRefusal",
    "Path",
    "Paths",
    "Refusal",
    "Reply",
    "Report",
    "RequestError",
    "RuleAnswer",
    "Separation",
    "Spread",
    "Stopped",
    "StoppedHedge",
    "SupportTable",
    "TargetError",
    "Term",
    "TwoLevels",
    "UnreadableAnswer",
    "Value",
    "Weighting",
    "WrongType",
    "counts_query",
    "e_value",
    "read",
    "run",
]


def __getattr__(name: str) -> Any:
    if name not in _LATER:
        raise AttributeError(f"module 'causal' has no attribute {name!r}")
    return getattr(_import_module(_LATER[name]), name)


def __dir__() -> List[str]:
    return sorted([*__all__, "__version__"])
