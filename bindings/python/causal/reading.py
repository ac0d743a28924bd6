"""Reads the objects in which the program answers, but those about counts: each as the class of its kind."""
from __future__ import annotations

from typing import TYPE_CHECKING, Any, Dict, Iterable, Optional, Sequence, Tuple, Union

from causal.answers import Adjustment, AdjustmentSets, CertificateRefusal, Check, Equivalence, GraphText, Path, RuleAnswer, Separation
from causal.formula import Bit, Cause, ExperimentHedgeSets, Formula, Hedge, HedgeSets, Term
from causal.objects import Told
from causal.surrogates import Stopped, StoppedHedge

if TYPE_CHECKING:
    from causal.question import Question


def _lists(told: Told, *keys: str) -> Dict[str, Any]:
    """These lists of names."""
    return {key: tuple(told[key]) for key in keys}


def _path(told: Told) -> Path:
    return Path(**_lists(told, "vertices", "marks"))


def _open(told: Told, otherwise: str) -> Optional[Path]:
    """The open path, which an answer has but where it is this word."""
    return None if told["answer"] == otherwise else _path(told["open"])


def _target(told: Told) -> Term:
    return Term(**_lists(told, "y", "x"), given=tuple(told.get("given", ())))


def pairs(told: Iterable[Sequence[str]]) -> Tuple[Tuple[str, str], ...]:
    """Edges, each by its ends.

    >>> from causal.reading import pairs
    >>> pairs([["X", "M"], ["M", "Y"]])
    (('X', 'M'), ('M', 'Y'))
    """
    return tuple((a, b) for a, b in told)


def read_graph(told: Told) -> GraphText:
    """The answer of `graph`."""
    names = tuple(it["name"] for it in told["vertices"])
    roles = {it["name"]: it["role"] for it in told["vertices"] if it["role"]}
    return GraphText(names, roles, pairs(told["directed"]), pairs(told["bidirected"]), told["text"])


def _separation(told: Told, path: Optional[Path] = None) -> Separation:
    return Separation(**_lists(told, "x", "y", "given"), path=path)


def read_separation(told: Told) -> Separation:
    """The answer of `separate`."""
    return _separation(told, _open(told, "separated"))


def read_rule(told: Told, order: Sequence[str]) -> RuleAnswer:
    """The answer of `rule`: its sides by their sets, in the order of the vertices. They have to print as the program tells them."""
    number, do, z, given = (told[key] for key in ("rule", "do", "z", "given"))

    def side(text: str, done: Sequence[str], seen: Sequence[str]) -> Term:
        term = Term(tuple(told["y"]), *(tuple(sorted(names, key=order.index)) for names in (done, seen)))
        if str(term) != text:
            raise ValueError(text)
        return term

    left = side(told["left"], *((do, [*z, *given]) if number == 1 else ([*do, *z], given)))
    right = side(told["right"], do, [*z, *given] if number == 2 else given)
    return RuleAnswer(number, left, right, _open(told, "holds"))


def read_formula(told: Told, question: Optional[Question] = None) -> Formula:
    """A formula."""
    texts = {"expression": told["formula"], **_lists(told, "definitions", "free"), "_latex": told["latex"]}
    return Formula(_target(told), **texts, _trees=(*told["definition_trees"], told["tree"]), _question=question)


def _sets(hedge: Told) -> Dict[str, Any]:
    return {"big": tuple(hedge["larger"]), "small": tuple(hedge["smaller"]), "roots": tuple(hedge["roots"])}


def _bits(told: Iterable[Told]) -> Tuple[Bit, ...]:
    def term(it: Told) -> Tuple[str, Union[str, int]]:
        return ("c", it["cause"]) if "cause" in it else (it["bit"], it["vertex"])

    return tuple(Bit(it["bit"], it["vertex"], tuple(map(term, it["sum"]))) for it in told)


def _cause(number: int, told: Told) -> Cause:
    first, second = map(int, told["weights"])
    return Cause(number, tuple(told["acts_on"]), (first, second))


def hedge_parts(told: Told, question: Optional[Question]) -> Dict[str, Any]:
    """The parts of a hedge with its two models. Under a condition it is one of a joint effect."""
    hedge, models = told["hedge"], told["models"]
    return {
        "target": _target(told.get("joint", told)),
        **_sets(hedge),
        "choice": tuple((it["vertex"], it["child"]) for it in hedge["choices"]),
        "links": pairs(hedge["links"]),
        "causes": tuple(_cause(number, it) for number, it in enumerate(models["causes"])),
        "first": _bits(models["first"]),
        "second": _bits(models["second"]),
        "event": tuple(bit["vertex"] for bit in models["event"]["sum"]),
        "noise": int(models["event"]["second"].rpartition("^")[2]),
        "conditional": _target(told) if told["given"] else None,
        "settled": told.get("settled") if told["given"] else None,
        "_question": question,
    }


def read_effect(told: Told, question: Optional[Question] = None) -> Union[Formula, Hedge]:
    """The answer of `identify`."""
    return read_formula(told, question) if told["answer"] == "formula" else Hedge(**hedge_parts(told, question))


def read_surrogate(told: Told, question: Optional[Question] = None) -> Union[Formula, Stopped, StoppedHedge]:
    """The answer of `surrogate`."""
    if told["answer"] == "formula":
        return read_formula(told, question)
    if told["answer"] == "hedge":
        return StoppedHedge(**hedge_parts(told, question), **_lists(told, "district"))
    return Stopped(_target(told), **_sets(told["hedge"]), **_lists(told, "district"))


def read_check(told: Told, over_experiments: bool) -> Check:
    """The answer of `check`, for a certificate over experiments or without any."""
    if told["of"] == "parts":
        from causal.parts import read_parts

        return read_parts(told)
    is_hedge = told["of"] == "hedge"
    if told["answer"] != "accepted":
        at = told.get("at") or {}
        place = (at.get("lemma"), at.get("step"), told.get("vertex"), _path(told["open"]) if "open" in told else None)
        return Check(refusal=CertificateRefusal(told["number"], is_hedge, *place, sentence=told["message"]))
    if is_hedge:
        return Check(hedge=(ExperimentHedgeSets if over_experiments else HedgeSets)(_target(told), **_sets(told["hedge"])))
    return Check(formula=read_formula(told))


def read_adjustment(told: Told) -> Adjustment:
    """The answer of `adjust` with a set."""
    members = tuple(told["set"])
    if told["answer"] == "admissible":
        return Adjustment(members, read_formula(told))
    if "forbidden" in told:
        return Adjustment(members, forbidden=told["forbidden"])
    return Adjustment(members, path=_path(told["open"]))


def read_sets(told: Told) -> AdjustmentSets:
    """A listing of `adjust`."""
    return AdjustmentSets(tuple(map(tuple, told["sets"])), told["more"])


def read_equivalence(told: Told) -> Equivalence:
    """The answer of `equivalent`."""
    if told["answer"] == "equivalent":
        if told.get("separated", True):
            return Equivalence(separated_in_both=_separation(told) if "separated" in told else None)
        return Equivalence(paths=(_path(told["first"]), _path(told["second"])))
    unlike, separation = told["difference"], _separation(told["separation"])
    is_first, is_separated_in_first = (place == "first" for place in (unlike["in"], told["separated_in"]))
    return Equivalence(unlike["kind"], tuple(unlike["vertices"]), is_first, separation, is_separated_in_first)
