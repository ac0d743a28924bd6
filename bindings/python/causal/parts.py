"""Certificates in parts: of effects among the treated, and of natural effects. `check` says whether the parts make up the effect."""
from __future__ import annotations

from dataclasses import dataclass, field
from typing import Optional, Tuple

from causal.answers import CertificateRefusal, Check
from causal.display import Printed
from causal.names import printed_name, printed_set
from causal.natural import District, read_factor
from causal.objects import Told


@dataclass(frozen=True)
class PartsRefusal(Printed):
    """Why the parts of a certificate are refused: the fault's number with a sentence, and where it is.

    `part` is the number of the part, from 0; `district` the one that is due, or that reads both values of a treatment; `vertices` the
    treatment and its child, or the vertex that reads both values; `derivation` the fault of the part's derivation.
    """

    number: int
    part: Optional[int] = None
    vertices: Tuple[str, ...] = ()
    district: Tuple[str, ...] = ()
    derivation: Optional[CertificateRefusal] = None
    sentence: str = field(default="", repr=False, compare=False)

    def __str__(self) -> str:
        at = "" if self.part is None else f" at part {self.part}"
        what = " ".join(map(printed_name, self.vertices)) or (printed_set(self.district) if self.district else "")
        line = f"refused: parts fault {self.number}{at}" + (f": {what}" if what else "")
        return line if self.derivation is None else f"{line}\n{self.derivation}"


@dataclass(frozen=True)
class PartsCheck(Check):
    """Whether a certificate in parts is accepted: it counts as true where it is.

    Then it is proved that the product of the parts, summed over what isn't asked for, equals the effect in every positive finite model that
    fits the diagram, whoever wrote the certificate: `effect` is the effect, and `parts` has the formula of each district.
    """

    effect: str = ""
    parts: Tuple[District, ...] = ()
    refused_parts: Optional[PartsRefusal] = None

    @property
    def accepted(self) -> bool:
        """Whether the certificate is accepted."""
        return self.refused_parts is None

    def __str__(self) -> str:
        if self.refused_parts is not None:
            return str(self.refused_parts)
        return "\n".join(["accepted", f"{self.effect} in parts:", *(line for part in self.parts for line in part.whole)])


def read_parts(told: Told) -> PartsCheck:
    """The answer of `check` for a certificate in parts.

    >>> from causal.parts import read_parts
    >>> fault = {"number": 1, "message": "the treatment is joined to this child of its own", "treatment": "X", "child": "Z"}
    >>> print(read_parts({"answer": "refused", "of": "parts", "fault": fault}))
    refused: parts fault 1: X Z
    """
    from causal.reading import read_check

    if told["answer"] == "accepted":
        return PartsCheck(effect=told["effect"], parts=tuple(read_factor(tuple(part["district"]), part) for part in told["parts"]))
    fault = told["fault"]
    vertices = tuple(fault[key] for key in ("treatment", "child", "vertex") if key in fault)
    derivation = read_check(fault["derivation"], False).refusal if "derivation" in fault else None
    return PartsCheck(
        refused_parts=PartsRefusal(fault["number"], fault.get("part"), vertices, tuple(fault.get("district", ())), derivation, fault["message"])
    )
