"""How strong a hidden common cause would have to be to explain an effect away: E-values.

They are computed of a ratio and the ends of its interval (VanderWeele and Ding, 2017), and nothing about them is proved.
"""
from __future__ import annotations

import math
import numbers
from dataclasses import dataclass
from typing import Optional

from causal.display import Printed
from causal.errors import RequestError


@dataclass(frozen=True)
class EValue(Printed):
    """The least risk ratio that a hidden common cause must have with both the exposure and the outcome, beyond what was adjusted for, to
    explain the whole ratio (`value`), or to move its interval to 1 (`interval`: 1 where the interval holds 1, None where there is none).
    """

    value: float
    interval: Optional[float] = None

    def __str__(self) -> str:
        return f"E-value {self.value:.6g}" + ("" if self.interval is None else f", of the interval {self.interval:.6g}")


def e_value(ratio: float, lower: Optional[float] = None, upper: Optional[float] = None) -> EValue:
    """The E-value of a risk ratio, and of the end of its interval that is nearer to 1.

    >>> from causal import e_value
    >>> print(e_value(3.9, 1.8, 8.7))
    E-value 7.26303, of the interval 3
    >>> e_value(0.8, 0.6, 1.1).interval
    1.0
    """
    if not isinstance(ratio, numbers.Real) or not ratio > 0 or not math.isfinite(ratio):
        raise RequestError(f"a risk ratio is a positive number, and not {ratio!r}")
    if lower is None or upper is None:
        return EValue(_of(ratio))
    if lower <= 1 <= upper:
        return EValue(_of(ratio), 1.0)
    near = lower if ratio > 1 else upper
    return EValue(_of(ratio), _of(near) if near > 0 else None)


def _of(ratio: float) -> float:
    above = ratio if ratio >= 1 else 1 / ratio
    return above + math.sqrt(above * (above - 1))
