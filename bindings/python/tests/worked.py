"""The worked cases of the repository, with what the program prints for each."""
import json
import os
import re
from fractions import Fraction
from typing import Dict, Iterator, List, NamedTuple, Tuple

from causal.effects import digits

TOP = os.path.dirname(os.path.dirname(os.path.dirname(os.path.dirname(os.path.abspath(__file__)))))
CASES = os.path.join(TOP, "crates", "worked_cases")
MARK = "-- err\n"
# What no caller of the library has: outputs that fail, and cases that are run again and again or over inputs that are made.
LEFT_OUT = {"cuts", "each_write", "fails_err", "fails_out", "repeats"}


class Case(NamedTuple):
    """A case: its name, its words and inputs, the status, and what was printed."""

    name: str
    words: List[str]
    inputs: Dict[str, bytes]
    # Whether a read or a write is made to fail, which no caller of the library can do.
    fails: bool
    status: int
    out: str
    err: str

    @property
    def printed(self) -> str:
        """Both outputs, one after the other."""
        return self.out + self.err


def read_example(name: str) -> bytes:
    """What a file of the examples holds."""
    with open(os.path.join(TOP, "examples", name), "rb") as file:
        return file.read()


def _inputs_of(case: dict) -> Dict[str, bytes]:
    inputs = {name: text.encode().ljust(case.get("pad", 0)) for name, text in case.get("files", {}).items()}
    inputs.update((name, bytes(content)) for name, content in case.get("bytes", {}).items())
    return inputs


def _expected(names: List[str]) -> Iterator[Tuple[int, str, str]]:
    """The status and both outputs of each case in turn."""
    with open(os.path.join(CASES, "stdout"), encoding="utf-8", newline="") as file:
        text = file.read()
    heads, at = [], 0
    for name in names:
        head = re.compile(rf"^== {re.escape(name)}: ([0-9]+)\n", re.MULTILINE).search(text, at)
        heads.append(head)
        at = head.end()
    for head, after in zip(heads, [*heads[1:], None]):
        out, _, err = text[head.end() : after.start() if after else len(text)].partition(MARK)
        yield int(head.group(1)), out, err


def all_cases(objects: bool = False) -> List[Case]:
    """The cases that ask for text, and with `objects` those with `--json` too, in order, but those that are left out."""
    with open(os.path.join(CASES, "data", "cases.json"), encoding="utf-8") as file:
        told = json.load(file)
    expected = _expected([case["case"] for case in told])
    return [
        Case(case["case"], case["words"], _inputs_of(case), "fails" in case or "room" in case, *ending)
        for case, ending in zip(told, expected)
        if not LEFT_OUT & set(case) and (objects or not any(word.startswith("--jso") for word in case["words"]))
    ]


def cases_in_text() -> List[Case]:
    """The cases that ask for a text, of a library that isn't made to fail. The package asks for objects, and shows the texts."""
    return [case for case in all_cases() if "--json" not in case.words and not case.fails]


def asks_nested(case: Case) -> bool:
    """Whether values of a natural effect are asked for over counts: `causal.run` asks this, and `mediate` asks for three worlds of it."""
    return case.words[:1] == ["evaluate"] and "--natural" in case.words


def in_bounds(text: str) -> str:
    """A text of the package as the program prints it: bounds that are equal are told there as the fraction that they are."""

    def bounds(value: "re.Match[str]") -> str:
        number = digits(Fraction(int(value[1]), int(value[2])))
        return f"from {number} to {number}"

    return re.sub(r"= (\d+)/(\d+)$", bounds, text, flags=re.M)
