"""The question for an effect, which is asked once more for what its answer leaves out."""
from __future__ import annotations

from dataclasses import dataclass
from functools import cached_property
from typing import TYPE_CHECKING, Optional, Tuple, Union

from causal._library import Text
from causal.errors import RequestError
from causal.objects import text_in

if TYPE_CHECKING:
    from causal.answers import Check
    from causal.derivation import Derivation
    from causal.diagram import Diagram


# Of these the certificate is in parts, and stands on a line of its own.
IN_PARTS = ("treated", "natural")


@dataclass(frozen=True)
class Question:
    """A question to a diagram: a command with its words, and the certificate of its answer where that came with it. What the answer
    leaves out is asked for once, when it is wanted first.

    >>> from causal import Diagram
    >>> from causal.question import Question
    >>> print(Question(Diagram("dag { X -> Y }"), "identify", ("--x=X", "--y=Y")).steps)
    main
    P(Y|do(X))
    rule2see: P(Y|X)
    """

    diagram: "Diagram"
    command: str
    words: Tuple[Text, ...]
    told: Optional[str] = None

    @cached_property
    def certificate(self) -> str:
        """The certificate of the answer, as text."""
        if self.told is not None:
            return self.told
        if self.command in IN_PARTS:
            return self.diagram._line(self.command, *self.words, "--certificate")
        return self.diagram._ask(lambda told: text_in(told["certificate"]), self.command, *self.words, "--certificate")

    @cached_property
    def steps(self) -> Optional[Union[Derivation, Check]]:
        """The steps of the certificate, under the experiments that were asked about; None where it is in parts, and where the library is of
        a version that doesn't tell them."""
        from causal.derivation import read_steps

        if self.command in IN_PARTS:
            return None
        start = self.words.index("--experiments") if "--experiments" in self.words else len(self.words)
        words, certificate = self.words[start : start + 2], self.certificate.encode("utf-8")
        try:
            return self.diagram._ask(lambda told: read_steps(told, bool(words)), "steps", *words, second=certificate)
        except RequestError:
            return None
