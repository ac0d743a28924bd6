"""The objects of JSON in which the program answers and refuses."""
from __future__ import annotations

import json
from typing import Any, Callable, Mapping, Sequence, TypeVar, Union

from causal.errors import UnreadableAnswer

# An object, by its keys.
Told = Mapping[str, Any]
Answer = TypeVar("Answer")


def read_line(read: Callable[[Told], Answer], line: bytes) -> Answer:
    """What a reader makes of the object on a line; that the line holds none, or an object of another form, is raised.

    >>> from causal.objects import read_line
    >>> read_line(lambda told: told["answer"], b'{"answer":"equivalent"}\\n')
    'equivalent'
    """
    try:
        return read(json.loads(line))
    except (AttributeError, LookupError, TypeError, ValueError) as cause:
        raise UnreadableAnswer(f"the library answered what this package doesn't read: {line[:200]!r}") from cause


def text_in(told: Any) -> str:
    """The JSON text of a part of an object, without blanks, as the program writes it.

    >>> from causal.objects import text_in
    >>> text_in({"x": ["größe"], "version": 1})
    '{"x":["größe"],"version":1}'
    """
    return json.dumps(told, ensure_ascii=False, separators=(",", ":"))


def name_in(told: Union[str, Sequence[int]]) -> str:
    """A name or a level. Where its bytes aren't UTF-8 they are told, and stand in the text as Python has them in names of files.

    >>> from causal.objects import name_in
    >>> name_in("café"), name_in([99, 97, 102, 233])
    ('café', 'caf\\udce9')
    """
    return told if isinstance(told, str) else bytes(told).decode("utf-8", "surrogateescape")
