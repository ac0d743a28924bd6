"""Names and levels as the program prints and reads them."""
from __future__ import annotations

import re
from typing import Any, Iterable, Tuple, Union

from causal.errors import RequestError

Name = Union[str, int]
Names = Union[Name, Iterable[Name]]

_BARE_TEXT = r'[^ \t\r\n{}\[\]";=,<>\-@()|*/]+'
_BARE = re.compile(_BARE_TEXT)
# No bare name begins so: formulas have no # there, and graph texts no arrow of Unicode.
_NO_FRONT = re.compile("[#\u2190-\u21ff\u27f0-\u27ff\u2900-\u297f]")
_QUOTABLE = re.compile(r'[^"\r\n]+')


def names_of(names: Names) -> Tuple[str, ...]:
    """One name, or several, as a tuple. A whole number is the name that its digits are.

    >>> from causal.names import names_of
    >>> names_of("A, B"), names_of(["A", "B"]), names_of(1)
    (('A, B',), ('A', 'B'), ('1',))
    >>> names_of(None)
    Traceback (most recent call last):
        ...
    causal.errors.RequestError: a name is a text, and a set several of them; None is neither
    """
    several: Iterable[Any] = [names] if isinstance(names, (str, int)) or not hasattr(names, "__iter__") else names
    try:
        return tuple([_name_of(name) for name in several])
    except TypeError:
        raise RequestError(f"a name is a text, and a set several of them; {names!r} is neither") from None


def _name_of(name: Name) -> str:
    if isinstance(name, str):
        return name
    # (numpy has whole numbers of its own)
    if isinstance(name, bool) or not hasattr(name, "__index__"):
        raise TypeError(name)
    return str(name)


def printed_name(name: str) -> str:
    """The name as it is printed: in quotes where it needs them.

    >>> from causal.names import printed_name
    >>> printed_name("age"), printed_name("blood pressure"), printed_name("\u2192")
    ('age', '"blood pressure"', '"\u2192"')
    """
    bare = _BARE.fullmatch(name) is not None and not _NO_FRONT.match(name)
    return name if bare else f'"{name}"'


def printed_set(names: Iterable[str]) -> str:
    """The set as it is printed.

    >>> from causal.names import printed_set
    >>> printed_set(["A", "B C"])
    '{A,"B C"}'
    """
    return "{" + ",".join(map(printed_name, names)) + "}"


# What would break the line of a level, and how it is printed between quotation marks.
_BREAKS = frozenset('\n\r"')
_ESCAPES = str.maketrans({"\n": "\\n", "\r": "\\r", '"': '\\"', "\\": "\\\\"})


def printed_level(level: str) -> str:
    """The level as it is printed: between quotation marks where it has one, or a line break.

    >>> from causal.names import printed_level
    >>> print(printed_level('a\\nb "c"'), printed_level("a\\\\b"))
    "a\\nb \\"c\\"" a\\b
    """
    return level if _BREAKS.isdisjoint(level) else f'"{level.translate(_ESCAPES)}"'


def quoted(name: str) -> str:
    """The name in quotes, as any text that the program reads may have it.

    >>> from causal.names import quoted
    >>> quoted("a,b")
    '"a,b"'
    """
    if not _QUOTABLE.fullmatch(name):
        raise RequestError(f"no vertex can be named {name!r}: a name isn't empty, and holds no double quote and no line break")
    return f'"{name}"'


def written_name(name: str) -> str:
    """The name as a diagram's text may have it: in quotes where it needs them.

    >>> from causal.names import written_name
    >>> written_name("age"), written_name("blood pressure")
    ('age', '"blood pressure"')
    """
    return printed_name(name) if _BARE.fullmatch(name) else quoted(name)


def list_word(names: Names) -> str:
    """The word that lists the names.

    >>> from causal.names import list_word
    >>> list_word("A"), list_word(["a,b", "C"]), list_word([])
    ('"A"', '"a,b","C"', '{}')
    """
    return ",".join(map(quoted, names_of(names))) or "{}"
