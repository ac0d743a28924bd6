"""What in the text of a diagram may be a typing error, though the library reads it: it may have cost an edge."""
from __future__ import annotations

import re
from typing import Iterator, List, NamedTuple

from causal.answers import GraphText
from causal.errors import caret_under
from causal.names import _BARE_TEXT, printed_name

EDGES = "an edge is written ->, <- or <->"
_TOKEN = re.compile(rf'"[^"\r\n]*"|{_BARE_TEXT}|[][=]')
_VALUE = re.compile(r'[ \t\r\n]*("[^"\r\n]*"|[^ \t\r\n,\]}};"]+)')
# The corners of DAGitty's picture, which it writes into each text.
EXPECTED = "bb"


class Dropped(NamedTuple):
    """A statement `name = value` of a text, which says nothing of the diagram: its name, the text, and where this begins."""

    name: str
    text: str
    start: int


def dropped_in(text: str) -> Iterator[Dropped]:
    """The statements `name = value` of a text that is read as a diagram. Attributes in brackets are none.

    >>> from causal.doubts import dropped_in
    >>> [it.text for it in dropped_in('dag { bb="0,0,1,1" X [pos="1,2"] Z => Y  X -> Y }')]
    ['bb="0,0,1,1"', 'Z =>']
    """
    at, name, start, is_inside = 0, "", 0, False
    while "=" in text:
        token = _TOKEN.search(text, at)
        if token is None:
            break
        at = token.end()
        if token.group() in "[]":
            is_inside = token.group() == "["
        elif token.group() != "=":
            name, start = token.group().strip('"'), token.start()
        else:
            value = _VALUE.match(text, at)
            at = value.end() if value else at
            if value and not is_inside:
                yield Dropped(name, text[start:at], start)


def is_of_signs(name: str) -> bool:
    """Whether a name has neither a letter nor a digit.

    >>> from causal.doubts import is_of_signs
    >>> is_of_signs("=>"), is_of_signs("\\u2192"), is_of_signs("x*")
    (True, True, False)
    """
    return not any(character.isalnum() for character in name)


def doubts_of(source: bytes, content: GraphText) -> List[str]:
    """A sentence for each doubt: statements that were dropped, but those that DAGitty writes, vertices that look like an edge, and
    an exposure or an outcome without an edge.

    >>> from causal.answers import GraphText
    >>> from causal.doubts import doubts_of
    >>> doubts_of(b"dag { X + Y }", GraphText(("X", "+", "Y"), {}, (), ()))
    ['the vertex + has no edge, and its name is made of signs; an edge is written ->, <- or <->']
    """
    text = source.decode("utf-8", "replace")
    found = []
    for it in dropped_in(text):
        if it.name != EXPECTED:
            place = caret_under(source, len(text[: it.start].encode("utf-8", "surrogatepass")))[0]
            where = f"at line {place.line}, column {place.column}"
            found.append(f"{it.text!r} {where} says nothing of the diagram, and was dropped; {EDGES}")
    joined = {name for edge in (*content.edges, *content.bidirected) for name in edge}
    for name in content.vertices:
        if name not in joined and is_of_signs(name):
            found.append(f"the vertex {printed_name(name)} has no edge, and its name is made of signs; {EDGES}")
        elif name not in joined and content.roles.get(name) in ("exposure", "outcome"):
            found.append(f"the {content.roles[name]} {printed_name(name)} has no edge: is its name written as in the edges?")
    return found
