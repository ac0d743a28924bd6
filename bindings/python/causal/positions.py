"""Where DAGitty has put the vertices of a diagram: the attribute `pos`, which says nothing of the diagram itself."""
from __future__ import annotations

import re
from typing import Dict, Optional, Sequence, Tuple

from causal.names import _BARE_TEXT

# A name, or the attributes of what stands before them.
_TOKEN = re.compile(rf'"[^"\r\n]*"|{_BARE_TEXT}|\[(?:"[^"]*"|[^\]"])*\]')
_NUMBER = r"[-+]?(?:[0-9]+\.?[0-9]*|\.[0-9]+)(?:[eE][-+]?[0-9]+)?"
_POSITION = re.compile(rf'\bpos\s*=\s*"?\s*({_NUMBER})\s*,\s*({_NUMBER})')


def positions_in(source: bytes, vertices: Sequence[str]) -> Optional[Dict[str, Tuple[float, float]]]:
    """The places of all vertices, with heights upward; None where some vertex has none.

    >>> from causal.positions import positions_in
    >>> positions_in(b'dag { A [exposure,pos="-1,0.5"] B [pos="2,1"] A -> B }', ["A", "B"])
    {'A': (-1.0, -0.5), 'B': (2.0, -1.0)}
    >>> positions_in(b'dag { A [pos="0,0"] A -> B }', ["A", "B"]) is None
    True
    """
    if b"pos" not in source:
        return None
    found: Dict[str, Tuple[float, float]] = {}
    name = ""
    for token in _TOKEN.findall(source.decode("utf-8", "replace")):
        place = _POSITION.search(token) if token.startswith("[") else None
        if place:
            found[name] = float(place.group(1)), -float(place.group(2))
        name = "" if token.startswith("[") else token.strip('"')
    return {name: found[name] for name in vertices} if vertices and all(name in found for name in vertices) else None
