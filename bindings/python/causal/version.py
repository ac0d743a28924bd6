"""The package's version, which the file `VERSION` at the top of the repository tells; the installed package has a copy of it."""
from __future__ import annotations

import os


def read_version() -> str:
    """What the file tells: the one of the package, else that of a source distribution, else that of the repository.

    >>> from causal.version import VERSION, read_version
    >>> read_version() == VERSION
    True
    """
    here = os.path.dirname(os.path.abspath(__file__))
    for folder in (".", os.path.join("..", "native"), os.path.join("..", "..", "..")):
        path = os.path.join(here, folder, "VERSION")
        if os.path.isfile(path):
            with open(path, encoding="utf-8") as file:
                return file.read().strip()
    return "unknown"


VERSION = read_version()
