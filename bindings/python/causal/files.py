"""Files that are read, and refusals where they can't be."""
from __future__ import annotations

import os
from contextlib import contextmanager
from typing import Iterator, Union

from causal.errors import FileMissing, FileRefused
from causal.vocabulary import alike

Path = Union[str, "os.PathLike[str]"]


@contextmanager
def refusals_of(path: Path, what: str = "read") -> Iterator[None]:
    """Raises what the system says of a file as a refusal."""
    name = os.fspath(path)
    try:
        yield
    except FileNotFoundError as cause:
        folder, last = os.path.split(name)
        there = os.listdir(folder or ".") if os.path.isdir(folder or ".") else []
        near = alike(last, there)
        raise FileMissing(f"there is no file {name}" + (f"; did you mean {os.path.join(folder, near)}?" if near else ""), place=name) from cause
    except OSError as cause:
        raise FileRefused(f"the file {name} can't be {what}: {cause.strerror or cause}", place=name) from cause


def read_bytes(path: Path) -> bytes:
    """What a file holds.

    >>> from causal.files import read_bytes
    >>> read_bytes("no_such_file")
    Traceback (most recent call last):
        ...
    causal.errors.FileMissing: there is no file no_such_file
    """
    with refusals_of(path), open(path, "rb") as file:
        return file.read()
