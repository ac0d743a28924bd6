"""Words that were renamed, which warn, and what a name that isn't there may have been meant to be."""
from __future__ import annotations

import functools
import importlib
import os
import sys
import warnings
from difflib import get_close_matches
from types import FrameType
from typing import Any, Callable, Iterable, Optional, Sequence, Type, TypeVar, cast

from causal.errors import PackageMissing, RequestError, WrongType

Call = TypeVar("Call", bound=Callable[..., Any])
# How many names a refusal lists at most.
MOST_NAMES = 12


# The folder of the package.
FOLDER = os.path.join(os.path.dirname(__file__), "")


def warn(message: str, category: Type[Warning]) -> None:
    """Warns at the line that asked, which is the first one outside of the package."""
    frame: Optional[FrameType] = sys._getframe()
    level = 1
    while frame is not None and frame.f_code.co_filename.startswith(FOLDER):
        frame, level = frame.f_back, level + 1
    warnings.warn(message, category, stacklevel=level)


def warn_old(old: str, new: str) -> None:
    """Warns that a word has another name now."""
    warn(f"{old} is named {new} now, and the old name will go", DeprecationWarning)


def renamed(**names: str) -> Callable[[Call], Call]:
    """Lets a call take keywords by their old names, which warn.

    >>> import warnings
    >>> from causal.vocabulary import renamed
    >>> @renamed(kind="interval")
    ... def asked(interval="percentile"):
    ...     return interval
    >>> with warnings.catch_warnings(record=True) as caught:
    ...     warnings.simplefilter("always")
    ...     asked(kind="bca"), str(caught[0].message)
    ('bca', 'kind is named interval now, and the old name will go')
    """

    def decorate(call: Call) -> Call:
        @functools.wraps(call)
        def wrapped(*words: Any, **options: Any) -> Any:
            for old, new in names.items():
                if old in options:
                    if new in options:
                        raise RequestError(f"{old} and {new} are one, and both were given")
                    warn_old(old, new)
                    options[new] = options.pop(old)
            return call(*words, **options)

        return cast(Call, wrapped)

    return decorate


class Renamed:
    """An attribute or a method by its old name, which warns.

    >>> import warnings
    >>> from causal.vocabulary import Renamed
    >>> class Test:
    ...     p_value = 0.5
    ...     p = Renamed("p_value")
    >>> with warnings.catch_warnings(record=True) as caught:
    ...     warnings.simplefilter("always")
    ...     Test().p, str(caught[0].message)
    (0.5, 'p is named p_value now, and the old name will go')
    """

    def __init__(self, new: str) -> None:
        self.new = new
        self.__doc__ = f"The old name of `{new}`."

    def __set_name__(self, owner: type, name: str) -> None:
        self.name = name

    def __get__(self, of: Any, owner: Optional[type] = None) -> Any:
        if of is None:
            return self
        warn_old(self.name, self.new)
        return getattr(of, self.new)


def alike(name: str, names: Sequence[str]) -> Optional[str]:
    """The name that is most like this one, where one is.

    >>> from causal.vocabulary import alike
    >>> alike("ages", ["age", "sex"]), alike("Q", ["X"])
    ('age', None)
    """
    near = [it for it in names if it.strip().lower() == name.strip().lower()] or get_close_matches(name, names, 1, 0.75)
    return near[0] if near else None


def meant(name: str, names: Iterable[str]) -> str:
    """What a refusal adds on a name that isn't there: the one that is like it, or those that there are.

    >>> from causal.vocabulary import meant
    >>> meant("x", ["X", "Y"]), meant("ages", ["age", "sex"]), meant("Q", ["X", "Y"]), meant("Q", [])
    ('; did you mean X?', '; did you mean age?', '; there are X, Y', '')
    """
    there = [str(it) for it in names]
    near = alike(name, there)
    if near is not None:
        return f"; did you mean {repr(near) if near != near.strip() else near}?"
    listed = ", ".join(there[:MOST_NAMES]) + (f" and {len(there) - MOST_NAMES} more" if len(there) > MOST_NAMES else "")
    return f"; there are {listed}" if there else ""


def check_whole(name: str, value: Any, least: int = 1) -> None:
    """Refuses what is no whole number from `least` on.

    >>> from causal.vocabulary import check_whole
    >>> check_whole("resamples", 1.5)
    Traceback (most recent call last):
        ...
    causal.errors.RequestError: resamples is a whole number from 1 on, and not 1.5
    """
    if isinstance(value, bool) or not hasattr(value, "__index__") or value < least:
        raise RequestError(f"{name} is a whole number from {least} on, and not {value!r}")


def check_progress(progress: Any) -> None:
    """Refuses what can't be told of progress.

    >>> from causal.vocabulary import check_progress
    >>> check_progress(True)
    Traceback (most recent call last):
        ...
    causal.errors.WrongType: progress is called with how many are done, and of how many; a bool can't be
    """
    if progress is not None and not callable(progress):
        raise WrongType(f"progress is called with how many are done, and of how many; a {type(progress).__name__} can't be")


def needed(module: str, what: str) -> Any:
    """A package that is used where it is there.

    >>> from causal.vocabulary import needed
    >>> needed("no_such_package", "a table")
    Traceback (most recent call last):
        ...
    causal.errors.PackageMissing: a table needs no_such_package
    """
    try:
        return importlib.import_module(module)
    except ImportError as cause:
        raise PackageMissing(f"{what} needs {module.partition('.')[0]}") from cause
