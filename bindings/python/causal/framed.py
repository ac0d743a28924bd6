"""Answers as DataFrames: a row for each part of an answer, with plain texts and numbers."""
from __future__ import annotations

import html
from typing import TYPE_CHECKING, Any, List, Sequence, Tuple

from causal.vocabulary import needed

if TYPE_CHECKING:
    import pandas


class Framed:
    """An answer that can be given as a DataFrame of pandas."""

    def _table(self) -> Tuple[Sequence[str], List[List[Any]]]:
        """The heads of the columns, and the rows."""
        path = getattr(self, "path", None)
        return ("holds", "path", "text"), [[bool(self), None if path is None else str(path), str(self)]]

    def frame(self) -> "pandas.DataFrame":
        """A DataFrame of the answer (it needs pandas): a row for each of its parts, or where it is a yes or no a single one, with
        `holds`, the open `path` that shows a no, and the printed `text`.

        >>> import pandas
        >>> from causal import Diagram
        >>> diagram = Diagram("dag { X -> Y X <- Z -> Y }")
        >>> print(diagram.separated("X", "Z").frame()[["holds", "path"]])
           holds    path
        0  False  X <- Z
        >>> diagram.identify("X", "Y").frame().values.tolist()
        [['P(Y|do(X))', 'sum{Z} P(Z) * P(Y|X,Z)']]
        """
        heads, rows = self._table()
        return needed("pandas", "a DataFrame").DataFrame(rows, columns=list(heads))

    def to_frame(self) -> "pandas.DataFrame":
        """The same as `frame`."""
        return self.frame()


class Shown(Framed):
    """An answer that a notebook shows as it is printed."""

    def _repr_html_(self) -> str:
        return f"<pre>{html.escape(str(self))}</pre>"
