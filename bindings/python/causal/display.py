"""Tables for notebooks."""
from __future__ import annotations

import html
from typing import Any, Sequence


class Printed:
    """An answer that a notebook shows as it is printed."""

    def _repr_html_(self) -> str:
        return f"<pre>{html.escape(str(self))}</pre>"


def html_table(heads: Sequence[str], rows: Sequence[Sequence[Any]], notes: Sequence[str] = ()) -> str:
    """A table of HTML, with notes above it.

    >>> from causal.display import html_table
    >>> print(html_table(["a", "b"], [["<", 0.5]], ["a note"]))
    <div>
    <p>a note</p>
    <table>
    <thead><tr><th>a</th><th>b</th></tr></thead>
    <tbody>
    <tr><td>&lt;</td><td>0.5</td></tr>
    </tbody>
    </table>
    </div>
    """
    lines = ["<div>", *(f"<p>{html.escape(note)}</p>" for note in notes), "<table>"]
    lines += [f"<thead><tr>{_cells('th', heads)}</tr></thead>", "<tbody>"]
    lines += [f"<tr>{_cells('td', row)}</tr>" for row in rows]
    return "\n".join([*lines, "</tbody>", "</table>", "</div>"])


def _cells(tag: str, values: Sequence[Any]) -> str:
    return "".join(f"<{tag}>{html.escape(shown(value))}</{tag}>" for value in values)


def shown(value: Any) -> str:
    """A value as a table shows it: a number with six digits, a set of names in braces.

    >>> from causal.display import shown
    >>> shown(1 / 3), shown(("A", "B")), shown(None)
    ('0.333333', '{A,B}', '')
    """
    if value is None:
        return ""
    if isinstance(value, float):
        return f"{value:.6g}"
    if isinstance(value, tuple) and all(isinstance(it, str) for it in value):
        return "{" + ",".join(value) + "}"
    return str(value)
