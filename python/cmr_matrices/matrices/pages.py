"""Values as HTML, as notebooks show them: tables with the names of lines, and a reason if there is no picture."""

from __future__ import annotations

import shutil
from collections.abc import Iterable, Sequence
from html import escape
from typing import TYPE_CHECKING

from .lines import Names

if TYPE_CHECKING:
    from .matrix import Matrix

__all__ = ["SHOWN", "line_list", "matrix_table", "no_picture", "paragraph"]

SHOWN = 20
"""The most rows, and the most columns, that a table shows, and the most lines that a list does."""


def paragraph(text: str) -> str:
    """A text as a paragraph."""
    return f"<p>{escape(text)}</p>\n"


def matrix_table(matrix: Matrix) -> str:
    """The entries, with the names of the first rows and columns, or their numbers, and a line that says what is not shown."""
    names = matrix.names or Names.numbered(*matrix.shape)
    rows, columns = (min(count, SHOWN) for count in matrix.shape)
    more = ["…"] if columns < matrix.shape[1] else []
    lines = [_row("th", ["", *names.columns[:columns], *more])]
    for row in range(rows):
        entries = [str(matrix[row, column]) for column in range(columns)]
        lines.append(_row("td", [*entries, *more], names.rows[row]))
    table = f"<table>\n{''.join(lines)}</table>\n"
    is_whole = (rows, columns) == matrix.shape
    size = f"{matrix.shape[0]}x{matrix.shape[1]}"
    return table if is_whole else table + paragraph(f"the first {rows} rows and {columns} columns of {size}")


def line_list(kinds: Iterable[tuple[str, Sequence[str]]], *, counts: bool = True) -> str:
    """A table with a row for each kind of lines: the kind, how many there are, and their names."""
    rows = (
        _row("td", [*[str(len(names))][:counts], ", ".join([*names[:SHOWN], *["…"][: len(names) > SHOWN]])], kind)
        for kind, names in kinds
    )
    return f"<table>\n{''.join(rows)}</table>\n"


def no_picture(what: str) -> str | None:
    """Why there is no picture of something that could be drawn, or None if Graphviz is installed."""
    return paragraph(f"{what} is drawn if Graphviz is installed: Debian's graphviz") if shutil.which("dot") is None else None


def _row(cell: str, texts: Sequence[str], head: str | None = None) -> str:
    first = "" if head is None else f"<th>{escape(head)}</th>"
    return f"<tr>{first}{''.join(f'<{cell}>{escape(text)}</{cell}>' for text in texts)}</tr>\n"
