"""A violator from which no line can be removed, with its determinant."""

from __future__ import annotations

from dataclasses import dataclass, field

from ..errors import TimeLimitReached
from ..structures.halves import OddCycle, cycle_determinant
from ..structures.sparse import columns_of
from .asking import ModelAsker
from .pieces import Cells

__all__ = ["Minimal", "minimal_violator"]

_QUESTIONS = 150


@dataclass(frozen=True)
class Minimal:
    """Lines of a model that are not totally unimodular, with their entries.

    It is minimal if it becomes totally unimodular when any one of its lines is removed. It is then square, and its determinant is 2
    or -2.
    """

    cells: Cells
    row_names: tuple[str, ...]
    column_names: tuple[str, ...]
    entries: tuple[tuple[int, ...], ...] = field(repr=False)
    """The entries by rows. There are none of a violator that is too large for the program."""
    is_minimal: bool
    determinant: int | None


def minimal_violator(asker: ModelAsker, violator: Cells, part: float) -> Minimal:
    """What is left of a violator when one line after another is removed, as long as a violator remains.

    A violator that is too large for the program is an odd cycle, which has no smaller one.
    """
    if violator.is_too_large:
        return _cycle(asker, violator)
    asker.begin("a smaller violator", _QUESTIONS, part)
    found, is_minimal = violator, True
    for kind in ("row", "column"):
        for line in found.rows if kind == "row" else found.columns:
            if line not in (found.rows if kind == "row" else found.columns):
                continue
            if asker.is_spent:
                is_minimal = False
                break
            smaller, is_open = _without(asker, found, kind, line)
            found = smaller or found
            is_minimal = is_minimal and not is_open
        if is_minimal and len(found.rows) == len(found.columns):
            # A smaller violator would have all these rows, and as many columns.
            break
    matrix = asker.matrix_of(found)
    entries = tuple(tuple(row) for row in matrix.to_lists())
    is_square = len(found.rows) == len(found.columns)
    names = matrix.names
    assert names is not None
    return Minimal(found, names.rows, names.columns, entries, is_minimal, matrix.determinant() if is_square else None)


def _cycle(asker: ModelAsker, cells: Cells) -> Minimal:
    """An odd cycle of any length, without its entries."""
    model = asker.rows.model
    names = tuple(model.rows[row] for row in cells.rows), tuple(model.columns[column] for column in cells.columns)
    places = {column: at for at, column in enumerate(cells.columns)}
    every = range(len(cells.rows))
    entries = {
        (at, places[column]): int(entry)
        for at, row in enumerate(cells.rows)
        for column, entry in asker.rows.entries[row]
        if column in places
    }
    cycle = OddCycle(tuple(every), tuple(every))
    found = cycle_determinant(columns_of(entries, len(places)), cycle)
    return Minimal(cells, *names, (), found is not None, found)


def _without(asker: ModelAsker, found: Cells, kind: str, line: int) -> tuple[Cells | None, bool]:
    """A violator without a line, if there is one, and whether the question is open."""
    rows = tuple(row for row in found.rows if kind != "row" or row != line)
    columns = tuple(column for column in found.columns if kind != "column" or column != line)
    matrix = asker.matrix_of(Cells(rows, columns))
    try:
        answer = asker.ask_matrix(matrix)
    except TimeLimitReached:
        return None, True
    if answer.violator is None:
        return None, answer.verdict != "yes"
    return Cells(rows, columns).part(answer.violator), False
