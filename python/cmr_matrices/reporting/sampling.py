"""Small submatrices of a matrix that is too large to be asked: lines that are near one another."""

from __future__ import annotations

from ..models.constraints import Constraints

__all__ = ["near_lines"]


def near_lines(constraints: Constraints, most: int) -> tuple[tuple[int, ...], tuple[int, ...]]:
    """The first rows and columns, at most `most` of each, of a search from the first nonzero, line by line, in increasing order."""
    rows: dict[int, list[int]] = {}
    columns: dict[int, list[int]] = {}
    for row, column in sorted(constraints.entries):
        rows.setdefault(row, []).append(column)
        columns.setdefault(column, []).append(row)
    seen_rows, seen_columns = list(rows)[:1], list[int]()
    met = set(seen_rows), set[int]()
    waiting = [(0, row) for row in seen_rows]
    for kind, line in waiting:
        others, taken, known = (rows, seen_columns, met[1]) if kind == 0 else (columns, seen_rows, met[0])
        fresh = [other for other in others[line] if other not in known][: most - len(taken)]
        taken += fresh
        known.update(fresh)
        waiting += ((1 - kind, other) for other in fresh)
    return tuple(sorted(seen_rows)), tuple(sorted(seen_columns))
