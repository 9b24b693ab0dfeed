"""The lines of constraints of any number, as lists of their nonzeros."""

from __future__ import annotations

from collections.abc import Mapping, Sequence

__all__ = ["Sparse", "columns_of", "rows_of"]

Sparse = Sequence[Sequence[tuple[int, int]]]
"""Of each line the crossing lines, in increasing order, with the entries -1 and 1."""


def columns_of(entries: Mapping[tuple[int, int], int], count: int) -> Sparse:
    """The columns, of which there are `count`, each with its rows."""
    found: list[list[tuple[int, int]]] = [[] for _ in range(count)]
    for (row, column), entry in entries.items():
        found[column].append((row, entry))
    for line in found:
        line.sort()
    return found


def rows_of(entries: Mapping[tuple[int, int], int], count: int) -> Sparse:
    """The rows, of which there are `count`, each with its columns."""
    return columns_of({(column, row): entry for (row, column), entry in entries.items()}, count)
