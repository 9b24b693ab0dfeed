"""Matrices whose nonzeros of each column are consecutive in the order of the rows, and of one sign after rows are negated."""

from __future__ import annotations

from collections.abc import Sequence

from .sparse import Sparse

__all__ = ["are_intervals", "interval_signs"]


def interval_signs(columns: Sparse, height: int) -> tuple[int, ...] | None:
    """The signs by which the rows are multiplied, or None if there are none. Takes linear time.

    Two consecutive rows have a product of signs, which is that of their entries in each column that has both.
    """
    products = [0] * height
    for column in columns:
        if column and column[-1][0] - column[0][0] != len(column) - 1:
            return None
        for (row, entry), (_, other) in zip(column, column[1:]):
            if products[row] == -entry * other:
                return None
            products[row] = entry * other
    signs = [1] * height
    for row in range(height - 1):
        signs[row + 1] = signs[row] * (products[row] or 1)
    return tuple(signs)


def are_intervals(columns: Sparse, signs: Sequence[int]) -> bool:
    """Whether the rows of each column are consecutive, and its entries have one sign after rows are multiplied by these signs."""
    return all(
        [row for row, _ in column] == list(range(column[0][0], column[0][0] + len(column)))
        and len({signs[row] * entry for row, entry in column}) == 1
        for column in columns
        if column
    )
