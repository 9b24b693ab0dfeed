"""Determinants of integer matrices."""

from __future__ import annotations

from collections.abc import Sequence

__all__ = ["determinant"]


def determinant(rows: Sequence[Sequence[int]]) -> int:
    """The determinant of a square matrix of integers, by an elimination in which each division is exact.

    Source: Bareiss 1968.
    """
    left = list(rows)
    sign, before = 1, 1
    while left:
        at = next((place for place, row in enumerate(left) if row[0]), None)
        if at is None:
            return 0
        sign = sign if at == 0 else -sign
        left[0], left[at] = left[at], left[0]
        first = left[0]
        pivot = first[0]
        left = [
            [(pivot * entry - row[0] * beside) // before for entry, beside in zip(row[1:], first[1:])]
            for row in left[1:]
        ]
        before = pivot
    return sign * before
