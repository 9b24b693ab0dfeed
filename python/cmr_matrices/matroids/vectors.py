"""Vectors over GF(2) and GF(3) as pairs of sets of bits, the ones and the entries -1, and the spaces that they span."""

from __future__ import annotations

from .tableaux import Field, Row

__all__ = ["ZERO", "Span", "added", "normal", "scaled", "support"]

ZERO: Row = (0, 0)


def added(field: Field, one: Row, two: Row) -> Row:
    """The sum of two vectors."""
    if field == 2:
        return one[0] ^ two[0], 0
    (plus, minus), (others, negatives) = one, two
    return (
        plus & ~(others | negatives) | others & ~(plus | minus) | minus & negatives,
        minus & ~(others | negatives) | negatives & ~(plus | minus) | plus & others,
    )


def scaled(field: Field, factor: int, vector: Row) -> Row:
    """A vector times 0, 1 or -1."""
    if not factor:
        return ZERO
    return vector if factor > 0 or field == 2 else (vector[1], vector[0])


def support(vector: Row) -> int:
    """The positions of the nonzeros, as bits."""
    return vector[0] | vector[1]


def normal(vector: Row) -> Row:
    """The vector or its negative: the one whose last nonzero is 1. Parallel elements have the same."""
    return vector if vector[0] >= vector[1] else (vector[1], vector[0])


class Span:
    """The space that some vectors span, by vectors with different last nonzeros, each of them 1."""

    def __init__(self, field: Field) -> None:
        self.field = field
        self._leading: dict[int, tuple[Row, Row]] = {}
        """For the last nonzero of each kept vector this vector, and the combination of the added vectors that it is."""
        self.count = 0
        """How many of the vectors that were added are independent: the rank."""
        self._order: list[int] = []

    def add(self, vector: Row) -> bool:
        """Adds a vector, and returns whether it was outside of the space."""
        rest, combination = self.reduced(vector)
        if rest == ZERO:
            return False
        # The vector is the rest minus the combination, so the rest is the vector and the combination.
        combination = added(self.field, combination, (1 << self.count, 0))
        if rest[1] > rest[0]:
            rest, combination = (rest[1], rest[0]), scaled(self.field, -1, combination)
        self._leading[support(rest).bit_length()] = rest, combination
        self._order = sorted(self._leading, reverse=True)
        self.count += 1
        return True

    def reduced(self, vector: Row) -> tuple[Row, Row]:
        """A vector without what the space can take from it, and the combination of independent added vectors that was added to it."""
        combination = ZERO
        for top in self._order:
            bit = 1 << top - 1
            if support(vector) & bit:
                own, made = self._leading[top]
                factor = -1 if vector[0] & bit else 1
                vector = added(self.field, vector, scaled(self.field, factor, own))
                combination = added(self.field, combination, scaled(self.field, factor, made))
        return vector, combination

    def __contains__(self, vector: Row) -> bool:
        return self.reduced(vector)[0] == ZERO
