"""Pivots and bases by plain arithmetic modulo 2 or 3, by which excluded minors are verified: nothing here is used to find them."""

from __future__ import annotations

from collections.abc import Iterable, Sequence
from itertools import combinations

from ..errors import BadEntry, BadInput

__all__ = ["bases", "left_after"]

Entries = Sequence[Sequence[int]]
"""The rows of a matrix."""


def left_after(
    entries: Entries, of: int, pivots: Sequence[tuple[int, int]], rows: Sequence[int], columns: Sequence[int]
) -> list[list[int]]:
    """The submatrix on some rows and columns after pivots over the field of 2 or 3 elements, with entries -1, 0 and 1.

    Raises `BadInput` if a line is given twice or is not a line of the matrix, or if the entry of a pivot is 0.
    """
    for numbers, kind in ((rows, "row"), (columns, "column")):
        if len(set(numbers)) < len(numbers):
            raise BadInput(f"a {kind} is given twice")
    in_rows, in_columns = {*rows, *(row for row, _ in pivots)}, {*columns, *(column for _, column in pivots)}
    if not in_rows <= set(range(len(entries))) or not in_columns <= set(range(len(entries[0]) if entries else 0)):
        raise BadInput("a row or a column is none of the matrix")
    made = {row: {column: entries[row][column] % of for column in in_columns} for row in in_rows}
    for row, column in pivots:
        _pivot(made, of, row, column)
    return [[made[row][column] - of * (made[row][column] == 2) for column in columns] for row in rows]


def _pivot(made: dict[int, dict[int, int]], of: int, row: int, column: int) -> None:
    """Pivots at a nonzero a: beside its lines an entry loses the product of those across over a."""
    own = made[row]
    if not own[column]:
        raise BadEntry(row, column, 0, "the nonzeros, as it has to be at a pivot")
    inverse = pow(own[column], -1, of)
    across = [(at, value * inverse % of) for at, value in own.items() if at != column and value]
    for number, other in made.items():
        factor = other[column]
        if number != row and factor:
            for at, value in across:
                other[at] = (other[at] - factor * value) % of
            other[column] = -factor * inverse % of
    own.update(across)
    own[column] = inverse


def bases(entries: Entries, of: int) -> set[tuple[int, ...]]:
    """The bases of the matroid of `[I A]`: the rows are its first elements, and then come the columns."""
    height = len(entries)
    vectors = [tuple(int(row == place) for row in range(height)) for place in range(height)]
    vectors += [tuple(column) for column in zip(*entries)]
    sets = combinations(range(len(vectors)), height)
    return {chosen for chosen in sets if _are_independent((vectors[element] for element in chosen), of)}


def _are_independent(vectors: Iterable[Sequence[int]], of: int) -> bool:
    """Whether vectors are independent over the field, by elimination."""
    left = [list(vector) for vector in vectors]
    while left:
        first = left.pop()
        place = next((at for at, value in enumerate(first) if value % of), None)
        if place is None:
            return False
        inverse = pow(first[place] % of, -1, of)
        left = [
            [(value - vector[place] * inverse * own) % of for value, own in zip(vector, first)] for vector in left
        ]
    return True
