"""What two elements of a matroid are for the space of its cocycles, apart from any basis.

The cocycles of a binary or ternary matroid are the rows of `[I A]` and their sums; over GF(3) they are known up to signs of elements. If
the unit vector of an element is the sum of a cocycle and of a vector that is orthogonal to all cocycles, the cocycle is known up to vectors
that are both: over GF(2) the bicycles. At an element that is in none of these its entry is known, over GF(3) up to its sign. An isomorphism
maps these entries to equal ones. They are told by elimination for matroids of any size, and most often tell all elements apart.

Source: Rosenstiehl and Read 1978 for the bicycles of graphs; Bardet, Otmani and Saeed-Taha 2019 for codes without hull.
"""

from __future__ import annotations

from collections.abc import Sequence
from itertools import product

from .tableaux import Field, Row, bits_of
from .vectors import ZERO, added, scaled, support

__all__ = ["entries_between"]


def entries_between(vectors: Sequence[Row], rank: int, field: Field) -> tuple[list[int], int]:
    """For each element the elements at which the entry is a nonzero, as bits, and the elements for which it is known.

    The entry of an element at itself is a nonzero 1 if its own bit is set, and -1 if the bit after all elements is set as well.
    """
    size = len(vectors)
    planes = [[0, 0] for _ in range(rank)]
    for place, vector in enumerate(vectors):
        for plane in (0, 1):
            for line in bits_of(vector[plane]):
                planes[line][plane] |= 1 << place
    rows: list[Row] = [(plus, minus) for plus, minus in planes]
    products: list[Row] = [ZERO] * rank
    for (at, one), (to, two) in product(enumerate(rows), repeat=2):
        value = _product(one, two) % field
        if value:
            plus, minus = products[at]
            products[at] = (plus | 1 << to, minus) if value == 1 else (plus, minus | 1 << to)
    # The right half has the elements, and the products of the rows are eliminated from the left half.
    both = [(row[0] << rank | left[0], row[1] << rank | left[1]) for row, left in zip(rows, products)]
    kept: list[tuple[int, Row]] = []
    for place in range(rank):
        there = [at for at, row in enumerate(both) if support(row) >> place & 1]
        if not there:
            continue
        own = both.pop(there[0])
        own = own if own[0] >> place & 1 else scaled(field, -1, own)
        both = [_cleared(row, own, place, field) for row in both]
        kept = [(other, _cleared(row, own, place, field)) for other, row in kept] + [(place, own)]
    unknown = 0
    for row in both:
        unknown |= support(row) >> rank
    known = (1 << size) - 1 & ~unknown
    found = []
    for element in range(size):
        total = ZERO
        if known >> element & 1:
            for place, row in kept:
                factor = (row[0] >> rank + element & 1) - (row[1] >> rank + element & 1)
                total = added(field, total, scaled(field, factor, rows[place]))
        found.append(support(total) & known | (total[1] >> element & 1) << size)
    return found, known


def _cleared(row: Row, own: Row, place: int, field: Field) -> Row:
    """A row without its nonzero at a place, by another row that is 1 there."""
    factor = (row[1] >> place & 1) - (row[0] >> place & 1)
    return added(field, row, scaled(field, factor, own)) if factor else row


def _product(one: Row, two: Row) -> int:
    same = (one[0] & two[0] | one[1] & two[1]).bit_count()
    return same - (one[0] & two[1] | one[1] & two[0]).bit_count()
