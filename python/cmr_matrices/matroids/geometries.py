"""Matrices of projective, affine and Dowling geometries, of whirls, of binary spikes, and of uniform matroids."""

from __future__ import annotations

from itertools import combinations, product

from ..errors import BadInput
from ..matrices.matrix import Matrix
from ..matrices.words import LIMIT
from .tableaux import Field

__all__ = ["affine", "dowling", "numbered", "projective", "spike", "uniform", "whirl"]


def numbered(rows: list[list[int]] | Matrix) -> Matrix:
    """A matrix with the elements 1, 2, .. in the order of the rows and then of the columns."""
    matrix = Matrix.of(rows)
    elements = [str(number) for number in range(1, sum(matrix.shape) + 1)]
    return Matrix.of(matrix, row_names=elements[: matrix.shape[0]], column_names=elements[matrix.shape[0] :])


def projective(name: str, dimension: int, field: Field) -> Matrix:
    """The points of a projective geometry: all vectors with the first nonzero 1. The unit vectors are the basis."""
    _must_be_small(name, dimension, sum(field**place for place in range(dimension + 1)))
    points = [point for point in _vectors(dimension + 1, field) if next(filter(None, point), 0) == 1 and sum(map(bool, point)) > 1]
    return numbered([list(row) for row in zip(*points)] or [[]])


def affine(name: str, dimension: int, field: Field) -> Matrix:
    """The points x of an affine geometry, by the basis of 0 and the unit vectors: 1 less than the sum of x, negated, and then x."""
    _must_be_small(name, dimension, field**dimension)
    points = [point for point in _vectors(dimension, field) if sum(map(bool, point)) > 1 or -1 in point]
    triples = (
        (row, column, value)
        for column, point in enumerate(points)
        for row, value in enumerate((_entry(1 - sum(point), field), *point))
        if value
    )
    return numbered(Matrix.from_triples(triples, (dimension + 1, len(points))))


def dowling(name: str, rank: int) -> Matrix:
    """The ternary Dowling geometry of a rank: its joints are the basis, and with each two joints e and f it has e + f and e - f."""
    size = rank * (rank - 1)
    if rank < 2 or size > LIMIT:
        raise BadInput(f"{name} is no Dowling geometry that is known here: it has two joints or more, and at most {LIMIT} other elements")
    pairs = list(combinations(range(rank), 2))
    triples = [(pair[0], 2 * place + negative, 1) for place, pair in enumerate(pairs) for negative in (0, 1)]
    triples += [(pair[1], 2 * place + negative, -1 if negative else 1) for place, pair in enumerate(pairs) for negative in (0, 1)]
    return numbered(Matrix.from_triples(triples, (rank, size)))


def uniform(name: str, rank: int, size: int) -> Matrix:
    """The uniform matroid of a rank and a number of elements, if it is regular: loops, coloops, a circuit, or parallel elements."""
    if rank > size:
        raise BadInput(f"{name} is no uniform matroid: its rank is at most the number of its elements")
    if rank not in (0, 1, size - 1, size):
        raise BadInput(f"{name} is neither binary nor ternary")
    if max(rank, size - rank) > LIMIT:
        raise BadInput(f"{name} has {size} elements, and a matrix may have at most {LIMIT} rows and {LIMIT} columns")
    ones = product(range(rank), range(size - rank))
    return numbered(Matrix.from_triples([(row, column, 1) for row, column in ones], (rank, size - rank)))


def whirl(name: str, rank: int) -> Matrix:
    """The whirl of a rank over GF(3): its spokes `s1`, `s2`, .. are the basis, and each rim element `r1`, .. is spanned by two."""
    if not 2 <= rank <= LIMIT:
        raise BadInput(f"{name} is no whirl that is known here: its rank is from 2 to {LIMIT}")
    # With -1 in the last place of the first row, all columns would sum to 0, and this would be a wheel.
    nonzeros = [(place, place, 1) for place in range(rank)] + [(place + 1, place, -1) for place in range(rank - 1)]
    matrix = Matrix.from_triples([*nonzeros, (0, rank - 1, 1)], (rank, rank))
    places = range(1, rank + 1)
    return Matrix.of(matrix, row_names=[f"s{place}" for place in places], column_names=[f"r{place}" for place in places])


def spike(name: str, rank: int, *, has_second: bool) -> Matrix:
    """The binary spike of a rank with its tip `t`: each two legs `x1 y1`, .. are a circuit, and `t` is on the line of each leg."""
    if has_second or not 3 <= rank < LIMIT:
        raise BadInput(f"{name} is no binary spike that is known here: its rank is from 3 to {LIMIT - 1}")
    legs = range(1, rank + 1)
    rows = [[*(int(row != column) for column in legs), 1] for row in legs]
    return Matrix.of(rows, row_names=[f"x{leg}" for leg in legs], column_names=[*(f"y{leg}" for leg in legs), "t"])


def _must_be_small(name: str, dimension: int, points: int) -> None:
    if dimension < 1 or points > LIMIT:
        raise BadInput(f"{name} is no geometry that is known here: it has a line, and at most {LIMIT} points")


def _vectors(size: int, field: Field) -> list[tuple[int, ...]]:
    return list(product((0, 1) if field == 2 else (0, 1, -1), repeat=size))


def _entry(value: int, field: Field) -> int:
    return value % 2 if field == 2 else (value + 1) % 3 - 1
