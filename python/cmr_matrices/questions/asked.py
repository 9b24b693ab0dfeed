"""What questions about matroids ask of their matrices, by their fields.

Over GF(2) the program decides whether the matroid of a 0/1 matrix is regular or graphic. Over GF(3) a matroid is regular if and only if its
matrix is totally unimodular, and graphic if and only if its matrix is a network matrix: a regular matroid has a totally unimodular
representation and a graphic one a network matrix with the same basis, and two representations over GF(3) with one basis differ only by
signs of lines (Brylawski and Lucas 1976), which change neither property.
"""

from __future__ import annotations

from ..errors import BadInput
from ..matrices.matrix import Matrix
from ..matrices.sources import MatrixLike
from ..matroids.matroid_values import MatroidValue

__all__ = ["MatroidLike", "asked_property", "matrix_given", "matroid_property"]

MatroidLike = MatrixLike | MatroidValue
"""A matroid, or what the package takes for a matrix."""

_TERNARY = {
    "regular": "totally unimodular",
    "graphic": "network",
    "cographic": "conetwork",
    "binary series-parallel": "series-parallel",
}
_BINARY = {ternary: binary for binary, ternary in _TERNARY.items()}
_OF_MATROIDS = {"binary series-parallel": "series-parallel"}


def asked_property(property_name: str, given: object) -> str:
    """The property of the matrix that answers a question: for a matroid the one for its field, and otherwise the one that is asked."""
    if not isinstance(given, MatroidValue):
        return property_name
    known = {**_BINARY, **{name: name for name in _TERNARY}}
    if property_name not in known:
        raise BadInput(f"{property_name} is a property of a matrix that its matroid does not determine; ask about `matroid.matrix`")
    binary = known[property_name]
    return _TERNARY[binary] if given.field == 3 else binary


def matroid_property(property_name: str, given: object) -> str | None:
    """The property of the matroid that is asked for, or None if the question is about a matrix."""
    if not isinstance(given, MatroidValue):
        return None
    binary = _BINARY.get(property_name, property_name)
    return _OF_MATROIDS.get(binary, binary)


def matrix_given(given: MatroidLike) -> Matrix:
    """The matrix of a matroid, with its elements as names, or the matrix that is given."""
    if not isinstance(given, MatroidValue):
        return Matrix.of(given)
    return Matrix.of(given.matrix, row_names=given.basis, column_names=given.others)
