"""Matroids as HTML, as notebooks show them."""

from __future__ import annotations

from ..matrices.matrix import Matrix
from ..matrices.pages import matrix_table, paragraph
from ..matroids.matroid_values import MatroidValue

__all__ = ["matroid_page"]


def matroid_page(matroid: MatroidValue) -> str:
    """The rank, the number of elements, the field, and the matrix with the elements at its lines."""
    rank, width = matroid.matrix.shape
    said = f"matroid of rank {rank} with {rank + width} elements over GF({matroid.field}), of the columns of [I A]"
    matrix = Matrix.of(matroid.matrix, row_names=matroid.basis, column_names=matroid.others)
    return paragraph(f"{said}; the rows of A name those of I") + matrix_table(matrix)
