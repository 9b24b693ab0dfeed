"""Submatrices as evidence: violators, minimal submatrices without a property, and parts that are left open."""

from __future__ import annotations

from dataclasses import dataclass, field

from ..errors import BadInput
from .large_matrix import LargeMatrix, is_large
from .lines import LineSet, Names
from .matrix import Matrix
from .pages import SHOWN, line_list, matrix_table, paragraph
from .sources import MatrixLike
from .words import LARGE_LIMIT, Words

__all__ = ["Submatrix"]


@dataclass(frozen=True)
class Submatrix:
    """Some rows and columns of a matrix with the given shape, counted from 0 and in increasing order."""

    shape: tuple[int, int]
    rows: tuple[int, ...]
    columns: tuple[int, ...]
    names: Names | None = field(default=None, compare=False, repr=False)
    entries: tuple[tuple[int, ...], ...] | None = field(default=None, compare=False, repr=False)
    """The entries of its rows, if it is the violator of an answer and is small."""
    of_signed: bool = field(default=False, compare=False, repr=False)
    """Whether it is a violator of the signed matrix of `is_regular`, and not of the 0/1 matrix."""
    meaning: str | None = field(default=None, compare=False, repr=False)
    """What it shows, as a notebook says above its entries."""

    @property
    def lines(self) -> LineSet:
        """The rows and columns."""
        return LineSet(self.rows, self.columns)

    @property
    def row_names(self) -> tuple[str, ...]:
        """The names of the rows, `r0`, `r1`, .. if the matrix has none."""
        return tuple(f"r{row}" if self.names is None else self.names.rows[row] for row in self.rows)

    @property
    def column_names(self) -> tuple[str, ...]:
        """The names of the columns, `c0`, `c1`, .. if the matrix has none."""
        return tuple(f"c{column}" if self.names is None else self.names.columns[column] for column in self.columns)

    def submatrix(self, matrix: MatrixLike | LargeMatrix) -> Matrix:
        """The submatrix of a matrix on these lines. Raises `BadInput` if the matrix has another shape."""
        whole: Matrix | LargeMatrix
        whole = LargeMatrix.of(matrix) if isinstance(matrix, LargeMatrix) or is_large(matrix) else Matrix.of(matrix)
        if whole.shape != self.shape:
            raise BadInput(f"the submatrix is one of a matrix of shape {self.shape}, and here it is {whole.shape}")
        return whole.submatrix(self.rows, self.columns)

    def part(self, part: Submatrix) -> Submatrix:
        """The submatrix of the whole matrix on the lines that a submatrix of this one has."""
        rows, columns = tuple(self.rows[row] for row in part.rows), tuple(self.columns[column] for column in part.columns)
        return Submatrix(self.shape, rows, columns, self.names, part.entries)

    def to_text(self) -> str:
        """The canonical submatrix text, with lines counted from 1."""
        rows = " ".join(str(row + 1) for row in self.rows)
        columns = " ".join(str(column + 1) for column in self.columns)
        return f"{self.shape[0]} {self.shape[1]} {len(self.rows)} {len(self.columns)}\n{rows}\n{columns}\n"

    @classmethod
    def from_text(cls, text: str, names: Names | None = None) -> Submatrix:
        """The submatrix that a text names. Raises `BadInput` if the text is not a submatrix."""
        words = Words(text)
        try:
            shape = words.shape(LARGE_LIMIT)
            lines = words.line_set(shape)
            words.end("words follow the last list")
        except BadInput as fault:
            raise BadInput(f"no submatrix: {fault}") from fault
        return cls(shape, lines.rows, lines.columns, names)

    def __repr__(self) -> str:
        if len(self.lines) <= SHOWN:
            return f"Submatrix(shape={self.shape}, rows={self.rows}, columns={self.columns})"
        return f"Submatrix(shape={self.shape}, {len(self.rows)} rows, {len(self.columns)} columns)"

    def _repr_html_(self) -> str:
        meaning = "" if self.meaning is None else paragraph(self.meaning)
        return meaning + self._table()

    def _table(self) -> str:
        if self.entries is None:
            return line_list([("rows", self.row_names), ("columns", self.column_names)])
        names = Names(self.row_names, self.column_names)
        return matrix_table(Matrix.of(self.entries, row_names=names.rows, column_names=names.columns))

    def __str__(self) -> str:
        return f"rows {' '.join(self.row_names)} columns {' '.join(self.column_names)}"
