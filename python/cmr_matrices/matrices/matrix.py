"""Matrices with entries -1, 0 and 1, and what they are made from."""

from __future__ import annotations

import re
from bisect import bisect_left
from collections.abc import Iterable, Sequence
from contextlib import suppress
from dataclasses import dataclass, field, replace
from operator import index
from typing import TYPE_CHECKING, Any, ClassVar, cast

from ..errors import BadEntry, BadInput, shown
from ..given import listed, text_given, whole
from ..libraries import library
from .dense import DenseEntries
from .determinants import determinant
from .lines import Names
from .pages import matrix_table
from .sources import Entries, MatrixLike, entries_of
from .words import LIMIT

__all__ = ["Matrix", "entry_of"]

_NUMBERS = re.compile(r"[0-9+\-\t-\r ]*")


@dataclass(frozen=True)
class Matrix:
    """A matrix with entries -1, 0 and 1 and at most 1,000 rows and 1,000 columns, counted from 0.

    `nonzeros` has a triple (row, column, value) for each nonzero, row by row. `names` may name all rows and columns, and evidence
    then shows them. Two matrices are equal if their shapes and nonzeros are equal.
    """

    shape: tuple[int, int]
    nonzeros: tuple[tuple[int, int, int], ...] = field(repr=False)
    names: Names | None = field(default=None, compare=False, repr=False)
    _dense: ClassVar[DenseEntries | None] = None
    # A matrix of rows or of an array has its entries here, and lists its nonzeros when they are first asked for.

    if not TYPE_CHECKING:

        def __getattr__(self, name: str) -> Any:
            if name != "nonzeros" or self._dense is None:
                raise AttributeError(f"a Matrix has no attribute {name}")
            self.__dict__[name] = self._dense.nonzeros()
            return self.__dict__[name]

    def __post_init__(self) -> None:
        rows, columns = self.shape
        _must_be_small(rows, columns)
        last = -1
        for row, column, value in self.nonzeros:
            place = row * columns + column
            if not (0 <= column < columns and last < place < rows * columns):
                raise BadInput(
                    f"row {row}, column {column}: the places of nonzeros do not rise, or are outside of {rows}x{columns}"
                )
            if value not in (1, -1):
                raise BadEntry(row, column, value, "-1 and 1, as a nonzero has to be")
            last = place
        if self.names is not None:
            self.names.must_fit(rows, columns)

    @classmethod
    def of(
        cls,
        source: MatrixLike,
        *,
        row_names: Iterable[object] | None = None,
        column_names: Iterable[object] | None = None,
    ) -> Matrix:
        """The matrix that another object represents.

        The object is a list of lists, a numpy array of two dimensions, a sparse array or matrix of scipy in any format, a pandas
        frame, whose labels become names, or a Sage matrix. An entry is accepted if it equals -1, 0 or 1; it may be a float or an
        element of a finite field.

        Raises `BadEntry` at the first other entry, and `BadInput` if the object is not a matrix.
        """
        rows = None if row_names is None else _names("row_names", row_names)
        columns = None if column_names is None else _names("column_names", column_names)
        if isinstance(source, Matrix):
            return source._named(rows, columns)
        found = entries_of(source)
        if rows is None and found.row_names is not None:
            rows = tuple(found.row_names)
        if columns is None and found.column_names is not None:
            columns = tuple(found.column_names)
        try:
            dense = _dense_of(found)
            matrix = cls.from_triples(found.entries, found.shape) if dense is None else cls._of_dense(dense, None)
        except BadEntry as fault:
            raise fault.named(rows, columns) from None
        return matrix._named(rows, columns)

    @classmethod
    def _of_dense(cls, dense: DenseEntries, names: Names | None) -> Matrix:
        made = cls.__new__(cls)
        made.__dict__.update(shape=dense.shape, names=names, _dense=dense)
        return made

    @classmethod
    def from_triples(cls, triples: Iterable[Sequence[Any]], shape: tuple[int, int]) -> Matrix:
        """The matrix with a value at each (row, column, value), counted from 0, and 0 at all other positions.

        Raises `BadInput` if a position is named twice or is outside of the shape, and `BadEntry` for a value other than -1, 0, 1.
        """
        rows, columns = _pair("shape", shape)
        entries: dict[tuple[int, int], int] = {}
        for triple in triples if isinstance(triples, Iterable) else listed("triples", triples, "triples"):
            try:
                given_row, given_column, value = triple
                row, column = index(given_row), index(given_column)
            except (TypeError, ValueError):
                raise BadInput(f"{shown(triple)} is no triple of a row, a column and a value") from None
            if not (0 <= row < rows and 0 <= column < columns):
                raise BadInput(
                    f"row {row}, column {column}: there is no such place in a matrix of size {rows}x{columns}"
                )
            if (row, column) in entries:
                raise BadInput(f"row {row}, column {column}: the place is named twice")
            entries[row, column] = entry_of(row, column, value)
        nonzeros = tuple((row, column, value) for (row, column), value in sorted(entries.items()) if value)
        return cls((rows, columns), nonzeros)

    @property
    def T(self) -> Matrix:  # noqa: N802 # pylint: disable=invalid-name
        """The transposed matrix, with its names."""
        if self._dense is not None:
            return Matrix._of_dense(self._dense.transposed, self.names and self.names.transposed())
        rows, columns = self.shape
        nonzeros = tuple(sorted((column, row, value) for row, column, value in self.nonzeros))
        return Matrix((columns, rows), nonzeros, self.names and self.names.transposed())

    def __getitem__(self, place: tuple[int, int]) -> int:
        row, column = _pair("a place", place)
        rows, columns = self.shape
        if not (0 <= row < rows and 0 <= column < columns):
            raise IndexError(f"there is no place {row}, {column} in a matrix of size {rows}x{columns}")
        if self._dense is not None:
            return self._dense[row, column]
        at = bisect_left(self.nonzeros, (row, column))
        found = self.nonzeros[at] if at < len(self.nonzeros) else (rows, 0, 0)
        return found[2] if found[:2] == (row, column) else 0

    def submatrix(self, rows: Iterable[int], columns: Iterable[int]) -> Matrix:
        """The submatrix on some rows and columns in the given order, with their names.

        Raises `BadInput` if a line is given twice, or is not a line of the matrix.
        """
        rows, columns = (
            tuple(whole(f"a {kind}", line) for line in listed(f"{kind}s", lines, f"numbers of {kind}s"))
            for kind, lines in (("row", rows), ("column", columns))
        )
        row_places = _places(rows, self.shape[0], "row")
        column_places = _places(columns, self.shape[1], "column")
        nonzeros = sorted(
            (row_places[row], column_places[column], value)
            for row, column, value in self.nonzeros
            if row in row_places and column in column_places
        )
        return Matrix((len(rows), len(columns)), tuple(nonzeros), self.names and self.names.part(rows, columns))

    def pivoted(self, row: int, column: int) -> Matrix:
        """The pivot at a nonzero a: a step of the simplex method in the tableau of `A x + y = b`, which the same pivot undoes.

        Outside of the row and the column an entry becomes A[i][j] - a A[i][column] A[row][j]. The row is multiplied by a and the column
        by -a, and a itself remains. The row and the column exchange their names, since each then represents the variable, or the element
        of the matroid, of the other. Raises `BadEntry` if a is 0, or if an entry of the pivot is not -1, 0 or 1. `Matroid.pivot` pivots
        over GF(2) and GF(3), so every entry remains in the field.
        """
        pivot = self[row, column]
        if pivot == 0:
            raise BadEntry(row, column, 0, "-1 and 1, as a pivot has to be")
        entries = {(at, across): value for at, across, value in self.nonzeros}
        in_row = [(across, value) for at, across, value in self.nonzeros if at == row and across != column]
        in_column = [(at, value) for at, across, value in self.nonzeros if across == column and at != row]
        for at, below in in_column:
            for across, beside in in_row:
                entries[at, across] = entries.get((at, across), 0) - pivot * below * beside
            entries[at, column] = -pivot * below
        for across, beside in in_row:
            entries[row, across] = pivot * beside
        made = Matrix.from_triples(((at, across, value) for (at, across), value in entries.items()), self.shape)
        return replace(made, names=self.names and self.names.exchanged(row, column))

    def determinant(self) -> int:
        """The determinant of a square matrix, by elimination in integers. Raises `BadInput` if the matrix is not square.

        A violator that contains no smaller violator is square, and its determinant is 2 or -2. So each violator contains a square
        submatrix with such a determinant.

        Source: Gomory, in Camion 1965; Schrijver, *Theory of Linear and Integer Programming*, theorem 19.3.
        """
        rows, columns = self.shape
        if rows != columns:
            raise BadInput(f"a square matrix has a determinant, and here the size is {rows}x{columns}")
        return determinant(self.to_lists())

    def support(self) -> Matrix:
        """The 0/1 matrix with a one at each nonzero."""
        return Matrix(self.shape, tuple((row, column, 1) for row, column, _ in self.nonzeros), self.names)

    def sum(self) -> int:
        """The sum of all entries."""
        if self._dense is not None:
            return self._dense.sum()
        return sum(value for _, _, value in self.nonzeros)

    def must_be_binary(self) -> None:
        """Raises `BadEntry` at the first entry -1."""
        if self._dense is not None and not self._dense.has_negative():
            return
        for row, column, value in self.nonzeros:
            if value < 0:
                fault = BadEntry(row, column, value, "0 and 1")
                raise fault if self.names is None else fault.named(self.names.rows, self.names.columns)

    def to_lists(self) -> list[list[int]]:
        """The rows as lists of numbers."""
        if self._dense is not None:
            return self._dense.to_lists()
        rows, columns = self.shape
        lists = [[0] * columns for _ in range(rows)]
        for row, column, value in self.nonzeros:
            lists[row][column] = value
        return lists

    def to_numpy(self) -> Any:
        """A numpy array of the same shape, of type int8."""
        numpy = library("numpy", "to_numpy")
        if self._dense is not None:
            return numpy.frombuffer(self._dense.data, dtype=numpy.int8).reshape(self.shape).copy()
        triples = numpy.array(self.nonzeros, dtype=numpy.int64).reshape(-1, 3)
        array = numpy.zeros(self.shape, dtype=numpy.int8)
        array[triples[:, 0], triples[:, 1]] = triples[:, 2]
        return array

    def __array__(self, dtype: Any = None, copy: bool | None = None) -> Any:
        if copy is False:
            raise ValueError("a matrix becomes an array only by a copy")
        array = self.to_numpy()
        return array if dtype is None else array.astype(dtype)

    def to_scipy(self) -> Any:
        """A sparse array of scipy in the format csr, of type int8."""
        sparse = library("scipy.sparse", "to_scipy")
        return sparse.csr_array(self.to_numpy())

    def to_text(self) -> str:
        """The canonical sparse text, with lines counted from 1."""
        if self._dense is not None:
            return self._dense.text()
        rows, columns = self.shape
        triples = [f"{row + 1} {column + 1} {value}\n" for row, column, value in self.nonzeros]
        return "".join([f"{rows} {columns} {len(triples)}\n", *triples])

    def for_program(self) -> tuple[str, str]:
        """A text for the program, with its format: a sparse text, or a dense text of rows or an array with many nonzeros."""
        dense = None if self._dense is None else self._dense.dense_text()
        return ("sparse", self.to_text()) if dense is None else ("dense", dense)

    @classmethod
    def from_text(cls, text: str, *, sparse: bool = False) -> Matrix:
        """The matrix of a dense or a sparse text. Raises `BadInput` or `BadEntry` if the text is not a matrix."""
        if not _NUMBERS.fullmatch(text_given("no matrix", text)):
            raise BadInput("no matrix: the text has other words than numbers")
        try:
            numbers = [int(word) for word in text.split()]
        except ValueError as fault:
            raise BadInput(f"no matrix: {fault}") from fault
        head = 3 if sparse else 2
        if len(numbers) < head:
            raise BadInput("no matrix: the text ends too early")
        rows, columns = numbers[:2]
        places = 3 * numbers[2] if sparse else rows * columns
        if min(numbers[:head]) < 0 or len(numbers) != head + places:
            raise BadInput("no matrix: the counts and the entries do not fit")
        if sparse:
            words = iter(numbers[3:])
            return cls.from_triples(
                ((row - 1, column - 1, value) for row, column, value in zip(words, words, words)), (rows, columns)
            )
        entries = numbers[2:]
        triples = ((place // columns, place % columns, value) for place, value in enumerate(entries) if value)
        return cls.from_triples(triples, (rows, columns))

    def __str__(self) -> str:
        return "\n".join(" ".join(f"{value:2d}" for value in row) for row in self.to_lists())

    def _repr_html_(self) -> str:
        return matrix_table(self)

    def _named(self, row_names: Sequence[object] | None, column_names: Sequence[object] | None) -> Matrix:
        if row_names is None and column_names is None:
            return self
        plain = self.names or Names.numbered(*self.shape)
        rows = plain.rows if row_names is None else tuple(str(name) for name in row_names)
        columns = plain.columns if column_names is None else tuple(str(name) for name in column_names)
        names = Names(rows, columns)
        if self._dense is None:
            return replace(self, names=names)
        names.must_fit(*self.shape)
        return Matrix._of_dense(self._dense, names)


def _dense_of(found: Entries) -> DenseEntries | None:
    """The entries as bytes, if they come from rows of Python's numbers or from a plain array."""
    if found.array is None and found.rows is None:
        return None
    _must_be_small(*found.shape)
    return DenseEntries.of_array(found.array) if found.rows is None else DenseEntries.of_rows(found.rows, found.shape[1])


def _pair(name: str, pair: Any) -> tuple[int, int]:
    try:
        first, second = pair
        return index(first), index(second)
    except (TypeError, ValueError):
        raise BadInput(f"{name} is a pair of integers, of rows and of columns, and here it is {shown(pair)}") from None


def _names(name: str, names: Any) -> tuple[object, ...]:
    if not isinstance(names, Iterable):
        raise BadInput(f"{name} is a list of names, and here it is {shown(names)}")
    return tuple(names)


def _must_be_small(rows: int, columns: int) -> None:
    for count, kind in ((rows, "rows"), (columns, "columns")):
        if not 0 <= count <= LIMIT:
            raise BadInput(f"there are {count} {kind}, and a matrix may have at most {LIMIT}")


def _places(lines: tuple[int, ...], count: int, kind: str) -> dict[int, int]:
    """The place of each line in a list."""
    places = {line: place for place, line in enumerate(lines)}
    if len(places) < len(lines):
        raise BadInput(f"a {kind} is given twice")
    for line in lines:
        if not 0 <= line < count:
            raise BadInput(f"there is no {kind} {line} in a matrix with {count} {kind}s")
    return places


def entry_of(row: int, column: int, value: Any) -> int:
    """The entry as an integer. 1 is tried before -1, since the two are equal in a field of characteristic 2."""
    with suppress(TypeError, ValueError):
        for entry in (0, 1, -1):
            if bool(value == entry):
                return entry
    raise BadEntry(row, column, cast(object, value))
