"""What matrices are made from: lists, numpy arrays, sparse matrices of scipy, pandas frames and Sage matrices.

No library is needed for it: an object is known by its methods, and none is loaded that the caller has not loaded.
"""

from __future__ import annotations

from collections.abc import Iterable, Iterator, Mapping, Sequence
from dataclasses import dataclass, replace
from typing import Any, Protocol

from ..errors import BadInput
from .dense import is_plain
from .words import LIMIT

__all__ = ["Entries", "MatrixLike", "SageLike", "ScipyLike", "ArrayLike", "entries_of", "has_many_lines"]


class ArrayLike(Protocol):
    """An array of numpy, or what becomes one: also a pandas frame."""

    def __array__(self) -> Any:
        ...


class ScipyLike(Protocol):
    """A sparse array or matrix of scipy, in any format."""

    shape: Any

    def tocoo(self) -> Any:
        """Its nonzeros as coordinates."""


class SageLike(Protocol):
    """A matrix of Sage, over any ring."""

    def nrows(self) -> int:
        """The number of rows."""

    def ncols(self) -> int:
        """The number of columns."""

    def __getitem__(self, place: Any) -> Any:
        ...


MatrixLike = ArrayLike | ScipyLike | SageLike | Sequence[Any]
"""What the package takes for a matrix. A sequence is one of rows, each a sequence of entries."""


@dataclass(frozen=True)
class Entries:
    """Entries at places (row, column, value) counted from 0, no place twice, all others 0.

    `array` is the array of numbers of numpy, and `rows` the list of rows, from which they come, if there is one. `coordinates` are the rows,
    the columns and the values as arrays of numbers, row by row, if they come from many of scipy.
    """

    shape: tuple[int, int]
    entries: Iterable[tuple[int, int, Any]]
    row_names: Iterable[object] | None = None
    column_names: Iterable[object] | None = None
    array: Any = None
    rows: Sequence[Sequence[Any]] | None = None
    coordinates: tuple[Any, Any, Any] | None = None


def has_many_lines(source: Any) -> bool:
    """Whether an object says that it has more rows or columns than a matrix for `cmr` may have. Its entries are not looked at."""
    if callable(getattr(source, "nrows", None)) and callable(getattr(source, "ncols", None)):
        return bool(max(source.nrows(), source.ncols()) > LIMIT)
    shape = getattr(source, "shape", None)
    if isinstance(shape, tuple):
        return len(shape) == 2 and max(shape) > LIMIT
    if isinstance(source, Sequence) and not isinstance(source, (str, bytes)):
        return max(len(source), *(len(row) for row in source[:1] if hasattr(row, "__len__")), 0) > LIMIT
    return False


def entries_of(source: Any) -> Entries:
    """The entries of an object. Raises `BadInput` if it is not a matrix."""
    if hasattr(source, "tocoo"):
        return _of_scipy(source)
    if callable(getattr(source, "nrows", None)) and callable(getattr(source, "ncols", None)):
        return _of_sage(source)
    if hasattr(source, "to_numpy") and hasattr(source, "index") and hasattr(source, "columns"):
        return replace(_of_array(source.to_numpy()), row_names=source.index, column_names=source.columns)
    if hasattr(source, "__array__"):
        return _of_array(source)
    if isinstance(source, Sequence) and not isinstance(source, (str, bytes)):
        return _of_rows(source)
    hint = "; its `matrix` is one" if hasattr(source, "matrix") else ""
    raise BadInput(f"no matrix: an object of type {type(source).__name__} is none{hint}")


def _of_scipy(source: Any) -> Entries:
    """Values at one position are added, as scipy does in a conversion to an array."""
    shape = _shape(source.shape)
    coordinates = source.tocoo()
    array = _array_of_coordinates(coordinates, shape)
    if array is not None:
        return Entries(shape, _nonzeros_of_array(array), array=array)
    many = _sorted_coordinates(coordinates)
    if many is not None:
        return Entries(shape, _triples(*many), coordinates=many)
    values: dict[tuple[int, int], Any] = {}
    for row, column, value in zip(coordinates.row.tolist(), coordinates.col.tolist(), coordinates.data.tolist()):
        place = row, column
        values[place] = values[place] + value if place in values else value
    return Entries(shape, ((row, column, value) for (row, column), value in values.items()))


def _array_of_coordinates(coordinates: Any, shape: tuple[int, int]) -> Any:
    """The array of coordinates that name no place twice, if it is small and one of numbers. Otherwise it gives None."""
    import numpy  # pylint: disable=import-outside-toplevel

    if coordinates.data.dtype.kind not in "biuf" or max(shape) > LIMIT:
        return None
    places = coordinates.row.astype(numpy.int64) * shape[1] + coordinates.col
    if len(places) > 0 and numpy.bincount(places).max() > 1:
        return None
    array = numpy.zeros(shape, dtype=coordinates.data.dtype)
    array[coordinates.row, coordinates.col] = coordinates.data
    return array


def _sorted_coordinates(coordinates: Any) -> tuple[Any, Any, Any] | None:
    """The rows, columns and values of coordinates, row by row, if they are numbers and name no place twice."""
    import numpy  # pylint: disable=import-outside-toplevel

    if coordinates.data.dtype.kind not in "biuf":
        return None
    order = numpy.lexsort((coordinates.col, coordinates.row))
    rows, columns = coordinates.row[order], coordinates.col[order]
    if ((rows[1:] == rows[:-1]) & (columns[1:] == columns[:-1])).any():
        return None
    return rows, columns, coordinates.data[order]


def _triples(rows: Any, columns: Any, values: Any) -> Iterator[tuple[int, int, Any]]:
    yield from zip(rows.tolist(), columns.tolist(), values.tolist())


def _of_sage(source: Any) -> Entries:
    rows, columns = int(source.nrows()), int(source.ncols())
    if callable(getattr(source, "dict", None)):
        nonzeros: Mapping[tuple[int, int], Any] = source.dict()
        return Entries((rows, columns), ((int(row), int(column), value) for (row, column), value in nonzeros.items()))
    places = ((row, column) for row in range(rows) for column in range(columns))
    return Entries((rows, columns), ((row, column, source[row, column]) for row, column in places))


def _of_array(source: Any) -> Entries:
    import numpy  # pylint: disable=import-outside-toplevel

    array = numpy.asarray(source)
    return Entries(_shape(array.shape), _nonzeros_of_array(array), array=array if is_plain(array) else None)


def _nonzeros_of_array(array: Any) -> Iterator[tuple[int, int, Any]]:
    rows, columns = (array != 0).nonzero()
    yield from _triples(rows, columns, array[rows, columns])


def _of_rows(source: Sequence[Any]) -> Entries:
    columns = -1
    for number, row in enumerate(source):
        if not hasattr(row, "__len__") or isinstance(row, (str, bytes)):
            raise BadInput(f"no matrix: row {number} is no list of entries")
        if columns not in (-1, len(row)):
            raise BadInput(f"no matrix: row {number} has {len(row)} entries, and row 0 has {columns}")
        columns = len(row)
    return Entries((len(source), max(columns, 0)), _nonzeros(source), rows=source)


def _nonzeros(rows: Sequence[Sequence[Any]]) -> Iterator[tuple[int, int, Any]]:
    for number, row in enumerate(rows):
        for column, value in enumerate(row):
            if value != 0:
                yield number, column, value


def _shape(shape: Sequence[int]) -> tuple[int, int]:
    if len(shape) != 2:
        raise BadInput(f"no matrix: an array of {len(shape)} dimensions is none")
    return int(shape[0]), int(shape[1])
