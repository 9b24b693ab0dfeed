"""Minors as evidence: pivots of the matrix, and the lines that are left, are the matrix of another matroid."""

from __future__ import annotations

from abc import ABC, abstractmethod
from collections.abc import Hashable, Iterable, Iterator
from dataclasses import dataclass
from dataclasses import field as dataclass_field
from typing import TYPE_CHECKING

from ..errors import BadEntry, BadInput
from ..matrices.lines import Line, LineSet, Names
from ..matrices.matrix import Matrix
from ..matrices.pages import line_list, paragraph
from ..matroids.bases import bases, left_after
from ..matroids.matroid_values import Label, MatroidValue
from ..matroids.tableaux import Field
from .asked import MatroidLike, matrix_given

if TYPE_CHECKING:
    from .represented import Matroid

__all__ = ["FoundMinor", "Minor", "elements_after"]


class Minor(ABC):
    """A minor of the matroid of a matrix that is another matroid, up to the names of elements.

    After the `pivots`, made over the field one after another in the whole matrix, its submatrix on `rows` and `columns`, in this order, is
    the matrix of the other matroid; over GF(3) it is so up to signs. A pivot exchanges the elements of its row and its column.
    The elements that are then at other rows are contracted, and the elements at other columns are deleted.
    """

    shape: tuple[int, int]
    pivots: tuple[tuple[int, int], ...]
    rows: tuple[int, ...]
    columns: tuple[int, ...]
    names: Names | None
    labels: tuple[Label, ...] | None

    @abstractmethod
    def _field(self) -> Field:
        """The field over which the matrix represents the matroid that has the minor."""

    @abstractmethod
    def _other(self) -> Matroid:
        """The other matroid, with its own names of elements."""

    @abstractmethod
    def _title(self) -> str:
        """What minor it is, in a few words."""

    @property
    def elements(self) -> dict[Line, Hashable]:
        """For each row or column of the matrix that is an element of the minor, the element of the other matroid that it is."""
        rows, columns = elements_after(self.shape, self.pivots)
        lines = [*(rows[row] for row in self.rows), *(columns[column] for column in self.columns)]
        return dict(zip(lines, self._other().elements))

    @property
    def element_map(self) -> dict[Label, Label]:
        """For each element of the matroid that is an element of the minor, the element of the other matroid that it is."""
        return {self._label(line): element for line, element in self.elements.items()}

    @property
    def deleted_elements(self) -> tuple[Label, ...]:
        """The elements of the matroid that are deleted."""
        return tuple(self._label(line) for line in self.deleted)

    @property
    def contracted_elements(self) -> tuple[Label, ...]:
        """The elements of the matroid that are contracted."""
        return tuple(self._label(line) for line in self.contracted)

    @property
    def contracted(self) -> LineSet:
        """The rows and columns of the matrix whose elements are contracted."""
        rows, _ = elements_after(self.shape, self.pivots)
        return _line_set(line for row, line in enumerate(rows) if row not in set(self.rows))

    @property
    def deleted(self) -> LineSet:
        """The rows and columns of the matrix whose elements are deleted."""
        _, columns = elements_after(self.shape, self.pivots)
        return _line_set(line for column, line in enumerate(columns) if column not in set(self.columns))

    def displayed(self, matrix: MatroidLike) -> Matrix:
        """The submatrix that is left after the pivots, with names of elements. Raises `BadInput` if the matrix has another shape."""
        rows, columns = elements_after(self.shape, self.pivots)
        return Matrix.of(
            left_after(self._entries(matrix), self._field(), self.pivots, self.rows, self.columns),
            row_names=[self._line_name(rows[row]) for row in self.rows],
            column_names=[self._line_name(columns[column]) for column in self.columns],
        )

    def verify(self, matrix: MatroidLike) -> bool:
        """Whether this is a minor of the matroid of the matrix, and the other matroid.

        This uses neither the program nor a search for minors: it makes the pivots, and tests which sets of elements are a basis.
        """
        return self.fault(matrix) is None

    def fault(self, matrix: MatroidLike, *, first: int = 0) -> str | None:
        """What is wrong with it as a minor of the matroid of a matrix, in a few words, or None if nothing is wrong.

        Rows and columns are counted from `first`: from 0 as in Python, or from 1 as in texts.
        """
        try:
            left = left_after(self._entries(matrix), self._field(), self.pivots, self.rows, self.columns)
        except BadEntry as fault:
            return fault.counted(first)
        except BadInput as fault:
            return str(fault)
        wanted = self._other()
        if (len(self.rows), len(self.columns)) != wanted.matrix.shape:
            return f"{self._title()} has another rank, or another number of elements"
        if bases(left, self._field()) != bases(wanted.matrix.to_lists(), wanted.field):
            return f"what is left is not {self._title()}"
        return None

    def __str__(self) -> str:
        elements = " ".join(f"{self._line_name(line)}={element}" for line, element in self.elements.items())
        sets = (("deleted", self.deleted), ("contracted", self.contracted))
        lines = (f"{what} {self._set_name(lines)}" for what, lines in sets)
        return "\n".join([f"minor {self._title()}: {elements}", *lines])

    def _repr_html_(self) -> str:
        gone = (("deleted", self.deleted_elements), ("contracted", self.contracted_elements))
        said = (f"{what} {', '.join(map(str, elements)) or 'nothing'}" for what, elements in gone)
        pairs = [(str(element), [self._line_name(line)]) for line, element in self.elements.items()]
        return "".join(map(paragraph, [self._page_title(), *said])) + line_list(pairs, counts=False)

    def _page_title(self) -> str:
        return f"minor {self._title()}"

    def _line_name(self, line: Line) -> str:
        return (self.names or Names.numbered(*self.shape)).line(line)

    def _label(self, line: Line) -> Label:
        if self.labels is None:
            return self._line_name(line)
        return self.labels[line.number + (self.shape[0] if line.kind == "column" else 0)]

    def _set_name(self, lines: LineSet) -> str:
        return (self.names or Names.numbered(*self.shape)).line_set(lines)

    def _entries(self, matrix: MatroidLike) -> list[list[int]]:
        if isinstance(matrix, MatroidValue) and matrix.field != self._field():
            raise BadInput(f"the minor is one of a matroid over GF({self._field()}), and here it is over GF({matrix.field})")
        taken = matrix_given(matrix)
        if taken.shape != self.shape:
            raise BadInput(f"the minor is one of a matrix of shape {self.shape}, and here it is {taken.shape}")
        if self._field() == 2:
            taken.must_be_binary()
        return taken.to_lists()


@dataclass(frozen=True)
class FoundMinor(Minor):
    """A minor of a matroid that is isomorphic to another `matroid`, as `Matroid.find_minor` returns it."""

    matroid: Matroid = dataclass_field(repr=False)
    """The matroid that was wanted, with its own names of elements."""
    field: Field
    shape: tuple[int, int]
    pivots: tuple[tuple[int, int], ...]
    """Rows and columns, counted from 0."""
    rows: tuple[int, ...]
    columns: tuple[int, ...]
    labels: tuple[Label, ...]
    """The elements of the matroid that has the minor."""
    names: Names | None = dataclass_field(default=None, compare=False, repr=False)

    def _field(self) -> Field:
        return self.field

    def _other(self) -> Matroid:
        return self.matroid

    def _title(self) -> str:
        return f"of rank {len(self.rows)} with {len(self.rows) + len(self.columns)} elements"


def elements_after(shape: tuple[int, int], pivots: Iterable[tuple[int, int]]) -> tuple[list[Line], list[Line]]:
    """The elements of the rows and the columns of a matrix after pivots. Before the pivots each line is its own element."""
    rows = [Line("row", row) for row in range(shape[0])]
    columns = [Line("column", column) for column in range(shape[1])]
    for row, column in pivots:
        rows[row], columns[column] = columns[column], rows[row]
    return rows, columns


def _line_set(lines: Iterator[Line]) -> LineSet:
    found = tuple(lines)
    rows = tuple(sorted(line.number for line in found if line.kind == "row"))
    return LineSet(rows, tuple(sorted(line.number for line in found if line.kind == "column")))
