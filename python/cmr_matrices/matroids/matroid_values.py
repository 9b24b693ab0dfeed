"""A matroid as a value: a standard matrix over a field, with labels for its elements. Operations and questions are built on it."""

from __future__ import annotations

import dataclasses
from collections.abc import Hashable, Iterable
from dataclasses import dataclass
from itertools import islice
from operator import index
from typing import Any, SupportsIndex

from ..errors import BadInput, shown
from ..given import listed
from ..matrices.lines import Line, Names
from ..matrices.matrix import Matrix
from .tableaux import Field, Row, Tableau, bits_of

__all__ = ["Label", "MatroidValue", "label_set", "labels_of", "tableau_of_columns"]

Label = Hashable
"""What names an element: a text, a number, or any other value that can be a key."""

_LISTED = 20
"""The most labels that an error lists."""


@dataclass(frozen=True, eq=False)
class MatroidValue:
    """The matroid that `[I A]` represents over a field. `matrix` is `A`: its rows name the elements of a basis, its columns the others.

    `labels` are the elements, first the basis and then the others; without them the elements are the names of the lines of the matrix.
    Two values are equal if their matrices, labels and fields are; `is_isomorphic` asks whether the matroids are the same up to labels.
    """

    matrix: Matrix
    field: Field = 2
    labels: tuple[Label, ...] | None = dataclasses.field(default=None, repr=False)

    def __post_init__(self) -> None:
        if self.field not in (2, 3):
            raise BadInput(f"the field has 2 or 3 elements, and here it is {shown(self.field)}")
        if self.field == 2:
            self.matrix.must_be_binary()
        if len(self.elements) != sum(self.matrix.shape):
            raise BadInput(f"there are {len(self.elements)} labels, and {sum(self.matrix.shape)} elements")
        if len(set(self.elements)) < len(self.elements):
            raise BadInput("two elements have one name")

    def __eq__(self, other: object) -> bool:
        if not isinstance(other, MatroidValue):
            return NotImplemented
        return (self.matrix, self.field, self.elements) == (other.matrix, other.field, other.elements)

    def __hash__(self) -> int:
        return hash((self.matrix, self.field, self.elements))

    @property
    def elements(self) -> tuple[Label, ...]:
        """The elements: first the basis, then the others."""
        return self._names.rows + self._names.columns if self.labels is None else self.labels

    @property
    def basis(self) -> tuple[Label, ...]:
        """The elements of the basis, which the rows represent."""
        return self.elements[: self.matrix.shape[0]]

    @property
    def others(self) -> tuple[Label, ...]:
        """The elements outside of the basis, which the columns represent."""
        return self.elements[self.matrix.shape[0] :]

    def __len__(self) -> int:
        return sum(self.matrix.shape)

    def __contains__(self, element: object) -> bool:
        return element in self.elements

    def label(self, line: Line) -> Label:
        """The element that a line of the matrix represents."""
        return (self.basis if line.kind == "row" else self.others)[line.number]

    def numbers(self, elements: Iterable[Label], what: str = "elements") -> list[int]:
        """The numbers of elements, counted from 0 in the order of `elements`. Raises `BadInput` for what is no element."""
        places = {element: place for place, element in enumerate(self.elements)}
        chosen = listed(what, elements, "elements")
        for element in chosen:
            if not isinstance(element, Hashable) or element not in places:
                raise BadInput(f"there is no element {shown(element)}; {self._known(element)}")
        return [places[element] for element in chosen]

    def vectors(self) -> list[Row]:
        """The column of `[I A]` of each element, as bits by the order of the rows."""
        columns = self.tableau().columns()
        return [*((1 << place, 0) for place in range(self.matrix.shape[0])), *columns.values()]

    def tableau(self) -> Tableau[Any]:
        """The standard matrix with the elements at its lines."""
        return Tableau.of(self.matrix, self.field, self.basis, self.others)

    def _known(self, element: object) -> str:
        """Which elements there are, for a person who named another."""
        alike = [one for one in self.elements if str(one) == str(element)]
        if alike:
            return f"there is {alike[0]!r} of type {type(alike[0]).__name__}"
        if not self.elements:
            return "the matroid has no elements"
        first = ", ".join(repr(one) for one in self.elements[:_LISTED])
        return f"the elements are {first}" + (f", and {len(self) - _LISTED} more" if len(self) > _LISTED else "")

    @property
    def _names(self) -> Names:
        return self.matrix.names or Names.numbered(*self.matrix.shape)


def labels_of(given: Iterable[object]) -> tuple[Label, ...]:
    """Labels as a caller gives them. Integers of numpy and of Sage become Python's."""
    found: list[Label] = []
    for label in given:
        if not isinstance(label, Hashable):
            raise BadInput(f"a label is a text, a number or another value that can be a key, and here it is {shown(label)}")
        found.append(index(label) if isinstance(label, SupportsIndex) and not isinstance(label, int) else label)
    return tuple(found)


def label_set(labels: Iterable[Label]) -> str:
    """Labels as a person reads a set of them."""
    return "{" + ", ".join(map(str, labels)) + "}"


@dataclass(frozen=True)
class _Spare:
    """An element of a basis that is there at first, and is replaced by an element of the matroid."""

    row: int


def tableau_of_columns(field: Field, height: int, columns: Iterable[tuple[Label, Row]]) -> Tableau[Any]:
    """The standard matrix of vectors with labels. Its basis is the first in their order."""
    listed_columns = list(columns)
    planes = {row: [0, 0] for row in range(height)}
    for place, (_, vector) in enumerate(listed_columns):
        for plane in (0, 1):
            for row in bits_of(vector[plane]):
                planes[row][plane] |= 1 << place
    spares: list[Label] = [_Spare(row) for row in planes]
    elements = [element for element, _ in listed_columns]
    places = {element: Line("row", row) for row, element in enumerate(spares)}
    places |= {element: Line("column", column) for column, element in enumerate(elements)}
    rows = {row: (plus, minus) for row, (plus, minus) in planes.items()}
    tableau: Tableau[Any] = Tableau(field, rows, dict(enumerate(spares)), dict(enumerate(elements)), places, [])
    for column in range(len(elements)):
        found = (row for row, at in tableau.row_elements.items() if isinstance(at, _Spare) and tableau.entry(row, column))
        for first in islice(found, 1):
            tableau.pivot(first, column)
    tableau.remove_lines([element for element in tableau.elements if isinstance(element, _Spare)])
    return tableau
