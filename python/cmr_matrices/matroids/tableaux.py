"""Standard matrices over GF(2) and GF(3) while lines go and elements change their sides, with rows as sets of bits.

The rows of a standard matrix `A` are a basis of the matroid that `[I A]` represents, and its columns are all other elements. A pivot
changes the basis: its row and its column exchange their elements. Removing a row contracts its element, and removing a column deletes it.
"""

from __future__ import annotations

from collections.abc import Callable, Hashable, Iterable, Iterator, Sequence
from dataclasses import dataclass
from operator import itemgetter
from typing import Generic, Literal, TypeVar

from ..errors import BadInput
from ..matrices.lines import Line
from ..matrices.matrix import Matrix

__all__ = ["Field", "Operation", "Row", "Tableau", "bits_of"]

Field = Literal[2, 3]
"""The number of elements of a field."""

Operation = Literal["delete", "contract"]

Element = TypeVar("Element", bound=Hashable)
"""An element: a line of the matrix, or a name."""

Row = tuple[int, int]
"""The places of the ones and of the entries -1 of a row, as bits. Over GF(2) there are no entries -1."""


@dataclass
class Tableau(Generic[Element]):
    """A standard matrix with the element at each of its lines, and the pivots that have led to it.

    Lines keep their numbers when others go, so a place is one of the matrix that the tableau was made of.
    """

    field: Field
    rows: dict[int, Row]
    row_elements: dict[int, Element]
    column_elements: dict[int, Element]
    places: dict[Element, Line]
    """The line of each element."""
    pivots: list[tuple[int, int]]

    @classmethod
    def of(cls, matrix: Matrix, field: Field, basis: Sequence[Element], others: Sequence[Element]) -> Tableau[Element]:
        """The tableau of a matrix with elements for its rows and for its columns."""
        if field == 2:
            matrix.must_be_binary()
        planes = {row: [0, 0] for row in range(matrix.shape[0])}
        for row, column, value in matrix.nonzeros:
            planes[row][value < 0] |= 1 << column
        rows = {row: (plus, minus) for row, (plus, minus) in planes.items()}
        places = {element: Line("row", row) for row, element in enumerate(basis)}
        places |= {element: Line("column", column) for column, element in enumerate(others)}
        return cls(field, rows, dict(enumerate(basis)), dict(enumerate(others)), places, [])

    def copy(self) -> Tableau[Element]:
        """Another tableau that is the same."""
        elements = dict(self.row_elements), dict(self.column_elements)
        return Tableau(self.field, dict(self.rows), *elements, dict(self.places), list(self.pivots))

    def take(self, other: Tableau[Element]) -> None:
        """Becomes another tableau, which is not used any more."""
        self.rows, self.pivots = other.rows, other.pivots
        self.row_elements, self.column_elements, self.places = other.row_elements, other.column_elements, other.places

    def __len__(self) -> int:
        return len(self.places)

    @property
    def elements(self) -> tuple[Element, ...]:
        """The elements: first the basis, then the others."""
        return (*self.row_elements.values(), *self.column_elements.values())

    def entry(self, row: int, column: int) -> int:
        """The entry at a place."""
        plus, minus = self.rows[row]
        return (plus >> column & 1) - (minus >> column & 1)

    @property
    def shape(self) -> tuple[int, int]:
        """The numbers of rows and columns that are left."""
        return len(self.row_elements), len(self.column_elements)

    def to_text(self) -> str:
        """The dense text of `matrix`, which the program reads."""
        pick = _picker(self.column_elements)
        width = 1 + max(self.column_elements, default=0)
        lines = ["{} {}".format(*self.shape)]
        for row in self.row_elements:
            plus, minus = (f"{plane:0{width}b}"[::-1] for plane in self.rows[row])
            entries = pick(plus) if self.field == 2 else map(_ENTRIES.__getitem__, zip(pick(plus), pick(minus)))
            lines.append(" ".join(entries))
        return "\n".join([*lines, ""])

    def matrix(self) -> Matrix:
        """The matrix of the lines that are left, in their order."""
        places = {column: place for place, column in enumerate(self.column_elements)}
        nonzeros = tuple(
            (place, places[column], 1 if self.rows[row][0] >> column & 1 else -1)
            for place, row in enumerate(self.row_elements)
            for column in bits_of(self.rows[row][0] | self.rows[row][1])
        )
        return Matrix((len(self.row_elements), len(places)), nonzeros)

    def keep(self, rows: Iterable[int], columns: Iterable[int]) -> None:
        """Leaves only some lines, each by its place among those that are left, as a submatrix of `matrix` has them."""
        kept = set(rows), set(columns)
        for place, row in enumerate(tuple(self.row_elements)):
            if place not in kept[0]:
                self.remove_row(row)
        self.remove_columns(column for place, column in enumerate(tuple(self.column_elements)) if place not in kept[1])

    def remove_row(self, row: int) -> None:
        """Contracts the element of a row."""
        del self.rows[row], self.places[self.row_elements.pop(row)]

    def remove_columns(self, columns: Iterable[int]) -> None:
        """Deletes the elements of some columns."""
        gone = 0
        for column in tuple(columns):
            del self.places[self.column_elements.pop(column)]
            gone |= 1 << column
        if gone:
            self.rows = {row: (plus & ~gone, minus & ~gone) for row, (plus, minus) in self.rows.items()}

    def pivot(self, row: int, column: int) -> None:
        """Pivots at a nonzero a: an entry beside its lines becomes `A[i][j] - A[i][column] A[row][j] / a`.

        The row is divided by a, the column by -a, and a is inverted.
        """
        bit, value = 1 << column, self.entry(row, column)
        if not value:
            raise BadInput(f"there is no pivot at row {row}, column {column}, where the entry is 0")
        own = self.rows[row] if value > 0 else _negative(self.rows[row])
        without = own[0] & ~bit, own[1] & ~bit
        for other, (plus, minus) in self.rows.items():
            if other == row or not (plus | minus) & bit:
                continue
            below = 1 if plus & bit else -1
            rest = self._sum((plus & ~bit, minus & ~bit), without if below < 0 else self._negated(without))
            negative = below * value > 0 and self.field == 3
            self.rows[other] = (rest[0], rest[1] | bit) if negative else (rest[0] | bit, rest[1])
        self.rows[row] = (without[0] | bit, without[1]) if value > 0 else (without[0], without[1] | bit)
        leaving, entering = self.row_elements[row], self.column_elements[column]
        self.row_elements[row], self.column_elements[column] = entering, leaving
        self.places[entering], self.places[leaving] = Line("row", row), Line("column", column)
        self.pivots.append((row, column))

    def remove_lines(self, elements: Iterable[Element]) -> None:
        """Removes the lines of elements: elements of the basis are contracted, and the others deleted."""
        lines = [self.places[element] for element in elements]
        for line in lines:
            if line.kind == "row":
                self.remove_row(line.number)
        self.remove_columns(line.number for line in lines if line.kind == "column")

    def apply(self, operations: Iterable[tuple[Element, Operation]]) -> None:
        """Deletes and contracts elements. A deleted row or a contracted column is first exchanged by a pivot."""
        chosen = tuple(operations)
        by_line = [one for one in chosen if (self.places[one[0]].kind == "row") == (one[1] == "contract")]
        self.remove_lines(element for element, _ in by_line)
        for element, operation in chosen:
            if element in self.places:
                self._apply(operation, element)

    def _apply(self, operation: Operation, element: Element) -> None:
        line = self.places[element]
        if (line.kind == "row") != (operation == "contract"):
            partner = self._partner(line)
            if partner is not None:
                # Without a partner it is a loop or a coloop, and deleting and contracting it are the same.
                self.pivot(*((line.number, partner) if line.kind == "row" else (partner, line.number)))
        self.remove_lines([element])

    def move(self, element: Element, kept: Iterable[Element]) -> None:
        """Brings an element into the basis, in the place of one that is not among those that are to be kept there."""
        line, stay = self.places[element], set(kept)
        if line.kind == "column":
            rows = (row for row, at in self.row_elements.items() if at not in stay and self.entry(row, line.number))
            self.pivot(next(rows), line.number)

    def columns(self) -> dict[int, Row]:
        """The columns, each with the places of its ones and of its entries -1, as bits by the order of the rows."""
        return dict(zip(self.column_elements, zip(self._turned(0), self._turned(1))))

    def _turned(self, plane: Literal[0, 1]) -> list[int]:
        """The columns of ones, or those of entries -1. Texts are turned many times faster than bits one by one."""
        if not any(row[plane] for row in self.rows.values()):
            return [0] * len(self.column_elements)
        pick = _picker(self.column_elements)
        width = 1 + max(self.column_elements, default=0)
        texts = (pick(f"{row[plane]:0{width}b}"[::-1]) for row in reversed(self.rows.values()))
        return [int("".join(bits), 2) for bits in zip(*texts)]

    def simplify(self) -> None:
        """Takes away lines that are zero, have one nonzero, or equal another or its negative, until none is left that can go.

        What goes is a loop, a coloop, or one of two elements that are parallel or in series.
        """
        while self.remove_reducible_rows() or self.remove_reducible_columns():
            pass

    def remove_reducible_rows(self) -> bool:
        """Contracts coloops, and all but one of the elements that are in series. Whether there was one."""
        rows = _reducible(self.rows.items())
        for row in rows:
            self.remove_row(row)
        return bool(rows)

    def remove_reducible_columns(self) -> bool:
        """Deletes loops, and all but one of the elements that are parallel. Whether there was one."""
        columns = _reducible(self.columns().items())
        self.remove_columns(columns)
        return bool(columns)

    def _partner(self, line: Line) -> int | None:
        """A line that crosses a line at a nonzero. Of several columns it is the first, and of several rows one with few nonzeros."""
        if line.kind == "row":
            return next(bits_of(sum(self.rows[line.number])), None)
        bit = 1 << line.number
        crossing = [row for row, (plus, minus) in self.rows.items() if (plus | minus) & bit]
        return min(crossing, key=lambda row: sum(self.rows[row]).bit_count()) if crossing else None

    def _sum(self, first: Row, second: Row) -> Row:
        if self.field == 2:
            return first[0] ^ second[0], 0
        (plus, minus), (others, negatives) = first, second
        return (
            plus & ~(others | negatives) | others & ~(plus | minus) | minus & negatives,
            minus & ~(others | negatives) | negatives & ~(plus | minus) | plus & others,
        )

    def _negated(self, row: Row) -> Row:
        return row if self.field == 2 else _negative(row)


_ENTRIES = {("0", "0"): "0", ("1", "0"): "1", ("0", "1"): "-1"}
"""The word of an entry by its bits."""


def _picker(places: Iterable[int]) -> Callable[[str], tuple[str, ...]]:
    """What picks the characters at some places of a text."""
    wanted = tuple(places)
    if len(wanted) < 2:
        return lambda text: tuple(text[place] for place in wanted)
    return itemgetter(*wanted)


def _negative(row: Row) -> Row:
    return row[1], row[0]


def bits_of(number: int) -> Iterator[int]:
    """The positions of the bits that are set, in increasing order."""
    while number:
        least = number & -number
        yield least.bit_length() - 1
        number ^= least


def _reducible(lines: Iterable[tuple[int, Row]]) -> list[int]:
    """Lines that are zero, have one nonzero, or equal an earlier one or its negative."""
    seen: set[Row] = set()
    found = []
    for number, line in lines:
        if (line[0] | line[1]).bit_count() < 2 or line in seen or _negative(line) in seen:
            found.append(number)
        seen.add(line)
    return found
