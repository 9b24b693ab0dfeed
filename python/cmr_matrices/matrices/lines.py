"""Lines of a matrix, which are its rows and columns, and their names. In Python they are counted from 0, in texts from 1."""

from __future__ import annotations

from collections.abc import Iterable, Iterator, Sequence
from dataclasses import dataclass
from typing import Literal

from ..errors import BadInput
from ..given import text_given

__all__ = ["Kind", "Line", "LineSet", "Names"]

Kind = Literal["row", "column"]


@dataclass(frozen=True, order=True, slots=True)
class Line:
    """A row or a column of a matrix, counted from 0."""

    kind: Kind
    number: int

    @property
    def word(self) -> str:
        """The line in a text, such as `r3` for the row 2."""
        return f"{self.kind[0]}{self.number + 1}"

    def transposed(self) -> Line:
        """The line of the transposed matrix that this one becomes."""
        return Line("column" if self.kind == "row" else "row", self.number)

    @classmethod
    def of_word(cls, word: str) -> Line:
        """The line that a word such as `r3` or `c12` of a text names."""
        return cls("row" if word[0] == "r" else "column", int(word[1:]) - 1)


@dataclass(frozen=True, slots=True)
class LineSet:
    """Some rows and columns of a matrix, counted from 0, each list increasing."""

    rows: tuple[int, ...]
    columns: tuple[int, ...]

    def __len__(self) -> int:
        return len(self.rows) + len(self.columns)

    def __iter__(self) -> Iterator[Line]:
        yield from (Line("row", row) for row in self.rows)
        yield from (Line("column", column) for column in self.columns)

    def __contains__(self, line: object) -> bool:
        return isinstance(line, Line) and line.number in (self.rows if line.kind == "row" else self.columns)

    @property
    def size(self) -> str:
        """The numbers of rows and columns as the program prints them, such as `3x4`."""
        return f"{len(self.rows)}x{len(self.columns)}"

    @property
    def words(self) -> str:
        """The two counts and the two lists, as in texts."""
        numbers = (
            len(self.rows),
            len(self.columns),
            *(row + 1 for row in self.rows),
            *(column + 1 for column in self.columns),
        )
        return " ".join(map(str, numbers))


@dataclass(frozen=True, slots=True)
class Names:
    """The names of all rows and of all columns of a matrix, in their order."""

    rows: tuple[str, ...]
    columns: tuple[str, ...]

    @classmethod
    def numbered(cls, rows: int, columns: int, first: int = 0) -> Names:
        """Names for a matrix that has none: `r0`, `r1`, .., `c0`, .., or counted from another number."""
        return cls(
            tuple(f"r{number + first}" for number in range(rows)),
            tuple(f"c{number + first}" for number in range(columns)),
        )

    @property
    def shape(self) -> tuple[int, int]:
        """The numbers of rows and columns."""
        return len(self.rows), len(self.columns)

    def row_list(self, rows: Iterable[int]) -> str:
        """The names of some rows with a space between them."""
        return " ".join(_pick(self.rows, row, "row") for row in rows)

    def column_list(self, columns: Iterable[int]) -> str:
        """The names of some columns with a space between them."""
        return " ".join(_pick(self.columns, column, "column") for column in columns)

    def line_set(self, lines: LineSet) -> str:
        """The lines as the program prints them, with names for numbers."""
        parts = ("rows", self.row_list(lines.rows), "columns", self.column_list(lines.columns))
        return " ".join(part for part in parts if part)

    def line(self, line: Line) -> str:
        """The name of a line."""
        return _pick(self.rows if line.kind == "row" else self.columns, line.number, line.kind)

    def line_list(self, lines: Iterable[Line]) -> str:
        """The names of some lines with a space between them."""
        return " ".join(self.line(line) for line in lines)

    def must_fit(self, rows: int, columns: int) -> None:
        """Raises `BadInput` if the matrix has another size."""
        if self.shape != (rows, columns):
            size = f"{len(self.rows)}x{len(self.columns)}"
            raise BadInput(f"the names are those of a matrix of size {size}, and here it is {rows}x{columns}")

    def part(self, rows: Iterable[int], columns: Iterable[int]) -> Names:
        """The names of a submatrix."""
        return Names(tuple(self.rows[row] for row in rows), tuple(self.columns[column] for column in columns))

    def exchanged(self, row: int, column: int) -> Names:
        """The names after a pivot, which exchanges those of a row and a column."""
        rows, columns = list(self.rows), list(self.columns)
        rows[row], columns[column] = columns[column], rows[row]
        return Names(tuple(rows), tuple(columns))

    def transposed(self) -> Names:
        """The names of the transposed matrix."""
        return Names(self.columns, self.rows)

    def to_text(self) -> str:
        """A line `r1 NAME` for each row and then a line `c1 NAME` for each column."""
        rows = [f"r{number} {name}\n" for number, name in enumerate(self.rows, 1)]
        columns = [f"c{number} {name}\n" for number, name in enumerate(self.columns, 1)]
        return "".join(rows + columns)

    @classmethod
    def from_text(cls, text: str) -> Names:
        """The names that a text contains. A name is the rest of its line after the first space."""
        rows: list[str] = []
        columns: list[str] = []
        for place, line in enumerate(text_given("no names", text).splitlines(), 1):
            word, _, name = line.partition(" ")
            if name and not columns and word == f"r{len(rows) + 1}":
                rows.append(name)
            elif name and word == f"c{len(columns) + 1}":
                columns.append(name)
            else:
                raise BadInput(f"line {place} is not the name of the next row or column")
        return cls(tuple(rows), tuple(columns))


def _pick(names: Sequence[str], place: int, kind: Kind) -> str:
    if not 0 <= place < len(names):
        raise BadInput(f"{kind} {place + 1} has no name: there are {len(names)} names of {kind}s")
    return names[place]
