"""Connected components and 2-separations of a standard matrix.

The sides of a 2-separation divide the lines so that one of the two blocks between them is zero and the other has rank one. For a nonzero of
that block, and for rows i of its side and columns j of the other side, the two rows and two columns have determinant 0. So with the
nonzero at row x and column y, row i is on the side of x together with each column j at which this determinant is not 0, and a column on
the side of x together with each row in which it has a nonzero. The sides exist if and only if these implications between the other lines do
not lead from each to each. Some nonzero of a spanning tree of the lines is in the block if the matroid is connected.

Source: Cunningham and Edmonds 1980, Cunningham 1982, for decompositions of matroids and graphs into two.
"""

from __future__ import annotations

from collections.abc import Iterator
from dataclasses import dataclass
from typing import Any

from .tableaux import Row, Tableau, bits_of

__all__ = ["Crossings"]


@dataclass(frozen=True)
class Crossings:
    """The rows and the columns of a standard matrix. Elements are bits: first the rows, then the columns."""

    rows: tuple[Row, ...]
    columns: tuple[Row, ...]

    @classmethod
    def of(cls, tableau: Tableau[Any]) -> Crossings:
        """The crossings of a tableau of which no line was removed."""
        return cls(tuple(tableau.rows.values()), tuple(tableau.columns().values()))

    def components(self) -> Iterator[int]:
        """The connected components, each as a set of bits."""
        height = len(self.rows)
        left = (1 << height + len(self.columns)) - 1
        near = [sum(row) << height for row in self.rows] + [sum(column) for column in self.columns]
        while left:
            found = pending = left & -left
            while pending:
                at = pending.bit_length() - 1
                new = near[at] & ~found
                pending, found = pending & ~(1 << at) | new, found | new
            left &= ~found
            yield found

    def separation(self) -> int | None:
        """One side of a 1- or 2-separation, or None if there is none."""
        whole = (1 << len(self.rows) + len(self.columns)) - 1
        first = next(self.components(), whole)
        if first != whole:
            return first
        if len(self.rows) + len(self.columns) < 4:
            return None
        return next((side for row, column in self._tree() if (side := self._side(row, column)) is not None), None)

    def _tree(self) -> Iterator[tuple[int, int]]:
        """The nonzeros of a spanning tree of the lines of a connected matrix."""
        rows, columns, pending = 1, 0, [(True, 0)]
        while pending:
            is_row, line = pending.pop()
            for other in bits_of(sum(self.rows[line]) & ~columns if is_row else sum(self.columns[line]) & ~rows):
                yield (line, other) if is_row else (other, line)
                rows, columns = (rows, columns | 1 << other) if is_row else (rows | 1 << other, columns)
                pending.append((not is_row, other))

    def _side(self, row: int, column: int) -> int | None:
        """The side of a row in a separation whose other side has the column, where the block with their nonzero has rank one."""
        height = len(self.rows)
        gone = 1 << row | 1 << height + column
        forced = self._forced(row, column)
        others = (1 << height + len(self.columns)) - 1 & ~gone
        backwards = [0] * (height + len(self.columns))
        for line in bits_of(others):
            for other in bits_of(forced[line] & others):
                backwards[other] |= 1 << line
        start = others & -others
        after = _reached(forced, start, others)
        if after != others:
            return after | 1 << row
        before = _reached(backwards, start, others)
        return None if before == others else others & ~before | 1 << row

    def _forced(self, row: int, column: int) -> list[int]:
        """For each line the lines that are on the side of the row if it is."""
        height, own = len(self.rows), self.rows[row]
        is_one = own[0] >> column & 1
        equal = own if is_one else own[::-1]
        forced = []
        for line in self.rows:
            # Without sign and factor: what the row would be, to be a multiple of the given row that fits in the column.
            value = (line[0] >> column & 1) - (line[1] >> column & 1)
            wanted = (0, 0) if not value else equal if value > 0 else equal[::-1]
            forced.append((line[0] ^ wanted[0] | line[1] ^ wanted[1]) << height)
        return forced + [sum(line) for line in self.columns]


def _reached(near: list[int], start: int, within: int) -> int:
    found = pending = start
    while pending:
        at = pending.bit_length() - 1
        new = near[at] & within & ~found
        pending, found = pending & ~(1 << at) | new, found | new
    return found
