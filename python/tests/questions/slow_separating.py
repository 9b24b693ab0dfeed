"""A plain slow program for the position of the first cut of a matrix.

It follows the rule of docs/DEFINITIONS.md and grows all seeds of cuts in their order. Lines have numbers, first the rows, then the columns.
"""

from __future__ import annotations

from collections.abc import Collection, Iterator
from itertools import permutations, product
from typing import NamedTuple

from cmr_matrices import BadEntry, Matrix

__all__ = ["Place", "cut_place", "first_cut", "place_before_cut", "separating_place"]

Rows = list[list[int]]
Place = tuple[int, int]
Lines = frozenset[int]

LEAST = 4
"""The number of lines that a side of a cut has at least."""


class Corners(NamedTuple):
    """Row i and column p of side one, row k and column j of side two. The entries (i, j) and (k, p) are not 0."""

    i: int
    p: int
    k: int
    j: int


class Side(NamedTuple):
    """The ends and the inner lines of a side."""

    end_rows: list[int]
    end_columns: list[int]
    inner_rows: list[int]
    inner_columns: list[int]


def separating_place(matrix: Matrix) -> Place | None:
    """The position of the first cut. There is none without a cut, or if the first cut has no position."""
    rows = matrix.to_lists()
    side = first_cut(rows)
    return None if side is None else cut_place(rows, side)


def place_before_cut(rows: Rows) -> Place | None:
    """The first nonzero, by rows and then by columns, whose pivot has a 2, a -2 or a cut."""
    matrix = Matrix.of(rows)
    return next(((row, column) for row, column, _ in matrix.nonzeros if _gives_cut(matrix, row, column)), None)


def _gives_cut(matrix: Matrix, row: int, column: int) -> bool:
    try:
        return first_cut(matrix.pivoted(row, column).to_lists()) is not None
    except BadEntry:
        return True


# ---- cuts


def first_cut(rows: Rows) -> Lines | None:
    """Side one of the cut of the first good seed."""
    table = _Table(rows)
    return next((side for corners in _corners(rows) for side in table.sides(corners)), None)


def _corners(rows: Rows) -> Iterator[Corners]:
    height, width = range(len(rows)), range(len(rows[0]) if rows else 0)
    for i, p, k, j in product(height, width, height, width):
        if k != i and j != p and rows[i][j] and rows[k][p]:
            yield Corners(i, p, k, j)


class _Table:
    """The rows and then the columns of a matrix, with the differences of two lines, each computed once."""

    def __init__(self, rows: Rows) -> None:
        self.height = len(rows)
        self.lines = [*rows, *(list(column) for column in zip(*rows))]
        self._found: dict[tuple[int, int, int], Lines] = {}

    def sides(self, corners: Corners) -> Iterator[Lines]:
        """The sides of the good seeds with these corners, in their order. A side is the union of what its two more lines grow to."""
        count, named = len(self.lines), (corners.i, self.height + corners.p)
        base = self._grown(corners, frozenset(), named, {})
        grown: dict[int, Lines | None] = {}
        for line in range(count) if base is not None else ():
            grown[line] = self._grown(corners, base or frozenset(), (line,), grown)
        others = [line for line, side in grown.items() if side is not None and line not in named]
        for third, fourth in permutations(others, 2):
            side = (grown[third] or frozenset()) | (grown[fourth] or frozenset())
            if count - len(side) >= LEAST:
                yield side

    def _grown(self, corners: Corners, closed: Lines, more: Collection[int], known: dict[int, Lines | None]) -> Lines | None:
        """The least closed set with a closed set and more lines, or None if it has a line of the corners in side two."""
        side, waiting = set(closed), list(more)
        while waiting:
            line = waiting.pop()
            found = known.get(line, frozenset())
            if found is None or line in (corners.k, self.height + corners.j):
                return None
            side |= {line} | found
            waiting += self._pulled(corners, line) - side if line not in known else ()
        return frozenset(side)

    def _pulled(self, corners: Corners, line: int) -> Lines:
        """The lines with which a line of side one crosses in another entry than the product."""
        if line < self.height:
            other, across = corners.i, corners.j
        else:
            other, across = self.height + corners.p, corners.k
        return self._difference(line, other, self.lines[line][across] * self.lines[other][across])

    def _difference(self, line: int, other: int, factor: int) -> Lines:
        """The lines in which a line is not a multiple of another line."""
        if (line, other, factor) not in self._found:
            first = self.height if line < self.height else 0
            pairs = enumerate(zip(self.lines[line], self.lines[other]), first)
            self._found[line, other, factor] = frozenset(across for across, (here, there) in pairs if here != factor * there)
        return self._found[line, other, factor]


# ---- positions on shortest paths


def cut_place(rows: Rows, lines: Lines) -> Place | None:
    """The position of the cut with this side one: inside side one, or inside side two if side one is fit and side two is not."""
    one, two = _side(rows, lines, is_one=True), _side(rows, lines, is_one=False)
    if not _is_fit(rows, one):
        return _path_place(rows, one)
    return None if _is_fit(rows, two) else _path_place(rows, two)


def _side(rows: Rows, lines: Lines, *, is_one: bool) -> Side:
    """Side one or side two. An end is a line with a nonzero on the other side."""
    height, width = len(rows), len(rows[0])
    own_rows = [r for r in range(height) if (r in lines) == is_one]
    own_columns = [c for c in range(width) if (height + c in lines) == is_one]
    far_rows, far_columns = set(range(height)).difference(own_rows), set(range(width)).difference(own_columns)
    end_rows = [r for r in own_rows if any(rows[r][c] for c in far_columns)]
    end_columns = [c for c in own_columns if any(rows[r][c] for r in far_rows)]
    return Side(
        end_rows,
        end_columns,
        [r for r in own_rows if r not in end_rows],
        [c for c in own_columns if c not in end_columns],
    )


def _is_fit(rows: Rows, side: Side) -> bool:
    """Whether an end row and an end column cross in a zero, and an end row and an end column in a nonzero."""
    return len({rows[r][c] == 0 for r in side.end_rows for c in side.end_columns}) == 2


def _path_place(rows: Rows, side: Side) -> Place | None:
    """The first edge of a shortest path from an end row to an end column through inner lines; of several, the first by rows."""
    reached = set(side.end_columns)
    while True:
        through = [r for r in side.inner_rows if any(rows[r][c] for c in reached)]
        more = {c for c in side.inner_columns if any(rows[r][c] for r in through)} - reached
        edges = [(r, c) for r in side.end_rows for c in sorted(more) if rows[r][c]]
        if edges or not more:
            return min(edges, default=None)
        reached |= more
