"""Camion's signing of a 0/1 matrix, as the steps of a chain.

If any signs make the matrix totally unimodular, these do. All such signs are the same up to multiplication of lines by -1.

The lines are added one after another, each after a line with which it has a one. The first one of a line in common with earlier lines is
free. The next one is the end of a shortest path through earlier lines from a signed one of the line. The path and the line are then a
chordless cycle, so each of their lines has two ones. `check` tests every chain, whatever made it.
"""

from __future__ import annotations

from collections import deque
from collections.abc import Iterator, Sequence

from ..matrices.lines import LineSet
from ..matrices.matrix import Matrix
from .chains import ChainStep

__all__ = ["forced_signs"]


def forced_signs(matrix: Matrix) -> tuple[tuple[ChainStep, ...], Matrix]:
    """The steps that sign all ones of a 0/1 matrix, and the signed matrix."""
    signing = _Signing(matrix)
    steps = tuple(signing.steps())
    nonzeros = sorted((row, column, sign) for (row, column), sign in signing.signs.items())
    return steps, Matrix(matrix.shape, tuple(nonzeros), matrix.names)


class _Signing:
    """The signs that are given so far. Lines are numbers here: first the rows, then the columns."""

    def __init__(self, matrix: Matrix) -> None:
        self.signs: dict[tuple[int, int], int] = {}
        self._rows, columns = matrix.shape
        self._crossings: list[list[int]] = [[] for _ in range(self._rows + columns)]
        """The lines with which each line has a one."""
        self._before: list[list[int]] = [[] for _ in self._crossings]
        """Those of them among the lines before, for these."""
        for row, column, _ in matrix.nonzeros:
            self._crossings[row].append(self._rows + column)
            self._crossings[self._rows + column].append(row)

    def steps(self) -> Iterator[ChainStep]:
        """Signs all ones, one step after another."""
        is_before = bytearray(len(self._crossings))
        for line in self._growing():
            others = [other for other in self._crossings[line] if is_before[other]]
            yield from self._line_steps(line, others)
            is_before[line] = True
            self._before[line] = others
            for other in others:
                self._before[other].append(line)

    def _growing(self) -> Iterator[int]:
        """All lines, each after a line with which it has a one, except the first line of a connected part."""
        is_taken = bytearray(len(self._crossings))
        for first in range(len(self._crossings)):
            pending = [] if is_taken[first] else [first]
            is_taken[first] = True
            for line in pending:
                yield line
                new = [other for other in self._crossings[line] if not is_taken[other]]
                pending += new
                for other in new:
                    is_taken[other] = True

    def _line_steps(self, line: int, others: Sequence[int]) -> Iterator[ChainStep]:
        """Signs the ones of a line with some lines before."""
        signed, left = list(others[:1]), set(others[1:])
        for first in signed[:1]:
            yield self._step(line, first, 1, None)
        while left:
            cycle = [line, *self._shortest_path(signed, left)]
            total = sum(self.signs[self._place(one, other)] for one, other in zip(cycle, cycle[1:]))
            yield self._step(line, cycle[-1], 1 if (total + 1) % 4 == 0 else -1, self._line_set(cycle))
            signed.append(cycle[-1])
            left.remove(cycle[-1])

    def _shortest_path(self, starts: Sequence[int], ends: set[int]) -> list[int]:
        """A shortest path through the lines before from one of the starts to one of the ends, to which they are joined."""
        origins = dict.fromkeys(starts, -1)
        pending = deque(starts)
        while True:
            line = pending.popleft()
            for other in self._before[line]:
                if other not in origins:
                    origins[other] = line
                    if other in ends:
                        return _way_back(origins, other)[::-1]
                    pending.append(other)

    def _step(self, line: int, other: int, sign: int, lines: LineSet | None) -> ChainStep:
        place = self._place(line, other)
        self.signs[place] = sign
        return ChainStep(*place, lines)

    def _place(self, line: int, other: int) -> tuple[int, int]:
        row, column = sorted((line, other))
        return row, column - self._rows

    def _line_set(self, lines: Sequence[int]) -> LineSet:
        numbers = sorted(lines)
        rows = tuple(line for line in numbers if line < self._rows)
        return LineSet(rows, tuple(line - self._rows for line in numbers[len(rows) :]))


def _way_back(origins: dict[int, int], line: int) -> list[int]:
    way = []
    while line != -1:
        way.append(line)
        line = origins[line]
    return way
