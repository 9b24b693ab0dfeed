"""Cycle faults through a row of a large matrix: short cycles of nonzeros with a sum of 2 modulo 4."""

from __future__ import annotations

from collections.abc import Collection, Iterator
from itertools import islice

from .pieces import Cells
from .rows import ModelRows

__all__ = ["Crossings", "faulty_cycles"]

_LINES = 10_000
"""The most lines that a search visits."""


class Crossings:
    """The lines that each line crosses in a nonzero, with the entries, for the rows with entries -1, 0 and 1.

    The numbers of the columns follow those of the rows.
    """

    def __init__(self, rows: ModelRows) -> None:
        self.height = len(rows.model.rows)
        self.near: list[list[tuple[int, int]]] = [[] for _ in range(self.height + len(rows.model.columns))]
        for row in rows.unit_rows:
            for column, entry in rows.entries[row]:
                self.near[row].append((self.height + column, int(entry)))
                self.near[self.height + column].append((row, int(entry)))

    def cells(self, lines: Collection[int]) -> Cells:
        """Some lines as rows and columns."""
        columns = sorted(line - self.height for line in lines if line >= self.height)
        return Cells(tuple(sorted(line for line in lines if line < self.height)), tuple(columns))


def faulty_cycles(crossings: Crossings, row: int, others: Collection[int], most: int) -> list[Cells]:
    """At most `most` cycles through a row and some of the other rows with a sum of 2 modulo 4, short ones first.

    All these rows have the entries -1, 0 and 1. The search begins in all columns of the row at once, without the row. A cycle is made of
    two lines that meet and were reached from two of these columns. It may have chords, so it need not be a violator.
    """
    # Each cycle is met from both of its last lines.
    return list(dict.fromkeys(islice(_cycles(crossings, row, others), 2 * most)))[:most]


def _cycles(crossings: Crossings, row: int, others: Collection[int]) -> Iterator[Cells]:
    """The cycles in the order in which the search closes them."""
    # Of each line the line before it, the column of the row from which it was reached, and the sum of the entries up to it.
    before = {column: (row, column, entry) for column, entry in crossings.near[row]}
    waiting = list(before)
    for line in waiting:
        earlier, source, total = before[line]
        for other, entry in crossings.near[line]:
            if other == earlier or (other < crossings.height and other not in others):
                continue
            if other not in before:
                before[other] = line, source, total + entry
                waiting.append(other)
            elif before[other][1] != source and (total + entry + before[other][2]) % 4 == 2:
                yield crossings.cells({row, *_path(before, line, row), *_path(before, other, row)})
        if len(waiting) > _LINES:
            return


def _path(before: dict[int, tuple[int, int, int]], line: int, row: int) -> Iterator[int]:
    """The lines from a line to the column from which it was reached."""
    while line != row:
        yield line
        line = before[line][0]
