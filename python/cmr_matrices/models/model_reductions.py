"""Reductions of constraints of any number, and their connected parts.

Removing a line that is zero, has one nonzero, or equals another line or its negative neither creates nor destroys a violator
(docs/DEFINITIONS.md). A violator that contains no smaller violator is in one connected part. So the matrix is totally unimodular if and
only if all connected parts of the reduced matrix are.
"""

from __future__ import annotations

import random
from collections import Counter, deque
from collections.abc import Iterable, Iterator

from ..evidence.reductions import Reason, Reduction, Reductions
from ..matrices.lines import Line
from .constraints import Constraints

__all__ = ["connected_parts", "counted", "reduced"]


def reduced(constraints: Constraints) -> tuple[Constraints, Reductions]:
    """What the reductions leave, and their list, in which each step speaks of what the steps before it leave."""
    work = _Work(constraints)
    steps = Reductions(tuple(work.steps()), constraints.names)
    height = work.height
    rows = [line for line in sorted(work.left) if line < height]
    columns = [line - height for line in sorted(work.left) if line >= height]
    return _part(constraints, rows, columns), steps


def connected_parts(constraints: Constraints) -> list[Constraints]:
    """The connected parts with at least one nonzero, in the order of their first rows."""
    height = constraints.names.shape[0]
    nears = _nears(constraints)
    numbers: dict[int, int] = {}
    lines: list[tuple[list[int], list[int]]] = []
    for start in range(height):
        if start in numbers or not nears[start]:
            continue
        numbers[start] = len(lines)
        found = [start]
        for line in found:
            fresh = [other for other in nears[line] if other not in numbers]
            numbers.update(dict.fromkeys(fresh, len(lines)))
            found += fresh
        found.sort()
        lines.append(([it for it in found if it < height], [it - height for it in found if it >= height]))
    if len(lines) == 1:
        return [_part(constraints, *lines[0])]
    entries: list[dict[tuple[int, int], int]] = [{} for _ in lines]
    for place, entry in constraints.entries.items():
        entries[numbers[place[0]]][place] = entry
    parts = (Constraints(constraints.names, own, constraints.scalings) for own in entries)
    return [_part(part, *own) for part, own in zip(parts, lines)]


def _part(constraints: Constraints, rows: list[int], columns: list[int]) -> Constraints:
    row_places = {row: place for place, row in enumerate(rows)}
    column_places = {column: place for place, column in enumerate(columns)}
    entries = {
        (row_places[row], column_places[column]): entry
        for (row, column), entry in constraints.entries.items()
        if row in row_places and column in column_places
    }
    return Constraints(constraints.names.part(rows, columns), entries, constraints.scalings)


def _nears(constraints: Constraints) -> list[dict[int, int]]:
    """The lines that each line crosses in a nonzero, with the entries. The numbers of the columns follow those of the rows."""
    height, width = constraints.names.shape
    nears: list[dict[int, int]] = [{} for _ in range(height + width)]
    for (row, column), entry in constraints.entries.items():
        nears[row][height + column] = entry
        nears[height + column][row] = entry
    return nears


class _Work:
    """Lines that are left, with a number for each that is the same for copies.

    The number of a line is the sum over its entries, each times a random number of the crossing line. So it changes with one
    subtraction when that line is removed. Lines with one number, up to its sign, are compared. Rows are lines 0 to `height` - 1, and
    columns follow.
    """

    def __init__(self, constraints: Constraints) -> None:
        self.height, width = constraints.names.shape
        count = self.height + width
        chance = random.Random(1)
        self._chance = [chance.getrandbits(120) for _ in range(count)]
        self._nears = _nears(constraints)
        self._sums = [sum(entry * self._chance[other] for other, entry in near.items()) for near in self._nears]
        self._first: dict[tuple[bool, int], int] = {}
        self._queue = deque(range(count))
        self.left = set(range(count))

    def steps(self) -> Iterator[Reduction]:
        """Removes lines until none is reducible."""
        waiting = set(self._queue)
        while self._queue:
            line = self._queue.popleft()
            waiting.discard(line)
            if line not in self.left:
                continue
            step = self._step(line)
            if step is not None:
                yield step
                fresh = [other for other in self._take(line) if other not in waiting]
                waiting.update(fresh)
                self._queue.extend(fresh)

    def _step(self, line: int) -> Reduction | None:
        near = self._nears[line]
        if not near:
            return Reduction(self._line(line), "zero")
        if len(near) == 1:
            return Reduction(self._line(line), "unit", self._line(next(iter(near))))
        other = self._first.setdefault(self._key(line), line)
        if other == line:
            return None
        if self._nears[other] == near:
            return Reduction(self._line(line), "copy", self._line(other))
        if self._nears[other] == {crossing: -entry for crossing, entry in near.items()}:
            return Reduction(self._line(line), "negative", self._line(other))
        return None

    def _take(self, line: int) -> list[int]:
        """Removes a line, and gives those that have changed."""
        self._forget(line)
        self.left.discard(line)
        changed, self._nears[line] = self._nears[line], {}
        for other, entry in changed.items():
            self._forget(other)
            del self._nears[other][line]
            self._sums[other] -= entry * self._chance[line]
        return list(changed)

    def _forget(self, line: int) -> None:
        key = self._key(line)
        if self._first.get(key) == line:
            del self._first[key]

    def _key(self, line: int) -> tuple[bool, int]:
        return line < self.height, abs(self._sums[line])

    def _line(self, line: int) -> Line:
        return Line("row", line) if line < self.height else Line("column", line - self.height)


def counted(steps: Iterable[Reduction]) -> str:
    """How many lines go, by reason, such as `12 (3 zero, 9 unit)`."""
    counts = Counter(step.reason for step in steps)
    reasons: tuple[Reason, ...] = ("zero", "unit", "copy", "negative")
    listed = ", ".join(f"{counts[reason]} {reason}" for reason in reasons if counts[reason])
    return f"{sum(counts.values())} ({listed})" if counts else "0"
