"""Matrices with at most two nonzeros in each column.

Such a matrix is totally unimodular if and only if its rows have a partition into two classes so that two nonzeros of a column are in
different classes if they have one sign, and in one class otherwise (Heller and Tompkins 1956). The classes are found as signs: after the
rows of one class are negated, the two nonzeros of a column have opposite signs. If there are no such signs, an odd cycle shows it: rows and
columns with two nonzeros in each line, whose entries have the sum 2 modulo 4. The determinant of a cycle without shorter ones is 2 or -2.
"""

from __future__ import annotations

from collections import deque
from collections.abc import Iterator, Sequence
from dataclasses import dataclass

from .sparse import Sparse

__all__ = ["OddCycle", "are_halves", "cycle_determinant", "has_two_at_most", "is_odd_cycle", "signs_or_cycle"]

_STARTS = 60
"""From how many rows of an odd cycle a shorter one is searched."""


@dataclass(frozen=True)
class OddCycle:
    """The rows and the columns of an odd cycle, in increasing order."""

    rows: tuple[int, ...]
    columns: tuple[int, ...]


def has_two_at_most(columns: Sparse) -> bool:
    """Whether each column has at most two nonzeros."""
    return all(len(column) <= 2 for column in columns)


def are_halves(columns: Sparse, signs: Sequence[int]) -> bool:
    """Whether each column has at most two nonzeros, and two of them have opposite signs after the rows are multiplied by these signs."""
    return has_two_at_most(columns) and all(
        sum(signs[row] * entry for row, entry in column) == 0 for column in columns if len(column) == 2
    )


def is_odd_cycle(columns: Sparse, cycle: OddCycle) -> bool:
    """Whether each line of the submatrix has two nonzeros, and its entries have the sum 2 modulo 4."""
    wanted = set(cycle.rows)
    if len(wanted) != len(cycle.rows) or len(set(cycle.columns)) != len(cycle.columns):
        return False
    counts = dict.fromkeys(cycle.rows, 0)
    total = 0
    for column in cycle.columns:
        found = [(row, entry) for row, entry in columns[column] if row in wanted]
        if len(found) != 2:
            return False
        for row, entry in found:
            counts[row] += 1
            total += entry
    return bool(counts) and set(counts.values()) == {2} and total % 4 == 2


def cycle_determinant(columns: Sparse, cycle: OddCycle) -> int | None:
    """The determinant of an odd cycle, 2 or -2, or None if its lines make several cycles.

    Two products of its nonzeros take one of each line, and the walk along the cycle takes them in turn.
    """
    rows = {row: at for at, row in enumerate(cycle.rows)}
    nonzeros = [[(rows[row], entry) for row, entry in columns[column] if row in rows] for column in cycle.columns]
    near: dict[int, list[int]] = {at: [] for at in rows.values()}
    for column, found in enumerate(nonzeros):
        for row, _ in found:
            near[row].append(column)
    products, orders = [1, 1], [[0] * len(rows), [0] * len(rows)]
    column, row, length = 0, nonzeros[0][0][0], 0
    while length == 0 or column != 0:
        own, other = sorted(nonzeros[column], key=lambda it: it[0] != row)
        for number, (taken, entry) in enumerate((own, other)):
            products[number] *= entry
            orders[number][column] = taken
        row = other[0]
        column = next(it for it in near[row] if it != column)
        length += 1
    if length != len(rows):
        return None
    return sum(product * _sign(order) for product, order in zip(products, orders))


def _sign(order: Sequence[int]) -> int:
    """The sign of a permutation."""
    sign, seen = 1, [False] * len(order)
    for start in range(len(order)):
        at = start
        while not seen[at]:
            seen[at] = True
            at = order[at]
            sign = -sign if at != start else sign
    return sign


def signs_or_cycle(columns: Sparse, height: int) -> tuple[int, ...] | OddCycle:
    """The signs of the rows of a matrix with at most two nonzeros in each column, or an odd cycle. Takes linear time."""
    return _Walks(columns, height).found()


class _Walks:
    """The graph whose nodes are the rows. A column with two nonzeros joins two rows, whose signs are to have a product."""

    def __init__(self, columns: Sparse, height: int) -> None:
        self._near: list[list[tuple[int, int, int]]] = [[] for _ in range(height)]
        for column, found in enumerate(columns):
            if len(found) == 2:
                (one, first), (other, second) = found
                product = -first * second
                self._near[one].append((other, product, column))
                self._near[other].append((one, product, column))

    def found(self) -> tuple[int, ...] | OddCycle:
        """The signs, or an odd cycle that is short."""
        signs = [0] * len(self._near)
        for start in range(len(signs)):
            if signs[start]:
                continue
            signs[start] = 1
            waiting = deque([start])
            while waiting:
                row = waiting.popleft()
                for other, product, _ in self._near[row]:
                    if not signs[other]:
                        signs[other] = signs[row] * product
                        waiting.append(other)
                    elif signs[other] != signs[row] * product:
                        return self._short(row)
        return tuple(signs)

    def _short(self, start: int) -> OddCycle:
        """A shortest odd cycle among those through the rows of one, of which some are tried."""
        best = self._cycle(start, None)
        assert best is not None
        rows = best.rows
        for row in rows[:: max(1, len(rows) // _STARTS)]:
            best = self._cycle(row, len(best.rows)) or best
        return best

    def _cycle(self, start: int, most: int | None) -> OddCycle | None:
        """An odd cycle in a shortest walk from a row to itself that changes its sign, or None if it has no less than `most` rows."""
        before: dict[tuple[int, int], tuple[tuple[int, int], int]] = {}
        level = [(start, 1)]
        length = 0
        while level and (start, -1) not in before:
            length += 1
            if most is not None and length >= most:
                return None
            after = []
            for row, sign in level:
                for other, product, column in self._near[row]:
                    state = (other, sign * product)
                    if state not in before and state != (start, 1):
                        before[state] = ((row, sign), column)
                        after.append(state)
            level = after
        return self._simple(list(_back(before, start))) if (start, -1) in before else None

    def _simple(self, walk: list[tuple[int, int, int]]) -> OddCycle:
        """The first odd cycle without repeated rows in a closed walk of states and of the columns between them."""
        seen: dict[int, int] = {}
        taken: list[tuple[int, int, int]] = []
        for row, sign, column in walk:
            if row in seen:
                at = seen[row]
                loop = taken[at:]
                if loop[0][1] != sign:
                    return OddCycle(tuple(sorted(it[0] for it in loop)), tuple(sorted(it[2] for it in loop)))
                for it in loop:
                    del seen[it[0]]
                del taken[at:]
            seen[row] = len(taken)
            taken.append((row, sign, column))
        raise AssertionError("a closed walk that changes the sign has an odd cycle")


def _back(before: dict[tuple[int, int], tuple[tuple[int, int], int]], start: int) -> Iterator[tuple[int, int, int]]:
    """The states of a walk to a row with the other sign, from its end, each with the column to the state before it."""
    state = (start, -1)
    while state != (start, 1):
        earlier, column = before[state]
        yield *state, column
        state = earlier
    yield *state, -1
