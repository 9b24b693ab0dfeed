"""Columns as paths in a directed tree whose arcs are the rows: an entry is 1 if the path takes the arc forwards, and -1 otherwise."""

from __future__ import annotations

from collections.abc import Sequence

__all__ = ["Arcs", "are_forest", "is_path"]

Arcs = Sequence[tuple[int, int]]
"""Of each row the tail and the head of its arc."""


def is_path(column: Sequence[tuple[int, int]], arcs: Arcs) -> bool:
    """Whether the arcs of a column follow one another in a forest. If so, they make one path, since a forest has no cycles."""
    after: dict[int, int] = {}
    ends: set[int] = set()
    for row, entry in column:
        tail, head = arcs[row] if entry == 1 else arcs[row][::-1]
        if tail in after or head in ends:
            return False
        after[tail] = head
        ends.add(head)
    return sum(1 for tail in after if tail not in ends) == (1 if column else 0)


def are_forest(arcs: Arcs) -> bool:
    """Whether arcs have no cycle, also if their directions do not count."""
    parts: dict[int, int] = {}

    def part(node: int) -> int:
        while node in parts:
            if parts[node] in parts:
                parts[node] = parts[parts[node]]
            node = parts[node]
        return node

    for tail, head in arcs:
        one, other = part(tail), part(head)
        if one == other:
            return False
        parts[one] = other
    return True
