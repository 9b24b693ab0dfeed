"""The arcs of a tree that walks between two of its nodes take."""

from __future__ import annotations

from typing import TYPE_CHECKING

from ..matrices.lines import Line

if TYPE_CHECKING:
    from .graphs import Edge, Graph

__all__ = ["Taken", "arcs_of_walks"]

Taken = dict[Line, list[tuple[Line, int]]]
"""For each walk the arcs that it takes, with 1 if it takes the arc forwards and otherwise -1."""


def arcs_of_walks(graph: Graph, most: int | None = None) -> Taken | None:
    """The arcs of each walk of a graph, or None if a walk takes more than `most` arcs."""
    near: list[list[tuple[int, Edge]]] = [[] for _ in range(len(graph.arcs) + 1)]
    for arc in graph.arcs:
        near[arc.tail].append((arc.head, arc))
        near[arc.head].append((arc.tail, arc))
    above: dict[int, tuple[int, Edge]] = {}
    depth = {0: 0}
    queue = [0]
    for node in queue:
        for other, arc in near[node]:
            if other not in depth:
                above[other], depth[other] = (node, arc), depth[node] + 1
                queue.append(other)
    taken: Taken = {}
    for walk in graph.walks:
        first, last = walk.tail, walk.head
        arcs: list[tuple[Line, int]] = []
        while first != last:
            if len(arcs) == most:
                return None
            up = depth[first] >= depth[last]
            node, arc = above[first if up else last]
            forwards = arc.tail == first if up else arc.head == last
            arcs.append((arc.line, 1 if forwards else -1))
            first, last = (node, last) if up else (first, node)
        taken[walk.line] = arcs
    return taken
