"""Positions for the nodes of small graphs, in which the graphs of the literature are recognised.

A graph with a Hamiltonian cycle is drawn with this cycle as a circle, and a wheel with its hub in the middle. In a graph such as the
Petersen graph, half of the nodes are a cycle, and each has one neighbour in the other half: these are drawn on a smaller circle.
"""

from __future__ import annotations

from collections.abc import Sequence
from math import cos, pi, sin

__all__ = ["positions"]

_MOST_NODES = 14
_MOST_STEPS = 20_000

Near = list[set[int]]


def positions(count: int, edges: Sequence[tuple[int, int]]) -> dict[int, tuple[float, float]] | None:
    """The position of each node, or None if the graph is large, has loops or parallel edges, or has none of these forms."""
    pairs = {frozenset(edge) for edge in edges}
    if not 3 <= count <= _MOST_NODES or len(pairs) < len(edges) or any(len(pair) < 2 for pair in pairs):
        return None
    near: Near = [set() for _ in range(count)]
    for one, two in edges:
        near[one].add(two)
        near[two].add(one)
    hub = _hub(near)
    if hub is not None:
        rim = _cycle(near, [node for node in range(count) if node != hub], count - 1)
        return None if rim is None else {hub: (0.0, 0.0), **_circle(rim, 1.0)}
    whole = _cycle(near, list(range(count)), count)
    if whole is not None:
        return _circle(whole, 1.0)
    return _two_circles(near)


def _hub(near: Near) -> int | None:
    """The node of a wheel that all others are joined to, if each of these has three neighbours."""
    hubs = [node for node, others in enumerate(near) if len(others) == len(near) - 1]
    is_wheel = len(hubs) == 1 and all(len(others) == 3 for node, others in enumerate(near) if node != hubs[0])
    return hubs[0] if is_wheel else None


def _cycle(near: Near, within: Sequence[int], length: int, *, is_induced: bool = False) -> list[int] | None:
    """A cycle of a length through some nodes, or None if there is none or the search takes long."""
    allowed = set(within)
    steps = 0
    for start in within if length < len(within) else within[:1]:
        pending = [[start]]
        while pending and steps < _MOST_STEPS:
            steps += 1
            path = pending.pop()
            if len(path) == length:
                if start in near[path[-1]] and not (is_induced and _has_chord(near, path)):
                    return path
                continue
            pending.extend([*path, node] for node in sorted(near[path[-1]] & allowed - set(path), reverse=True))
    return None


def _has_chord(near: Near, path: Sequence[int]) -> bool:
    return any(len(near[node] & set(path)) > 2 for node in path)


def _two_circles(near: Near) -> dict[int, tuple[float, float]] | None:
    count = len(near)
    outer = None if count % 2 else _cycle(near, range(count), count // 2, is_induced=True)
    if outer is None:
        return None
    inside = [near[node] - set(outer) for node in outer]
    inner = [node for nodes in inside for node in nodes]
    if any(len(nodes) != 1 for nodes in inside) or len(set(inner)) < len(inner):
        return None
    return {**_circle(outer, 1.0), **_circle(inner, 0.5)}


def _circle(nodes: Sequence[int], radius: float) -> dict[int, tuple[float, float]]:
    angles = [pi / 2 - 2 * pi * place / len(nodes) for place in range(len(nodes))]
    return {node: (radius * cos(angle), radius * sin(angle)) for node, angle in zip(nodes, angles)}
