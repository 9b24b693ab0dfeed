"""Graphs from lists of edges: a spanning tree of them comes first, as graph texts have it."""

from __future__ import annotations

from collections.abc import Hashable, Iterable, Sequence
from typing import Any

from ..errors import BadInput, shown
from ..given import listed
from ..matrices.lines import Line, Names
from ..matrices.words import LIMIT
from .graphs import Edge, Graph

__all__ = ["edges_of_text", "graph_of_edges", "graph_of_networkx"]


def graph_of_edges(edges: Iterable[Sequence[Any]], *, directed: bool = True) -> Graph:
    """The graph whose edges are pairs of nodes, or of two nodes and a name.

    The arcs of its tree are the edges that close no cycle with those before them, and all others are walks. Nodes are any values, and
    are numbered in the order in which they occur. If the edges are in several connected parts, the parts are joined at one node each, which
    changes no walk. Raises `BadInput` if there are more than 1,000 arcs or walks.
    """
    numbers: dict[Hashable, int] = {}
    above: list[int] = []
    tree: list[tuple[int, int, str]] = []
    others: list[tuple[int, int, str]] = []
    for edge in listed("edges", edges, "edges, each a pair of nodes, or of two nodes and a name"):
        is_edge = isinstance(edge, Sequence) and len(edge) in (2, 3)
        tail, head, name = (*edge, f"{edge[0]}-{edge[1]}")[:3] if is_edge else _no_edge(edge)
        ends = []
        for node in (tail, head):
            if numbers.setdefault(node, len(numbers)) == len(above):
                above.append(len(above))
            ends.append(numbers[node])
        first, second = (_root(above, end) for end in ends)
        (others if first == second else tree).append((ends[0], ends[1], str(name)))
        above[first] = second
    for count, kind in ((len(tree), "edges in the tree"), (len(others), "other edges")):
        if count > LIMIT:
            raise BadInput(f"there are {count} {kind}, and a matrix may have at most {LIMIT} rows and {LIMIT} columns")
    places = _joined(above)
    arcs = tuple(Edge(places[tail], places[head], Line("row", row)) for row, (tail, head, _) in enumerate(tree))
    walks = tuple(
        Edge(places[tail], places[head], Line("column", column)) for column, (tail, head, _) in enumerate(others)
    )
    names = Names(tuple(name for *_, name in tree), tuple(name for *_, name in others))
    return Graph(arcs, walks, directed, names)


def graph_of_networkx(graph: Any) -> Graph:
    """The graph of networkx, directed or not. The name of an edge is `name` or `label` in its data, or otherwise made of its ends."""
    if not callable(getattr(graph, "is_directed", None)) or not hasattr(graph, "edges"):
        raise BadInput(f"a graph of networkx is taken, and here it is {shown(graph)}")
    edges = []
    for tail, head, data in graph.edges(data=True):
        name = data.get("name", data.get("label"))
        edges.append((tail, head) if name is None else (tail, head, name))
    return graph_of_edges(edges, directed=graph.is_directed())


def edges_of_text(text: str) -> list[tuple[str, ...]]:
    """The edges of a text with a line `TAIL HEAD` or `TAIL HEAD NAME` for each. Empty lines, and lines that begin with #, are ignored."""
    edges: list[tuple[str, ...]] = []
    for place, line in enumerate(text.removeprefix("\ufeff").splitlines(), 1):
        words = line.split(maxsplit=2)
        if words and not words[0].startswith("#"):
            if len(words) < 2:
                raise BadInput(f"no list of edges, line {place} is not `TAIL HEAD` or `TAIL HEAD NAME`")
            edges.append(tuple(word.strip() for word in words))
    return edges


def _no_edge(edge: Any) -> Sequence[Any]:
    raise BadInput(f"{edge!r} is no edge, which has two ends and may have a name")


def _root(above: list[int], node: int) -> int:
    while above[node] != node:
        above[node] = above[above[node]]
        node = above[node]
    return node


def _joined(above: list[int]) -> list[int]:
    """New numbers for the nodes, in which one node of each connected part has the number 0."""
    fresh = 0
    places = []
    for node in range(len(above)):
        is_root = _root(above, node) == node
        fresh += not is_root
        places.append(0 if is_root else fresh)
    return places
