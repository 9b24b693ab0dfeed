"""Graphs that show that a matrix is graphic or a network matrix, their texts and their pictures.

docs/FORMATS.md has the format, and docs/DEFINITIONS.md says when a graph shows the property.
"""

from __future__ import annotations

import re
from collections.abc import Iterator, Sequence
from dataclasses import dataclass, field
from typing import Any

from ..errors import BadInput
from ..given import text_given
from ..libraries import library
from ..matrices.lines import Kind, Line, Names
from ..matrices.pages import SHOWN, no_picture, paragraph
from .dot import svg
from .network_picture import DRAWN, picture

__all__ = ["Edge", "Graph"]

# Graphviz takes long for graphs with more edges, and nothing is seen in them.
_DRAWN = 200
_EDGE = re.compile(r"([0-9]{1,4}) ([0-9]{1,4}) ([rc][1-9][0-9]{0,3})")


@dataclass(frozen=True, slots=True)
class Edge:
    """An edge with the row or column that it represents."""

    tail: int
    head: int
    line: Line


@dataclass(frozen=True)
class Graph:
    """A tree on the nodes 0, 1, .., n with n arcs, and a walk in this tree for each line of the other kind.

    The arcs represent the rows and the walks represent the columns; if the transposed matrix was tested, it is the other way
    round. The nonzeros of a line are at the arcs of its walk. In a directed graph the entry is 1 if the walk takes the arc from
    its tail to its head, and -1 if it takes the arc backwards.
    """

    arcs: tuple[Edge, ...]
    walks: tuple[Edge, ...]
    directed: bool = True
    names: Names | None = field(default=None, compare=False, repr=False)

    @property
    def edges(self) -> tuple[Edge, ...]:
        """The arcs and then the walks."""
        return self.arcs + self.walks

    @property
    def arc_kind(self) -> Kind:
        """Whether the arcs represent rows or columns; rows if there are no lines."""
        if self.arcs:
            return self.arcs[0].line.kind
        return "row" if not self.walks or self.walks[0].line.kind == "column" else "column"

    @property
    def shape(self) -> tuple[int, int]:
        """The numbers of rows and columns."""
        counts = len(self.arcs), len(self.walks)
        return counts if self.arc_kind == "row" else counts[::-1]

    def to_networkx(self) -> Any:
        """A multigraph of networkx, a `MultiDiGraph` if this graph is directed and otherwise a `MultiGraph`.

        Each edge has its `Line` as key and as attribute `line`, the line's name as `name`, and whether it is an arc of the
        tree as `in_tree`.
        """
        networkx = library("networkx", "to_networkx")

        graph = networkx.MultiDiGraph() if self.directed else networkx.MultiGraph()
        graph.add_nodes_from(range(len(self.arcs) + 1))
        for edges, in_tree in ((self.arcs, True), (self.walks, False)):
            for edge in edges:
                name = self._names.line(edge.line)
                graph.add_edge(edge.tail, edge.head, key=edge.line, line=edge.line, name=name, in_tree=in_tree)
        return graph

    def to_dot(
        self,
        names: Names | None = None,
        *,
        directed: bool | None = None,
        limit: int = DRAWN,
        tree: bool = True,
    ) -> str:
        """The graph in DOT, with a layout that fits to its number of edges.

        All nodes and edges are drawn: the edges of the tree in full, and the edges of walks dashed. With `tree=False`, a graph in which no
        walk takes more than two arcs is drawn as the network of a flow model: the arcs are nodes, and the walks are edges between them.
        This leaves out the nodes of the tree. With more edges than `limit` the families of lines are drawn, with their counts.
        """
        directed = self.directed if directed is None else directed
        return picture(self, names or self._names, directed=directed, limit=limit, tree=tree)

    def __repr__(self) -> str:
        if len(self.edges) > SHOWN:
            kind = "directed" if self.directed else "undirected"
            return f"Graph({kind}, {len(self.arcs) + 1} nodes, {len(self.arcs)} arcs, {len(self.walks)} walks)"
        return f"Graph(arcs={self.arcs}, walks={self.walks}, directed={self.directed})"

    def _repr_svg_(self) -> str | None:
        return svg(self.to_dot()) if len(self.edges) <= _DRAWN else None

    def _repr_html_(self) -> str | None:
        if len(self.edges) > _DRAWN:
            why = f"more than {_DRAWN} edges are not drawn here; to_dot() writes them for Graphviz"
            return paragraph(f"{self!r}: {why}")
        return self._repr_svg_() or no_picture("the graph")

    def to_text(self) -> str:
        """The graph text, with lines counted from 1."""
        return "".join(f"{edge.tail} {edge.head} {edge.line.word}\n" for edge in self.edges)

    @classmethod
    def from_text(cls, text: str, *, directed: bool = True, names: Names | None = None) -> Graph:
        """The graph that a text contains. Raises `BadInput` if the text is not a graph."""
        edges = []
        for place, line in enumerate(text_given("no graph", text).splitlines(), 1):
            found = _EDGE.fullmatch(line)
            if not found:
                raise BadInput(f"no graph, line {place} is not `TAIL HEAD rI` or `TAIL HEAD cJ`")
            edges.append(Edge(int(found[1]), int(found[2]), Line.of_word(found[3])))
        arcs, walks = _split(edges)
        return cls(arcs, walks, directed, names)

    @property
    def _names(self) -> Names:
        return self.names or Names.numbered(*(1 + max(numbers, default=-1) for numbers in _numbers(self.edges)))


def _numbers(edges: Sequence[Edge]) -> Iterator[list[int]]:
    for kind in ("row", "column"):
        yield [edge.line.number for edge in edges if edge.line.kind == kind]


def _split(edges: list[Edge]) -> tuple[tuple[Edge, ...], tuple[Edge, ...]]:
    """The edges of the tree come first, and represent lines of one kind. If all edges are loops at 0, the tree has no edges."""
    kinds = [edge.line.kind for edge in edges]
    size = kinds.count(kinds[0]) if any(edge.tail or edge.head for edge in edges) else 0
    arcs, walks = tuple(edges[:size]), tuple(edges[size:])
    for part in (arcs, walks):
        if [edge.line for edge in part] != [Line(part[0].line.kind, number) for number in range(len(part))]:
            raise BadInput("no graph, its edges do not represent all rows and columns in their order")
    if not _is_tree(arcs):
        raise BadInput(f"no graph, its first edges are no tree on the nodes 0 to {size}")
    if any(max(edge.tail, edge.head) > size for edge in walks):
        raise BadInput("no graph, a path ends outside of the tree")
    return arcs, walks


def _is_tree(edges: tuple[Edge, ...]) -> bool:
    parts = list(range(len(edges) + 1))

    def part(node: int) -> int:
        while parts[node] != node:
            node = parts[node]
        return node

    for edge in edges:
        if max(edge.tail, edge.head) > len(edges) or part(edge.tail) == part(edge.head):
            return False
        parts[part(edge.tail)] = part(edge.head)
    return True
