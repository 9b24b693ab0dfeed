"""The texts of decomposition trees: `cmr-tree 2`, or `cmr-pivots 1` if a node is pivoted. `cmr-tree 1` is only read.

docs/FORMATS.md has the formats.
"""

from __future__ import annotations

from dataclasses import dataclass, field

from ..errors import BadInput
from ..matrices.lines import Line, LineSet
from ..matrices.words import Words
from .graphs import Edge, Graph
from .nodes import CONNECTORS, KINDS_OF_VERSION, Node, NodeKind

__all__ = ["read_tree", "tree_text"]


def read_tree(text: str) -> tuple[tuple[int, int], Node]:
    """The shape of the matrix and the root of the tree in a text. Raises `BadInput` if the text is not a tree."""
    try:
        return _TreeReader(text).tree()
    except BadInput as fault:
        raise BadInput(f"no decomposition tree: {fault}") from fault


def tree_text(shape: tuple[int, int], root: Node) -> str:
    """The canonical text of a tree."""
    nodes = [node for _, node in root.walk()]
    head = "cmr-pivots 1" if any(node.kind == "pivoted" for node in nodes) else "cmr-tree 2"
    lines = [head, f"{shape[0]} {shape[1]}"]
    for node in nodes:
        lines.append(f"{node.kind} {node.lines.words}")
        own = _own_part(node)
        if own:
            lines.append(own)
    return "\n".join([*lines, ""])


def _own_part(node: Node) -> str:
    match node.kind:
        case "cycle" | "violator":
            return "" if node.fault is None else node.fault.words
        case "reduced":
            return " ".join([str(len(node.removed)), *(line.word for line in node.removed)])
        case "onesum":
            return str(len(node.children))
        case "network" | "conetwork":
            return "" if node.graph is None else " ".join(f"{edge.tail} {edge.head}" for edge in node.graph.edges)
        case "pivoted":
            return " ".join(str(line.number + 1) for line in node.place)
        case kind if kind in CONNECTORS:
            numbers = " ".join(str(line.number + 1) for line in node.connectors)
            return f"{numbers} {node.side.words}" if node.side else numbers
    return ""


@dataclass
class _Found:
    """A node that is read, with the number of its children."""

    kind: NodeKind
    lines: LineSet
    due: int = 0
    fault: LineSet | None = None
    graph: Graph | None = None
    removed: tuple[Line, ...] = ()
    connectors: tuple[Line, ...] = ()
    side: LineSet | None = None
    place: tuple[Line, ...] = ()
    children: list[Node] = field(default_factory=list)

    def node(self) -> Node:
        return Node(
            self.kind,
            self.lines,
            tuple(self.children),
            self.fault,
            self.graph,
            self.removed,
            self.connectors,
            self.side,
            self.place,
        )


class _TreeReader:
    """Reads a tree without recursion, since a tree may have a depth of 2,000."""

    def __init__(self, text: str) -> None:
        self._words = Words(text)
        self._kinds = KINDS_OF_VERSION["cmr-tree", "2"]
        self._shape = (0, 0)

    def tree(self) -> tuple[tuple[int, int], Node]:
        head = self._words.word(), self._words.word()
        if head not in KINDS_OF_VERSION:
            raise BadInput("it does not begin with the words `cmr-tree 1`, `cmr-tree 2` or `cmr-pivots 1`")
        self._kinds = KINDS_OF_VERSION[head]
        self._shape = self._words.shape()
        pending = [self._node()]
        while True:
            if pending[-1].due:
                pending[-1].due -= 1
                pending.append(self._node())
                continue
            node = pending.pop().node()
            if not pending:
                self._words.end("words follow the last node")
                return self._shape, node
            pending[-1].children.append(node)

    def _node(self) -> _Found:
        """The next node, without its children."""
        word = self._words.word()
        if word not in self._kinds:
            raise self._words.unknown(word, "no kind of node")
        found = _Found(self._kinds[word], self._line_set())
        self._own_part(found)
        return found

    def _own_part(self, found: _Found) -> None:
        """Reads what is between the lines of a node and its children."""
        lines = found.lines
        match found.kind:
            case "cycle" | "violator":
                found.fault = self._line_set()
            case "network":
                found.graph = self._graph(_as_lines("row", lines), _as_lines("column", lines))
            case "conetwork":
                found.graph = self._graph(_as_lines("column", lines), _as_lines("row", lines))
            case "reduced":
                found.removed = tuple(self._words.line(self._shape) for _ in range(self._words.count(len(lines))))
                found.due = 1
            case "onesum":
                found.due = self._words.count(len(lines))
            case "pivoted":
                found.place = self._words.row(self._shape), self._words.column(self._shape)
                found.due = 1
            case kind if kind in CONNECTORS:
                found.connectors = tuple(self._connector(letter) for letter in CONNECTORS[kind])
                found.side = self._line_set()
                found.due = 2

    def _connector(self, letter: str) -> Line:
        return self._words.row(self._shape) if letter == "r" else self._words.column(self._shape)

    def _graph(self, arcs: list[Line], walks: list[Line]) -> Graph:
        return Graph(self._edges(arcs, len(arcs)), self._edges(walks, len(arcs)))

    def _edges(self, lines: list[Line], last: int) -> tuple[Edge, ...]:
        return tuple(Edge(self._words.count(last), self._words.count(last), line) for line in lines)

    def _line_set(self) -> LineSet:
        return self._words.line_set(self._shape)


def _as_lines(kind: str, lines: LineSet) -> list[Line]:
    return [line for line in lines if line.kind == kind]
