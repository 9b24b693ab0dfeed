"""The separations of a decomposition tree: two sides of the lines of a node, and the rank between them."""

from __future__ import annotations

from collections.abc import Iterator
from dataclasses import dataclass, field

from ..matrices.lines import LineSet
from ..matrices.pages import paragraph
from .nodes import CONNECTORS, Node, NodeKind

__all__ = ["Separation", "separations_of"]


@dataclass(frozen=True)
class Separation:
    """Two sides of the lines of a node, such that the entries between them have a low rank.

    It separates the matroid of the node's submatrix. Lines are lines of the whole matrix. Below a `pivoted` node they are lines of the
    pivot, in which a row and a column have exchanged their elements; `Tree.submatrices` has the submatrix with the names of elements.
    """

    node: Node = field(repr=False)
    """The node that has the two sides."""
    one: LineSet
    """Side one. Of a `onesum` it is one of the connected parts."""
    two: LineSet
    """All other lines of the node."""
    rank: int
    """The ranks of the two blocks between the sides, added: 0, 1 or 2. Of a `onesum` the blocks are zero."""

    @property
    def kind(self) -> NodeKind:
        """The kind of the node: `onesum`, `twosum`, `delta`, `y`, `mixed` or `concentrated`."""
        return self.node.kind

    @property
    def order(self) -> int:
        """The k of the k-separation: 1, 2 or 3, which is one more than the rank. The submatrix is at most so connected."""
        return self.rank + 1

    def __str__(self) -> str:
        return f"{self.order}-separation of a {self.kind} node: {_listed(self.one)} | {_listed(self.two)}"

    def _repr_html_(self) -> str:
        return paragraph(str(self))


def _listed(lines: LineSet) -> str:
    return f"rows {' '.join(map(str, lines.rows))} columns {' '.join(map(str, lines.columns))}"


def separations_of(root: Node) -> Iterator[Separation]:
    """The separations of a node and of all below it, in preorder. A `onesum` of two parts has one, of more parts one for each."""
    for _, node in root.walk():
        if node.kind == "onesum":
            parts = node.children[:1] if len(node.children) == 2 else node.children
            yield from (Separation(node, part.lines, _others(node, part.lines), 0) for part in parts)
        elif node.side is not None and node.kind in CONNECTORS:
            yield Separation(node, node.side, _others(node, node.side), 1 if node.kind == "twosum" else 2)


def _others(node: Node, side: LineSet) -> LineSet:
    rows, columns = set(side.rows), set(side.columns)
    return LineSet(
        tuple(row for row in node.rows if row not in rows),
        tuple(column for column in node.columns if column not in columns),
    )
