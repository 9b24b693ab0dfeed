"""Lines of a matrix in another order: the reordered matrix, and how its evidence is mapped back."""

from __future__ import annotations

import random
from collections.abc import Iterator
from dataclasses import dataclass, replace

from ..evidence.chains import Chain, ChainStep
from ..evidence.graphs import Edge, Graph
from ..evidence.nodes import Node
from ..evidence.trees import Tree
from ..matrices.lines import Line, LineSet
from ..matrices.matrix import Matrix
from ..matrices.submatrices import Submatrix

__all__ = ["LineOrder", "drawn_orders"]


@dataclass(frozen=True)
class LineOrder:
    """Some or all lines of a matrix in an order: row `i` of the reordered matrix is row `rows[i]` of the matrix, and so on."""

    matrix: Matrix
    rows: tuple[int, ...]
    columns: tuple[int, ...]

    def reordered(self) -> Matrix:
        """The matrix of these lines in this order, without names."""
        return replace(self.matrix.submatrix(self.rows, self.columns), names=None)

    def line(self, line: Line) -> Line:
        """The line of the matrix that a line of the reordered one is."""
        return Line(line.kind, (self.rows if line.kind == "row" else self.columns)[line.number])

    def lines(self, lines: LineSet) -> LineSet:
        """The lines of the matrix that some lines of the reordered one are."""
        rows = sorted(self.rows[row] for row in lines.rows)
        return LineSet(tuple(rows), tuple(sorted(self.columns[column] for column in lines.columns)))

    def submatrix(self, part: Submatrix) -> Submatrix:
        """The submatrix of the matrix that one of the reordered matrix is."""
        lines = self.lines(part.lines)
        return Submatrix(self.matrix.shape, lines.rows, lines.columns, self.matrix.names)

    def entries(self, reordered: Matrix) -> Matrix:
        """The matrix that becomes another one in this order, which has to have all lines."""
        nonzeros = sorted((self.rows[row], self.columns[column], value) for row, column, value in reordered.nonzeros)
        return Matrix(self.matrix.shape, tuple(nonzeros), self.matrix.names)

    def chain(self, chain: Chain) -> Chain:
        """The chain that a chain of the reordered matrix is."""
        steps = (
            ChainStep(self.rows[step.row], self.columns[step.column], step.lines and self.lines(step.lines))
            for step in chain.steps
        )
        return Chain(self.matrix.shape, tuple(steps), self.lines(chain.violator), self.matrix.names)

    def tree(self, tree: Tree) -> Tree:
        """The tree that a tree of the reordered matrix is.

        Each rule of a node holds in every order of the lines, except that the connectors of a concentrated sum are in increasing order.
        """
        return Tree(self.matrix.shape, tree.root.rebuilt(self._node), self.matrix.names)

    def _node(self, node: Node, children: tuple[Node, ...]) -> Node:
        return replace(
            node,
            lines=self.lines(node.lines),
            children=children,
            fault=node.fault and self.lines(node.fault),
            graph=node.graph and self._graph(node.graph),
            removed=tuple(map(self.line, node.removed)),
            connectors=self._connectors(node),
            side=node.side and self.lines(node.side),
            place=tuple(map(self.line, node.place)),
        )

    def _connectors(self, node: Node) -> tuple[Line, ...]:
        """The connectors (i, p, q) and (k, j, o). In a concentrated sum p and q may change places, and so may k and o."""
        turned = tuple(map(self.line, node.connectors))
        if node.kind != "concentrated":
            return turned
        i, p, q, k, j, o = turned
        return (i, *sorted((p, q)), min(k, o), j, max(k, o))

    def _graph(self, graph: Graph) -> Graph:
        return replace(graph, arcs=self._edges(graph.arcs), walks=self._edges(graph.walks))

    def _edges(self, edges: tuple[Edge, ...]) -> tuple[Edge, ...]:
        """The edges for the lines of the matrix, in the order of these."""
        turned = (replace(edge, line=self.line(edge.line)) for edge in edges)
        return tuple(sorted(turned, key=lambda edge: edge.line))


def drawn_orders(matrix: Matrix, lines: LineSet, count: int, seed: int) -> Iterator[LineOrder]:
    """Some lines of a matrix in orders that are drawn by chance, the same for the same seed."""
    draw = random.Random(seed)
    for _ in range(count):
        yield LineOrder(matrix, _shuffled(lines.rows, draw), _shuffled(lines.columns, draw))


def _shuffled(numbers: tuple[int, ...], draw: random.Random) -> tuple[int, ...]:
    # Only the method `random` of the generator gives the same numbers in every version of Python.
    keys = {number: draw.random() for number in numbers}
    return tuple(sorted(numbers, key=keys.__getitem__))
