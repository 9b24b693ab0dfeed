"""Decomposition trees, which say why a matrix is totally unimodular, or which lines are at fault.

docs/FORMATS.md has the kinds of nodes with their rules, and docs/DEFINITIONS.md says why a tree that keeps the rules is right.
Source: Seymour's decomposition of regular matroids; Truemper, *Matroid Decomposition*.
"""

from __future__ import annotations

from collections.abc import Iterator
from dataclasses import dataclass, field, replace
from typing import Any, Literal

from ..errors import BadInput
from ..libraries import library
from ..matrices.lines import LineSet, Names
from ..matrices.matrix import Matrix
from ..matrices.pages import no_picture, paragraph
from ..matrices.sources import MatrixLike
from ..matrices.submatrices import Submatrix
from .dot import svg
from .nodes import LEAVES, Node
from .separations import Separation, separations_of
from .tree_picture import Style, tree_picture
from .tree_text import read_tree, tree_text

__all__ = ["Tree", "outline_lines"]


@dataclass(frozen=True, eq=False)
class Tree:
    """A decomposition tree of a matrix with the given shape. Two trees are equal if their texts are."""

    shape: tuple[int, int]
    root: Node = field(repr=False)
    names: Names | None = field(default=None, repr=False)
    signed: Matrix | None = field(default=None, repr=False)
    """Of a tree of `is_regular` the signed matrix, of which it is the tree."""

    def walk(self) -> Iterator[tuple[int, Node]]:
        """Each node in preorder, with its depth: 0 for the root."""
        return self.root.walk()

    def submatrices(self, matrix: MatrixLike | None = None) -> Iterator[tuple[Node, Matrix]]:
        """Each node in preorder with its submatrix: the submatrix on the node's lines, after the pivots of the nodes above it.

        The matrix may be omitted for a tree of `is_regular`, which has its `signed` matrix. Raises `BadInput` if the matrix has another
        shape, and `BadEntry` if a pivot is at a zero or gives an entry other than -1, 0 and 1; `check` refuses such a tree.
        """
        given = self.signed if matrix is None else matrix
        if given is None:
            raise BadInput("only a tree of `is_regular` has its matrix, and submatrices of other trees need the matrix")
        whole = LineSet(tuple(range(self.shape[0])), tuple(range(self.shape[1])))
        pending = [(self.root, Submatrix(self.shape, whole.rows, whole.columns).submatrix(given), whole)]
        while pending:
            node, above, lines = pending.pop()
            rows = {row: place for place, row in enumerate(lines.rows)}
            columns = {column: place for place, column in enumerate(lines.columns)}
            part = above.submatrix([rows[row] for row in node.rows], [columns[column] for column in node.columns])
            yield node, part
            if node.kind == "pivoted":
                row, column = node.place
                part = part.pivoted(node.rows.index(row.number), node.columns.index(column.number))
            pending.extend((child, part, node.lines) for child in reversed(node.children))

    def separations(self) -> tuple[Separation, ...]:
        """The 1-, 2- and 3-separations at its sums, in preorder, each with its sides and the rank between them.

        A leaf may have more separations, which no tool seeks: a network matrix is not separated.
        """
        return tuple(separations_of(self.root))

    @property
    def verdict(self) -> Literal["yes", "no", "undecided"]:
        """What the tree says: no if a node has a fault, otherwise undecided if a node is left open, otherwise yes."""
        kinds = {node.kind for _, node in self.walk()}
        if kinds & {"cycle", "violator"}:
            return "no"
        return "undecided" if "undecided" in kinds else "yes"

    def outline(self, names: Names | None = None) -> str:
        """The tree as text: a line for each node with its depth, its kind and size, and the names of the lines that it speaks of."""
        return "\n".join(outline_lines(self, names or self.names or Names.numbered(*self.shape)))

    def to_networkx(self) -> Any:
        """A `DiGraph` of networkx from parents to children: the nodes in preorder are 0, 1, .., with their `Node` as `node`."""
        networkx = library("networkx", "to_networkx")

        graph = networkx.DiGraph()
        parents: list[int] = []
        for number, (depth, node) in enumerate(self.walk()):
            graph.add_node(number, node=node, kind=node.kind, rows=node.rows, columns=node.columns)
            parents[depth:] = [number]
            if depth:
                graph.add_edge(parents[depth - 1], number)
        return graph

    def to_dot(self, names: Names | None = None, *, small: int = 10, limit: int = 40) -> str:
        """The tree in DOT, with about `limit` boxes at most. Nodes with at most `small` lines show them."""
        shown = names or self.names or Names.numbered(*self.shape)
        return tree_picture(self.root, Style(shown, small), limit)

    def _repr_svg_(self) -> str | None:
        return svg(self.to_dot())

    def _repr_html_(self) -> str | None:
        signed = paragraph("the tree of the signed matrix") if self.signed is not None else ""
        return signed + (self._repr_svg_() or no_picture("the tree") or "")

    def to_text(self) -> str:
        """The canonical tree text, with lines counted from 1."""
        return tree_text(self.shape, self.root)

    @classmethod
    def from_text(cls, text: str, names: Names | None = None) -> Tree:
        """The tree that a text contains. Raises `BadInput` if the text is not a tree."""
        shape, root = read_tree(text)
        return cls(shape, root, names)

    def __eq__(self, other: object) -> bool:
        return isinstance(other, Tree) and self.to_text() == other.to_text()

    def __hash__(self) -> int:
        return hash(self.to_text())

    def __reduce__(self) -> tuple[Any, ...]:
        # A tree may be deeper than what pickle takes.
        return _tree_of_text, (self.to_text(), self.names, self.signed)

    def __str__(self) -> str:
        return "\n".join(f"{depth} {node.printed}" for depth, node in self.walk())


def _tree_of_text(text: str, names: Names | None, signed: Matrix | None) -> Tree:
    return replace(Tree.from_text(text, names), signed=signed)


def outline_lines(tree: Tree, names: Names) -> Iterator[str]:
    """The lines of the outline, one after another. Raises `BadInput` if the names belong to another matrix."""
    names.must_fit(*tree.shape)
    for depth, node in tree.walk():
        yield " ".join(filter(None, (str(depth), node.outline, _named_node(node, names))))


def _named_node(node: Node, names: Names) -> str:
    """The lines of a fault or a leaf, the lines that a reduction removes, and the lines at which the children of a sum are joined."""
    if node.fault is not None:
        return f"fault {names.line_set(node.fault)}"
    if node.removed:
        return f"without {names.line_list(node.removed)}"
    if node.connectors or node.place:
        return f"at {names.line_list(node.connectors or node.place)}"
    return names.line_set(node.lines) if node.kind in LEAVES else ""
