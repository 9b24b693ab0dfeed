"""The nodes of decomposition trees and their kinds. docs/FORMATS.md has the kinds with their rules."""

from __future__ import annotations

from collections.abc import Callable, Iterator
from dataclasses import dataclass, field
from typing import Literal, get_args

from ..matrices.lines import Line, LineSet
from .graphs import Graph

__all__ = ["CONNECTORS", "KINDS_OF_VERSION", "LEAVES", "Node", "NodeKind"]

NodeKind = Literal[
    "empty",
    "cycle",
    "network",
    "conetwork",
    "r10",
    "violator",
    "enumerated",
    "undecided",
    "reduced",
    "onesum",
    "twosum",
    "delta",
    "y",
    "mixed",
    "concentrated",
    "pivoted",
]

LEAVES: frozenset[NodeKind] = frozenset(
    {"empty", "cycle", "network", "conetwork", "r10", "violator", "enumerated", "undecided"}
)

CONNECTORS: dict[NodeKind, str] = {
    "twosum": "rc",
    "delta": "rccrcc",
    "y": "rcrrcr",
    "mixed": "rccrcr",
    "concentrated": "rccrcr",
}
"""The lines at which the two children of a sum are joined, as rows and columns."""

_KINDS: tuple[NodeKind, ...] = get_args(NodeKind)

KINDS_OF_VERSION: dict[tuple[str, str], dict[str, NodeKind]] = {
    ("cmr-tree", "1"): {kind: kind for kind in _KINDS if kind not in ("concentrated", "pivoted")},
    ("cmr-tree", "2"): {kind: kind for kind in _KINDS if kind != "pivoted"},
    ("cmr-pivots", "1"): {kind: kind for kind in _KINDS},
}
"""The kinds of nodes for which a text has words, by the two words with which it begins."""


@dataclass(frozen=True, eq=False)
class Node:
    """A node with its lines, what it says of them, and its children. Lines are lines of the whole matrix, counted from 0.

    `fault` are the lines of a fault (`cycle` and `violator`); `graph` shows a `network`, and of a `conetwork` the transposed
    matrix; `removed` are the lines that a `reduced` node removes, one after another. A sum of two matrices has its `connectors`,
    row and column of a `twosum` and (i, p, q) and (k, j, o) of a three-sum, and `side`, the lines of side one. A `pivoted` node has
    the `place` of its pivot, a row and a column; the nodes below it describe the pivot of its submatrix: see `Tree.submatrices`.
    """

    kind: NodeKind
    lines: LineSet
    children: tuple[Node, ...] = field(default=(), repr=False)
    fault: LineSet | None = None
    graph: Graph | None = field(default=None, repr=False)
    removed: tuple[Line, ...] = ()
    connectors: tuple[Line, ...] = ()
    side: LineSet | None = field(default=None, repr=False)
    place: tuple[Line, ...] = ()

    @property
    def rows(self) -> tuple[int, ...]:
        """The rows of the node's submatrix."""
        return self.lines.rows

    @property
    def columns(self) -> tuple[int, ...]:
        """The columns of the node's submatrix."""
        return self.lines.columns

    @property
    def is_leaf(self) -> bool:
        """Whether nodes of this kind have no children."""
        return self.kind in LEAVES

    @property
    def outline(self) -> str:
        """The kind and the size."""
        return f"{self.kind} {self.lines.size}"

    @property
    def printed(self) -> str:
        """What the program prints of the node: the kind, the size, and the position of the pivot if there is one, counted from 1."""
        return self.outline + "".join(f" {line.kind} {line.number + 1}" for line in self.place)

    def walk(self) -> Iterator[tuple[int, Node]]:
        """This node and each node below it in preorder, with its depth below this one."""
        pending = [(0, self)]
        while pending:
            depth, node = pending.pop()
            yield depth, node
            pending.extend((depth + 1, child) for child in reversed(node.children))

    def rebuilt(self, change: Callable[[Node, tuple[Node, ...]], Node]) -> Node:
        """The tree below this node, made again from the leaves up: `change` gets each node and its new children."""
        done: list[Node] = []
        for _, node in reversed(list(self.walk())):
            done.append(change(node, tuple(done.pop() for _ in node.children)))
        return done.pop()
