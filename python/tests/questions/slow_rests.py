"""A plain slow program for undecided parts whose lines are removed in turn. It asks the program itself only for the answer of each rest.

It follows the rule of docs/DEFINITIONS.md. Tests compare the results.
"""

from __future__ import annotations

from dataclasses import replace

from cmr_matrices import Line, LineSet, Matrix, Node, Tree
from cmr_matrices.questions.line_orders import LineOrder
from tests.support import asked_once

__all__ = ["fault_in_rests", "tried_tree"]


def tried_tree(matrix: Matrix, tree: Tree, lines: int) -> Tree:
    """The tree of a matrix after its undecided nodes are tried, if its verdict is open."""
    if tree.verdict != "undecided":
        return tree

    def tried(node: Node, children: tuple[Node, ...]) -> Node:
        fault = fault_in_rests(matrix, node.lines, lines) if node.kind == "undecided" else None
        return replace(node, children=children) if fault is None else Node("violator", node.lines, fault=fault)

    return replace(tree, root=tree.root.rebuilt(tried))


def fault_in_rests(matrix: Matrix, part: LineSet, lines: int) -> LineSet | None:
    """The violator of the first rest that is a no. A line is put back if the rest without it is a yes."""
    kept = part
    for line in part:
        rest = LineSet(
            tuple(row for row in kept.rows if Line("row", row) != line),
            tuple(column for column in kept.columns if Line("column", column) != line),
        )
        order = LineOrder(matrix, rest.rows, rest.columns)
        answer = asked_once("totally unimodular", order.reordered(), lines=lines)
        if answer.violator is not None:
            return order.lines(answer.violator.lines)
        if answer.is_undecided:
            kept = rest
    return None
