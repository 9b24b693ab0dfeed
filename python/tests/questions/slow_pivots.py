"""A plain slow program for decompositions with pivots. It asks the program itself only for the tree of each pivoted submatrix.

It follows the rule of docs/DEFINITIONS.md, with its own pivots, positions of first cuts (`slow_separating`), draws and inverse map of
violators. Tests compare the results.
"""

from __future__ import annotations

from dataclasses import dataclass, replace

from cmr_matrices import BadEntry, Line, LineSet, Matrix, Node, Tree
from cmr_matrices.questions.line_orders import LineOrder
from tests.questions.slow_rests import tried_tree
from tests.questions.slow_separating import Place, place_before_cut, separating_place
from tests.support import asked_once

__all__ = ["Draws", "slow_tree", "violator_before"]

MOST_DEPTH = 2000
AFTER = 10
"""After this number of drawn positions, a nonzero whose pivot has a 2, a -2 or a cut comes before a drawn one."""


@dataclass(frozen=True)
class Draws:
    """Numbers that are drawn one after another from a state below 2^31, by the generator of `cmr generate`: docs/DEFINITIONS.md."""

    state: int = 1

    def below(self, bound: int) -> tuple[int, Draws]:
        """A number below a bound, and the draws after it."""
        after = (1103515245 * self.state + 12345) % 2**31
        return after // 1024 % bound, Draws(after)

    def after(self, count: int) -> Draws:
        """The draws after `count` numbers."""
        return self.below(1)[1].after(count - 1) if count else self


def violator_before(matrix: Matrix, row: int, column: int, fault: LineSet) -> LineSet:
    """The violator of a matrix to which a violator of its pivot at a nonzero is mapped back.

    It has the same lines, except perhaps the lines of the pivot. It has the row of the pivot if and only if the fault's rows have an odd
    sum in the pivot's column, and the column of the pivot if and only if the fault's columns have an odd sum in the pivot's row.
    """
    rows, columns = set(fault.rows), set(fault.columns)
    in_column = sum(value for at, across, value in matrix.nonzeros if across == column and at in rows)
    in_row = sum(value for at, across, value in matrix.nonzeros if at == row and across in columns)
    return LineSet(_with_line(rows, row, in_column % 2 == 1), _with_line(columns, column, in_row % 2 == 1))


def slow_tree(matrix: Matrix, pivots: int, lines: int) -> tuple[Tree, int]:
    """The decomposition with up to `pivots` pivots on the path to a node and the budget `lines`, and the most pivots that a path has.

    If pivots are allowed, the undecided nodes of an open tree are tried once more.
    """
    tree, deepest = _drawn_tree(matrix, pivots, lines)
    return (tried_tree(matrix, tree, lines) if pivots else tree), deepest


def _drawn_tree(matrix: Matrix, pivots: int, lines: int) -> tuple[Tree, int]:
    """The tree with the most pivots with which no node is deeper than 2,000."""
    search = _Search(lines)
    tree = search.tree(matrix, pivots, Draws())
    if pivots and max(depth for depth, _ in tree.walk()) > MOST_DEPTH:
        return _drawn_tree(matrix, pivots - 1, lines)
    return tree, search.deepest


@dataclass
class _Search:
    lines: int
    deepest: int = 0

    def tree(self, matrix: Matrix, left: int, draws: Draws, made: int = 0) -> Tree:
        """The tree of a matrix in which up to `left` more pivots may be made."""
        self.deepest = max(self.deepest, made)
        tree = asked_once("totally unimodular", matrix, lines=self.lines).tree
        assert tree is not None
        undecided = [node for _, node in tree.walk() if node.kind == "undecided"]
        found = {node: self._found(matrix, node, left, draws, made) for node in undecided}
        return replace(tree, root=tree.root.rebuilt(_Exchanged(found)))

    def _found(self, matrix: Matrix, node: Node, left: int, draws: Draws, made: int) -> Node:
        """What replaces an undecided node."""
        if not left:
            return node
        order = LineOrder(matrix, node.rows, node.columns)
        part = order.reordered()
        (row, column), after = _next_place(part, draws)
        try:
            pivoted = part.pivoted(row, column)
        except BadEntry as entry:
            fault = LineSet(tuple(sorted((row, entry.row))), tuple(sorted((column, entry.column))))
            return Node("violator", node.lines, fault=order.lines(fault))
        below = self.tree(pivoted, left - 1, after, made + 1)
        if below.verdict == "yes":
            place = order.line(Line("row", row)), order.line(Line("column", column))
            return Node("pivoted", node.lines, (order.tree(below).root,), place=place)
        faults = [found.fault for _, found in below.walk() if found.fault is not None]
        if faults:
            fault = violator_before(part, row, column, faults[0])
            return Node("violator", node.lines, fault=order.lines(fault))
        return node


def _next_place(part: Matrix, draws: Draws) -> tuple[Place, Draws]:
    """The position of the next pivot: of the first cut, after ten drawn positions one before a cut, and otherwise drawn.

    The matrix has a nonzero, as it is not reducible.
    """
    position = separating_place(part)
    if position is None and draws == Draws().after(AFTER):
        position = place_before_cut(part.to_lists())
    if position is not None:
        return position, draws
    number, after = draws.below(len(part.nonzeros))
    row, column, _ = part.nonzeros[number]
    return (row, column), after


@dataclass(frozen=True)
class _Exchanged:
    """The change of a tree in which some nodes become others."""

    others: dict[Node, Node]

    def __call__(self, node: Node, children: tuple[Node, ...]) -> Node:
        return self.others.get(node) or replace(node, children=children)


def _with_line(lines: set[int], line: int, has: bool) -> tuple[int, ...]:
    return tuple(sorted(lines | {line} if has else lines - {line}))
