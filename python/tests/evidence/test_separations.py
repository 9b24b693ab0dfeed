"""The separations of trees: their sides, and the rank of what is between them by elimination apart from the package."""

from __future__ import annotations

import random
import unittest

import cmr_matrices as cmr
from cmr_matrices import LineSet, Matrix, Node, Tree
from tests.evidence.test_written_texts import trees_by_hand
from tests.matroid_bases import rank
from tests.open_matrices import two_goods
from tests.questions.test_random import drawn
from tests.support import needs_program


def rank_between(matrix: Matrix, one: LineSet, two: LineSet) -> int:
    """The ranks over GF(3) of the two blocks between two sides, added."""
    rows = matrix.to_lists()
    return sum(
        rank([[rows[row][column] for column in columns] for row in lines], 3)
        for lines, columns in ((one.rows, two.columns), (two.rows, one.columns))
    )


class Separations(unittest.TestCase):
    def holds(self, matrix: Matrix, tree: Tree) -> set[str]:
        """Tests each separation, and gives the kinds of nodes that have one."""
        parts = {id(node): part for node, part in tree.submatrices(matrix)}
        for found in tree.separations():
            node, part = found.node, parts[id(found.node)]
            self.assertEqual(sorted([*found.one, *found.two]), sorted(node.lines))
            places = [self.places(node, side) for side in (found.one, found.two)]
            self.assertEqual(rank_between(part, *places), found.rank)
            self.assertEqual((found.order, found.kind), (found.rank + 1, node.kind))
            self.assertGreaterEqual(min(len(found.one), len(found.two)), {0: 1, 1: 2, 2: 4}[found.rank])
        return {found.kind for found in tree.separations()}

    def places(self, node: Node, side: LineSet) -> LineSet:
        """The places of lines of a side among the lines of a node."""
        return LineSet(tuple(map(node.rows.index, side.rows)), tuple(map(node.columns.index, side.columns)))

    def test_trees_by_hand(self) -> None:
        kinds: set[str] = set()
        for text, tree in trees_by_hand():
            with self.subTest(tree=tree):
                kinds |= self.holds(Matrix.from_text(text), Tree.from_text(tree))
        self.assertEqual(kinds, {"onesum", "twosum", "delta", "y", "mixed", "concentrated"})

    def test_parts_of_a_onesum(self) -> None:
        """Two parts are separated once, and each of three from the two others. A part may be a single line."""
        for text, count in [("cmr-tree 2\n2 2\nonesum 2 2 1 2 1 2\n2\nnetwork 1 1 1 1\n0 1 0 1\nnetwork 1 1 2 2\n0 1 0 1\n", 1)]:
            tree = Tree.from_text(text)
            self.assertEqual(len(tree.separations()), count)
            self.assertEqual((tree.separations()[0].one, tree.separations()[0].two), (LineSet((0,), (0,)), LineSet((1,), (1,))))
        lines = [LineSet((at,), (at,)) for at in range(3)]
        whole = LineSet((0, 1, 2), (0, 1, 2))
        root = Node("onesum", whole, tuple(Node("enumerated", part) for part in lines))
        self.assertEqual([found.one for found in Tree((3, 3), root).separations()], lines)

    @needs_program
    def test_random_matrices(self) -> None:
        draw = random.Random(12)
        for rows in [drawn(draw) for _ in range(60)]:
            tree = cmr.is_totally_unimodular(rows, certificate=True).tree
            assert tree is not None
            with self.subTest(rows=rows):
                self.holds(Matrix.of(rows), tree)

    @needs_program
    def test_pivots(self) -> None:
        """Below a pivot the lines are those of the pivoted submatrix."""
        tree = cmr.is_totally_unimodular(two_goods(6), lines=0, certificate=True).tree
        assert tree is not None
        self.assertIn("concentrated", self.holds(Matrix.of(two_goods(6)), tree))


if __name__ == "__main__":
    unittest.main()
