"""Pivots: of matrices, of trees that have them, and what `check` says of these."""

from __future__ import annotations

import random
import unittest

import cmr_matrices as cmr
from cmr_matrices import BadEntry, BadInput, Line, Matrix, Names, Tree
from cmr_matrices.evidence.named_text import named_text
from cmr_matrices.questions.line_orders import LineOrder
from tests import independent
from tests.questions.test_random import network
from tests.questions.test_tries import any_order
from tests.support import needs_program

ROWS = [[1, 1, 0], [1, 0, 1], [0, 1, -1]]
TREE = """\
cmr-pivots 1
3 3
pivoted 3 3 1 2 3 1 2 3
1 2
pivoted 3 3 1 2 3 1 2 3
3 1
network 3 3 1 2 3 1 2 3
0 1 0 2 0 3 2 1 1 0 0 3
"""
OUTLINE = """\
0 pivoted 3x3 row 1 column 2
1 pivoted 3x3 row 3 column 1
2 network 3x3"""
NAMES = Names(("a", "b", "c"), ("x", "y", "z"))


def pivoted_tree(draw: random.Random) -> tuple[list[list[int]], Tree] | None:
    """A network matrix after one to three pivots, with the tree that undoes them; None if a pivot has other entries."""
    matrix = Matrix.of(network(draw, draw.randint(1, 6), draw.randint(1, 6)))
    root = cmr.is_totally_unimodular(matrix, certificate=True).tree
    assert root is not None
    node = root.root
    for _ in range(draw.randint(1, 3)):
        if not matrix.nonzeros:
            return None
        row, column, _ = draw.choice(matrix.nonzeros)
        matrix = matrix.pivoted(row, column)
        node = cmr.Node("pivoted", node.lines, (node,), place=(Line("row", row), Line("column", column)))
    return matrix.to_lists(), Tree(matrix.shape, node)


class Matrices(unittest.TestCase):
    def test_a_pivot(self) -> None:
        matrix = Matrix.of([[1, -1, 0], [1, 0, 1]], row_names="ab")
        pivot = matrix.pivoted(0, 1)
        self.assertEqual(pivot.to_lists(), [[-1, -1, 0], [1, 0, 1]])
        self.assertEqual(matrix.pivoted(1, 0).to_lists(), [[-1, -1, -1], [1, 0, 1]])
        self.assertEqual(pivot.names, Names(("c1", "b"), ("c0", "a", "c2")))
        self.assertEqual(pivot.pivoted(0, 1).names, matrix.names)
        self.assertIsNone(Matrix.of([[1]]).pivoted(0, 0).names)
        with self.assertRaises(BadEntry) as refused:
            matrix.pivoted(0, 2)
        self.assertEqual(
            str(refused.exception), "row 0, column 2: the entry 0 is none of -1 and 1, as a pivot has to be"
        )
        with self.assertRaises(BadEntry) as refused:
            Matrix.of([[1, 1], [1, -1]]).pivoted(0, 0)
        self.assertEqual((refused.exception.row, refused.exception.column, refused.exception.entry), (1, 1, -2))

    def test_the_same_pivot_twice(self) -> None:
        draw = random.Random(2)
        for _ in range(100):
            matrix = Matrix.of(network(draw, draw.randint(1, 6), draw.randint(1, 6)))
            for row, column, _ in matrix.nonzeros:
                self.assertEqual(matrix.pivoted(row, column).pivoted(row, column), matrix)


class Trees(unittest.TestCase):
    def test_the_text(self) -> None:
        tree = Tree.from_text(TREE)
        self.assertEqual(tree.to_text(), TREE)
        self.assertEqual(tree.root.place, (Line("row", 0), Line("column", 1)))
        self.assertEqual((tree.verdict, str(tree)), ("yes", OUTLINE))
        kept = TREE.replace("cmr-pivots 1", "cmr-pivots 1").replace(
            "pivoted 3 3 1 2 3 1 2 3\n1 2\npivoted 3 3 1 2 3 1 2 3\n3 1\n", ""
        )
        self.assertTrue(Tree.from_text(kept).to_text().startswith("cmr-tree 2\n"))

    def test_texts_that_are_refused(self) -> None:
        for text, line in [
            (TREE.replace("cmr-pivots 1", "cmr-tree 2"), "pivoted is no kind of node (at character 15)"),
            (TREE.replace("cmr-pivots 1", "cmr-pivots 2"), "it does not begin with the words"),
            (TREE.replace("\n1 2\n", "\n4 2\n"), "4 is above 3 (at character 41)"),
            (TREE.replace("\n1 2\n", "\n0 2\n"), "rows and columns begin with 1 (at character 41)"),
            (TREE[:44], "the text ends too early"),
        ]:
            with self.subTest(line=line), self.assertRaises(BadInput) as refused:
                Tree.from_text(text)
            self.assertIn(line, str(refused.exception))

    def test_names_and_pictures(self) -> None:
        tree = Tree.from_text(TREE, NAMES)
        outline = "0 pivoted 3x3 at a y\n1 pivoted 3x3 at c x\n2 network 3x3 rows a b c columns x y z"
        self.assertEqual(tree.outline(), outline)
        self.assertEqual(named_text(TREE, NAMES, None), f"{outline}\n")
        self.assertEqual(named_text(f"{OUTLINE}\n", NAMES, tree), f"{outline}\n")
        alone = "0 pivoted 3x3 at a y\n1 pivoted 3x3 at c x\n2 network 3x3\n"
        self.assertEqual(named_text(f"{OUTLINE}\n", NAMES, None), alone)
        with self.assertRaises(BadInput):
            named_text("0 pivoted 3x3 row 4 column 1\n", NAMES, None)
        self.assertIn("pivoted 3x3\\nat a y", tree.to_dot())

    def test_the_way_back_from_another_order(self) -> None:
        tree = Tree.from_text(TREE)
        order = LineOrder(Matrix((3, 3), ()), (2, 0, 1), (1, 2, 0))
        self.assertEqual(order.tree(tree).root.place, (Line("row", 2), Line("column", 2)))

    def test_what_nodes_speak_of(self) -> None:
        """The submatrices of a walk are those of an independent pivot, and the independent check takes the tree, and no other."""
        draw = random.Random(3)
        seen = 0
        for rows, tree in filter(None, (self.made(draw) for _ in range(60))):
            seen += 1
            self.assertEqual(Tree.from_text(tree.to_text()), tree)
            self.assertTrue(independent.tree_holds(rows, tree), rows)
            entries: list[list[int]] = [list(row) for row in rows]
            for node, part in tree.submatrices(rows):
                self.assertEqual(part.to_lists(), independent.part(entries, node.lines))
                if node.kind == "pivoted":
                    entries = independent.pivot_of(entries, node)
            rows[tree.root.place[0].number][tree.root.place[1].number] = 0
            self.assertFalse(independent.tree_holds(rows, tree))
        self.assertGreater(seen, 30)

    def made(self, draw: random.Random) -> tuple[list[list[int]], Tree] | None:
        """A network matrix after pivots, without the program: its tree is a leaf that the test knows to be right."""
        matrix = Matrix.of(network(draw, draw.randint(1, 6), draw.randint(1, 6)))
        if not matrix.nonzeros:
            return None
        lines = cmr.LineSet(tuple(range(matrix.shape[0])), tuple(range(matrix.shape[1])))
        node = cmr.Node("enumerated", lines)
        for _ in range(draw.randint(1, 3)):
            row, column, _ = draw.choice(matrix.nonzeros)
            matrix = matrix.pivoted(row, column)
            node = cmr.Node("pivoted", lines, (node,), place=(Line("row", row), Line("column", column)))
        return matrix.to_lists(), Tree(matrix.shape, node)


@needs_program
class Checked(unittest.TestCase):
    def test_trees_by_hand(self) -> None:
        draw = random.Random(9)
        for rows, tree in filter(None, (pivoted_tree(draw) for _ in range(40))):
            with self.subTest(rows=rows):
                self.assertEqual(cmr.check(rows, tree).says, "yes")
                order = any_order(Matrix.of(rows), 1)
                self.assertEqual(cmr.check(order.reordered(), self.turned(order, tree)).says, "yes")

    def turned(self, order: LineOrder, tree: Tree) -> Tree:
        inverse = tuple(order.rows.index(row) for row in range(len(order.rows)))
        across = tuple(order.columns.index(column) for column in range(len(order.columns)))
        return LineOrder(order.reordered(), inverse, across).tree(tree)


if __name__ == "__main__":
    unittest.main()
