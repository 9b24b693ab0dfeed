"""What other orders of the lines decide, and the way of evidence back from them."""

from __future__ import annotations

import itertools
import random
import unittest

import cmr_matrices as cmr
from cmr_matrices import Answer, BadInput, Chain, Line, LineSet, Matrix, Tree
from cmr_matrices.evidence.forced_signs import forced_signs
from cmr_matrices.questions.line_orders import LineOrder, drawn_orders
from tests import independent
from tests.evidence.test_written_texts import trees_by_hand
from tests.open_matrices import latin_square, two_goods
from tests.questions.test_random import drawn
from tests.support import FANO, R10, asked_once, needs_program, tried

ONE_PIVOT = [
    [1, 0, 0, 1, 0, 0, 1],
    [0, 1, 0, 1, 1, 0, 0],
    [0, 0, 0, 0, 0, 1, 1],
    [1, 0, 0, 1, 0, 0, 0],
    [1, 0, 0, 0, 0, 1, 1],
    [1, 0, 1, 1, 1, 1, 1],
    [1, 0, 1, 0, 0, 1, 0],
    [0, 1, -1, 0, 0, 0, 0],
]
"""A matrix that is not totally unimodular."""


def any_order(matrix: Matrix, seed: int) -> LineOrder:
    lines = LineSet(tuple(range(matrix.shape[0])), tuple(range(matrix.shape[1])))
    return next(drawn_orders(matrix, lines, 1, seed))


class Orders(unittest.TestCase):
    def test_a_seed_draws_the_same_orders(self) -> None:
        order = any_order(Matrix((5, 4), ()), 0)
        self.assertEqual((order.rows, order.columns), ((3, 2, 4, 1, 0), (2, 0, 3, 1)))

    def test_the_way_back(self) -> None:
        matrix = Matrix.of([[1, -1, 0], [0, 1, 1], [1, 0, 1]], row_names="abc")
        order = any_order(matrix, 3)
        self.assertEqual(order.entries(order.reordered()), matrix)
        for row, column in itertools.product(range(3), repeat=2):
            back = order.line(Line("row", row)).number, order.line(Line("column", column)).number
            self.assertEqual(order.reordered()[row, column], matrix[back])

    def test_forced_signs(self) -> None:
        """The steps sign each one once, by their rules, and the signed matrix is totally unimodular if any signing is."""
        draw = random.Random(4)
        for rows in (FANO, R10, *(drawn(draw) for _ in range(150))):
            support = [[abs(entry) for entry in row] for row in rows]
            steps, signed = forced_signs(Matrix.of(support))
            self.assertEqual([[abs(entry) for entry in row] for row in signed.to_lists()], support)
            signs = independent.signs_of_steps(support, steps)
            self.assertEqual(signs, {(row, column): sign for row, column, sign in signed.nonzeros})
            if rows is not FANO and independent.is_unimodular(rows):
                self.assertTrue(independent.is_unimodular(signed.to_lists()), rows)


@needs_program
class TakenBack(unittest.TestCase):
    def test_trees(self) -> None:
        """A tree of a reordered matrix is one of the matrix: trees by hand with each kind of sum, and those of random matrices."""
        found = [(Matrix.from_text(text), Tree.from_text(tree)) for text, tree in trees_by_hand()]
        draw = random.Random(6)
        for rows in [drawn(draw) for _ in range(40)]:
            tree = cmr.is_totally_unimodular(rows, certificate=True).tree
            assert tree is not None
            found.append((Matrix.of(rows), tree))
        for seed, (matrix, tree) in enumerate(found):
            with self.subTest(matrix=matrix.to_lists()):
                order = any_order(matrix, seed)
                there = LineOrder(order.reordered(), _inverse(order.rows), _inverse(order.columns)).tree(tree)
                self.assertEqual(cmr.check(order.reordered(), there).says, tree.verdict)
                self.assertEqual(order.tree(there), tree)

    def test_concentrated_sums(self) -> None:
        """R12 has a concentrated sum at its root, whose connectors are in increasing order in every order of the lines."""
        matrix = Matrix.of(cmr.is_regular(cmr.named("R12"), certificate=True).signed)
        kinds, says = set(), []
        for seed in range(24):
            order = any_order(matrix, seed)
            tree = cmr.is_totally_unimodular(order.reordered(), certificate=True).tree
            assert tree is not None
            kinds.add(tree.root.kind)
            says.append(cmr.check(matrix, order.tree(tree)).says)
        self.assertEqual((kinds, set(says)), ({"concentrated"}, {"yes"}))

    def test_chains(self) -> None:
        order = any_order(Matrix.of(FANO), 1)
        chain = cmr.is_regular(order.reordered(), certificate=True).chain
        assert chain is not None
        self.assertEqual(cmr.check(FANO, order.chain(chain)).says, "not regular")


@needs_program
class Tried(unittest.TestCase):
    def test_total_unimodularity(self) -> None:
        """A Latin square has no cycle fault in its natural order and no separation, and has one in another order."""
        matrix = Matrix.of(latin_square(3), row_names=range(27))
        self.assertTrue(asked_once("totally unimodular", matrix).is_undecided)
        answer = tried("totally unimodular", matrix, 20)
        self.assertFalse(answer)
        self.shows_no(matrix, answer)
        assert answer.tree is not None
        self.assertEqual((answer.tree.verdict, cmr.check(matrix, answer.tree).says), ("no", "no"))
        self.assertGreater(answer.tries, 0)
        again = tried("totally unimodular", matrix, 20)
        self.assertEqual((again.violator, again.tries), (answer.violator, answer.tries))

    def test_regularity(self) -> None:
        matrix = Matrix.of(latin_square(3))
        answer = tried("regular", matrix, 20)
        self.assertFalse(answer)
        assert answer.chain is not None and answer.signed is not None and answer.tree is not None
        self.assertTrue(independent.chain_holds(matrix.to_lists(), answer.chain))
        self.shows_no(answer.signed, answer)
        self.assertEqual(Chain.from_text(answer.chain.to_text()), answer.chain)
        self.assertIsNone(cmr.is_regular(matrix, tries=20).chain)

    def test_balance(self) -> None:
        matrix = Matrix.of(latin_square(3))
        answer = cmr.is_balanced(matrix, pivots=0, tries=20)
        self.assertFalse(answer)
        self.shows_no(matrix, answer)

    def shows_no(self, matrix: Matrix, answer: Answer) -> None:
        assert answer.violator is not None
        self.assertIsNone(answer.open)
        self.assertTrue(independent.is_violator(answer.violator.submatrix(matrix).to_lists()))

    def test_what_stays_undecided(self) -> None:
        matrix = Matrix.of(two_goods(6))
        answer = cmr.is_totally_unimodular(matrix, lines=0, pivots=0, tries=3)
        self.assertEqual((answer.verdict, answer.tries, answer.open is None, answer.tree), ("undecided", 3, False, None))
        answer = cmr.is_balanced(matrix, lines=0, pivots=0, tries=2)
        self.assertEqual((answer.verdict, answer.tries), ("undecided", 2))

    def test_with_pivots(self) -> None:
        """A pivot is too few for this matrix as it stands, also if its lines are removed in turn, and enough in another order."""
        matrix = Matrix.of(ONE_PIVOT)
        self.assertEqual(asked_once("totally unimodular", matrix, lines=0, pivots=1).verdict, "undecided")
        answer = tried("totally unimodular", matrix, 20, lines=0, pivots=1)
        self.assertGreater(answer.tries, 0)
        self.shows_no(matrix, answer)
        self.assertEqual(cmr.is_totally_unimodular(two_goods(6), lines=0, pivots=20, tries=3).tries, 0)

    def test_a_decided_answer_is_not_asked_again(self) -> None:
        self.assertEqual(cmr.is_totally_unimodular(FANO, tries=20).tries, 0)

    def test_numbers_out_of_their_ranges(self) -> None:
        for options, line in [
            ({"tries": -1}, "tries is a number from 0 to 1000, and here it is -1"),
            ({"tries": 1.5}, "tries is an integer, and here it is 1.5"),
            ({"lines": 1.5}, "lines is an integer, and here it is 1.5"),
        ]:
            with self.subTest(line=line), self.assertRaises(BadInput) as refused:
                cmr.is_totally_unimodular(FANO, **options)  # type: ignore[arg-type]
            self.assertEqual(str(refused.exception), line)


def _inverse(order: tuple[int, ...]) -> tuple[int, ...]:
    places = {line: place for place, line in enumerate(order)}
    return tuple(places[line] for line in range(len(order)))


if __name__ == "__main__":
    unittest.main()
