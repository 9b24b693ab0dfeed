"""A no by a part: its evidence is on the whole matrix, and holds there apart from the program."""

from __future__ import annotations

import itertools
import random
import unittest

import cmr_matrices as cmr
from cmr_matrices import Answer, Matrix, ProgramFault
from cmr_matrices.matrices.determinants import determinant
from cmr_matrices.questions.narrowing import Narrowing
from cmr_matrices.questions.reading import Question
from cmr_matrices.running.clock import Clock
from tests import independent
from tests.open_matrices import latin_square, sudoku, two_goods
from tests.questions.test_random import network
from tests.support import FANO, TRIANGLE, asked_once, needs_program

UNIMODULAR = Question("totally unimodular", ("tu",))
REGULAR = Question("regular", ("regular",))


def spoiled(draw: random.Random) -> list[list[int]]:
    """A network matrix and a transposed one in two blocks, with a few entries by chance between and in them."""
    first, second = network(draw, draw.randint(3, 6), draw.randint(3, 6)), network(draw, draw.randint(3, 6), draw.randint(3, 6))
    turned = [list(column) for column in zip(*second)]
    rows = [row + [0] * len(turned[0]) for row in first] + [[0] * len(first[0]) + row for row in turned]
    for _ in range(draw.randint(4, 12)):
        line = draw.choice(rows)
        line[draw.randrange(len(line))] = draw.choice((-1, 1))
    return rows


@needs_program
class Narrowed(unittest.TestCase):
    def part_of(self, question: Question, matrix: Matrix) -> Answer | None:
        return Narrowing(Clock(None), None).decided(question, matrix)

    def shows_no(self, matrix: Matrix, answer: Answer | None) -> Answer:
        """Tests each piece of evidence on the whole matrix."""
        assert answer is not None and answer.violator is not None and answer.tree is not None
        self.assertEqual((answer.verdict, answer.tree.verdict, answer.open), ("no", "no", None))
        held = matrix if answer.signed is None else answer.signed
        self.assertEqual(held.support(), matrix.support())
        violator = answer.violator.submatrix(held)
        self.assertTrue(independent.is_violator(violator.to_lists()))
        self.assertIn(violator.determinant(), (2, -2))
        self.assertEqual(cmr.check(held, answer.tree).says, "no")
        self.assertEqual(answer.violator.names, matrix.names)
        if answer.signed is not None:
            assert answer.chain is not None
            self.assertTrue(independent.chain_holds(matrix.to_lists(), answer.chain))
            self.assertEqual(cmr.check(matrix, answer.chain).says, "not regular")
        return answer

    def test_random_matrices(self) -> None:
        draw = random.Random(7)
        seen = 0
        for number in range(24):
            rows = spoiled(draw)
            with self.subTest(number=number, rows=rows):
                for question, matrix in ((UNIMODULAR, Matrix.of(rows)), (REGULAR, Matrix.of(rows).support())):
                    found = self.part_of(question, matrix)
                    whole = asked_once(question.property_name, matrix)
                    if whole.verdict == "yes":
                        self.assertIsNone(found)
                    elif found is not None:
                        self.shows_no(matrix, found)
                        seen += 1
        self.assertGreater(seen, 10)

    def test_latin_squares(self) -> None:
        matrix = Matrix.of(latin_square(3), row_names=range(27), column_names=range(27))
        for name, ask in (("totally unimodular", cmr.is_totally_unimodular), ("regular", cmr.is_regular)):
            self.assertTrue(asked_once(name, matrix).is_undecided)
            answer = ask(matrix, pivots=0, certificate=True)
            self.shows_no(matrix, answer)
            self.assertTrue(ask(matrix, parts=False, pivots=0).is_undecided)
            plain = ask(matrix, pivots=0)
            self.assertEqual((plain.violator, plain.tree, plain.signed, plain.chain), (answer.violator, None, None, None))

    def test_a_sudoku(self) -> None:
        self.shows_no(Matrix.of(sudoku(2)), cmr.is_totally_unimodular(sudoku(2), pivots=0, certificate=True))

    def test_what_no_part_decides(self) -> None:
        """A matrix of a class of graphs has no parts, and the parts of a totally unimodular matrix are so, too."""
        for rows in ([], [[1, 1], [0, 1]], two_goods(6)):
            self.assertIsNone(self.part_of(UNIMODULAR, Matrix.of(rows)))
        self.assertIsNone(self.part_of(REGULAR, cmr.named("R10")))
        goods = two_goods(6)
        self.assertEqual(cmr.is_totally_unimodular(goods, lines=0, pivots=0).verdict, "undecided")
        self.assertEqual(cmr.is_totally_unimodular(goods, lines=0).verdict, "yes")

    def test_evidence_that_is_refused(self) -> None:
        """What a part has is tested on the whole matrix: a chain of another matrix ends the call."""

        class Other(Question):
            def ask(self, matrix: Matrix, *_: object) -> Answer:
                answer = cmr.is_regular(FANO, certificate=True)
                steps = answer.chain.steps[:-1] if answer.chain else ()
                chain = answer.chain and cmr.Chain((3, 4), steps, answer.chain.violator)
                return Answer("regular", "no", violator=answer.violator, signed=answer.signed, chain=chain)

        with self.assertRaisesRegex(ProgramFault, "the evidence of a part is refused"):
            self.part_of(Other("regular", ("regular",)), Matrix.of(FANO))

    def test_the_order_of_steps_is_one(self) -> None:
        """The same call gives the same evidence, with any number of workers."""
        matrix = Matrix.of(latin_square(3))
        found = [cmr.is_totally_unimodular(matrix, workers=workers, certificate=True) for workers in (None, 3)]
        self.assertEqual(found[0].violator, found[1].violator)


class Determinants(unittest.TestCase):
    def test_by_permutations(self) -> None:
        draw = random.Random(8)
        for size in range(6):
            for _ in range(40):
                rows = [[draw.choice((-1, 0, 1)) for _ in range(size)] for _ in range(size)]
                self.assertEqual(Matrix.of(rows).determinant() if rows else 1, by_permutations(rows))
        self.assertEqual(Matrix.of([]).determinant(), 1)
        self.assertEqual(Matrix.of(TRIANGLE).determinant(), 2)
        self.assertEqual(Matrix.of([[0, 1], [1, 0]]).determinant(), -1)
        self.assertEqual(Matrix.of([[1, 1], [1, 1]]).determinant(), 0)
        self.assertEqual(determinant([[0, 2, 1], [1, 0, 3], [4, 1, 0]]), 25)
        with self.assertRaisesRegex(cmr.BadInput, "a square matrix has a determinant, and here the size is 1x2"):
            Matrix.of([[1, 0]]).determinant()

    @needs_program
    def test_violators(self) -> None:
        """Without pivots a violator has no smaller one in it: it is square, and its determinant is 2 or -2."""
        draw = random.Random(9)
        seen = 0
        for number in range(120):
            size = draw.randint(2, 8)
            rows = [[draw.choice((-1, 0, 0, 1)) for _ in range(size)] for _ in range(draw.randint(2, 8))]
            answer = asked_once("totally unimodular", rows)
            if answer.violator is not None:
                seen += 1
                with self.subTest(number=number, rows=rows):
                    self.assertIn(answer.violator.submatrix(rows).determinant(), (2, -2))
        self.assertGreater(seen, 40)


def by_permutations(rows: list[list[int]]) -> int:
    """The determinant by its definition."""
    total = 0
    for order in itertools.permutations(range(len(rows))):
        product = -1 if sum(one > two for one, two in itertools.combinations(order, 2)) % 2 else 1
        for row, column in enumerate(order):
            product *= rows[row][column]
        total += product
    return total


if __name__ == "__main__":
    unittest.main()
