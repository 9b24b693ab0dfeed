"""Tests of the random sums and of the nearly regular matrices of `bench/pivots.py`."""

import random
import sys
import unittest

from building.clone import TOP
from tests.support import ScriptTest, needs_program

sys.path.append(str(TOP / "bench"))

from drawn_sums import BASES, F7, NEAR, Basis, drawn_sum, near_regular, sum_in_basis  # noqa: E402
from measuring import dense_text  # noqa: E402


class DrawnSumsTest(unittest.TestCase):
    def test_sums(self) -> None:
        """Four numbers one after another are one sum in its four bases, and no matrix has more than 300 lines."""
        for first in range(0, 40, 4):
            drawn = [sum_in_basis(number) for number in range(first, first + 4)]
            self.assertEqual(tuple(it.kind for it in drawn), BASES)
            self.assertEqual(len({(len(it.entries), len(row)) for it in drawn for row in it.entries}), 1)
            self.assertLessEqual(len(drawn[0].entries) + len(drawn[0].entries[0]), 300)
            self.assertLessEqual({entry for it in drawn for row in it.entries for entry in row}, {-1, 0, 1})
            self.assertEqual(drawn[3], sum_in_basis(first + 3))

    def test_nearly_regular_matrices(self) -> None:
        drawn = [near_regular(number) for number in range(24)]
        self.assertEqual([it.kind for it in drawn], list(NEAR) * 8)
        for it in drawn:
            self.assertEqual(len({len(row) for row in it.entries}), 1)
            self.assertLessEqual({entry for row in it.entries for entry in row}, {0, 1})
        self.assertEqual(drawn[7], near_regular(7))

    def test_the_fano_matroid(self) -> None:
        """The last two columns of F7 differ only in the last row, and the columns are four of the seven nonzero ones."""
        columns = list(zip(*F7))
        self.assertEqual(columns[-2][:2] + (1,), columns[-1])
        self.assertEqual(columns[-2][2], 0)
        self.assertEqual({sum(column) for column in columns}, {2, 3})
        self.assertEqual(len(set(columns)), 4)

    def test_pivots(self) -> None:
        basis = Basis([[-1, 1, 0], [1, 0, 1], [0, 1, 1]], is_binary=False)
        basis.pivot(0, 0)
        self.assertEqual(basis.entries(), [[-1, -1, 0], [1, 1, 1], [0, 1, 1]])
        basis = Basis([[1, 1, 0], [1, 1, 1]], is_binary=True)
        self.assertEqual(basis.more_nonzeros(0, 0), -1)
        basis.pivot(0, 0)
        self.assertEqual(basis.entries(), [[1, 1, 0], [1, 0, 1]])

    def test_the_count_of_nonzeros(self) -> None:
        draw = random.Random(3)
        basis = Basis(drawn_sum(draw), is_binary=False)
        for _ in range(30):
            place = basis.nonzero(draw)
            expected = sum(map(len, basis.rows)) + basis.more_nonzeros(*place)
            basis.pivot(*place)
            self.assertEqual(sum(map(len, basis.rows)), expected)


@needs_program
class AnswersTest(ScriptTest):
    def test_no_sum_is_a_no(self) -> None:
        for number in range(12):
            with self.subTest(number=number):
                self.write("matrix", dense_text(sum_in_basis(number).entries))
                run = self.run_program("tu", "--lines", "0", "matrix")
                self.assertIn((run.returncode, run.stderr), [(0, ""), (6, "")])

    def test_nearly_regular_matrices(self) -> None:
        statuses = []
        for number in range(12):
            self.write("matrix", dense_text(near_regular(number).entries))
            run = self.run_program("regular", "--lines", "0", "matrix")
            statuses.append(run.returncode)
            self.assertIn((run.returncode, run.stderr), [(0, ""), (1, ""), (6, "")])
        self.assertIn(1, statuses)


if __name__ == "__main__":
    unittest.main()
