"""Total unimodularity of matrices with more than 1,000 rows or columns, compared with `cmr` on small matrices."""

from __future__ import annotations

import random
import unittest
from dataclasses import replace
from unittest import mock

from cmr_matrices import (
    Answer,
    BadEntry,
    BadInput,
    Matrix,
    Submatrix,
    TimeLimitReached,
    Undecided,
    check,
    find_program,
    is_totally_unimodular,
)
from cmr_matrices.matrices.large_matrix import LargeMatrix
from cmr_matrices.questions import large_questions
from cmr_matrices.questions.large_questions import LargeQuestion, ask_large
from cmr_matrices.running.calls import Call
from tests.support import R10, TRIANGLE, needs_large, needs_module

SIGNED_R10 = [[1, 0, 0, 1, -1], [-1, 1, 0, 0, 1], [1, -1, 1, 0, 0], [0, 1, -1, 1, 0], [0, 0, 1, -1, 1]]

FOUR = [[1, 1, 0, 0], [1, 0, 1, 0], [1, 0, 0, 1], [1, 1, 1, 1]]
"""A violator, which the program leaves undecided if it may search three lines."""


def blocks(*parts: list[list[int]]) -> list[list[int]]:
    """The matrix with these parts beside one another, after 1,000 columns of zeros."""
    width = sum(len(part[0]) for part in parts)
    rows, before = [], 0
    for part in parts:
        after = width - before - len(part[0])
        rows += [[0] * (1000 + before) + row + [0] * after for row in part]
        before += len(part[0])
    return rows


def ring(size: int) -> list[list[int]]:
    """Columns with three nonzeros one after another around a circle, which are too large a part for `cmr`."""
    return [[int((row - column) % size < 3) for column in range(size)] for row in range(size)]


@needs_large
class LargeQuestions(unittest.TestCase):
    def test_small_matrices_are_answered_as_by_cmr(self) -> None:
        draw = random.Random(1)
        call = Call.begin(find_program(), None)
        verdicts = set()
        for number in range(150):
            rows = [[draw.choice((0, 0, 1, -1)) for _ in range(draw.choice((4, 6)))] for _ in range(6)]
            rows = [row[: len(rows[0])] + [0] * (len(rows[0]) - len(row)) for row in rows]
            matrix = LargeMatrix.of(rows)
            with self.subTest(number=number, rows=rows):
                first = ask_large(matrix, call)
                verdicts.add(first.verdict)
                answer = LargeQuestion(call, is_totally_unimodular).answer(matrix)
                self.assertEqual(answer.verdict, is_totally_unimodular(rows).verdict)
                self.assertEqual(first.verdict, answer.verdict)
                if answer.violator is not None:
                    self.assertEqual(check(rows, answer.violator).says, "no")
        self.assertEqual(verdicts, {"yes", "no"})

    def test_a_no_keeps_names(self) -> None:
        matrix = blocks(SIGNED_R10, TRIANGLE)
        answer = is_totally_unimodular(matrix)
        assert answer.violator is not None
        self.assertEqual((answer.violator.rows, answer.violator.columns), ((5, 6, 7), (1005, 1006, 1007)))
        self.assertEqual(answer.violator.entries, tuple(map(tuple, TRIANGLE)))
        self.assertEqual(str(answer), "totally unimodular: no\nviolator rows r5 r6 r7 columns c1005 c1006 c1007")
        self.assertEqual(check(matrix, answer), check(matrix, answer.violator))
        self.assertEqual((check(matrix, answer).says, check(matrix, answer).violator), ("no", answer.violator))
        other = replace(answer.violator, rows=(5, 6), columns=(1005, 1006))
        self.assertEqual(check(matrix, other).rule, "NotViolator")

    def test_open_parts_are_asked_one_by_one(self) -> None:
        self.assertTrue(is_totally_unimodular(blocks(SIGNED_R10, SIGNED_R10, [[1, 1], [0, 1]])))
        for parts in ((R10, SIGNED_R10), (SIGNED_R10, R10)):
            answer = is_totally_unimodular(blocks(*parts))
            assert answer.violator is not None
            rows = range(5) if parts[0] is R10 else range(5, 10)
            self.assertEqual((answer.verdict, set(answer.violator.rows) <= set(rows)), ("no", True))
            self.assertEqual(check(blocks(*parts), answer).says, "no")

    def test_what_stays_open(self) -> None:
        matrix = blocks(SIGNED_R10, ring(1001))
        answer = is_totally_unimodular(matrix)
        assert answer.open is not None
        self.assertEqual((answer.verdict, answer.open.lines.size, answer.open.rows[0]), ("undecided", "1001x1001", 5))
        with self.assertRaises(Undecided) as undecided:
            bool(answer)
        self.assertEqual(str(undecided.exception), "totally unimodular: undecided, the open part of 1001x1001 is too large for `cmr`")
        with self.assertRaises(BadInput):
            check(matrix, answer)
        # A later part decides.
        self.assertEqual(is_totally_unimodular(blocks(ring(1001), R10)).verdict, "no")

    def test_what_cmr_leaves_open(self) -> None:
        call = Call.begin(find_program(), None)
        asked = []

        def ask(part: Matrix) -> Answer:
            asked.append(part)
            return Answer("totally unimodular", "undecided", open=Submatrix(part.shape, (2, 3), (0, 1)))

        matrix = LargeMatrix.of(blocks([[1]], FOUR, FOUR))
        self.assertEqual(LargeQuestion(call, ask).answer(matrix).verdict, "no")
        answer = LargeQuestion(call, ask, ("--lines", "3")).answer(matrix)
        assert answer.open is not None
        self.assertEqual((answer.verdict, answer.open.rows, answer.open.columns), ("undecided", (3, 4), (1001, 1002)))
        self.assertEqual(asked, [Matrix.of(FOUR)] * 2)

    def test_the_budget_is_passed_on(self) -> None:
        matrix = blocks(FOUR)
        self.assertEqual(is_totally_unimodular(matrix, lines=3, pivots=0, parts=False).verdict, "undecided")
        self.assertEqual(is_totally_unimodular(matrix, lines=4, workers=2).verdict, "no")

    def test_a_limit_of_time(self) -> None:
        matrix = blocks(SIGNED_R10, ring(1001))
        with self.assertRaises(TimeLimitReached):
            is_totally_unimodular(matrix, time_limit=0)
        found = large_questions.ask_large
        runs = []

        def later(*given: object) -> Answer:
            runs.append(given)
            if len(runs) > 1:
                raise TimeLimitReached(1.0)
            return found(*given)  # type: ignore[arg-type]

        with mock.patch.object(large_questions, "ask_large", later):
            self.assertEqual(is_totally_unimodular(matrix).verdict, "undecided")
        runs += [()] * 2
        with mock.patch.object(large_questions, "ask_large", later), self.assertRaises(TimeLimitReached):
            is_totally_unimodular(matrix)

    def test_refusals(self) -> None:
        with self.assertRaises(BadEntry) as entry:
            is_totally_unimodular(blocks([[1, 3]]))
        self.assertEqual((entry.exception.row, entry.exception.column), (0, 1001))
        with self.assertRaises(BadInput):
            is_totally_unimodular(blocks([[1]]), pivots=101)
        with self.assertRaises(BadInput):
            check(blocks([[1]]), "cmr-tree 1")

    @needs_module("pandas")
    def test_a_frame(self) -> None:
        import numpy
        import pandas

        array = numpy.zeros((1200, 3), dtype=int)
        array[1000:1003] = TRIANGLE
        answer = is_totally_unimodular(pandas.DataFrame(array, index=[f"row {at}" for at in range(1200)], columns=list("xyz")))
        assert answer.violator is not None
        self.assertEqual(answer.violator.row_names, ("row 1000", "row 1001", "row 1002"))
        self.assertIn("row 1001", answer._repr_html_())

    @needs_module("scipy")
    def test_arcs_of_many_nodes(self) -> None:
        from scipy import sparse

        draw = random.Random(4)
        arcs = [draw.sample(range(3000), 2) for _ in range(9000)]
        rows, columns = [end for arc in arcs for end in arc], [at // 2 for at in range(18000)]
        array = sparse.csr_array(([1, -1] * 9000, (rows, columns)), shape=(3000, 9000))
        self.assertTrue(is_totally_unimodular(array))
        array = sparse.csr_array(([1, 1] + [1, -1] * 8999, (rows, columns)), shape=(3000, 9000))
        answer = is_totally_unimodular(array)
        self.assertEqual((answer.verdict, check(array, answer).says), ("no", "no"))


if __name__ == "__main__":
    unittest.main()
