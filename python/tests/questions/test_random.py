"""500 random matrices with up to 12 lines: each answer and its evidence is compared with an independent check."""

from __future__ import annotations

import random
import unittest
from collections.abc import Callable

import cmr_matrices as cmr
from cmr_matrices import Answer, Matrix
from tests import independent
from tests.support import FANO, R10, needs_program

MATRICES = 500
QUESTIONS: tuple[Callable[..., Answer], ...] = (cmr.is_network, cmr.is_conetwork, cmr.is_series_parallel)


def drawn(draw: random.Random) -> list[list[int]]:
    """A matrix with 2 to 12 lines: of random entries, of paths in a random tree or its transpose, or R10 or the Fano plane."""
    height = draw.randint(1, 11)
    width = draw.randint(1, 12 - height)
    match draw.randrange(8):
        case 0 | 1 | 2:
            entries = draw.choice([(0, 1), (-1, 0, 1), (0, 0, 1), (-1, 0, 0, 1), (0, 0, 0, 1, -1)])
            return [[draw.choice(entries) for _ in range(width)] for _ in range(height)]
        case 3:
            return negated(draw, draw.choice([R10, FANO]))
        case 4 | 5:
            return network(draw, height, width)
        case 6:
            return independent.transposed(network(draw, width, height))
    rows = network(draw, height, width)
    rows[draw.randrange(height)][draw.randrange(width)] = draw.choice((-1, 0, 1))
    return rows


def negated(draw: random.Random, rows: list[list[int]]) -> list[list[int]]:
    signs = [draw.choice((1, -1)) for _ in rows]
    return [[entry * sign for entry in row] for row, sign in zip(rows, signs)]


def network(draw: random.Random, height: int, width: int) -> list[list[int]]:
    """A network matrix: a node with its way to the root, less that of another, for each column."""
    ways: list[list[int]] = [[0] * height]
    for node in range(height):
        way = list(draw.choice(ways))
        way[node] = draw.choice((1, -1))
        ways.append(way)
    walks = [(draw.choice(ways), draw.choice(ways)) for _ in range(width)]
    return [[tail[row] - head[row] for tail, head in walks] for row in range(height)]


@needs_program
class RandomMatrices(unittest.TestCase):
    def test_answers_and_evidence(self) -> None:
        draw = random.Random(7)
        answers: dict[str, set[bool]] = {}
        for number in range(MATRICES):
            rows = drawn(draw)
            with self.subTest(number=number, rows=rows):
                for name, answer in self.asked(rows).items():
                    answers.setdefault(name, set()).add(bool(answer))
        self.assertEqual({name for name, found in answers.items() if found == {True, False}}, set(answers))

    def asked(self, rows: list[list[int]]) -> dict[str, Answer]:
        support = [[abs(entry) for entry in row] for row in rows]
        return {
            "unimodular": self.unimodular(rows),
            "regular": self.regular(rows, support),
            "network": self.network(rows),
            "conetwork": self.conetwork(rows),
            "graphic": self.graphic(support),
            "cographic": self.cographic(support),
            "series-parallel": self.series_parallel(rows, binary=False),
            "binary series-parallel": self.series_parallel(support, binary=True),
            "balanced": self.balanced(rows),
            "signed": self.signed(rows),
        }

    def unimodular(self, rows: list[list[int]]) -> Answer:
        answer = cmr.is_totally_unimodular(rows, certificate=True)
        self.assertEqual(bool(answer), independent.is_unimodular(rows))
        assert answer.tree is not None
        self.assertEqual(answer.tree.verdict, answer.verdict)
        self.assertTrue(independent.tree_holds(rows, answer.tree), answer.tree)
        self.is_violated(answer, rows)
        self.assertEqual(cmr.check(rows, answer.tree).says, answer.verdict)
        if answer.tree.root.kind in ("twosum", "delta", "y", "mixed", "concentrated"):
            parts = cmr.parts(rows, answer.tree)
            whole = Matrix.of(rows).submatrix(parts.rows, parts.columns)
            self.assertEqual(cmr.compose(parts.kind, parts.first, parts.second), whole)
        return answer

    def is_violated(self, answer: Answer, rows: list[list[int]]) -> None:
        self.assertEqual(answer.violator is not None, answer.verdict == "no")
        if answer.violator is not None:
            self.assertTrue(independent.is_violator(answer.violator.submatrix(rows).to_lists()))
            self.assertEqual(cmr.check(rows, answer.violator).says, "no")

    def regular(self, rows: list[list[int]], support: list[list[int]]) -> Answer:
        answer = cmr.is_regular(support, certificate=True)
        assert answer.signed is not None and answer.tree is not None
        signed = answer.signed.to_lists()
        self.assertEqual([[abs(entry) for entry in row] for row in signed], support)
        self.assertTrue(independent.tree_holds(signed, answer.tree))
        if answer:
            self.assertTrue(independent.is_unimodular(signed))
            self.assertIsNone(answer.chain)
            self.assertEqual(bool(cmr.has_no_cycle_fault(rows)), independent.is_unimodular(rows))
        else:
            assert answer.chain is not None
            self.assertTrue(independent.chain_holds(support, answer.chain))
            self.assertEqual(cmr.check(support, answer.chain).says, "not regular")
        return answer

    def network(self, rows: list[list[int]]) -> Answer:
        return self.shown(cmr.is_network(rows, certificate=True), rows)

    def conetwork(self, rows: list[list[int]]) -> Answer:
        answer = self.shown(cmr.is_conetwork(rows, certificate=True), rows)
        self.assertEqual(answer.verdict, cmr.is_network(Matrix.of(rows).T).verdict)
        return answer

    def graphic(self, rows: list[list[int]]) -> Answer:
        return self.shown(cmr.is_graphic(rows, certificate=True), rows)

    def cographic(self, rows: list[list[int]]) -> Answer:
        answer = self.shown(cmr.is_cographic(rows, certificate=True), rows)
        self.assertEqual(answer.verdict, cmr.is_graphic(Matrix.of(rows).T).verdict)
        return answer

    def shown(self, answer: Answer, rows: list[list[int]]) -> Answer:
        if answer:
            assert answer.graph is not None
            self.assertTrue(independent.shows(answer.graph, rows))
            self.assertEqual(cmr.matrix_of(answer.graph), Matrix.of(rows))
        self.assertEqual(answer.minimal is None, bool(answer))
        return answer

    def series_parallel(self, rows: list[list[int]], binary: bool) -> Answer:
        answer = cmr.is_series_parallel(rows, binary=binary, certificate=True)
        assert answer.reductions is not None
        rest = None if answer.rest is None else answer.rest.lines
        self.assertTrue(independent.reduces(rows, answer.reductions, rest, binary=binary))
        self.assertEqual(answer.rest is None, bool(answer))
        if answer.minimal is not None:
            lines = answer.minimal.lines
            self.assertFalse(any(independent.is_reducible(rows, line, lines, binary) for line in lines))
        return answer

    def balanced(self, rows: list[list[int]]) -> Answer:
        answer = cmr.is_balanced(rows)
        self.assertEqual(bool(answer), independent.is_balanced(rows))
        self.is_violated(answer, rows)
        return answer

    def signed(self, rows: list[list[int]]) -> Answer:
        answer = cmr.sign(rows)
        if answer:
            assert answer.signing is not None
            self.assertEqual(sorted(answer.signing.as_dict()), list(range(len(rows))))
            self.assertLessEqual({abs(total) for total in answer.signing.column_sums(rows)}, {0, 1})
        self.is_violated(answer, rows)
        return answer


@needs_program
class MinimalSubmatrices(unittest.TestCase):
    def test_each_line_is_needed(self) -> None:
        """Of 60 matrices: a minimal submatrix lacks the property, and has it when any one of its lines is removed."""
        draw = random.Random(8)
        for _ in range(60):
            rows = drawn(draw)
            for question in QUESTIONS:
                answer = question(rows, certificate=True)
                if answer.minimal is not None:
                    with self.subTest(rows=rows, question=question):
                        self.is_minimal(question, answer.minimal.submatrix(rows))

    def is_minimal(self, question: Callable[[Matrix], Answer], matrix: Matrix) -> None:
        self.assertFalse(question(matrix))
        height, width = matrix.shape
        for line in range(height):
            self.assertTrue(question(matrix.submatrix([row for row in range(height) if row != line], range(width))))
        for line in range(width):
            self.assertTrue(
                question(matrix.submatrix(range(height), [column for column in range(width) if column != line]))
            )


if __name__ == "__main__":
    unittest.main()
