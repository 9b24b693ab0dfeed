"""Matrices of any size, which are made of the same objects as a `Matrix`."""

from __future__ import annotations

import random
import unittest
from fractions import Fraction

from cmr_matrices import BadEntry, BadInput, Matrix, Submatrix
from cmr_matrices.matrices.large_matrix import LargeMatrix, is_large
from cmr_matrices.matrices.lines import LineSet, Names
from tests.support import needs_module


def drawn(draw: random.Random) -> list[list[int]]:
    height, width = draw.randrange(1, 6), draw.randrange(1, 6)
    return [[draw.choice((0, 0, 1, -1)) for _ in range(width)] for _ in range(height)]


class LargeMatrices(unittest.TestCase):
    def test_lists_and_texts(self) -> None:
        draw = random.Random(1)
        for _ in range(100):
            rows = drawn(draw)
            matrix = Matrix.of(rows)
            large = LargeMatrix.of([[Fraction(entry) for entry in row] for row in rows])
            self.assertEqual(large.to_text(), matrix.to_text())
            dense = "\n".join(["{} {}".format(*matrix.shape), *(" ".join(map(str, row)) for row in rows)])
            for again in (LargeMatrix.from_text(dense), LargeMatrix.from_text(matrix.to_text(), sparse=True)):
                self.assertEqual(again.to_text(), matrix.to_text())

    def test_parts(self) -> None:
        draw = random.Random(2)
        for _ in range(100):
            rows = drawn(draw)
            matrix, large = Matrix.of(rows), LargeMatrix.of(rows)
            lines = LineSet(
                *(tuple(it for it in range(count) if draw.random() < 0.5) for count in matrix.shape)
            )
            self.assertEqual(large.submatrix(lines.rows, lines.columns), matrix.submatrix(lines.rows, lines.columns))
            rest = [
                [0 if row in lines.rows or column in lines.columns else entry for column, entry in enumerate(entries)]
                for row, entries in enumerate(rows)
            ]
            self.assertEqual(large.without(lines).to_text(), Matrix.of(rest).to_text())

    def test_names(self) -> None:
        names = Names(("a", "b"), ("x", "y", "z"))
        large = LargeMatrix.of_entries({(1, 2): -1, (0, 0): 1}, names)
        self.assertEqual(large.to_text(), "2 3 2\n1 1 1\n2 3 -1\n")
        self.assertEqual(large.submatrix([1], [0, 2]).names, Names(("b",), ("x", "z")))

    def test_what_is_large(self) -> None:
        for source, said in (([[0]] * 1001, True), ([[0] * 1001], True), ([[0]] * 1000, False), ([], False), ("1 1 1", False)):
            self.assertEqual(is_large(source), said)
        self.assertTrue(is_large(LargeMatrix.of([[1]])))
        self.assertFalse(is_large(Matrix.of([[1]])))

    def test_refusals(self) -> None:
        with self.assertRaises(BadEntry) as entry:
            LargeMatrix.of([[0, 2]])
        self.assertEqual((entry.exception.row, entry.exception.column), (0, 1))
        part = Submatrix((2000, 1), (3, 7), (0,))
        self.assertEqual(part.submatrix([[1]] * 2000).to_lists(), [[1], [1]])
        for bad in ([[1]] * 1999, [[1]] * 3):
            with self.assertRaises(BadInput):
                part.submatrix(bad)
        with self.assertRaises(BadInput):
            Submatrix((2000, 1), tuple(range(1500)), (0,)).submatrix([[1]] * 2000)

    def test_submatrix_texts_of_any_size(self) -> None:
        part = Submatrix((2000, 5000), (3, 1999), (4999,))
        self.assertEqual(Submatrix.from_text(part.to_text()), part)
        self.assertEqual((part.row_names, part.column_names), (("r3", "r1999"), ("c4999",)))
        self.assertEqual(part.part(Submatrix((2, 1), (1,), (0,))), Submatrix((2000, 5000), (1999,), (4999,)))

    @needs_module("scipy")
    def test_arrays(self) -> None:
        import numpy
        from scipy import sparse

        draw = random.Random(3)
        places = sorted({(draw.randrange(1500), draw.randrange(1500)) for _ in range(300)})
        rows, columns = zip(*places)
        values = [draw.choice((1, -1, 0)) for _ in places]
        wanted = [(row, column, value) for (row, column), value in zip(places, values) if value]
        text = "".join([f"1500 1500 {len(wanted)}\n", *(f"{row + 1} {column + 1} {value}\n" for row, column, value in wanted)])
        array = sparse.coo_array((values, (rows, columns)), shape=(1500, 1500))
        for source in (array, array.tocsc(), array.tolil(), array.astype(float).tocsr(), array.toarray(), array.toarray().tolist()):
            self.assertTrue(is_large(source))
            self.assertEqual(LargeMatrix.of(source).to_text(), text)
        twice = sparse.coo_array(([1, -1, 1], ([0, 0, 0], [1400, 1400, 2])), shape=(1, 1500))
        self.assertEqual(LargeMatrix.of(twice).to_text(), "1 1500 1\n1 3 1\n")
        for kind in ("bool", "uint8"):
            ones = numpy.ones((1, 1100), dtype=kind)
            self.assertEqual(len(LargeMatrix.of(ones).values), 1100)
        with self.assertRaises(BadEntry) as entry:
            LargeMatrix.of(sparse.csr_array(([1, 3], ([0, 1200], [0, 1])), shape=(1300, 2)))
        self.assertEqual((entry.exception.row, entry.exception.column, entry.exception.entry), (1200, 1, 3))
        with self.assertRaises(BadInput) as large:
            LargeMatrix.of(sparse.coo_array((2**24 + 1, 1)))
        self.assertEqual(str(large.exception), "there are 16777217 rows, and a matrix for cmr-large may have at most 16777216")


if __name__ == "__main__":
    unittest.main()
