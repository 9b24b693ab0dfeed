"""What matrices are made from, what is refused, and what they become."""

from __future__ import annotations

import pickle
import unittest
from decimal import Decimal
from fractions import Fraction
from typing import Any

from cmr_matrices import BadEntry, BadInput, Matrix, Names
from tests.support import needs_module

ROWS = [[1, 0, -1], [0, 0, 1]]
MATRIX = Matrix((2, 3), ((0, 0, 1), (0, 2, -1), (1, 2, 1)))


class SageMatrix:
    """What the package asks of a matrix of Sage, over the integers modulo a number."""

    def __init__(self, rows: list[list[int]], modulus: int) -> None:
        self._rows, self._modulus = rows, modulus

    def nrows(self) -> int:
        return len(self._rows)

    def ncols(self) -> int:
        return len(self._rows[0])

    def __getitem__(self, place: tuple[int, int]) -> Residue:
        return Residue(self._rows[place[0]][place[1]], self._modulus)


class SparseSageMatrix(SageMatrix):
    """The same with the nonzeros as Sage gives them."""

    def dict(self) -> dict[tuple[int, int], Residue]:
        places = ((row, column) for row in range(self.nrows()) for column in range(self.ncols()))
        return {place: self[place] for place in places if self[place] != 0}


class Residue:
    """An element of a ring, which equals integers but is not an integer."""

    __hash__ = None  # type: ignore[assignment]

    def __init__(self, value: int, modulus: int) -> None:
        self.value, self.modulus = value, modulus

    def __eq__(self, other: object) -> bool:
        return isinstance(other, int) and (self.value - other) % self.modulus == 0


class Sources(unittest.TestCase):
    def test_lists(self) -> None:
        self.assertEqual(Matrix.of(ROWS), MATRIX)
        self.assertEqual(Matrix.of(tuple(tuple(row) for row in ROWS)), MATRIX)
        self.assertIs(Matrix.of(MATRIX), MATRIX)

    def test_whole_numbers_of_all_types(self) -> None:
        for number in (float, Fraction, Decimal, complex):
            with self.subTest(type=number):
                self.assertEqual(Matrix.of([[number(entry) for entry in row] for row in ROWS]), MATRIX)
        self.assertEqual(Matrix.of([[True, False]]), Matrix((1, 2), ((0, 0, 1),)))

    def test_matrices_without_lines(self) -> None:
        self.assertEqual(Matrix.of([]).shape, (0, 0))
        self.assertEqual(Matrix.of([[], []]).shape, (2, 0))
        self.assertEqual(Matrix.from_triples([], (0, 3)).shape, (0, 3))

    def test_triples(self) -> None:
        triples = [(1, 2, 1.0), (0, 0, 1), (0, 2, -1), (0, 1, 0)]
        self.assertEqual(Matrix.from_triples(triples, (2, 3)), MATRIX)
        for bad, line in [
            ([(0, 0, 1), (0, 0, 0)], "row 0, column 0: the place is named twice"),
            ([(2, 0, 1)], "row 2, column 0: there is no such place in a matrix of size 2x3"),
            ([(0, -1, 1)], "row 0, column -1: there is no such place in a matrix of size 2x3"),
        ]:
            with self.subTest(line=line), self.assertRaises(BadInput) as refused:
                Matrix.from_triples(bad, (2, 3))
            self.assertEqual(str(refused.exception), line)

    def test_sage_matrices(self) -> None:
        self.assertEqual(Matrix.of(SageMatrix(ROWS, 7)), MATRIX)
        self.assertEqual(Matrix.of(SageMatrix([[1, 0, 2], [0, 0, 1]], 3)), MATRIX)
        self.assertEqual(Matrix.of(SageMatrix([[3, 0], [1, 2]], 2)), Matrix.of([[1, 0], [1, 0]]))
        self.assertEqual(Matrix.of(SparseSageMatrix(ROWS, 7)), MATRIX)

    @needs_module("numpy")
    def test_numpy(self) -> None:
        import numpy

        for kind in ("int8", "int64", "uint8", "float32", "float64", "object", "bool"):
            rows = [[abs(entry) for entry in row] for row in ROWS] if kind in ("uint8", "bool") else ROWS
            with self.subTest(type=kind):
                self.assertEqual(Matrix.of(numpy.array(rows, dtype=kind)), Matrix.of(rows))
        self.assertEqual(Matrix.of(numpy.matrix(ROWS)), MATRIX)
        self.assertEqual(Matrix.of(numpy.array(ROWS).T), MATRIX.T)
        self.assertEqual(Matrix.of(numpy.zeros((0, 4))).shape, (0, 4))
        self.assertEqual(Matrix.of([numpy.array(row) for row in ROWS]), MATRIX)
        for bad in (numpy.zeros(3), numpy.zeros((1, 1, 1))):
            self.assertRaises(BadInput, Matrix.of, bad)

    @needs_module("scipy")
    def test_scipy(self) -> None:
        from scipy import sparse

        for kind in ("csr", "csc", "coo", "lil", "dok", "bsr", "dia"):
            for make in (getattr(sparse, f"{kind}_array"), getattr(sparse, f"{kind}_matrix")):
                with self.subTest(kind=make):
                    self.assertEqual(Matrix.of(make(sparse.coo_matrix(ROWS))), MATRIX)
        twice = sparse.coo_matrix(([2, -1, 1, 1, -1, -1], ([0, 0, 1, 0, 0, 0], [0, 0, 2, 1, 1, 2])), shape=(2, 3))
        self.assertEqual(Matrix.of(twice), MATRIX)

    @needs_module("pandas")
    def test_pandas(self) -> None:
        import pandas

        matrix = Matrix.of(pandas.DataFrame(ROWS, index=["ann", "bob"], columns=[7, 8, 9]))
        self.assertEqual(matrix, MATRIX)
        self.assertEqual(matrix.names, Names(("ann", "bob"), ("7", "8", "9")))

    def test_names(self) -> None:
        self.assertEqual(Matrix.of(ROWS, row_names="ab").names, Names(("a", "b"), ("c0", "c1", "c2")))
        named = Matrix.of(MATRIX, row_names="ab", column_names="xyz")
        self.assertEqual(named, MATRIX)
        self.assertEqual(named.T.names, Names(("x", "y", "z"), ("a", "b")))
        self.assertEqual(named.submatrix([1], [2, 0]).names, Names(("b",), ("z", "x")))
        with self.assertRaises(BadInput):
            Matrix.of(ROWS, row_names="abc")


class Refusals(unittest.TestCase):
    def refused(self, source: Any) -> str:
        with self.assertRaises(BadInput) as refused:
            Matrix.of(source)
        return str(refused.exception)

    def test_other_entries(self) -> None:
        for entry, shown in [(2, "2"), (0.5, "0.5"), (float("nan"), "nan"), ("1", "'1'"), (None, "None")]:
            with self.subTest(entry=entry), self.assertRaises(BadEntry) as refused:
                Matrix.of([[0, 1], [0, entry]])
            self.assertEqual((refused.exception.row, refused.exception.column), (1, 1))
            self.assertEqual(str(refused.exception), f"row 1, column 1: the entry {shown} is none of -1, 0 and 1")
            self.assertIsInstance(refused.exception, ValueError)

    @needs_module("scipy")
    def test_other_entries_of_arrays(self) -> None:
        import numpy
        from scipy import sparse

        for make in (numpy.array, sparse.csr_matrix):
            self.assertEqual(self.refused(make([[0, 1.5]])), "row 0, column 1: the entry 1.5 is none of -1, 0 and 1")

    def test_what_is_no_matrix(self) -> None:
        self.assertEqual(self.refused([[1, 0], [1]]), "no matrix: row 1 has 1 entries, and row 0 has 2")
        self.assertEqual(self.refused([1, 0]), "no matrix: row 0 is no list of entries")
        self.assertEqual(self.refused("10"), "no matrix: an object of type str is none")
        self.assertEqual(self.refused(None), "no matrix: an object of type NoneType is none")

    def test_too_many_lines(self) -> None:
        self.assertEqual(self.refused([[0]] * 1001), "there are 1001 rows, and a matrix may have at most 1000")
        self.assertEqual(self.refused([[0] * 1001]), "there are 1001 columns, and a matrix may have at most 1000")

    def test_values_that_are_given_directly(self) -> None:
        for nonzeros in ([(0, 0, 2)], [(0, 3, 1)], [(1, 0, 1), (0, 0, 1)], [(0, 0, 1), (0, 0, 1)], [(0, 0, 0)]):
            with self.subTest(nonzeros=nonzeros), self.assertRaises(BadInput):
                Matrix((2, 3), tuple(nonzeros))


class Values(unittest.TestCase):
    def test_lists_and_entries(self) -> None:
        self.assertEqual(MATRIX.to_lists(), ROWS)
        self.assertEqual([[MATRIX[row, column] for column in range(3)] for row in range(2)], ROWS)
        self.assertRaises(IndexError, MATRIX.__getitem__, (0, 3))
        self.assertEqual(str(MATRIX), " 1  0 -1\n 0  0  1")
        self.assertEqual((MATRIX.sum(), MATRIX.T.T), (1, MATRIX))

    def test_submatrices_are_in_the_given_order(self) -> None:
        self.assertEqual(MATRIX.submatrix([1, 0], [2, 0]).to_lists(), [[1, 0], [-1, 1]])
        for rows, line in [
            ([0, 0], "a row is given twice"),
            ([2], "there is no row 2 in a matrix with 2 rows"),
            ([-1], "there is no row -1 in a matrix with 2 rows"),
        ]:
            with self.subTest(rows=rows), self.assertRaises(BadInput) as refused:
                MATRIX.submatrix(rows, [0])
            self.assertEqual(str(refused.exception), line)

    @needs_module("scipy")
    def test_arrays(self) -> None:
        import numpy

        self.assertEqual(MATRIX.to_numpy().tolist(), ROWS)
        self.assertEqual(numpy.asarray(MATRIX).tolist(), ROWS)
        self.assertEqual(numpy.asarray(MATRIX, dtype=float).dtype, float)
        self.assertEqual(MATRIX.to_scipy().toarray().tolist(), ROWS)
        self.assertEqual(Matrix((0, 2), ()).to_scipy().shape, (0, 2))

    def test_texts(self) -> None:
        self.assertEqual(MATRIX.to_text(), "2 3 3\n1 1 1\n1 3 -1\n2 3 1\n")
        self.assertEqual(Matrix.from_text(MATRIX.to_text(), sparse=True), MATRIX)
        self.assertEqual(Matrix.from_text("2 3\n+1 0 -1\n0 00 1\n"), MATRIX)
        for text in ("", "2", "2 2\n1 0 0", "1 1\nx", "1 1\n1_0", "1 1\n2", "-1 1\n"):
            with self.subTest(text=text), self.assertRaises(BadInput):
                Matrix.from_text(text)

    def test_values_and_faults_are_pickled(self) -> None:
        self.assertEqual(pickle.loads(pickle.dumps(MATRIX)), MATRIX)
        fault = pickle.loads(pickle.dumps(BadEntry(1, 2, 3)))
        self.assertEqual((str(fault), fault.row), ("row 1, column 2: the entry 3 is none of -1, 0 and 1", 1))


if __name__ == "__main__":
    unittest.main()
