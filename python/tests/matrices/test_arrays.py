"""Arrays, lists of rows and sparse matrices: they become the same matrices as triples of their entries, in a tenth of a second."""

from __future__ import annotations

import copy
import pickle
import random
import time
import unittest
from decimal import Decimal
from fractions import Fraction
from typing import Any

from cmr_matrices import BadEntry, BadInput, Matrix, Names, is_totally_unimodular
from tests.support import needs_module, needs_program


def drawn(rows: int, columns: int, seed: int) -> list[list[int]]:
    draw = random.Random(seed)
    return [[draw.choice((-1, 0, 0, 1)) for _ in range(columns)] for _ in range(rows)]


def seconds_of(source: Any) -> float:
    """The processor time from an object to the text for the program."""
    before = time.process_time()
    Matrix.of(source).for_program()
    return time.process_time() - before


@needs_module("numpy")
class Arrays(unittest.TestCase):
    def both(self) -> list[tuple[Matrix, Matrix]]:
        """Matrices of arrays, and the same of lists."""
        import numpy

        found = []
        for rows, columns in ((0, 0), (0, 3), (2, 0), (1, 1), (3, 4), (7, 5), (11, 120)):
            lists = drawn(rows, columns, 10 * rows + columns)
            plain = Matrix.from_triples(
                [(row, column, lists[row][column]) for row in range(rows) for column in range(columns)], (rows, columns)
            )
            for kind in ("int8", "int64", "float64", "float32"):
                found.append((Matrix.of(numpy.array(lists, dtype=kind).reshape(rows, columns)), plain))
            if rows and columns:
                for as_rows in (lists, [[float(it) for it in row] for row in lists], list(numpy.array(lists))):
                    found.append((Matrix.of(as_rows), plain))
            turned = numpy.array(lists, dtype="int32").reshape(rows, columns)
            found.append((Matrix.of(numpy.asfortranarray(turned)), plain))
            found.append((Matrix.of(turned.T), plain.T))
        return found

    def test_they_are_the_matrices_of_lists(self) -> None:
        for of_array, plain in self.both():
            with self.subTest(shape=plain.shape):
                self.assertEqual(of_array.to_text(), plain.to_text())
                form, text = of_array.for_program()
                self.assertEqual(Matrix.from_text(text, sparse=form == "sparse"), plain)
                self.assertEqual(plain.for_program(), ("sparse", plain.to_text()))
                self.assertEqual(of_array.sum(), plain.sum())
                self.assertEqual(of_array.to_numpy().tolist(), plain.to_lists())
                self.assertEqual(of_array.T, plain.T)
                places = [(row, column) for row in range(plain.shape[0]) for column in range(plain.shape[1])]
                self.assertEqual([of_array[it] for it in places], [plain[it] for it in places])
                self.assertEqual(repr(of_array), repr(plain))
                self.assertEqual((of_array, hash(of_array)), (plain, hash(plain)))
                self.assertEqual(of_array.nonzeros, plain.nonzeros)
                self.assertTrue(all(type(it) is int for triple in of_array.nonzeros for it in triple))
                self.assertTrue(all(type(it) is int for it in of_array.shape))

    def test_entries_with_an_equality_of_their_own(self) -> None:
        """An entry is 0, 1 or -1 by its own equality, also if its hash is another."""

        class Residue:
            """A number modulo 3."""

            def __init__(self, number: int) -> None:
                self.number = number % 3

            def __eq__(self, other: object) -> bool:
                return isinstance(other, int) and (other - self.number) % 3 == 0

            def __hash__(self) -> int:
                return hash(self.number)

        rows = [[Residue(2), Residue(1)], [Residue(0), 1]]
        self.assertEqual(Matrix.of(rows).to_lists(), [[-1, 1], [0, 1]])
        self.assertEqual(Matrix.of([[Fraction(1), Decimal(-1), True]]).to_lists(), [[1, -1, 1]])

    @needs_module("scipy")
    def test_sparse_matrices(self) -> None:
        import numpy
        from scipy import sparse

        lists = drawn(7, 9, 3)
        plain = Matrix.of(lists)
        for form in ("csr", "csc", "coo", "lil", "dok", "bsr", "dia"):
            for kind in ("int8", "int64", "float64"):
                self.assertEqual(Matrix.of(sparse.coo_matrix(numpy.array(lists, dtype=kind)).asformat(form)), plain)
        places = ([0, 0, 1], [0, 0, 1])
        self.assertEqual(Matrix.of(sparse.coo_matrix(([1, -1, 1], places))).to_lists(), [[0, 0], [0, 1]])
        bytes_that_wrap = sparse.coo_matrix((numpy.array([127, 127, 1], dtype="int8"), places))
        with self.assertRaises(BadEntry) as refused:
            Matrix.of(bytes_that_wrap)
        self.assertEqual(refused.exception.entry, 254)
        self.assertEqual(Matrix.of(sparse.coo_matrix((3, 0))).shape, (3, 0))
        with self.assertRaises(BadInput) as large:
            Matrix.of(sparse.coo_matrix(([1], ([0], [0])), shape=(10**6, 10**6)))
        self.assertEqual(str(large.exception), "there are 1000000 rows, and a matrix may have at most 1000")

    def test_copies(self) -> None:
        for of_array, plain in self.both():
            for same in (pickle.loads(pickle.dumps(of_array)), copy.copy(of_array), copy.deepcopy(of_array)):
                self.assertEqual((same, same.to_text()), (plain, plain.to_text()))

    def test_truth_values_and_bytes(self) -> None:
        import numpy

        self.assertEqual(Matrix.of(numpy.array([[True, False], [True, True]])).to_lists(), [[1, 0], [1, 1]])
        self.assertEqual(Matrix.of(numpy.array([[1, 0], [1, 1]], dtype="uint8")).to_lists(), [[1, 0], [1, 1]])

    def test_names(self) -> None:
        import numpy

        matrix = Matrix.of(numpy.array([[1, 0, 1]]), row_names=["a"], column_names="xyz")
        self.assertEqual(matrix.names, Names(("a",), ("x", "y", "z")))
        self.assertEqual(matrix.T.names, Names(("x", "y", "z"), ("a",)))
        self.assertEqual(matrix.submatrix([0], [2, 0]).names, Names(("a",), ("z", "x")))
        self.assertEqual(Matrix.of(matrix, row_names=["b"]).names, Names(("b",), ("x", "y", "z")))
        with self.assertRaises(BadInput):
            Matrix.of(numpy.array([[1]]), row_names=["a", "b"])

    def test_what_is_refused(self) -> None:
        import numpy

        refused_arrays: list[tuple[Any, str]] = [
            (numpy.array([[1, 0], [0, 2]]), "row 1, column 1: the entry 2 is none of -1, 0 and 1"),
            (numpy.array([[1, 0.5], [3, 2]]), "row 0, column 1: the entry 0.5 is none of -1, 0 and 1"),
            (numpy.array([[1, float("nan")]]), "row 0, column 1: the entry nan is none of -1, 0 and 1"),
            (numpy.array([[0, 255]], dtype="uint8"), "row 0, column 1: the entry 255 is none of -1, 0 and 1"),
            (numpy.array([[1j]]), "row 0, column 0: the entry 1j is none of -1, 0 and 1"),
        ]
        for array, line in refused_arrays:
            with self.subTest(line=line), self.assertRaises(BadEntry) as refused:
                Matrix.of(array)
            self.assertEqual(str(refused.exception), line)
        with self.assertRaises(BadInput) as large:
            Matrix.of(numpy.zeros((1001, 1)))
        self.assertEqual(str(large.exception), "there are 1001 rows, and a matrix may have at most 1000")
        with self.assertRaises(BadEntry):
            Matrix.of(numpy.array([[1, -1]])).must_be_binary()
        Matrix.of(numpy.array([[1, 0]])).must_be_binary()

    def test_an_array_that_changes_later(self) -> None:
        import numpy

        array = numpy.array([[1, 0]], dtype="int8")
        matrix = Matrix.of(array)
        array[0, 0] = 7
        copied = matrix.to_numpy()
        copied[0, 1] = 7
        self.assertEqual(matrix.to_lists(), [[1, 0]])
        with self.assertRaises(AttributeError):
            matrix.nothing  # type: ignore[attr-defined] # pylint: disable=no-member,pointless-statement

    def test_a_large_one_takes_no_step_of_python_for_each_entry(self) -> None:
        import numpy

        draw = numpy.random.default_rng(1)
        array = draw.integers(-1, 2, size=(1000, 1000))
        # 0.02 to 0.1 seconds if nothing else runs; a step for each entry took 3.
        self.assertLess(min(seconds_of(array) for _ in range(3)), 0.3)
        self.assertLess(min(seconds_of(array.tolist()) for _ in range(3)), 0.5)
        before = time.process_time()
        Matrix.of(array).to_text()
        self.assertLess(time.process_time() - before, 1)

    @needs_module("scipy")
    def test_nor_does_a_large_sparse_one(self) -> None:
        import numpy
        from scipy import sparse

        array = numpy.random.default_rng(1).integers(-1, 2, size=(1000, 1000))
        self.assertLess(min(seconds_of(sparse.csr_matrix(array)) for _ in range(3)), 0.3)

    @needs_program
    def test_questions(self) -> None:
        import numpy

        self.assertTrue(is_totally_unimodular(numpy.eye(1000)))
        self.assertTrue(is_totally_unimodular(numpy.ones((1000, 1000))))
        self.assertFalse(is_totally_unimodular(numpy.array([[1, 1], [-1, 1]])))


if __name__ == "__main__":
    unittest.main()
