"""Excluded minors: found for each no of random matrices, and tested by brute force over bases."""

from __future__ import annotations

import itertools
import random
import unittest
from collections.abc import Callable, Sequence
from dataclasses import replace

import cmr_matrices as cmr
from cmr_matrices import Answer, BadInput, ExcludedMinor, Line, Matrix, Undecided, excluded_minor
from cmr_matrices.matroids.tableaux import Tableau
from cmr_matrices.questions.excluded import CLASSES, elements_after, minor_class
from cmr_matrices.questions.minor_search import least_minor, line_tableau, named_minor
from tests import matroid_bases
from tests.matroids.test_binary_matroids import example
from tests.questions.test_random import drawn
from tests.support import FANO, K5, R10, TRIANGLE, asked_once, needs_program

MATRICES = 80
QUESTIONS: dict[str, Callable[..., Answer]] = {
    "totally unimodular": cmr.is_totally_unimodular,
    "regular": cmr.is_regular,
    "graphic": cmr.is_graphic,
    "cographic": cmr.is_cographic,
    "network": cmr.is_network,
    "conetwork": cmr.is_conetwork,
    "series-parallel": cmr.is_series_parallel,
    "binary series-parallel": lambda matrix: cmr.is_series_parallel(matrix, binary=True),
}

Rows = list[list[int]]


def number_of(line: Line, rows: Rows) -> int:
    """The number of an element among the columns of `[I A]`."""
    return line.number if line.kind == "row" else len(rows) + line.number


def block_diagonal(blocks: Sequence[Rows]) -> Rows:
    widths = [len(block[0]) for block in blocks]
    return [
        [0] * sum(widths[:place]) + row + [0] * sum(widths[place + 1 :])
        for place, block in enumerate(blocks)
        for row in block
    ]


def holds(minor: ExcludedMinor, rows: Rows) -> bool:
    """Whether a minor is one, by the ranks of sets of columns: each line is deleted, contracted or an element, and the bases fit."""
    sets = [list(minor.deleted), list(minor.contracted), list(minor.elements)]
    if sorted(itertools.chain(*sets)) != sorted(itertools.chain(*elements_after(minor.shape, ()))):
        return False
    names = {number_of(line, rows): name for line, name in minor.elements.items()}
    contracted = [number_of(line, rows) for line in minor.contracted]
    return matroid_bases.minor_bases(rows, minor.field, contracted, names) == matroid_bases.EXCLUDED[minor.name]


class Values(unittest.TestCase):
    def setUp(self) -> None:
        self.minor = ExcludedMinor("regular", "F7", (3, 4), (), (0, 1, 2), (0, 1, 2, 3))

    def test_texts(self) -> None:
        text = "cmr-minor 1\nregular F7\n3 4\npivots 0\nrows 3 1 2 3\ncolumns 4 1 2 3 4\n"
        self.assertEqual(self.minor.to_text(), text)
        self.assertEqual(ExcludedMinor.from_text(text), self.minor)
        for old, new, piece in [
            ("cmr-minor", "cmr-tree", "cmr-tree is not `cmr-minor`"),
            ("regular", "planar", "planar is no class"),
            ("F7", "F8", "F8 is no name"),
            ("pivots 0", "pivots 1 4 1", "4 is above 3"),
            ("rows 3", "rows 2", "3 is not `columns`"),
            ("4 1 2 3 4\n", "4 1 2 3 4 5\n", "words follow"),
            ("columns 4 1", "columns 4", "ends too early"),
        ]:
            with self.assertRaisesRegex(BadInput, piece):
                ExcludedMinor.from_text(text.replace(old, new))

    def test_what_is_no_minor(self) -> None:
        self.assertIsNone(self.minor.fault(FANO))
        self.assertTrue(holds(self.minor, FANO))
        for changed, piece in [
            (replace(self.minor, name="M(K5)"), "no excluded minor of the class regular"),
            (replace(self.minor, name="F7*"), "another rank"),
            (replace(self.minor, columns=(0, 1, 2)), "another rank"),
            (replace(self.minor, columns=(0, 1, 3, 2)), "what is left is not F7"),
            (replace(self.minor, rows=(0, 1, 1)), "a row is given twice"),
            (replace(self.minor, rows=(0, 1, -1)), "is none of the matrix"),
            (replace(self.minor, columns=(0, 1, 2, 4)), "is none of the matrix"),
            (replace(self.minor, pivots=((0, 2),)), "the entry 0 is none of the nonzeros"),
            (replace(self.minor, pivots=((0, 0),)), "what is left is not F7"),
            (replace(self.minor, shape=(4, 3)), "of shape"),
        ]:
            self.assertIn(piece, changed.fault(FANO) or "")
            self.assertFalse(changed.verify(FANO))
        self.assertIn("none of 0 and 1", self.minor.fault([[-entry for entry in row] for row in FANO]) or "")

    def test_the_dual(self) -> None:
        turned = self.minor.transposed()
        self.assertEqual((turned.name, turned.transposed()), ("F7*", self.minor))
        self.assertTrue(turned.verify(Matrix.of(FANO).T))

    def test_classes(self) -> None:
        self.assertEqual(minor_class("tu"), minor_class("totally unimodular"))
        for kind in CLASSES:
            self.assertLessEqual(set(kind.excluded), set(matroid_bases.EXCLUDED))


@needs_program
class Found(unittest.TestCase):
    def test_random_matrices(self) -> None:
        draw = random.Random(11)
        found: set[tuple[str, str]] = set()
        for number in range(MATRICES):
            rows = drawn(draw)
            for kind in CLASSES:
                taken = [[abs(entry) for entry in row] for row in rows] if kind.field == 2 else rows
                with self.subTest(number=number, of=kind.name, rows=taken):
                    minor = excluded_minor(taken, kind.name)
                    self.assertEqual(minor is None, bool(QUESTIONS[kind.name](taken)))
                    if minor is not None:
                        self.holds(minor, taken)
                        found.add((kind.name, minor.name))
        self.assertEqual({of for of, _ in found}, {kind.name for kind in CLASSES})

    def holds(self, minor: ExcludedMinor, rows: Rows) -> None:
        self.assertTrue(holds(minor, rows))
        self.assertIsNone(minor.fault(rows))
        self.assertTrue(minor.verify(rows))
        self.assertEqual(ExcludedMinor.from_text(minor.to_text()), minor)
        self.assertIn(minor.name, minor_class(minor.property_name).excluded)

    def test_named_matroids(self) -> None:
        for name, of, wanted in [
            ("F7", "regular", {"F7"}),
            ("F7*", "regular", {"F7*"}),
            ("R10", "graphic", {"M*(K3,3)"}),
            ("R10", "cographic", {"M(K3,3)"}),
            ("R12", "graphic", {"M*(K3,3)"}),
            ("K5", "cographic", {"M(K5)"}),
            ("K5*", "graphic", {"M*(K5)"}),
            ("K3,3", "cographic", {"M(K3,3)"}),
            ("K6*", "graphic", {"M*(K5)", "M*(K3,3)"}),
            ("W5", "binary series-parallel", {"M(K4)"}),
        ]:
            matrix = cmr.named(name)
            minor = excluded_minor(matrix, of)
            assert minor is not None
            self.assertIn(minor.name, wanted)
            self.holds(minor, matrix.to_lists())

    def test_classes_that_have_none(self) -> None:
        unit = [[1, 0], [0, 1]]
        for rows, of in [(R10, "regular"), (K5, "graphic"), (TRIANGLE, "regular"), (unit, "network"), ([], "tu")]:
            self.assertIsNone(excluded_minor(rows, of))
        with self.assertRaisesRegex(BadInput, "planar is no class"):
            excluded_minor(R10, "planar")
        with self.assertRaisesRegex(BadInput, "none of 0 and 1"):
            excluded_minor([[-1]], "graphic")

    def test_signs_that_are_wrong(self) -> None:
        """The support is regular, and of the matrix over GF(3) U2,4 is a minor all the same."""
        for size in range(2, 9):
            rows = [[int(column in (row, (row + 1) % size)) for column in range(size)] for row in range(size)]
            rows[-1][0] = 1 if size % 2 else -1
            self.assertTrue(cmr.is_regular([[abs(entry) for entry in row] for row in rows]))
            sums = sum(map(sum, rows)) % 4
            minor = excluded_minor(rows, "totally unimodular")
            self.assertEqual(minor is None, sums == 0)
            if minor is not None:
                self.holds(minor, rows)

    def test_networks_of_other_signs(self) -> None:
        """If the signs are right and the support is not graphic, the minor is a minor of the support."""
        signed = cmr.is_regular(cmr.named("K3,3*"), certificate=True).signed
        assert signed is not None
        minor = excluded_minor(signed, "network")
        assert minor is not None
        self.assertEqual(minor.name, "M*(K3,3)")
        self.holds(minor, signed.to_lists())

    def test_binary_matroids(self) -> None:
        """Of the 342 binary matroids with eight elements ten are not regular."""
        representations = example("binary_matroids").representations
        found = []
        for height in range(9):
            for columns in representations(height, 8 - height):
                triples = ((row, at, one) for at, column in enumerate(columns) for row, one in enumerate(column))
                matrix = Matrix.from_triples(triples, (height, len(columns)))
                minor = excluded_minor(matrix, "regular")
                if minor is not None:
                    self.holds(minor, matrix.to_lists())
                    found.append(minor.name)
        self.assertEqual((len(found), set(found)), (10, {"F7", "F7*"}))

    def test_parts_that_are_regular(self) -> None:
        """If the parts outside of the classes of graphs are regular, the chain of the whole matrix shows the lines."""
        blocks = [cmr.named(name).to_lists() for name in ("F7", "K5*", "K5")]
        for order in itertools.permutations(blocks):
            rows = block_diagonal(order)
            minor = excluded_minor(rows, "regular")
            assert minor is not None
            self.holds(minor, rows)

    def test_names(self) -> None:
        matrix = Matrix.of(FANO, row_names="abc", column_names="defg")
        minor = excluded_minor(matrix, "regular")
        self.assertEqual(str(minor).splitlines()[0], "minor F7: a=1 b=2 c=3 d=4 e=5 f=6 g=7")

    def test_undecided(self) -> None:
        """Two goods over six connections are totally unimodular, which is found only after pivots."""
        balances = [[-1, -1, 0, -1, -1, 0], [1, 0, -1, 1, 0, -1]]
        goods = [[*row, *[0] * 6] for row in balances] + [[*[0] * 6, *row] for row in balances]
        goods += [[int(connection == other) for _ in range(2) for other in range(6)] for connection in range(6)]
        with self.assertRaises(Undecided):
            excluded_minor(goods, "totally unimodular", lines=0, pivots=0)
        self.assertIsNone(excluded_minor(goods, "totally unimodular"))

    def test_a_part_decides(self) -> None:
        """Latin squares of order 3 are undecided without pivots, and a part that is no network matrix is not."""
        cells, pairs = [list(itertools.product(range(3), repeat=count)) for count in (3, 2)]
        square = [
            [int((cell[i], cell[j]) == pair) for cell in cells] for i, j in ((0, 1), (0, 2), (1, 2)) for pair in pairs
        ]
        self.assertTrue(asked_once("totally unimodular", square).is_undecided)
        minor = excluded_minor(square, "totally unimodular", pivots=0)
        assert minor is not None
        self.assertTrue(minor.verify(square))


class Reductions(unittest.TestCase):
    """The search over a test of its own: whether a binary matroid has a line of four points is undecided while it is large."""

    def reduced(self, most: int) -> Tableau[Line]:
        matrix = cmr.named("K6")
        tableau = line_tableau(matrix, 2)

        def outside(smaller: Tableau[Line]) -> bool | None:
            return None if len(smaller) > most else True

        least_minor(tableau, minor_class("binary series-parallel"), outside)
        minor = named_minor(tableau, matrix, minor_class("binary series-parallel"))
        self.assertTrue(minor.verify(matrix))
        return tableau

    def test_what_is_undecided_at_first(self) -> None:
        for most in (15, 11):
            self.assertEqual(len(self.reduced(most)), 6)

    def test_what_stays_undecided(self) -> None:
        with self.assertRaisesRegex(Undecided, "smaller ones are is undecided"):
            self.reduced(0)


if __name__ == "__main__":
    unittest.main()
