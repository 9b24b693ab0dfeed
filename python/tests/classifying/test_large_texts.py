"""Matrices with more than 1,000 rows or columns in a table: only `tu` has a verdict."""

from __future__ import annotations

import tempfile
import unittest
from pathlib import Path

from cmr_matrices import Matrix, find_program
from cmr_matrices.classifying.blocks import classify
from cmr_matrices.classifying.classes import CLASSES, chosen_classes
from cmr_matrices.classifying.streams import LARGE, USUAL, items_of, sources_of
from cmr_matrices.classifying.work import Row, Settings
from tests.support import R10, TRIANGLE, needs_command, needs_large, needs_module

SIGNED_R10 = [[1, 0, 0, 1, -1], [-1, 1, 0, 0, 1], [1, -1, 1, 0, 0], [0, 1, -1, 1, 0], [0, 0, 1, -1, 1]]

FOUR = [[1, 1, 0, 0], [1, 0, 1, 0], [1, 0, 0, 1], [1, 1, 1, 1]]
"""A violator, which the program leaves undecided if it may search three lines."""


def text(rows: list[list[int]], count: int) -> str:
    """The sparse text of a matrix, with as many rows as given."""
    matrix = Matrix.of(rows)
    return matrix.to_text().replace(str(matrix.shape[0]), str(count), 1)


@needs_large
class LargeTexts(unittest.TestCase):
    def setUp(self) -> None:
        folder = tempfile.TemporaryDirectory()
        self.addCleanup(folder.cleanup)
        self.path = Path(folder.name, "matrices")

    def rows(self, content: str, settings: Settings, suffix: str = ".txt") -> list[Row]:
        path = self.path.with_suffix(suffix)
        path.write_text(content, encoding="ascii")
        items = items_of(sources_of([str(path)]), "sparse", settings.limits)
        return [classify(item, settings) for item in items]

    def settings(self, names: str, **others: bool | int) -> Settings:
        return Settings(chosen_classes(names), str(find_program()), **others)  # type: ignore[arg-type]

    def test_verdicts(self) -> None:
        settings = Settings(CLASSES, str(find_program()), evidence=True, pivots=20)
        self.assertEqual(settings.limits, LARGE)
        content = text(TRIANGLE, 2000) + text([[1, 1], [0, 1]], 3) + text(SIGNED_R10, 1001) + text(R10, 20000)
        rows = self.rows(content, settings)
        self.assertEqual([row.verdicts["tu"] for row in rows], ["no", "yes", "yes", "no"])
        self.assertEqual([(row.rows, row.columns, row.nonzeros) for row in rows], [(2000, 3, 6), (3, 2, 3), (1001, 5, 15), (20000, 5, 15)])
        self.assertEqual([row.fault for row in rows], [None] * 4)
        for row in (rows[0], rows[2], rows[3]):
            self.assertEqual({verdict for name, verdict in row.verdicts.items() if name != "tu"}, {"-"})
        self.assertEqual(rows[1].verdicts["regular"], "yes")
        self.assertEqual(rows[0].evidence, {"tu/violator": b"2000 3 3 3\n1 2 3\n1 2 3\n"})

    def test_what_is_not_asked_again_stays_undecided(self) -> None:
        (row,) = self.rows(text(FOUR, 1001), self.settings("tu"))
        self.assertEqual((row.verdicts, row.fault), ({"tu": "no"}, None))
        (row,) = self.rows(text(FOUR, 1001), self.settings("tu", lines=3))
        self.assertEqual((row.verdicts, row.fault), ({"tu": "undecided"}, None))
        (row,) = self.rows(text(FOUR, 1001), self.settings("tu", lines=3, time_limit=0))
        self.assertEqual((row.verdicts, row.fault), ({"tu": "undecided"}, "TimeLimitReached"))

    def test_faults(self) -> None:
        rows = self.rows("1001 1 1\n1 1 2\n" + "2000 1 1\n1 2 1\n" + "16777217 1 0\n1 1 0\n", self.settings("tu"))
        self.assertEqual([(row.fault, row.byte) for row in rows], [("BadEntry", 13), ("ColumnOutOfRange", 26), ("TooManyRows", 30), (None, None)])

    def test_other_classes(self) -> None:
        settings = self.settings("network,camion")
        self.assertEqual(settings.limits, USUAL)
        rows = self.rows(text(TRIANGLE, 2000) + text(TRIANGLE, 3), settings)
        self.assertEqual([row.fault for row in rows][::len(rows) - 1], ["TooManyRows", None])

    @needs_module("swiglpk")
    @needs_command("glpsol")
    def test_a_model(self) -> None:
        lines = ["Minimize", " cost: x0", "Subject To", *(f" c{at}: x{at} - x{at + 1} <= 1" for at in range(1200)), "End", ""]
        (row,) = self.rows("\n".join(lines), self.settings("tu,network"), ".lp")
        self.assertEqual((row.rows, row.columns, row.verdicts), (1200, 1201, {"tu": "yes", "network": "-"}))


if __name__ == "__main__":
    unittest.main()
