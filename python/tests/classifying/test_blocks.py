"""Blocks of matrices about which `cmr-batch` is asked at once: a fault of one matrix is no fault of the others. A script replaces it."""

from __future__ import annotations

import doctest
import pickle
import sys
import tempfile
import unittest
from dataclasses import replace
from pathlib import Path

from cmr_matrices.classifying import shapes
from cmr_matrices.classifying.blocks import classify_block, rows_at_once
from cmr_matrices.classifying.classes import CLASSES
from cmr_matrices.classifying.shapes import Shape, shape_of
from cmr_matrices.classifying.streams import Item
from cmr_matrices.classifying.work import Row, Settings
from cmr_matrices.running.batch.kept import end_all
from tests.support import TOP

STAND_IN = """\
import os, sys, time
sys.path.insert(0, {package!r})
from cmr_matrices.running.batch.netstrings import netstring, netstrings, row, whole

def replied(request):
    words, _, text = netstrings(request)
    tool, rows = netstrings(words)[0], text.split()[0]
    if tool == b"graphic" and rows == b"2":
        os.kill(os.getpid(), 9)
    if tool == b"graphic" and rows == b"3":
        time.sleep(1000)
    if tool == b"graphic" and rows == b"4":
        return netstring(row([b"3", b"", b"cmr: -: BadEntry at byte 4\\n"]))
    return netstring(row([b"0", tool + b": yes\\n", b""]))

got = b""
while piece := os.read(0, 65536):
    requests, end = whole(got + piece)
    got = (got + piece)[end:]
    for request in requests:
        sys.stdout.buffer.write(replied(request))
        sys.stdout.flush()
"""

CHOSEN = tuple(kind for kind in CLASSES if kind.name in ("graphic", "network", "camion"))
YES = {kind.name: "yes" for kind in CHOSEN}


class Blocks(unittest.TestCase):
    def setUp(self) -> None:
        folder = Path(self.enterContext(tempfile.TemporaryDirectory()))
        batch = folder / "cmr-batch"
        batch.write_text(f"#!{sys.executable}\n{STAND_IN.format(package=str(TOP / 'python'))}", encoding="ascii")
        batch.chmod(0o755)
        self.addCleanup(end_all)
        self.settings = Settings(CHOSEN, str(folder / "cmr"))

    def items(self, *counts: int) -> list[Item]:
        """Matrices of one column, with their numbers of rows."""
        texts = [f"{count} 1 {'1 ' * count}".encode() for count in counts]
        return [Item("file", place, text, start=100, size=len(text)) for place, text in enumerate(texts, 1)]

    def rows(self, settings: Settings, *counts: int) -> list[Row]:
        found = classify_block(self.items(*counts), settings)
        self.assertEqual(sorted(row.number for row in found), list(range(1, len(counts) + 1)))
        return sorted(found, key=lambda row: row.number)

    def test_many(self) -> None:
        for infers in (False, True):
            rows = self.rows(replace(self.settings, infers=infers), *([1, 5, 6, 7] * 50))
            self.assertEqual(
                [(row.rows, dict(row.verdicts), row.fault) for row in rows[:2]], [(1, YES, None), (5, YES, None)]
            )
            self.assertEqual({(row.fault, tuple(row.verdicts.values())) for row in rows}, {(None, ("yes",) * 3)})

    def test_a_death(self) -> None:
        rows = self.rows(self.settings, 1, 2, 5, 2, 6)
        self.assertEqual([row.fault for row in rows], [None, "ProgramFault", None, "ProgramFault", None])
        self.assertEqual([dict(row.verdicts) for row in rows], [YES, {}, YES, {}, YES])

    def test_a_limit_of_time(self) -> None:
        """The limit is longer if the other questions reach it too, which they do only on a busy machine."""
        for limit in (4.0, 20.0, 100.0):
            rows = self.rows(replace(self.settings, time_limit=limit), 1, 3, 5)
            if [row.fault for row in rows] == [None, "TimeLimitReached", None]:
                break
        self.assertEqual([row.fault for row in rows], [None, "TimeLimitReached", None])
        self.assertEqual([dict(row.verdicts) for row in rows], [YES, {**YES, "graphic": "undecided"}, YES])
        self.assertEqual((rows[1].message or "").split(":")[0], "graphic")
        self.assertGreater(rows[1].milliseconds, 1000 * limit - 100)

    def test_a_fault_of_a_text(self) -> None:
        rows = self.rows(self.settings, 1, 4, 5)
        self.assertEqual([(row.fault, row.byte) for row in rows], [(None, None), ("BadEntry", 104), (None, None)])

    def test_rows_come_before_the_block_is_done(self) -> None:
        coming = rows_at_once(self.items(*[1] * 40, 3), self.settings)
        self.assertIsNone(next(coming)[0].fault)
        coming.close()

    def test_settings_that_were_sent(self) -> None:
        chosen = tuple(kind for kind in CLASSES if kind.name in ("regular", "camion"))
        settings = replace(self.settings, classes=chosen, supports=True)
        for it in (settings, pickle.loads(pickle.dumps(settings))):
            (row,) = classify_block([Item("file", 1, b"1 1 -1", size=6)], it)
            self.assertEqual((dict(row.verdicts), row.fault), ({"regular": "yes", "camion": "yes"}, None))

    def test_no_matrix(self) -> None:
        self.assertEqual(classify_block([], self.settings), [])


class Shapes(unittest.TestCase):
    def test_docstrings(self) -> None:
        found = doctest.testmod(shapes)
        self.assertGreater(found.attempted, 2)
        self.assertEqual(found.failed, 0)

    def test_what_may_have_a_fault(self) -> None:
        for text in (
            b"",
            b"1",
            b"1 1",
            b"1 1 x",
            b"1 1 2",
            b"1 2 1",
            b"1 1 1 1",
            b"1001 0",
            b"-1 0",
            b"1_0 1 1",
            b"9" * 5000 + b" 1 1",
        ):
            self.assertIsNone(shape_of(text, "dense"), text)
        for text in (b"1 1", b"1 1 1 1 1", b"1 1 1 1 1 2", b"1 1 1 x 1 1"):
            self.assertIsNone(shape_of(text, "sparse"), text)

    def test_other_spellings(self) -> None:
        self.assertEqual(shape_of(b"01 +2\n+1 -0", "dense"), Shape(1, 2, 1, True))
        self.assertEqual(shape_of(b"0 3", "dense"), Shape(0, 3, 0, True))
        self.assertEqual(shape_of(b"1 1 1 1 1 -01", "sparse"), Shape(1, 1, 1, False))


if __name__ == "__main__":
    unittest.main()
