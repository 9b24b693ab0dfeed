"""The program `cmr-large`: where it is, and what its runs raise."""

from __future__ import annotations

import os
import shutil
import tempfile
import unittest
from pathlib import Path

from cmr_matrices import BadText, ProgramMissing, find_program, is_totally_unimodular
from cmr_matrices.running.clock import Clock
from cmr_matrices.running.large_run import find_large, large_of, run_large
from tests.support import needs_large


class Finding(unittest.TestCase):
    def setUp(self) -> None:
        folder = tempfile.TemporaryDirectory()
        self.addCleanup(folder.cleanup)
        self.folder = Path(folder.name)

    def made(self, path: Path) -> Path:
        path.parent.mkdir(parents=True, exist_ok=True)
        path.touch(0o755)
        return path

    def test_places(self) -> None:
        clone = self.folder / "clone"
        beside, built = self.made(self.folder / "cmr"), self.made(clone / "crates" / "cmr" / "out" / "cmr")
        self.assertEqual([large_of(beside), large_of(built)], [None, None])
        self.assertEqual(large_of(beside), None)
        link, other = clone / "cmr-large", self.made(self.folder / "cmr-large")
        link.symlink_to("crates/cmr/out/cmr")
        self.assertEqual([large_of(beside), large_of(built)], [other, link])

    def test_there_is_none(self) -> None:
        with self.assertRaises(ProgramMissing) as missing:
            find_large(self.made(self.folder / "cmr"))
        said = f"the program cmr-large is not there (looked at: {self.folder}/cmr-large)"
        self.assertEqual(str(missing.exception).partition(".")[0], said)

    @needs_large
    def test_a_program_without_another_name(self) -> None:
        shutil.copy(find_program(), self.folder / "cmr")
        self.assertTrue(is_totally_unimodular([[1]], program=self.folder / "cmr"))
        with self.assertRaises(ProgramMissing):
            is_totally_unimodular([[1]] * 1001, program=self.folder / "cmr")


@needs_large
class Runs(unittest.TestCase):
    def test_answers_and_faults(self) -> None:
        large = find_large(Path(find_program()))
        ran = run_large(large, b"2 2 1 1 1 -1", "dense", ("--lines", "3"), Clock(None))
        self.assertEqual((ran.status, ran.lines[0], ran.file("lines")), (1, "totally unimodular: no", "2 2 2 2\n1 2\n1 2\n"))
        with self.assertRaises(BadText) as fault:
            run_large(large, b"2000 1 1 2000 2 1", "sparse", (), Clock(None))
        self.assertEqual((fault.exception.kind, fault.exception.byte), ("ColumnOutOfRange", 14))
        self.assertFalse([name for name in os.listdir() if name == "lines"])


if __name__ == "__main__":
    unittest.main()
