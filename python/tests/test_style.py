"""mypy and ruff find nothing in the package, its tests and its commands."""

from __future__ import annotations

import subprocess
import unittest

from tests.support import TOP, needs_command

PACKAGE = TOP / "python"


class Style(unittest.TestCase):
    def finds_nothing(self, *words: str) -> None:
        ran = subprocess.run(words, cwd=PACKAGE, capture_output=True, text=True, check=False)
        self.assertEqual(ran.returncode, 0, ran.stdout + ran.stderr)

    @needs_command("mypy")
    def test_types(self) -> None:
        self.finds_nothing("mypy", "--strict", "--cache-dir", "/dev/null", "cmr_matrices")

    @needs_command("ruff")
    def test_ruff(self) -> None:
        self.finds_nothing("ruff", "check", "--no-cache", "cmr_matrices", "tests")


if __name__ == "__main__":
    unittest.main()
