"""The screens of the README, of three pages of docs/ and of docstrings are run."""

from __future__ import annotations

import doctest
import importlib
import pkgutil
import unittest
from contextlib import chdir

import cmr_matrices
from tests.support import TOP, needs_command, needs_module, needs_program


def screens() -> list[str]:
    """The Python screens of the README, one for each section that has some."""
    text = (TOP / "python" / "README.md").read_text(encoding="utf-8")
    return [part for part in text.split("\n## ") if ">>>" in part]


@needs_program
class Screens(unittest.TestCase):
    @needs_module("networkx")
    def test_the_readme(self) -> None:
        self.assertEqual(len(screens()), 3)
        for screen in screens():
            title = screen.splitlines()[0]
            with self.subTest(screen=title):
                self.runs(doctest.DocTestParser().get_doctest(screen, {}, title, "README.md", 0))

    @needs_module("networkx")
    def test_matroids(self) -> None:
        text = (TOP / "docs" / "MATROIDS.md").read_text(encoding="utf-8")
        self.runs(doctest.DocTestParser().get_doctest(text, {}, "MATROIDS.md", "MATROIDS.md", 0))

    @needs_module("swiglpk")
    @needs_command("glpsol")
    def test_the_way_from_a_model(self) -> None:
        for name in ("FROM_A_MODEL.md", "ONE_MODEL.md"):
            text = (TOP / "docs" / name).read_text(encoding="utf-8")
            with chdir(TOP), self.subTest(document=name):
                self.runs(doctest.DocTestParser().get_doctest(text, {}, name, name, 0))

    def test_docstrings(self) -> None:
        names = [module.name for module in pkgutil.walk_packages(cmr_matrices.__path__, "cmr_matrices.")]
        found = 0
        for module in (cmr_matrices, *map(importlib.import_module, names)):
            for test in doctest.DocTestFinder().find(module):
                found += len(test.examples)
                self.runs(test)
        self.assertGreater(found, 0)

    def runs(self, test: doctest.DocTest) -> None:
        said: list[str] = []
        failed = doctest.DocTestRunner().run(test, out=said.append).failed
        self.assertEqual(failed, 0, "".join(said))


if __name__ == "__main__":
    unittest.main()
