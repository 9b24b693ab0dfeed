"""The folders of the package: each uses only earlier ones, in the order of docs/ARCHITECTURE.md. What others import is there."""

from __future__ import annotations

import ast
import re
import unittest
from collections.abc import Iterator
from importlib import import_module
from importlib.util import find_spec
from pathlib import Path

from tests.support import TOP

PACKAGE = TOP / "python" / "cmr_matrices"
FOLDERS = re.findall(r"^\d+\. `(\w+)`", (TOP / "docs" / "ARCHITECTURE.md").read_text(encoding="utf-8"), re.M)


def modules() -> list[Path]:
    """The modules of the package, without those that only say what a folder has."""
    return [path for path in sorted(PACKAGE.rglob("*.py")) if path.name != "__init__.py"]


def folder_of(path: Path) -> str:
    """The folder of a module or of a folder in it, or nothing for what is in none."""
    parts = path.relative_to(PACKAGE).parts
    return parts[0] if parts[0] in FOLDERS else ""


def used(path: Path) -> Iterator[Path]:
    """The modules and folders of the package from which a module imports."""
    for node in ast.walk(ast.parse(path.read_text(encoding="utf-8"))):
        if isinstance(node, ast.ImportFrom) and node.level:
            yield path.parents[node.level - 1].joinpath(*(node.module or "").split("."))


class Folders(unittest.TestCase):
    def test_the_page_has_each_folder(self) -> None:
        folders = {path.parent.name for path in PACKAGE.glob("*/__init__.py")}
        self.assertEqual(sorted(FOLDERS), sorted(folders))

    def test_a_folder_uses_only_earlier_ones(self) -> None:
        order = {name: place for place, name in enumerate(["", *FOLDERS])}
        for path in modules():
            for other in used(path):
                with self.subTest(module=str(path.relative_to(PACKAGE)), uses=str(other.relative_to(PACKAGE))):
                    self.assertLessEqual(order[folder_of(other)], order[folder_of(path)])

    def test_a_name_belongs_to_one_module(self) -> None:
        names = [path.stem for path in modules()]
        self.assertEqual(sorted(names), sorted(set(names)))

    def test_what_others_import_is_there(self) -> None:
        others = [path for folder in ("bench", "examples", "scripts", "python/tests") for path in (TOP / folder).rglob("*.py")]
        for path in others:
            for node in ast.walk(ast.parse(path.read_text(encoding="utf-8"))):
                if isinstance(node, ast.ImportFrom) and (node.module or "").partition(".")[0] == PACKAGE.name:
                    found = import_module(str(node.module))
                    for name in (alias.name for alias in node.names):
                        with self.subTest(file=str(path.relative_to(TOP)), module=node.module, name=name):
                            self.assertTrue(hasattr(found, name) or find_spec(f"{node.module}.{name}"))


if __name__ == "__main__":
    unittest.main()
