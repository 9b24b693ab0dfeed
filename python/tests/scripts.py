"""How the tests run the scripts, which are commands of the package."""

from __future__ import annotations

import subprocess
import tempfile
import unittest
from pathlib import Path
from typing import Any

from cmr_matrices import find_program
from tests.support import TOP, needs_command, needs_module

PYTHON = "/usr/bin/python3"
"""The Python of the scripts."""

needs_python = needs_command(PYTHON)
needs_swiglpk = needs_module("swiglpk")
needs_glpsol = needs_command("glpsol")
needs_dot = needs_command("dot")

Ran = subprocess.CompletedProcess[str]


class ScriptTest(unittest.TestCase):
    """Runs the scripts in a temporary folder."""

    def setUp(self) -> None:
        folder = tempfile.TemporaryDirectory()
        self.addCleanup(folder.cleanup)
        self.folder = Path(folder.name)

    def run_script(self, script: str, *words: Any, text: str = "", **settings: Any) -> Ran:
        command = [TOP / "scripts" / script, *words]
        return subprocess.run(command, input=text, capture_output=True, text=True, cwd=self.folder, **settings)

    def run_program(self, *words: Any) -> Ran:
        """A run of the program."""
        command = [find_program(), *words]
        return subprocess.run(command, capture_output=True, text=True, cwd=self.folder, check=False)

    def output(self, script: str, *words: Any, text: str = "") -> str:
        """The output of the script, which must accept its input."""
        run = self.run_script(script, *words, text=text)
        self.assertEqual((run.returncode, run.stderr), (0, ""))
        return run.stdout

    def refusal(self, script: str, *words: Any, text: str = "", **settings: Any) -> str:
        """The line on standard error of the script, which must refuse its input and print nothing else."""
        run = self.run_script(script, *words, text=text, **settings)
        self.assertEqual((run.returncode, run.stdout, run.stderr.count("\n")), (1, "", 1), run.stderr)
        name = f"{script}: "
        self.assertTrue(run.stderr.startswith(name), run.stderr)
        return run.stderr[len(name) :].rstrip("\n")

    def refused_with_families(self, script: str, *words: Any) -> tuple[str, list[tuple[str, ...]]]:
        """The line of a refusal, and the table of families of rows below it, without its heading."""
        run = self.run_script(script, *words)
        self.assertEqual((run.returncode, run.stdout), (1, ""), run.stderr)
        line, head, *rows = run.stderr.splitlines()
        self.assertEqual(head.split(), ["rows", "refused", "entries", "family"])
        return line.removeprefix(f"{script}: "), [tuple(row.split(maxsplit=3)) for row in rows]

    def write(self, name: str, text: str) -> str:
        (self.folder / name).write_text(text, encoding="utf-8")
        return name

    def read(self, name: str) -> str:
        return (self.folder / name).read_text(encoding="utf-8")
