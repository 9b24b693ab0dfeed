"""How the tests run the scripts, and which tests they skip if a tool is missing."""

import shutil
import subprocess
import sys
import tempfile
import unittest
from pathlib import Path

from building.clone import BUILT, TOP, is_fresh

PYTHON = "/usr/bin/python3"


def _has(*modules):
    """Whether Debian's Python has all these modules."""
    words = [PYTHON, "-c", f"import {', '.join(modules)}"]
    return shutil.which(PYTHON) and subprocess.run(words, capture_output=True, check=False).returncode == 0


def _needs(tool, found):
    if not found:
        print(f"{tool} is not available: the tests that need it are skipped", file=sys.stderr)
    return unittest.skipUnless(found, f"{tool} is not available")


needs_python = _needs(PYTHON, shutil.which(PYTHON))
needs_swiglpk = _needs("python3-swiglpk", _has("swiglpk"))
needs_glpsol = _needs("glpsol", shutil.which("glpsol"))
needs_mandoc = _needs("mandoc", shutil.which("mandoc"))
needs_man = _needs("man", shutil.which("man"))
needs_zsh = _needs("zsh", shutil.which("zsh"))
needs_dot = _needs("dot", shutil.which("dot"))
needs_packers = _needs(
    "one of dpkg-deb, git, readelf, python3-pip, python3-setuptools, python3-venv and python3-wheel",
    all(map(shutil.which, ("dpkg-deb", "git", "readelf"))) and _has("setuptools", "wheel", "pip", "venv"),
)
needs_program = _needs("the program cmr, built of these sources,", is_fresh(BUILT))


class ScriptTest(unittest.TestCase):
    """Runs the scripts in a temporary folder."""

    def setUp(self):
        folder = tempfile.TemporaryDirectory()
        self.addCleanup(folder.cleanup)
        self.folder = Path(folder.name)

    def run_script(self, script, *words, text="", **settings):
        command = [TOP / "scripts" / script, *words]
        return subprocess.run(command, input=text, capture_output=True, text=True, cwd=self.folder, **settings)

    def run_program(self, *words):
        """A run of the built program."""
        command = [BUILT, *words]
        return subprocess.run(command, capture_output=True, text=True, cwd=self.folder, check=False)

    def output(self, script, *words, text=""):
        """The output of the script, which must accept its input."""
        run = self.run_script(script, *words, text=text)
        self.assertEqual((run.returncode, run.stderr), (0, ""))
        return run.stdout

    def write(self, name, text):
        (self.folder / name).write_text(text, encoding="utf-8")
        return name

    def read(self, name):
        return (self.folder / name).read_text(encoding="utf-8")
