"""Manual pages, completions and the version of the commands beside the program."""

import re
import shutil
import subprocess
import unittest

from building.installed import SCRIPTS
from cmr_matrices.version import __version__
from tests import command_pages
from tests.support import PYTHON, TOP, ScriptTest, needs_man, needs_python, needs_zsh
from tests.terminal import Terminal

needs_setuptools = unittest.skipUnless(
    shutil.which(PYTHON)
    and subprocess.run([PYTHON, "-c", "import setuptools, pip"], capture_output=True, check=False).returncode == 0,
    "pip and setuptools are not there",
)


class MadeFiles(unittest.TestCase):
    def test_they_are_made_of_the_parsers_and_the_table_of_arguments(self):
        """`python3 -m tests.command_pages` in `scripts` writes them."""
        for path, text in command_pages.files().items():
            with self.subTest(path=path.name):
                self.assertEqual(path.read_text(encoding="utf-8"), text)
        self.assertEqual({it.stem for it in command_pages.PAGES.iterdir()}, set(SCRIPTS))

    @needs_man
    def test_man_warns_of_nothing(self):
        for command in SCRIPTS:
            page = command_pages.PAGES / f"{command}.1"
            run = subprocess.run(["man", "--warnings", "-l", page], capture_output=True, text=True, check=False)
            self.assertEqual((run.returncode, run.stderr), (0, ""))
            for option in command_pages.arguments_of(command)[0]:
                self.assertIn(option.option_strings[-1], run.stdout)


class Completions(ScriptTest):
    def offered(self, *words):
        script = 'source "$0"; COMP_WORDS=("$@"); COMP_CWORD=$(($# - 1)); _cmr_command; printf "%s\\n" "${COMPREPLY[@]}"'
        command = ["bash", "-c", script, command_pages.BASH, *words]
        run = subprocess.run(command, capture_output=True, text=True, check=False)
        self.assertEqual(run.stderr, "")
        return run.stdout.split()

    def test_bash(self):
        self.assertEqual(self.offered("cmr-named", "-"), ["-h", "--help", "--version", "--ternary", "--names"])
        self.assertEqual(self.offered("/usr/bin/cmr-from-model", "--format", ""), ["mps", "mathprog", "lp"])
        self.assertEqual(self.offered("cmr-minor", "co"), ["cographic", "conetwork"])
        self.assertEqual(self.offered("cmr-minor", "tu", ""), [])

    @needs_zsh
    def test_zsh_at_a_terminal(self):
        self.write("a_matrix.txt", "")
        shell = Terminal(["zsh", "-f", "-i"], self.folder)
        self.addCleanup(shell.close)
        shell.type(f"fpath=('{command_pages.ZSH.parent}' $fpath); autoload -Uz compinit; compinit -u -D; echo rea''dy\n")
        shell.waits_for("ready\r\n")
        shell.type("cmr-graph-to-dot --undir\ta_m\t")
        shell.waits_for("a_matrix.txt")


@needs_python
class Unproved(ScriptTest):
    """A clone in which `./try-cmr` has compiled a program, here one that says yes, and no other is there."""

    def setUp(self):
        super().setUp()
        for part in ("scripts", "python/cmr_matrices"):
            shutil.copytree(TOP / part, self.folder / part, ignore=shutil.ignore_patterns("__pycache__", "tests"))
        program = self.folder / "out" / "unproved" / "cmr"
        program.parent.mkdir(parents=True)
        program.write_text("#!/bin/sh\ncat > /dev/null\ncase $1 in tu) echo totally unimodular: yes ;; *) echo $1: yes ;; esac\n")
        program.chmod(0o755)
        self.write("m.txt", "2 2\n1 0\n0 1\n")

    def runs(self, *words):
        command = [PYTHON, *words]
        env = {"PATH": "/usr/bin:/bin", "PYTHONPATH": str(self.folder / "python")}
        run = subprocess.run(command, cwd=self.folder, env=env, capture_output=True, text=True, check=False)
        self.assertEqual(run.returncode, 0, run.stderr)
        return run

    def test_commands_warn_once_in_one_line(self):
        for command in (["cmr-minor", "graphic", "m.txt"], ["cmr-classify", "--classes", "tu,graphic,network", "m.txt", "m.txt"]):
            with self.subTest(command=command):
                said = self.runs(f"scripts/{command[0]}", *command[1:]).stderr
                self.assertEqual(said.count("nothing is proved"), 1, said)
                self.assertNotIn("warnings.warn", said)

    def test_a_command_warns_once_after_a_library_has_set_filters(self):
        lines = [
            "import warnings",
            "from cmr_matrices.commands.command import command_parser",
            "from cmr_matrices import find_program",
            "command_parser('')",
            "for _ in range(3):",
            "    with warnings.catch_warnings():",
            "        find_program()",
        ]
        self.assertEqual(self.runs("-c", "\n".join(lines)).stderr.count("nothing is proved"), 1)

    def test_the_package_warns_once(self):
        code = "import cmr_matrices as cmr; print(*(cmr.is_network([[1]]).verdict for _ in range(3)))"
        run = self.runs("-c", code)
        self.assertEqual((run.stdout, run.stderr.count("UnprovedProgram: nothing is proved of this run")), ("yes yes yes\n", 1))


@needs_python
class Version(ScriptTest):
    def test_every_place_has_the_same(self):
        changes = (TOP / "CHANGELOG.md").read_text(encoding="utf-8")
        self.assertEqual(re.search(r"^## (\S+)$", changes, re.M)[1], __version__)
        page = (TOP / "docs" / "cmr.1").read_text(encoding="utf-8")
        self.assertIn(f"\n.Os cmr {__version__}\n", page)
        for script in SCRIPTS.values():
            with self.subTest(script=script):
                self.assertEqual(self.output(script, "--version").split()[1:], [__version__])

    @needs_setuptools
    def test_what_pip_shows(self):
        package = self.folder / "python"
        shutil.copytree(TOP / "python", package, ignore=shutil.ignore_patterns("__pycache__", "tests", "build", "*.egg-info"))
        pip = [PYTHON, "-m", "pip", "--disable-pip-version-check"]
        words = ["install", "--no-build-isolation", "--no-deps", "--no-index", "--target", self.folder / "to", package]
        run = subprocess.run([*pip, *words], capture_output=True, text=True, check=False)
        self.assertEqual(run.returncode, 0, run.stderr)
        names = {it.name for it in (self.folder / "to").glob("*.dist-info")}
        self.assertEqual(names, {f"cmr_matrices-{__version__}.dist-info"})


if __name__ == "__main__":
    unittest.main()
