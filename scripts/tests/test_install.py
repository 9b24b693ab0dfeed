"""Tests of `scripts/install` over a stand-in for `rt`."""

import os
import re
import resource
import shutil
import signal
import subprocess
import sys
import tempfile
import tomllib
import traceback
import unittest
from pathlib import Path
from unittest import mock

from building.clone import BUILT, NO_KIT, OTHER_NAMES
from building.installed import LIST, SCRIPTS, Installation, items, refuse_what_is_there, take_away
from cmr_matrices.commands.signals import ENDING
from tests.stand_in import SmallClone
from tests.support import TOP, needs_man, needs_program, needs_python

FILES = [
    "bin/cmr",
    *(f"bin/{it}" for it in OTHER_NAMES),
    *(f"bin/{it}" for it in SCRIPTS),
    "lib/cmr/installed",
    *(f"lib/cmr/scripts/{it}" for it in SCRIPTS.values()),
    *(f"lib/cmr/python/{it.relative_to(TOP / 'python')}" for it in (TOP / "python" / "cmr_matrices").rglob("*.py")),
    "lib/cmr/python/cmr_matrices/py.typed",
    "share/bash-completion/completions/cmr",
    "share/bash-completion/completions/cmr-commands",
    "share/bash-completion/completions/cmr-large",
    *(f"share/bash-completion/completions/{it}" for it in SCRIPTS),
    "share/man/man1/cmr.1",
    *(f"share/man/man1/{it}.1" for it in OTHER_NAMES),
    *(f"share/man/man1/{it}.1" for it in SCRIPTS),
    "share/zsh/site-functions/_cmr",
    "share/zsh/site-functions/_cmr-commands",
]


class Prefix(unittest.TestCase):
    """A small clone and an empty prefix."""

    def setUp(self):
        folder = tempfile.TemporaryDirectory()
        self.addCleanup(folder.cleanup)
        self.clone = SmallClone(folder.name, {"low": ([], 1), "cmr": (["low"], 1)})
        self.prefix = Path(folder.name) / "prefix"
        self.prefix.mkdir()

    def run_install(self, *words, **settings):
        return self.clone.run("scripts/install", "--prefix", self.prefix, *words, **settings)

    def install(self, *words):
        run = self.run_install(*words)
        self.assertEqual(run.returncode, 0, run.stderr)
        return run

    def refused(self, *words, **settings):
        """The line of a refusal, after the lines of a build."""
        run = self.run_install(*words, **settings)
        self.assertEqual((run.returncode, run.stdout), (1, ""), run.stderr)
        *building, last = run.stderr.splitlines()
        for line in building:
            self.assertRegex(line, "proving and building|processor seconds|compiling")
        return last

    def files(self):
        return sorted(os.path.relpath(Path(at, it), self.prefix) for at, _, names in os.walk(self.prefix) for it in names)

    def is_empty(self):
        self.assertEqual(list(self.prefix.iterdir()), [])


class InstallTest(Prefix):
    def test_puts_all_and_takes_all_away(self):
        run = self.install()
        self.assertEqual(self.files(), sorted(FILES))
        hint = f'to find it: export PATH="{self.prefix}/bin:$PATH"\n'
        self.assertEqual(run.stdout, f"cmr is installed in {self.prefix}\n{hint}")
        program = subprocess.run([self.prefix / "bin" / "cmr"], capture_output=True, text=True, check=False)
        self.assertEqual((program.returncode, program.stdout), (2, "proved\n"))
        for name in OTHER_NAMES:
            self.assertEqual(os.readlink(self.prefix / "bin" / name), "cmr")
        again = self.install("--uninstall")
        self.assertEqual((again.stdout, again.stderr), ("", ""))
        self.is_empty()

    def test_a_prefix_that_is_made_goes_again(self):
        self.prefix = self.prefix / "new" / "prefix"
        self.install()
        self.install("--uninstall")
        self.prefix = self.prefix.parents[1]
        self.is_empty()

    def test_what_others_put_there_stays(self):
        for it in ("bin/other", "lib/cmr/other"):
            (self.prefix / it).parent.mkdir(parents=True)
            (self.prefix / it).touch()
        self.install()
        self.install("--uninstall")
        self.assertEqual(self.files(), ["bin/other", "lib/cmr/other"])

    @needs_python
    def test_the_scripts_run_by_their_names(self):
        self.install()
        for name in SCRIPTS:
            with self.subTest(name=name):
                run = self.run_installed(name, "--help")
                self.assertEqual((run.returncode, run.stderr), (0, ""))
                self.assertIn(f"usage: {name} ", run.stdout)
        run = self.run_installed("cmr-names", "nothing")
        self.assertEqual((run.returncode, run.stderr), (1, "cmr-names: cannot read nothing: No such file or directory\n"))
        self.assertTrue(list(self.prefix.rglob("__pycache__")))
        self.install("--uninstall")
        self.is_empty()

    def run_installed(self, name, *words, **settings):
        """A run of an installed script in an environment without the clone and the prefix."""
        command = [self.prefix / "bin" / name, *words]
        return subprocess.run(command, env={"PATH": "/usr/bin:/bin"}, capture_output=True, text=True, check=False, **settings)

    @needs_python
    def test_the_scripts_find_the_program(self):
        self.install()
        (self.prefix / "matrices").mkdir()
        (self.prefix / "matrices" / "one.txt").write_text("1 1\n1\n", encoding="utf-8")
        run = self.run_installed("cmr-classify", "matrices", "--no-batch", cwd=self.prefix)
        # The stand-in refuses all arguments.
        self.assertIn("BadCommandLine", run.stdout)

    def test_each_command_of_the_package_is_installed(self):
        modules = {it.stem for it in (TOP / "python" / "cmr_matrices" / "commands").glob("*.py")} - {"__init__", "command", "signals"}
        self.assertEqual({it.replace("-", "_") for it in SCRIPTS.values()}, modules)
        with open(TOP / "python" / "pyproject.toml", "rb") as file:
            commands = tomllib.load(file)["project"]["scripts"]
        modules_of = {name: command.removeprefix("cmr_matrices.commands.").removesuffix(":main") for name, command in commands.items()}
        self.assertEqual(modules_of, {name: script.replace("-", "_") for name, script in SCRIPTS.items()})
        for file in ("INSTALLING.md", "cmr.1"):
            text = (TOP / "docs" / file).read_text(encoding="utf-8").replace("\\-", "-")
            self.assertEqual([it for it in SCRIPTS if it not in text], [], file)

    @needs_python
    def test_a_folder_that_is_a_link_to_another_place(self):
        elsewhere = self.prefix.parent / "some" / "where"
        elsewhere.mkdir(parents=True)
        (self.prefix / "bin").symlink_to(elsewhere)
        self.install()
        self.assertEqual(self.run_installed("cmr-names", "--help").returncode, 0)
        self.install("--uninstall")
        self.assertEqual((list(self.prefix.iterdir()), list(elsewhere.iterdir())), ([self.prefix / "bin"], []))

    @needs_man
    def test_man_finds_the_page(self):
        self.install()
        words = ["man", "-M", self.prefix / "share" / "man", "-w", "cmr"]
        run = subprocess.run(words, capture_output=True, text=True, check=False)
        self.assertEqual(run.stdout, f"{self.prefix}/share/man/man1/cmr.1\n")

    def test_a_later_version_takes_the_place_of_an_earlier_one(self):
        earlier = self.clone.top / "python" / "cmr_matrices" / "earlier.py"
        earlier.touch()
        self.install()
        self.assertEqual(self.files(), sorted([*FILES, "lib/cmr/python/cmr_matrices/earlier.py"]))
        (self.clone.top / "docs" / "cmr.1").write_text("later", encoding="utf-8")
        earlier.unlink()
        self.install()
        self.assertEqual((self.prefix / "share" / "man" / "man1" / "cmr.1").read_text(encoding="utf-8"), "later")
        self.assertEqual(self.files(), sorted(FILES))
        self.install("--uninstall")
        self.is_empty()

    def test_files_of_others_are_not_overwritten(self):
        for path in ("bin/cmr", "share/zsh/site-functions/_cmr"):
            with self.subTest(path=path):
                target = self.prefix / path
                target.parent.mkdir(parents=True)
                target.write_text("other", encoding="utf-8")
                line = f"install: {target} exists and was not installed by this script"
                self.assertEqual(self.refused(), line)
                self.assertEqual((self.files(), target.read_text(encoding="utf-8")), ([path], "other"))
                shutil.rmtree(self.prefix / path.partition("/")[0])
        self.assertFalse(self.clone.log.exists())

    def test_what_was_changed_is_not_taken_away(self):
        self.install()
        target = self.prefix / "share" / "man" / "man1" / "cmr.1"
        target.write_text("other", encoding="utf-8")
        again = "move it to another folder, and repeat the command"
        line = f"install: {target} was changed since it was installed, so nothing is removed: {again}"
        self.assertEqual(self.refused("--uninstall"), line)
        line = f"install: {target} was changed since it was installed, so nothing is installed: {again}"
        self.assertEqual(self.refused(), line)
        self.assertEqual(self.files(), sorted(FILES))
        target.unlink()
        self.install("--uninstall")
        self.is_empty()

    def test_what_is_not_installed_is_not_taken_away(self):
        self.assertEqual(self.refused("--uninstall"), f"install: cmr is not installed in {self.prefix}")
        (self.prefix / "lib" / "cmr").mkdir(parents=True)
        (self.prefix / "lib" / "cmr" / "installed").write_text("yes\n", encoding="utf-8")
        line = f"install: {self.prefix}/lib/cmr/installed exists and does not belong to cmr"
        self.assertEqual(self.refused("--uninstall"), line)
        self.assertEqual(self.refused(), line)

    def test_a_file_in_place_of_a_folder(self):
        (self.prefix / "bin").touch()
        self.assertEqual(self.refused(), f"install: {self.prefix}/bin is not a folder")
        self.prefix = self.prefix / "bin"
        self.assertEqual(self.refused(), f"install: {self.prefix} is not a folder")
        self.assertEqual(self.refused("--uninstall"), f"install: cmr is not installed in {self.prefix}")
        self.assertFalse(self.clone.log.exists())

    @unittest.skipIf(os.geteuid() == 0, "root may write everywhere")
    def test_without_the_right_to_write(self):
        self.prefix.chmod(0o500)
        self.assertEqual(self.refused(), f"install: cannot write in {self.prefix}")

    def test_without_space_nothing_is_put(self):
        self.clone.run("scripts/build")

        def limited():
            resource.setrlimit(resource.RLIMIT_FSIZE, (4000, 4000))

        self.assertRegex(self.refused(preexec_fn=limited), r"^install: .*File too large$")
        self.is_empty()

    def test_an_upgrade_without_space_leaves_the_earlier_version(self):
        self.install()
        before = {it: (self.prefix / it).read_bytes() for it in self.files()}
        (self.clone.top / "docs" / "cmr.1").write_text("x" * 100_000, encoding="utf-8")

        def limited():
            resource.setrlimit(resource.RLIMIT_FSIZE, (50_000, 50_000))

        self.assertRegex(self.refused(preexec_fn=limited), r"^install: .*File too large$")
        self.assertEqual({it: (self.prefix / it).read_bytes() for it in self.files()}, before)

    def test_a_crate_that_fails(self):
        (self.clone.crate("low") / "fails").touch()
        run = self.run_install()
        self.assertEqual(run.returncode, 1)
        said = ["install: low was not built", "checking low", "error: low is not proved"]
        self.assertEqual(run.stderr.splitlines()[-3:], said)
        self.is_empty()

    def test_an_interrupted_build(self):
        build = self.clone.begin("scripts/install", "--prefix", self.prefix, sleep=20)
        self.clone.waits_for("begin", "low")
        build.send_signal(signal.SIGINT)
        said = build.communicate()[1].splitlines()
        self.assertEqual((build.returncode, said[-1]), (1, "install: interrupted: nothing was changed"))
        self.is_empty()


class UnprovedTest(Prefix):
    """With --unproved. The stand-in for `rt` compiles a program that prints its arguments."""

    NOTE = "nothing is proved of this run: the program was compiled without proofs"

    def setUp(self):
        super().setUp()
        self.clone.make_kit()

    def run_program(self, path, *words):
        return subprocess.run([path, *words], capture_output=True, text=True, check=False, cwd=self.prefix)

    def test_each_run_says_so(self):
        run = self.install("--unproved")
        self.assertEqual(run.stdout.splitlines()[0], f"cmr is installed in {self.prefix}, without proofs")
        (self.prefix.parent / "other").symlink_to(self.prefix / "bin" / "cmr")
        for path in (self.prefix / "bin" / "cmr", "bin/cmr", self.prefix.parent / "other"):
            run = self.run_program(path, "tu", "a b")
            self.assertEqual((run.returncode, run.stdout, run.stderr), (6, "optimised tu a b\n", f"cmr: {self.NOTE}\n"))
        for name in OTHER_NAMES:
            run = self.run_program(f"bin/{name}", "a b")
            self.assertEqual((run.returncode, run.stdout, run.stderr), (6, "optimised a b\n", f"{name}: {self.NOTE}\n"))
            self.assertEqual(os.readlink(self.prefix / "lib" / "cmr" / "out" / "unproved" / name), "cmr")
        added = [f"lib/cmr/{folder}/{name}" for folder in ("out/unproved", "unproved") for name in ("cmr", *OTHER_NAMES)]
        self.assertEqual(self.files(), sorted([*FILES, *added]))
        self.install("--uninstall")
        self.is_empty()

    @needs_python
    def test_the_package_warns(self):
        self.install("--unproved")
        code = "import cmr_matrices; print(cmr_matrices.find_program())"
        env = {"PATH": "/usr/bin:/bin", "PYTHONPATH": str(self.prefix / "lib" / "cmr" / "python")}
        run = subprocess.run(["/usr/bin/python3", "-c", code], env=env, capture_output=True, text=True, check=True)
        self.assertEqual(run.stdout, f"{os.path.realpath(self.prefix)}/lib/cmr/out/unproved/cmr\n")
        self.assertIn("UnprovedProgram: nothing is proved of this run", run.stderr)

    def test_a_proved_program_stays(self):
        self.install()
        line = f"install: {self.prefix}/bin/cmr is a proved program, so nothing is installed: --force replaces it by one without proofs"
        self.assertEqual(self.refused("--unproved"), line)
        self.assertEqual(self.run_program("bin/cmr").stdout, "proved\n")
        self.install("--unproved", "--force")
        self.assertEqual(self.run_program("bin/cmr").stdout, "optimised\n")
        self.install("--unproved")
        self.install()
        self.assertEqual((self.files(), self.run_program("bin/cmr").stdout), (sorted(FILES), "proved\n"))

    def test_without_rt_or_with_other_words(self):
        for words, task in ((("--unproved",), "compile the program"), ((), "build the program")):
            self.assertEqual(self.refused(*words, has_rt=False), f"install: {NO_KIT.format(task=task)}")
        for words in (("--force",), ("--unproved", "--uninstall")):
            self.assertEqual(self.run_install(*words).returncode, 2)
        self.is_empty()


# A file system in memory, if there is one: the tests below write and remove files thousands of times, and no test runs one of them.
MEMORY = next((it for it in ("/dev/shm",) if os.access(it, os.W_OK)), None)


def first_and_last(prefix, *, proved=True):
    """The first and the last file and the first and the last link of each folder, so that a test can end at each change."""
    groups = {}
    for it in items(prefix, proved=proved):
        groups.setdefault((os.path.dirname(it.path), it.source is None), []).append(it)
    return list(dict.fromkeys(it for group in groups.values() for it in (group[0], group[-1])))


class KilledTest(unittest.TestCase):
    """An installation or its removal that is killed before its first change, its second change, and so on."""

    CHANGES = {"os.mkdir", "os.rename", "os.symlink", "os.remove", "os.rmdir", "shutil.copyfile"}
    KILLED = 9

    def setUp(self):
        folder = tempfile.TemporaryDirectory(dir=MEMORY)
        self.addCleanup(folder.cleanup)
        self.prefix = Path(folder.name) / "prefix"
        program = Path(folder.name) / "cmr"
        program.write_text("#!/bin/sh\n", encoding="utf-8")
        self.enterContext(mock.patch("building.installed.BUILT", program))
        self.enterContext(mock.patch("building.installed.items", first_and_last))
        # An installation ignores these in the process of the tests too.
        for it in ENDING:
            self.addCleanup(signal.signal, it, signal.getsignal(it))

    def is_killed(self, work, number):
        """Whether the task, in a process of its own, is killed before the change of that number. Otherwise it must end by itself."""
        child = os.fork()
        if not child:
            self.work_until(work, number)
        status = os.waitstatus_to_exitcode(os.waitpid(child, 0)[1])
        self.assertIn(status, (0, self.KILLED), f"the task that is killed before change {number}")
        return status == self.KILLED

    def work_until(self, work, number):
        """Ends this process, at the latest before the change of that number."""
        left = iter(range(number, -1, -1))
        sys.addaudithook(lambda event, _: event in self.CHANGES and next(left) == 0 and os._exit(self.KILLED))
        status = 1
        try:
            work()
            status = 0
        except BaseException:
            traceback.print_exc()
        finally:
            os._exit(status)

    def files(self):
        return sorted(str(it.relative_to(self.prefix)) for it in self.prefix.rglob("*") if it.is_symlink() or not it.is_dir())

    def put(self):
        refuse_what_is_there(self.prefix)
        Installation(self.prefix).put()

    def take_away(self):
        take_away(self.prefix)

    def test_an_installation_that_is_killed(self):
        self.assertGreater(self.kill_installations(lambda: None), 100)

    def test_an_upgrade_that_is_killed(self):
        self.assertGreater(self.kill_installations(self.put_earlier_version), 100)

    def put_earlier_version(self):
        with mock.patch.dict("building.installed.SCRIPTS", {"cmr-earlier": "install"}):
            self.put()

    def kill_installations(self, before):
        number = 0
        expected = sorted([LIST, *(it.path for it in first_and_last(self.prefix))])
        before()
        while self.is_killed(self.put, number):
            with self.subTest(number=number):
                self.put()
                self.assertEqual(self.files(), expected)
                self.take_away()
                self.assertEqual(self.files(), [])
            shutil.rmtree(self.prefix, ignore_errors=True)
            before()
            number += 1
        return number

    def test_a_removal_that_is_killed(self):
        number = 0
        self.put()
        while self.is_killed(self.take_away, number):
            with self.subTest(number=number):
                if (self.prefix / LIST).exists():
                    self.take_away()
                self.assertEqual(self.files(), [])
            shutil.rmtree(self.prefix, ignore_errors=True)
            self.put()
            number += 1
        self.assertGreater(number, 50)


@needs_program
class OtherMachineTest(unittest.TestCase):
    """The libraries that the program needs on a machine without the kit."""

    LIBRARIES = {"libc.so.6", "ld-linux-x86-64.so.2", "libm.so.6", "libgcc_s.so.1"}

    def libraries(self):
        """What `ldd` lists for the program, by names and paths."""
        run = subprocess.run(["ldd", BUILT], capture_output=True, text=True, check=True)
        paths = re.findall(r"(/\S+) \(0x", run.stdout)
        return {Path(path).name: path for path in paths}

    def test_what_it_is_linked_with(self):
        names = set(self.libraries())
        self.assertIn("libc.so.6", names)
        self.assertLessEqual(names, self.LIBRARIES)

    def test_in_a_root_with_nothing_else(self):
        with tempfile.TemporaryDirectory() as name:
            root = Path(name)
            shutil.copy(BUILT, root / "cmr")
            for it in self.libraries().values():
                (root / it[1:]).parent.mkdir(parents=True, exist_ok=True)
                shutil.copy(it, root / it[1:])
            words = ["unshare", "--user", "--map-root-user", "--root", root]
            if subprocess.run([*words, "/cmr"], capture_output=True, check=False).returncode != 2:
                self.skipTest("this user may make no root")
            run = subprocess.run([*words, "/cmr", "tu"], input="1 1\n1\n", capture_output=True, text=True, check=False)
            printed = "totally unimodular: yes\n0 reduced 1x1\n1 empty 0x0\n"
            self.assertEqual((run.returncode, run.stdout, run.stderr), (0, printed, ""))
