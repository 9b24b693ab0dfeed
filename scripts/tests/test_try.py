"""Tests of `try-cmr` over a stand-in for `rt`."""

import fcntl
import os
import shutil
import signal
import tempfile
import time
import unittest
from pathlib import Path

from building.clone import NO_KIT, OTHER_NAMES
from tests.stand_in import SmallClone

NOTE = "try-cmr: nothing is proved of this run; ./cmr runs the proved program\n"
COMPILING = "try-cmr: compiling the program without proofs, about two minutes the first time\n"


class TryTest(unittest.TestCase):
    def setUp(self):
        folder = tempfile.TemporaryDirectory()
        self.addCleanup(folder.cleanup)
        self.clone = SmallClone(folder.name, {"cmr": ([], 1)})
        self.here = Path(folder.name) / "here"
        self.here.mkdir()
        self.kept = self.clone.top / "out" / "unproved" / "cmr"

    def run_here(self, *words, **settings):
        return self.clone.run("try-cmr", *words, cwd=self.here, **settings)

    def test_the_first_run_compiles_and_later_ones_do_not(self):
        first = self.run_here("some", "more", "words")
        self.assertEqual((first.returncode, first.stdout, first.stderr), (6, "some more words\n", NOTE + COMPILING))
        later = self.run_here()
        self.assertEqual((later.returncode, later.stdout, later.stderr), (6, "\n", NOTE))
        self.assertEqual(os.listdir(self.here), ["made"])
        self.holds_the_program_only()

    def holds_the_program_only(self):
        """The program, also under its other names."""
        self.assertEqual(sorted(os.listdir(self.kept.parent)), ["cmr", *OTHER_NAMES, "cmr.sources"])
        for name in OTHER_NAMES:
            self.assertEqual(os.readlink(self.kept.with_name(name)), "cmr")

    def test_a_program_with_the_second_name_is_replaced(self):
        self.kept.parent.mkdir(parents=True)
        self.kept.with_name("cmr-batch").write_text("of other sources", encoding="utf-8")
        run = self.clone.run("scripts/build_unproved")
        self.assertEqual((run.returncode, run.stderr), (0, COMPILING))
        self.holds_the_program_only()
        self.assertEqual(self.clone.run("scripts/build_unproved", has_rt=False).stderr, "")

    def test_a_kit_whose_tools_are_known_optimises(self):
        self.clone.make_kit()
        first = self.run_here("some", "words")
        self.assertEqual((first.returncode, first.stdout, first.stderr), (6, "optimised some words\n", NOTE + COMPILING))
        self.assertEqual(self.clone.compiled(), [["-c", "-O1", "-fsanitize=address", "-fsanitize-address-use-after-return=never", "cmr"]])
        self.assertEqual(self.run_here().stderr, NOTE)
        self.holds_the_program_only()

    def test_a_kit_whose_linker_has_other_words_does_not(self):
        self.clone.make_kit(linker="#!/bin/sh\nexit 0\n")
        self.assertEqual(self.run_here().returncode, 70)
        self.assertEqual(len(self.clone.compiled()), 2)
        (self.clone.tools / "kit" / "toolchain" / "bin" / "clang").unlink()
        shutil.rmtree(self.clone.tools / "kit" / "toolchain")
        self.assertEqual(self.run_here("some", "more", "words").stdout, "some more words\n")
        self.assertEqual(len(self.clone.compiled()), 2)

    def test_sources_that_a_kit_does_not_compile(self):
        self.clone.make_kit()
        (self.clone.crate("cmr") / "fails").touch()
        run = self.run_here()
        self.assertEqual((run.returncode, run.stderr), (70, f"{NOTE}{COMPILING}try-cmr: the program was not compiled\nerror: src/main.rt: no\n"))
        self.assertEqual(self.clone.compiled(), [])

    def test_changed_sources_are_compiled_again(self):
        self.run_here()
        (self.clone.crate("cmr") / "src" / "lib.rt").write_text("//! other", encoding="utf-8")
        self.assertEqual(self.run_here().stderr, NOTE + COMPILING)
        self.assertEqual(self.run_here().stderr, NOTE)

    def test_sources_that_are_touched_are_not(self):
        self.run_here()
        later = time.time() + 10
        os.utime(self.clone.crate("cmr") / "src" / "lib.rt", (later, later))
        self.assertEqual(self.run_here(has_rt=False).stderr, NOTE)

    def test_sources_that_change_meanwhile_are_newer(self):
        self.run_here()
        self.assertLess(self.kept.stat().st_mtime, self.kept.stat().st_ctime)

    def test_sources_that_do_not_compile(self):
        self.run_here()
        (self.clone.crate("cmr") / "fails").touch()
        (self.clone.crate("cmr") / "src" / "lib.rt").write_text("//! other", encoding="utf-8")
        run = self.run_here()
        self.assertEqual((run.returncode, run.stdout), (70, ""))
        self.assertEqual(run.stderr, f"{NOTE}{COMPILING}try-cmr: the program was not compiled\nerror: src/main.rt: no\n")
        self.holds_the_program_only()

    def test_without_rt(self):
        run = self.run_here(has_rt=False)
        self.assertEqual((run.returncode, run.stdout), (70, ""))
        line = NO_KIT.format(task="compile the program")
        self.assertEqual(run.stderr, f"{NOTE}try-cmr: {line}\n")
        self.assertFalse(self.kept.parent.exists())

    def test_where_it_cannot_be_kept(self):
        (self.clone.top / "out").touch()
        run = self.run_here()
        self.assertEqual((run.returncode, run.stderr), (70, f"{NOTE}try-cmr: {self.kept.parent}: Not a directory\n"))

    def test_by_a_link(self):
        self.run_here()
        (self.here / "link").symlink_to(self.clone.top / "try-cmr")
        run = self.clone.run(self.here / "link", "words", "more", "most", cwd=self.here, has_rt=False)
        self.assertEqual(run.stdout, "words more most\n")

    def test_interrupted(self):
        for number in (signal.SIGINT, signal.SIGTERM, signal.SIGHUP):
            with self.subTest(signal=number):
                run = self.begin_slowly()
                run.send_signal(number)
                said = run.communicate()[1]
                self.assertEqual((run.returncode, said), (70, f"{NOTE}{COMPILING}try-cmr: interrupted\n"))
                self.assertEqual(os.listdir(self.kept.parent), [])

    def test_killed(self):
        run = self.begin_slowly()
        os.killpg(run.pid, signal.SIGKILL)
        run.communicate()
        self.assertNotEqual(os.listdir(self.kept.parent), [])
        self.assertEqual(self.run_here().stderr, NOTE + COMPILING)
        self.holds_the_program_only()

    def test_another_run_that_compiles_is_waited_for(self):
        self.kept.parent.mkdir(parents=True)
        held = os.open(self.kept.parent, os.O_RDONLY)
        fcntl.flock(held, fcntl.LOCK_EX)
        run = self.clone.begin("try-cmr", "some", "more", "words", cwd=self.here)
        lines = [run.stderr.readline() for _ in range(2)]
        self.assertEqual("".join(lines), f"{NOTE}try-cmr: waiting for another run that compiles it\n")
        os.close(held)
        self.assertEqual(run.communicate(), ("some more words\n", COMPILING))

    def begin_slowly(self):
        """A run that is compiling."""
        self.clone.log.unlink(missing_ok=True)
        run = self.clone.begin("try-cmr", sleep=60, cwd=self.here, start_new_session=True)
        self.clone.waits_for("try", "cmr")
        return run
