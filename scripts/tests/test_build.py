"""Tests of `scripts/build` over a stand-in for `rt`."""

import fcntl
import os
import pty
import shutil
import signal
import subprocess
import sys
import tempfile
import time
import unittest
from pathlib import Path

from building.clone import NO_KIT, crates_below, source_files
from building.costs import costs
from building.plan import Plan, Running, read_seconds, time_with
from tests.stand_in import SmallClone
from tests.support import TOP

CRATES = {
    "base": ([], 1),
    "left": (["base"], 3),
    "right": (["base"], 1),
    "high": (["left", "right"], 1),
    "cmr": (["high", "base"], 1),
}


# A build that a signal reaches when its first proof has begun, also while Python ignores exceptions.
TOLD_AT_ITS_FIRST_PROOF = """
import os, runpy, signal, subprocess, sys

class Value:
    def __del__(self):
        os.kill(os.getpid(), signal.SIGTERM)

class Popen(subprocess.Popen):
    def __init__(self, *words, **settings):
        super().__init__(*words, **settings)
        {}

subprocess.Popen = Popen
sys.argv = sys.argv[1:]
runpy.run_path(sys.argv[0], run_name="__main__")
"""


class PlanTest(unittest.TestCase):
    def setUp(self):
        self.plan = Plan({name: uses for name, (uses, _) in CRATES.items()}, {it: of[1] for it, of in CRATES.items()})

    def next(self, built, running, processors):
        return list(self.plan.next(built, running, processors))

    def test_what_is_next(self):
        self.assertEqual(self.next([], {}, 4), [("base", 4)])
        self.assertEqual(self.next([], {"base": 4}, 4), [])
        self.assertEqual(self.next(["base"], {}, 1), [("left", 1)])
        self.assertEqual(self.next(["base"], {}, 2), [("left", 1), ("right", 1)])
        self.assertEqual(self.next(["base"], {}, 4), [("left", 3), ("right", 1)])
        self.assertEqual(self.next(["base"], {"left": 1}, 2), [("right", 1)])
        self.assertEqual(self.next(["base", "right"], {"left": 1}, 4), [])
        self.assertEqual(self.next(["base", "left", "right"], {}, 8), [("high", 4)])

    def test_the_longest_way_gets_two_of_four(self):
        self.assertEqual(self.next(["base"], {"right": 3}, 4), [("left", 2)])
        self.assertEqual(self.next(["base"], {"left": 3}, 4), [("right", 1)])
        self.assertEqual(self.next(["base"], {"right": 2}, 3), [("left", 1)])

    def test_what_a_change_costs(self):
        self.assertEqual(self.plan.above("left"), ["high", "cmr"])
        self.assertEqual(self.plan.above("cmr"), [])
        self.assertEqual(self.plan.longest_chain(), ["base", "left", "high", "cmr"])
        plan = Plan(self.plan.uses, {name: 60 * seconds for name, seconds in self.plan.seconds.items()})
        self.assertEqual(
            list(costs(plan, ["right"])),
            [
                "   own  change  above  crate",
                "   1.0     3.0      2  right",
                "                       high, cmr",
                "   6.0  the longest chain: base, left, high, cmr",
                "   7.0  all crates",
            ],
        )
        self.assertEqual([it.split()[-1] for it in costs(plan)][1:-2], ["base", "left", "right", "high", "cmr"])

    def test_a_long_one_gets_two_of_four(self):
        plan = Plan({"long": [], "longer": [], "cmr": ["long", "longer"]}, {"long": 240, "longer": 400, "cmr": 1})
        self.assertEqual(list(plan.next([], {}, 4)), [("longer", 3), ("long", 2)])
        self.assertEqual(list(plan.next([], {"longer": 3}, 4)), [("long", 2)])
        self.assertEqual(list(plan.next([], {"longer": 2}, 3)), [("long", 1)])

    def test_a_quick_one_waits(self):
        plan = Plan({"long": [], "quick": [], "cmr": ["long", "quick"]}, {"long": 99, "quick": 2, "cmr": 1})
        self.assertEqual(list(plan.next([], {}, 2)), [("long", 2)])
        self.assertEqual(list(plan.next(["long"], {}, 2)), [("quick", 2)])

    def test_time_left(self):
        self.assertEqual(self.plan.time_left([], {}, 1), 7)
        running = {"left": Running(1, 1), "right": Running(1, 1)}
        self.assertAlmostEqual(self.plan.time_left(["base"], running, 2), 2 + 2 * time_with(1, 2))
        self.assertEqual(self.plan.time_left(["base", "left", "right", "high"], {"cmr": Running(1, 5)}, 1), 0)
        self.assertEqual(self.plan.time_left(list(CRATES), {}, 4), 0)

    def test_the_kept_table_has_each_crate(self):
        self.assertEqual(sorted(read_seconds()), sorted(crates_below()))


class BuildTest(unittest.TestCase):
    def setUp(self):
        folder = tempfile.TemporaryDirectory()
        self.addCleanup(folder.cleanup)
        self.clone = SmallClone(folder.name, CRATES)
        (self.clone.top / ".git").mkdir()
        self.work = self.clone.top / ".git" / "cmr-build"

    def built(self):
        return sorted(it for it in CRATES if (self.clone.crate(it) / "out" / "rlib" / "stamp").exists())

    def is_clean(self):
        self.assertEqual(list(self.work.iterdir()), [])

    def test_builds_what_is_below_first(self):
        run = self.clone.run("scripts/build")
        self.assertEqual((run.returncode, run.stdout), (0, ""), run.stderr)
        lines = run.stderr.splitlines()
        self.assertEqual(len(lines), len(CRATES))
        first = r"^build: 1 of 5 crates, 0 min gone, about \d+ min left: base is proved \(0 processor seconds\)$"
        self.assertRegex(lines[0], first)
        self.assertRegex(lines[4], r"^build: 5 of 5 crates, 0 min gone, about 0 min left: cmr is proved ")
        order = [line[:2] for line in self.clone.logged()]
        for name, (uses, _) in CRATES.items():
            for it in uses:
                self.assertLess(order.index(["end", it]), order.index(["begin", name]))
        self.assertEqual(self.built(), sorted(CRATES))
        self.is_clean()

    @unittest.skipIf(len(os.sched_getaffinity(0)) < 2, "there is one processor")
    def test_builds_side_by_side(self):
        self.assertEqual(self.clone.run("scripts/build", sleep=0.5).returncode, 0)
        at_work, most = {}, 0
        for event, name, jobs, *_ in self.clone.logged():
            at_work[name] = int(jobs) if event == "begin" else 0
            most = max(most, sum(it > 0 for it in at_work.values()))
            self.assertLessEqual(sum(at_work.values()), len(os.sched_getaffinity(0)))
        self.assertEqual(most, 2)

    def test_a_crate_that_fails_is_named_with_its_last_lines(self):
        (self.clone.crate("left") / "fails").touch()
        run = self.clone.run("scripts/build")
        self.assertEqual((run.returncode, run.stdout), (70, ""))
        said = ["build: left was not built", "checking left", "error: left is not proved"]
        self.assertEqual(run.stderr.splitlines()[-3:], said)
        self.assertNotIn("high", self.built())
        self.is_clean()
        (self.clone.crate("left") / "fails").unlink()
        self.assertEqual(self.clone.run("scripts/build").returncode, 0)
        self.assertIn(["begin", "base", "True"], [[it[0], it[1], it[4]] for it in self.clone.logged()])
        self.is_clean()

    def test_an_interrupted_build_keeps_what_it_has(self):
        for number in (signal.SIGINT, signal.SIGTERM, signal.SIGHUP):
            with self.subTest(signal=number):
                self.clone.log.unlink(missing_ok=True)
                build = self.clone.begin("scripts/build", sleep=1)
                self.clone.waits_for("begin", "left")
                build.send_signal(number)
                said = build.communicate()[1].splitlines()
                self.assertEqual(build.returncode, 70)
                self.assertEqual(said[-1], "build: interrupted: the next build continues from what is proved")
                self.assertIn("base", self.built())
                self.assertEqual({"left", "high", "cmr"}.intersection(self.built()), set())
                self.is_clean()
        self.assertEqual(self.clone.run("scripts/build").returncode, 0)

    def test_a_signal_while_a_proof_begins(self):
        for told_by in ("os.kill(os.getpid(), signal.SIGTERM)", "Value()"):
            with self.subTest(told_by=told_by):
                words = ["-c", TOLD_AT_ITS_FIRST_PROOF.format(told_by), "build"]
                build = self.clone.begin(sys.executable, *words, sleep=60, cwd=self.clone.top / "scripts")
                said = build.communicate()[1].splitlines()
                self.assertEqual(build.returncode, 70)
                self.assertEqual(said[-1], "build: interrupted: the next build continues from what is proved")
                self.assertFalse([it for it in said if it.startswith("build: waiting")])
                self.is_clean()

    def test_a_killed_build_keeps_what_it_has(self):
        build = self.clone.begin("scripts/build", sleep=0.3)
        self.clone.waits_for("begin", "left")
        (self.clone.crate("left") / "out").mkdir()
        build.kill()
        build.communicate()
        self.assertNotEqual(list(self.work.iterdir()), [])
        self.assertEqual(self.clone.run("scripts/build").returncode, 0)
        self.assertEqual(self.built(), sorted(CRATES))
        self.is_clean()

    def test_another_rt_is_waited_for(self):
        held = os.open(self.clone.crate("base"), os.O_RDONLY)
        fcntl.flock(held, fcntl.LOCK_EX)
        build = self.clone.begin("scripts/build")
        self.assertEqual(build.stderr.readline(), f"build: waiting for another rt in {self.clone.crate('base')}\n")
        self.assertEqual(self.clone.logged(), [])
        os.close(held)
        self.assertIn("build: 5 of 5 crates", build.communicate()[1])
        self.assertEqual(build.returncode, 0)

    def test_two_builds_of_one_clone(self):
        builds = [self.clone.begin("scripts/build", sleep=0.1) for _ in range(2)]
        for it in builds:
            it.communicate()
        self.assertEqual([it.returncode for it in builds], [0, 0])
        order = [line[1] for line in self.clone.logged()]
        self.assertEqual(order.count("cmr"), 4)
        self.assertEqual(set(order[-10:]), set(CRATES))

    def test_without_rt(self):
        line = NO_KIT.format(task="build the program") + "\n"
        for script, name in (("scripts/build", "build"), ("cmr", "cmr")):
            run = self.clone.run(script, has_rt=False)
            self.assertEqual((run.returncode, run.stdout, run.stderr), (70, "", f"{name}: {line}"))
        self.assertIn("## Run it", (TOP / "README.md").read_text(encoding="utf-8"))

    @unittest.skipIf(os.geteuid() == 0, "root may write everywhere")
    def test_without_the_right_to_write(self):
        (self.clone.top / ".git").chmod(0o500)
        run = self.clone.run("scripts/build")
        self.assertEqual((run.returncode, run.stderr), (70, f"build: {self.work}: Permission denied\n"))

    def test_a_file_in_place_of_the_work_folder(self):
        self.work.touch()
        run = self.clone.run("scripts/build")
        self.assertEqual((run.returncode, run.stderr), (70, f"build: {self.work}: File exists\n"))

    @unittest.skipIf(len(os.sched_getaffinity(0)) < 2, "there is one processor")
    def test_on_a_terminal_one_line_is_updated(self):
        seen, shown = pty.openpty()
        build = self.clone.begin("scripts/build", sleep=0.3, stderr=shown)
        build.communicate()
        os.close(shown)
        text = b""
        try:
            while part := os.read(seen, 4096):
                text += part
        except OSError:
            pass
        os.close(seen)
        drawn = text.decode().split("\r\x1b[K")
        self.assertRegex("\n".join(drawn), r"(?m)^build: 1 of 5 crates, 0 min gone, about \d+ min left: right, left$")
        self.assertEqual((build.returncode, drawn[-1], "\n" in text.decode()), (0, "", False))


class CmrTest(unittest.TestCase):
    """Tests of `cmr`, which builds the program where it is not made of the sources."""

    FIRST = "cmr: proving and building the program, 90 minutes of processor time the first time (./try-cmr runs it at once, unproved)"
    PROVED = (2, "proved\n", "")

    def setUp(self):
        folder = tempfile.TemporaryDirectory()
        self.addCleanup(folder.cleanup)
        self.folder = Path(folder.name)
        self.clone = SmallClone(folder.name, CRATES)
        self.built = self.clone.crate("cmr") / "out" / "cmr"
        self.source = self.clone.crate("left") / "src" / "lib.rt"

    def build(self):
        self.assertEqual(self.clone.run("cmr").returncode, 2)
        self.clone.log.unlink()

    def touch(self, seconds=10):
        later = time.time() + seconds
        os.utime(self.source, (later, later))

    def run_at(self, command, *words, has_rt=False):
        run = self.clone.run(command, *words, has_rt=has_rt)
        return run.returncode, run.stdout, run.stderr

    def test_the_program_is_built_once(self):
        first = self.clone.run("cmr", "words")
        self.assertEqual((first.returncode, first.stdout), (2, "proved\n"), first.stderr)
        self.assertEqual(first.stderr.splitlines()[0], self.FIRST)
        self.assertEqual(self.run_at("cmr", "words"), self.PROVED)

    def test_a_source_that_is_touched_builds_nothing(self):
        self.build()
        self.touch(-1)
        self.assertEqual(self.run_at("cmr"), self.PROVED)
        self.assertGreater(self.built.stat().st_mtime, self.source.stat().st_mtime)

    def test_a_copy_of_a_clone_builds_nothing(self):
        self.build()
        copied = self.folder / "a copy"
        shutil.copytree(self.clone.top, copied, copy_function=shutil.copy)
        self.touch(-5)
        os.utime(copied / "crates" / "cmr" / "out" / "cmr", (1, 1))
        self.assertEqual(self.run_at(copied / "cmr"), self.PROVED)

    def test_a_copy_that_may_not_be_written_builds_nothing(self):
        self.build()
        self.touch()
        self.built.parent.chmod(0o500)
        self.assertEqual(self.run_at("cmr"), self.PROVED)
        self.built.parent.chmod(0o700)

    def test_a_changed_source_is_built(self):
        self.build()
        self.source.write_text("//! other", encoding="utf-8")
        self.assertIn("5 of 5 crates", self.run_at("cmr", has_rt=True)[2])
        self.assertEqual(self.run_at("cmr"), self.PROVED)

    def test_a_crate_that_uses_another_one_is_built(self):
        self.build()
        file = self.clone.top / "crates.txt"
        file.write_text(file.read_text(encoding="utf-8").replace("right: base", "right: left base"), encoding="utf-8")
        self.assertIn("5 of 5 crates", self.run_at("cmr", has_rt=True)[2])

    def test_a_program_of_other_sources_is_built(self):
        """`rt` itself built it, and then the sources were restored to the sources of the previous build."""
        self.build()
        self.built.write_text("#!/bin/sh\necho other\n", encoding="utf-8")
        self.touch()
        self.assertEqual(self.run_at("cmr", has_rt=True)[:2], (2, "proved\n"))

    def test_a_source_that_changes_meanwhile_is_built(self):
        build = self.clone.begin("cmr", sleep=0.3)
        self.clone.waits_for("begin", "high")
        self.source.write_text("//! other", encoding="utf-8")
        build.communicate()
        self.assertEqual(self.run_at("cmr")[0], 70)

    def test_the_program_stays_where_the_next_one_does_not_pass(self):
        self.build()
        self.source.write_text("//! other", encoding="utf-8")
        fails = self.clone.crate("cmr") / "fails"
        fails.touch()
        status, said, line = self.run_at("cmr", has_rt=True)
        self.assertEqual((status, said, line.splitlines()[-1]), (70, "", "error: cmr is not proved"))
        self.assertTrue(os.access(self.built, os.X_OK))
        fails.unlink()
        self.source.write_text("//! left\n", encoding="utf-8")
        self.assertEqual(self.run_at("cmr"), self.PROVED)

    def test_the_program_stays_while_the_next_one_is_built(self):
        self.build()
        build = self.clone.begin("scripts/build", sleep=0.1)
        while build.poll() is None:
            self.assertTrue(os.access(self.built, os.X_OK))
            time.sleep(0.002)
        build.communicate()
        self.assertEqual(build.returncode, 0)

    def test_killed_at_many_moments(self):
        self.build()
        self.source.write_text("//! other", encoding="utf-8")
        for number in range(12):
            with self.subTest(number=number):
                build = self.clone.begin("scripts/build", sleep=0.02, start_new_session=True)
                time.sleep(0.1 + 0.1 * number)
                os.killpg(build.pid, signal.SIGKILL)
                build.communicate()
                self.assertTrue(os.access(self.built, os.X_OK))
        self.assertEqual(self.clone.run("scripts/build").returncode, 0)
        self.assertEqual(self.run_at("cmr"), self.PROVED)

    def test_a_signal_ends_the_build(self):
        for number in (signal.SIGINT, signal.SIGTERM):
            with self.subTest(signal=number):
                self.clone.log.unlink(missing_ok=True)
                run = self.clone.begin("cmr", "tu", sleep=60)
                self.clone.waits_for("begin", "base")
                run.send_signal(number)
                said = run.communicate()[1].splitlines()
                line = "cmr: interrupted: the next build continues from what is proved"
                self.assertEqual((run.returncode, said[-1]), (70, line))

    def test_words_and_signals_reach_the_program(self):
        """The arguments are passed unchanged, and a closed pipe acts as on the program itself, also if it is built first."""
        words = ["tu", "--lines", "3", "--", "--help", "a b", "", "-h"]
        first = self.clone.run("cmr", *words).stdout
        self.assertTrue(first.startswith("proved\n(tu)(--lines)(3)(--)(--help)(a b)()(-h)SigIgn:"), first)
        self.assertEqual(first, self.clone.run("cmr", *words).stdout)

    def test_a_signal_that_is_ignored_stays_so(self):
        def ignore():
            signal.signal(signal.SIGINT, signal.SIG_IGN)

        said = [self.clone.run("cmr", "tu", "file", preexec_fn=ignore).stdout for _ in range(2)]
        self.assertEqual(said[0], said[1])
        ignored = int(said[0].rpartition("SigIgn:")[2], 16)
        self.assertTrue(ignored & 1 << signal.SIGINT - 1, said[0])

    def test_links_to_it(self):
        self.build()
        links = [self.folder / "one", self.folder / "two", self.folder / "three"]
        links[0].symlink_to(self.clone.top / "cmr")
        links[1].symlink_to("one")
        links[2].symlink_to(self.clone.top)
        for it in (links[0], links[1], links[2] / "cmr"):
            self.assertEqual(self.run_at(it), self.PROVED)
        for words in (["sh", "cmr"], ["./cmr"]):
            run = subprocess.run(words, cwd=self.clone.top, capture_output=True, text=True, check=False)
            self.assertEqual((run.returncode, run.stdout, run.stderr), self.PROVED)
        (self.folder / "cmr").symlink_to("two")
        run = subprocess.run(["cmr"], env={"PATH": f"{self.folder}:/usr/bin:/bin"}, capture_output=True, text=True, check=False)
        self.assertEqual((run.returncode, run.stdout, run.stderr), self.PROVED)


class SourcesTest(unittest.TestCase):
    def test_the_shell_sees_all_sources(self):
        """`fresh.sh` examines the files in src of a crate and in the folders of src."""
        for crate in crates_below():
            for it in source_files(crate):
                self.assertIn(len(it.relative_to(TOP / "crates" / crate).parts), (2, 3), it)
