"""Tests of `building.trials` over a stand-in for `rt`."""

import sys
import tempfile
import unittest

from building.clone import TOP
from building.trials import crates_with_trials
from tests.stand_in import SmallClone

CRATES = {"base": ([], 0), "high": (["base"], 0), "cmr": (["high"], 0)}


class TrialsTest(unittest.TestCase):
    def setUp(self):
        folder = tempfile.TemporaryDirectory()
        self.addCleanup(folder.cleanup)
        self.clone = SmallClone(folder.name, CRATES)
        self.put("high", "must-fail/tried_by_the_gate.edit")
        self.put("high", "trials/a_sum_is_lost.edit")

    def put(self, crate, name):
        file = self.clone.crate(crate) / name
        file.parent.mkdir(exist_ok=True)
        file.write_text("file: src/lib.rt\nold: high\nnew: low\n", encoding="utf-8")

    def tries(self, *names):
        """The status of the trials, and their lines on standard output and standard error."""
        run = self.clone.run(sys.executable, "-m", "building.trials", *names, cwd=self.clone.top / "scripts")
        return run.returncode, run.stdout.splitlines(), run.stderr.splitlines()

    def test_all_are_refused(self):
        self.assertEqual(self.clone.run("scripts/build").returncode, 0)
        said = ["rt: must-fail high/a_sum_is_lost.edit: refused, as it must be"]
        self.assertEqual(self.tries(), (0, said, []))
        self.assertEqual(self.tries("high"), (0, said, []))
        self.assertTrue((self.clone.crate("high") / "out" / "rlib" / "stamp").exists())
        self.assertTrue((self.clone.crate("high") / "trials" / "a_sum_is_lost.edit").exists())
        self.assertEqual(list((self.clone.top / "out" / "cmr-build").iterdir()), [])

    def test_one_is_not_refused(self):
        self.assertEqual(self.clone.run("scripts/build").returncode, 0)
        self.put("base", "trials/one_that_passes.edit")
        status, said, _ = self.tries()
        self.assertEqual((status, [it.split(": ")[-1] for it in said]), (1, ["NOT REFUSED", "refused, as it must be"]))

    def test_what_is_below_must_be_built(self):
        self.assertEqual(self.tries(), (1, [], ["trials: high uses base, which is not built: run scripts/build"]))

    def test_a_name_without_trials(self):
        status, said, told = self.tries("cmr")
        self.assertEqual((status, said, told[-1]), (2, [], "trials.py: error: no crate has this name and trials: cmr"))

    def test_crates_with_trials(self):
        self.assertEqual(crates_with_trials(self.clone.top), ["high"])
        self.assertLess(set(crates_with_trials()), {it.name for it in (TOP / "crates").iterdir()})


if __name__ == "__main__":
    unittest.main()
