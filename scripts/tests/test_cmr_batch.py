"""Tests of the built program under its second name, `cmr-batch`."""

import os
import subprocess
import unittest

from building.clone import BUILT
from tests.support import TOP, ScriptTest, needs_program

DATA = TOP / "scripts" / "tests" / "data"
REQUESTS, REPLIES = ((DATA / name).read_bytes() for name in ("requests.txt", "replies.txt"))
# What `cmr` says without arguments.
NO_TOOL = (2, b"")


@needs_program
class NamesTest(ScriptTest):
    def ran(self, name, *words):
        """A run on the requests: its status and its output."""
        run = subprocess.run([name, *words], input=REQUESTS, capture_output=True, cwd=self.folder, check=False)
        return run.returncode, run.stdout

    def link(self, name):
        (self.folder / name).symlink_to(BUILT)
        return self.folder / name

    def test_the_name_at_the_top(self):
        self.assertEqual(os.readlink(TOP / "cmr-batch"), str(BUILT.relative_to(TOP)))
        self.assertEqual(self.ran(TOP / "cmr-batch"), (0, REPLIES))

    def test_names_that_converse(self):
        for name in ("cmr-batch", "my-batch", "-batch"):
            self.assertEqual(self.ran(self.link(name)), (0, REPLIES), name)
            self.assertEqual(self.ran(f"./{name}"), (0, REPLIES), name)

    def test_names_that_run_once(self):
        self.assertEqual(self.ran(BUILT), NO_TOOL)
        for name in ("cmr", "batch", "cmr-batch-2", "cmr-Batch"):
            self.assertEqual(self.ran(self.link(name)), NO_TOOL, name)

    def test_a_folder_with_that_ending(self):
        (self.folder / "cmr-batch").mkdir()
        self.assertEqual(self.ran(self.link("cmr-batch/cmr")), NO_TOOL)

    def test_the_name_is_the_first_argument_and_not_the_file(self):
        command = {"input": REQUESTS, "capture_output": True, "check": False}
        self.assertEqual(subprocess.run(["-batch"], executable=BUILT, **command).stdout, REPLIES)
        self.assertEqual(subprocess.run(["cmr"], executable=TOP / "cmr-batch", **command).returncode, 2)


if __name__ == "__main__":
    unittest.main()
