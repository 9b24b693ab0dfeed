"""Limits of runs: by a clock, and of the processor time of this process and its programs. Shell scripts replace the program."""

from __future__ import annotations

import os
import tempfile
import time
import unittest
from pathlib import Path
from unittest import mock

from cmr_matrices import TimeLimitReached
from cmr_matrices.running.clock import Clock, ProcessorClock, processor_seconds
from cmr_matrices.running.program import run
from tests.support import PATIENCE

BUSY = "while :; do :; done"


class Runs(unittest.TestCase):
    def setUp(self) -> None:
        folder = tempfile.TemporaryDirectory()
        self.addCleanup(folder.cleanup)
        self.path = Path(folder.name, "program")

    def printed(self, script: str, limit: Clock, text: str = "") -> tuple[str, ...]:
        """What a script prints in the time of a limit."""
        self.path.write_text(f"#!/bin/sh\n{script}\n", encoding="ascii")
        self.path.chmod(0o755)
        return run([], text=text, program=self.path, time_limit=limit).lines

    def test_a_run_ends_with_its_processor_time(self) -> None:
        before = processor_seconds()
        with self.assertRaises(TimeLimitReached) as reached:
            self.printed(BUSY, ProcessorClock(0.3))
        self.assertEqual(reached.exception.seconds, 0.3)
        self.assertTrue(0.2 < processor_seconds() - before < 2)

    def test_the_time_of_other_work_does_not_count(self) -> None:
        script = "sleep 1; echo done"
        self.assertEqual(self.printed(script, ProcessorClock(0.5)), ("done",))
        with self.assertRaises(TimeLimitReached):
            self.printed(script, Clock(0.5))

    def test_the_time_of_earlier_runs_counts(self) -> None:
        clock = ProcessorClock(0.3)
        with self.assertRaises(TimeLimitReached):
            self.printed(BUSY, ProcessorClock(0.6))
        with self.assertRaises(TimeLimitReached), mock.patch("subprocess.Popen", side_effect=AssertionError):
            self.printed("echo done", clock)

    def test_a_text_that_is_read_late_is_read_whole(self) -> None:
        script = "sleep 1; wc -c"
        printed = self.printed(script, ProcessorClock(0.5), "1" * 1_000_000)
        self.assertEqual([line.strip() for line in printed], ["1000000"])

    def test_a_run_that_only_waits_ends(self) -> None:
        began = time.monotonic()
        with self.assertRaises(TimeLimitReached):
            self.printed("exec sleep 1000", ProcessorClock(0.1))
        self.assertLess(time.monotonic() - began, PATIENCE)

    def test_a_system_that_does_not_tell_the_time_of_a_run(self) -> None:
        with mock.patch("cmr_matrices.running.clock._used_by", return_value=None), self.assertRaises(TimeLimitReached):
            self.printed("exec sleep 1000", ProcessorClock(0.3))


class Seconds(unittest.TestCase):
    def test_no_limit(self) -> None:
        for clock in (Clock(None), ProcessorClock(None)):
            self.assertIsNone(clock.left())
            self.assertIsNone(clock.left(os.getpid()))

    def test_the_time_of_this_process(self) -> None:
        clock = ProcessorClock(1000)
        end = processor_seconds() + 0.2
        while processor_seconds() < end:
            pass
        left = clock.left()
        assert left is not None
        self.assertTrue(990 < left <= 999.9)
        during = clock.left(os.getpid())
        assert during is not None
        self.assertLess(during, left)


if __name__ == "__main__":
    unittest.main()
