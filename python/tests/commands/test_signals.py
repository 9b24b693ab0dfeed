"""Tests of how a signal ends a task."""

from __future__ import annotations

import os
import signal
import subprocess
import sys
import unittest

from tests.support import TOP

BEGIN = """
import os, signal
from cmr_matrices.commands.signals import end_if_told, end_on_signals, ignore_signals, signals_wait

def tell():
    os.kill(os.getpid(), signal.SIGTERM)

class Value:
    def __del__(self):
        tell()

end_on_signals()
"""
TOLD = 128 + signal.SIGTERM


def hears_signals() -> None:
    """A shell lets its background jobs ignore the keyboard's signal, and their processes inherit that."""
    for it in (signal.SIGHUP, signal.SIGINT, signal.SIGTERM):
        signal.signal(it, signal.SIG_DFL)


class SignalsTest(unittest.TestCase):
    def ends(self, lines, status, said):
        run = subprocess.run(
            [sys.executable, "-c", BEGIN + lines],
            env={**os.environ, "PYTHONPATH": str(TOP / "python")},
            capture_output=True,
            text=True,
            check=False,
            preexec_fn=hears_signals,
        )
        self.assertEqual((run.returncode, run.stdout), (status, said), run.stderr)

    def test_it_ends_a_work(self) -> None:
        self.ends("tell()\nprint('on')", TOLD, "")

    def test_what_was_dropped_is_asked_for(self) -> None:
        self.ends("it = Value()\ndel it\nprint('on')\nend_if_told()\nprint('too far')", TOLD, "on\n")

    def test_it_waits(self) -> None:
        self.ends("with signals_wait():\n    tell()\n    print('on')\nprint('too far')", TOLD, "on\n")

    def test_it_ends_where_the_work_asks(self) -> None:
        self.ends("with signals_wait():\n    tell()\n    end_if_told()\n    print('too far')", TOLD, "")

    def test_a_fault_comes_first(self) -> None:
        lines = "try:\n    with signals_wait():\n        tell()\n        int('')\nexcept ValueError:\n    print('fault')\nend_if_told()"
        self.ends(lines, TOLD, "fault\n")

    def test_a_work_that_is_not_told_goes_on(self) -> None:
        self.ends("with signals_wait():\n    end_if_told()\nprint('on')", 0, "on\n")

    def test_it_is_ignored(self) -> None:
        self.ends("ignore_signals()\ntell()\nprint('on')", 0, "on\n")


if __name__ == "__main__":
    unittest.main()
