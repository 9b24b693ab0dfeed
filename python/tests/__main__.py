"""Runs all tests. In the folder python, `/usr/bin/python3 -m tests` does it with Debian's packages.

The closing line counts the tests that passed, and those that were passed over by what they need and is not there.
"""

from __future__ import annotations

import signal
import sys
import unittest
from collections import Counter
from pathlib import Path

PACKAGE = Path(__file__).resolve().parents[1]


def closing_line(result: unittest.TestResult) -> str:
    """How many tests there were, by how they ended."""
    failed = len(result.failures) + len(result.errors) + len(result.unexpectedSuccesses)
    missing = Counter(reason.removesuffix(" is not there") for _, reason in result.skipped)
    line = (
        f"{result.testsRun - len(result.skipped) - failed} passed, {failed} failed, {len(result.skipped)} passed over"
    )
    return line + (
        f": {', '.join(f'{count} for {name}' for name, count in sorted(missing.items()))}" if missing else ""
    )


def main() -> int:
    """Runs the tests, and gives the status: 0 if none failed."""
    # A shell lets what it runs in the background ignore an interrupt, and what is run by that ignores it too.
    signal.signal(signal.SIGINT, signal.default_int_handler)
    tests = unittest.defaultTestLoader.discover(str(PACKAGE / "tests"), top_level_dir=str(PACKAGE))
    result = unittest.TextTestRunner().run(tests)
    print(f"python: {closing_line(result)}", flush=True)
    return 0 if result.wasSuccessful() else 1


if __name__ == "__main__":
    sys.exit(main())
