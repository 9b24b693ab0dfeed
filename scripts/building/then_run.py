"""Runs the program in place of its build, for ./cmr and ./try-cmr, so that a signal reaches whichever of the two is running."""

from __future__ import annotations

import argparse
import os
import signal
import sys
from collections.abc import Sequence
from pathlib import Path
from typing import NoReturn

STATUS = 70
THEN_RUN = "--then-run"


def words_to_run(description: str | None) -> list[str] | None:
    """The arguments after --then-run, or None without it."""
    if sys.argv[1:2] == [THEN_RUN]:
        # These are arguments of the program.
        return sys.argv[2:]
    parser = argparse.ArgumentParser(
        usage=f"%(prog)s [-h] [{THEN_RUN} [WORD ..]]",
        description=description,
        epilog=f"With {THEN_RUN} it builds only if the program was not built from these sources, and then runs it with the arguments.",
        formatter_class=argparse.RawDescriptionHelpFormatter,
    )
    parser.parse_args()
    return None


def become(program: Path, words: Sequence[str]) -> NoReturn:
    """Replaces this process by the program, and resets the signals that Python has changed."""
    for it in (signal.SIGPIPE, signal.SIGXFSZ):
        signal.signal(it, signal.SIG_DFL)
    os.execv(program, [str(program), *words])
