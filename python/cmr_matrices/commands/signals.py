"""How a signal ends the work of a command: as an exception, so that the work undoes what it began.

Python drops an exception that is raised while a value is destroyed, and a signal may arrive then. So long work asks from time to time
whether it is to end.
"""

from __future__ import annotations

import signal
import sys
from collections.abc import Iterator
from contextlib import contextmanager

__all__ = ["ENDING", "end_if_told", "end_on_signals", "ignore_signals", "signals_wait"]

ENDING = (signal.SIGHUP, signal.SIGINT, signal.SIGTERM)


class _Told:
    """The signal that asked the work to end, and whether the work continues until it asks."""

    number: int | None = None
    waits = False


def end_on_signals() -> None:
    """Has the signals that end a work leave it as `SystemExit`."""

    def leave(number: int, _: object) -> None:
        _Told.number = number
        if not _Told.waits:
            end_if_told()

    for it in ENDING:
        # An ignored signal remains ignored, so work under nohup continues.
        if signal.getsignal(it) is not signal.SIG_IGN:
            signal.signal(it, leave)


def end_if_told() -> None:
    """Ends the work if a signal has asked for its end."""
    if _Told.number is not None:
        sys.exit(128 + _Told.number)


@contextmanager
def signals_wait() -> Iterator[None]:
    """A signal ends the work inside only when it calls `end_if_told`, and at the latest at the end of the block."""
    _Told.waits = True
    try:
        yield
    finally:
        _Told.waits = False
    end_if_told()


def ignore_signals() -> None:
    """Ignores signals, so that all further work is completed."""
    for it in ENDING:
        signal.signal(it, signal.SIG_IGN)
