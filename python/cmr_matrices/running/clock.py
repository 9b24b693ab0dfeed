"""The time that is left of a limit, over several runs of the program: by a clock, or of the processors."""

from __future__ import annotations

import os
import time
from math import inf
from pathlib import Path
from typing import Any

from ..errors import BadInput, TimeLimitReached

__all__ = ["KEPT", "Clock", "ProcessorClock", "TimeLimit", "processor_seconds"]

# The seconds for which all systems can wait at once. Some cannot wait much longer.
_LONGEST = 2_000_000

# A run that gets a smaller part of a processor than 1 in this number is ended as well, for example a run that only waits.
_WAITS = 50


class Clock:
    """The seconds that are left of a limit, counted from when the clock is made."""

    counts_kept = True
    """Whether it counts the time of a process that is kept for many runs. If not, each run has a process of its own."""
    moment = 0.0
    """The least seconds after which it is asked again what is left."""

    def __init__(self, limit: float | None) -> None:
        self.limit = None if limit is None else _seconds(limit)
        self._start = time.monotonic()

    @classmethod
    def of(cls, limit: TimeLimit) -> Clock:
        """The clock of a limit that begins now, or the clock that is given. Raises `BadInput` if the limit is not a number in its range."""
        return limit if isinstance(limit, Clock) else cls(limit)

    def left(self, process: int | None = None) -> float | None:
        """The seconds that are left, or None if there is no limit. Raises `TimeLimitReached` if none are left.

        `process` is the number of a program that runs now, for a clock that counts its processor time.
        """
        if self.limit is None:
            return None
        seconds = self._left(self.limit, process)
        if seconds <= 0:
            raise TimeLimitReached(self.limit)
        return seconds

    def _left(self, limit: float, _process: int | None) -> float:
        return limit - (time.monotonic() - self._start)


class ProcessorClock(Clock):
    """The processor seconds that are left of a limit, for this process and the programs that it runs.

    So other work of the machine ends no run. If the system does not tell the processor time of a program, the clock counts all its time.
    There may also be a moment of `time.monotonic` at which it ends in any case.
    """

    moment = 0.02

    def __init__(self, limit: float | None, end: float = inf) -> None:
        super().__init__(limit)
        self._end = end
        self._used = processor_seconds()
        self.counts_kept = _used_by(os.getpid()) is not None

    def _left(self, limit: float, process: int | None) -> float:
        used = processor_seconds() - self._used
        until_end = self._end - time.monotonic()
        if process is not None:
            running = _used_by(process)
            if running is None:
                return min(super()._left(limit, process), until_end)
            used += running
        return min(limit - used, super()._left(_WAITS * limit, process), until_end)


TimeLimit = float | Clock | None
"""A limit in seconds, or a clock that is already running."""


KEPT: set[int] = set()
"""The numbers of the programs that this process keeps for many runs."""


def processor_seconds() -> float:
    """The processor time of this process, of all programs that it has run to their ends, and of those that it keeps."""
    used = os.times()
    kept = sum(_used_by(process) or 0.0 for process in tuple(KEPT))
    return used.user + used.system + used.children_user + used.children_system + kept


def _used_by(process: int) -> float | None:
    """The processor time of a running program. Linux tells it, other systems do not."""
    try:
        told = Path(f"/proc/{process}/stat").read_text("utf-8", "replace")
    except OSError:
        return None
    # The name of the program is in parentheses, and may have any characters.
    fields = told.rpartition(")")[2].split()
    return (int(fields[11]) + int(fields[12])) / os.sysconf("SC_CLK_TCK")


def _seconds(limit: Any) -> float:
    try:
        seconds = None if isinstance(limit, (str, bytes, bool)) else float(limit)
    except (TypeError, ValueError):
        seconds = None
    if seconds is None or not 0 <= seconds <= _LONGEST:
        raise BadInput(
            f"time_limit is a number of seconds from 0 to {_LONGEST}, or None for no limit, and here it is {limit!r}"
        )
    return seconds
