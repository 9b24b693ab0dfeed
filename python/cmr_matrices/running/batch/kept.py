"""The processes of `cmr-batch` that are kept: one for each thread, which is started at its first request and ended at the exit.

What ends a call before its last reply also ends the process: a limit of time, an interrupt, or its own death. A fork leaves it to the
process that started it. The next call starts another one.
"""

from __future__ import annotations

import atexit
import os
import threading
from collections.abc import Iterator, Sequence
from contextlib import closing
from pathlib import Path
from weakref import WeakSet

from ..clock import TimeLimit
from ..other_names import other_name
from .frames import Reply, Request
from .process import Ended, Process

__all__ = ["batch_of", "end_all", "replies", "replies_at_once"]

_Key = tuple[str, int, int]


class _Kept(threading.local):
    """The processes of this thread."""

    def __init__(self) -> None:
        self.processes: dict[_Key, Process] = {}


_KEPT = _Kept()
_ALL: WeakSet[Process] = WeakSet()


def batch_of(program: str | os.PathLike[str]) -> Path | None:
    """The path of `cmr-batch` that belongs to a program `cmr`, or None if there is none or if none is to be used.

    `CMR_BATCH` names it, or is empty if none is to be used.
    """
    named = os.environ.get("CMR_BATCH")
    if named is not None:
        return Path(named).absolute() if named else None
    return other_name(program, "-batch")


def replies(program: Path, requests: Sequence[Request], time_limit: TimeLimit = None) -> Iterator[Reply]:
    """The replies of the process of this thread to requests, in their order, each as soon as it comes.

    `time_limit` is in seconds, for each reply, or a clock for all. If the process dies, another one is asked for the replies that are
    left. Raises `TimeLimitReached`, `ProgramMissing`, or `ProgramFault` if the process dies again before the same reply.
    """
    for found in replies_at_once(program, requests, time_limit, 1):
        yield from found


def replies_at_once(
    program: Path, requests: Sequence[Request], time_limit: TimeLimit = None, most: int = 2**31
) -> Iterator[list[Reply]]:
    """The same replies in lists of up to `most`: each list has those that have come. `time_limit` in seconds is for each of the lists."""
    count, died = 0, -1
    while count < len(requests):
        try:
            with closing(_process(program).replies(requests[count:], time_limit, most)) as coming:
                for found in coming:
                    count += len(found)
                    yield found
        except Ended:
            if died == count:
                raise
            died = count


def _process(program: Path) -> Process:
    """The process of this thread that can be asked. A program that was replaced has another process."""
    status = os.stat(program)
    key = str(program), status.st_ino, status.st_mtime_ns
    process = _KEPT.processes.get(key)
    if process is None or not process.is_free:
        process = Process(program)
        _KEPT.processes[key] = process
        _ALL.add(process)
    return process


@atexit.register
def end_all() -> None:
    """Ends all processes that this one has started, as at its exit. A process of `multiprocessing` ends without it."""
    for process in list(_ALL):
        process.end()
    _KEPT.processes.clear()


os.register_at_fork(after_in_child=end_all)
