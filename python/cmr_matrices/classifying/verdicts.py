"""Verdicts: of a run of the program, at the least cost, and of what a run has printed."""

from __future__ import annotations

import os
import select
import subprocess
import time
from collections.abc import Sequence
from functools import cache

from ..errors import BadText, CmrError, ProgramFault, TimeLimitReached
from ..running.batch.process import Ended
from ..running.processes import whole_run
from ..running.program import NO, UNDECIDED, YES, fault_of

__all__ = ["ask", "fault_words", "verdict_of"]

_VERDICTS = {YES: "yes", NO: "no", UNDECIDED: "undecided"}


def ask(program: str, words: Sequence[str], text: int, said: str, time_limit: float | None = None) -> str:
    """The verdict of a run on a held text. Raises what `run` of the package raises.

    Whatever ends the call also ends the program.
    """
    os.lseek(text, 0, os.SEEK_SET)
    with whole_run([program, *words], text, is_brief=True) as process:
        printed = _printed(process, time_limit)
    return verdict_of(process.returncode, printed, said)


def _printed(process: subprocess.Popen[bytes], time_limit: float | None) -> bytes:
    """The beginning of what a run prints until its end. Raises `TimeLimitReached` if it does not end in time."""
    assert process.stdout
    reading = process.stdout.fileno()
    deadline = None if time_limit is None else time.monotonic() + time_limit
    front = b""
    while True:
        if deadline is not None and not select.select([reading], [], [], max(deadline - time.monotonic(), 0))[0]:
            raise TimeLimitReached(time_limit or 0)
        piece = os.read(reading, 65536)
        if not piece:
            return front
        front = (front + piece)[:4096]


def verdict_of(status: int, printed: bytes, said: str) -> str:
    """The verdict of a run with a status that has printed this first. Raises the fault of a status that is no answer."""
    verdict = _VERDICTS.get(status)
    if verdict is not None and printed.startswith(_line(said, verdict)):
        return verdict
    line = printed[:4096].split(b"\n", 1)[0].decode("utf-8", "surrogateescape")
    if verdict is None:
        raise fault_of(status, line)
    if line != f"{said}: {verdict}":
        raise ProgramFault(status, f"the program is not cmr: its first line is {line!r}")
    return verdict


@cache
def _line(said: str, verdict: str) -> bytes:
    """The line of a verdict, which is asked for again and again."""
    return f"{said}: {verdict}\n".encode()


def fault_words(fault: CmrError) -> tuple[str, int | None]:
    """The kind of a fault, and its byte if it has one."""
    if isinstance(fault, BadText):
        return fault.kind, fault.byte
    return "ProgramFault" if isinstance(fault, Ended) else type(fault).__name__, None
