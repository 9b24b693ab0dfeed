"""Processes of the program `cmr` and of `cmr-batch`: here all of them are started."""

from __future__ import annotations

import os
import subprocess
from collections.abc import Iterator, Sequence
from contextlib import contextmanager
from functools import cache

from ..errors import ProgramFault, ProgramMissing

__all__ = ["started", "whole_run"]

# The status by which a shell says that a file is no program.
_NOT_RUN = 126


def started(
    command: Sequence[str], text: int | None = None, *, folder: str | None = None, is_brief: bool = False
) -> subprocess.Popen[bytes]:
    """A process of a program, which is the first word, with pipes for what it reads, prints and says.

    It reads a held text, if one is given, in place of a pipe. A brief run costs the least: one pipe has all that it prints and says, its
    environment is that of the first brief run, and the descriptors that other libraries leave open are not closed for it. Those of Python
    are never inherited. Raises `ProgramMissing`, or `ProgramFault` if the program cannot be run.
    """
    pipe = subprocess.PIPE
    try:
        return subprocess.Popen(
            command,
            stdin=pipe if text is None else text,
            stdout=pipe,
            stderr=subprocess.STDOUT if is_brief else pipe,
            cwd=folder,
            env=_environment() if is_brief else None,
            bufsize=0,
            close_fds=not is_brief,
        )
    except FileNotFoundError:
        raise ProgramMissing([command[0]]) from None
    except OSError as fault:
        raise ProgramFault(_NOT_RUN, f"{command[0]} cannot be run: {fault.strerror}") from fault


@contextmanager
def whole_run(
    command: Sequence[str], text: int, *, folder: str | None = None, is_brief: bool = False
) -> Iterator[subprocess.Popen[bytes]]:
    """A process that reads a held text, and has ended after the context. What ends the context before ends the process."""
    with started(command, text, folder=folder, is_brief=is_brief) as process:
        try:
            yield process
        except BaseException:
            process.kill()
            # So the system keeps nothing of it.
            process.wait()
            raise


@cache
def _environment() -> dict[bytes, bytes]:
    """The environment at the first brief run. Converting it to bytes for each would take a tenth of the time of a run."""
    return dict(os.environb)
