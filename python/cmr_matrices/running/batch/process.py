"""A process of `cmr-batch`: requests are sent to it, and its replies come in their order."""

from __future__ import annotations

import os
import select
import time
from collections.abc import Generator, Sequence
from contextlib import suppress
from pathlib import Path

from ...errors import ProgramFault
from ..clock import KEPT, Clock, TimeLimit
from ..processes import started
from .frames import Reply, Request
from .netstrings import NoNetstring, lacking, whole

__all__ = ["Ended", "Process"]

_PIECE = 65536
_NOTHING = memoryview(b"")
_SHORTEST, _LONGEST = 0.0001, 0.005
"""The seconds of a pause in which replies come together. Without it the process would wake this one for each of them."""


class Ended(ProgramFault):
    """The process has ended with requests that have no reply."""


class Process:
    """A process of a program. It belongs to the process that started it, and not to those that this one forks."""

    def __init__(self, program: Path) -> None:
        """Starts it. Raises `ProgramMissing`, or `ProgramFault` if it cannot be run."""
        self.program = program
        self._owner = os.getpid()
        self._process = started([str(program)])
        KEPT.add(self._process.pid)
        assert self._process.stdin and self._process.stdout
        self._input, self._output = self._process.stdin.fileno(), self._process.stdout.fileno()
        os.set_blocking(self._input, False)
        os.set_blocking(self._output, False)
        self._poll = select.poll()
        self._poll.register(self._output, select.POLLIN)
        self._left = _NOTHING
        """What is left to write."""
        self._pieces: list[bytes] = []
        """What was read and is no whole reply yet."""
        self._lacks = 1
        """The bytes that the first reply lacks at least."""
        self._pace = 0.0
        """The seconds for each of the replies that came last."""
        self._waiting = 0

    @property
    def is_free(self) -> bool:
        """Whether it can be asked: it was not ended, waits for no reply, and was not started before a fork. It may have died since."""
        return self._owner == os.getpid() and not self._waiting and self._process.returncode is None

    @property
    def number(self) -> int:
        """Its number in the system."""
        return self._process.pid

    def replies(
        self, requests: Sequence[Request], time_limit: TimeLimit, most: int = 1
    ) -> Generator[list[Reply], None, None]:
        """The replies to requests, in their order, as soon as they come, up to `most` at a time. All requests are sent at once.

        `time_limit` is in seconds, for each wait for replies, or a clock for all. Raises `TimeLimitReached`, `Ended`, or `ProgramFault` if
        a reply is none. These exceptions, and any that is raised before the last reply is taken, also end the process.
        """
        self._waiting = len(requests)
        try:
            self._left = memoryview(b"".join([request.frame for request in requests]))
            self._write()
            while self._waiting:
                texts = self._heard(time_limit)
                for at in range(0, len(texts), most):
                    found = [self._reply(text) for text in texts[at : at + most]]
                    self._waiting -= len(found)
                    yield found
        finally:
            if self._waiting:
                self.end()

    def _heard(self, time_limit: TimeLimit) -> list[bytes]:
        """The texts of the replies that have come, at least one of them."""
        clock, begun = Clock.of(time_limit), time.monotonic()
        while not (texts := self._taken()):
            self._move(clock)
        if len(texts) > self._waiting:
            raise self._fault(texts[self._waiting][:20])
        self._pace = (time.monotonic() - begun) / len(texts)
        return texts

    def _taken(self) -> list[bytes]:
        """The texts of the whole replies that were read, which are taken."""
        if self._lacks > 0:
            return []
        got = b"".join(self._pieces)
        try:
            texts, end = whole(got)
        except NoNetstring:
            raise self._fault(got[:20]) from None
        self._pieces = [got[end:]]
        self._lacks = lacking(self._pieces[0])
        return texts

    def _reply(self, text: bytes) -> Reply:
        try:
            return Reply.of(text)
        except ValueError:
            raise self._fault(text[:20]) from None

    def _fault(self, said: bytes) -> ProgramFault:
        return ProgramFault(0, f"{self.program} is not cmr-batch: it says {said!r}")

    def _move(self, clock: Clock) -> None:
        """Waits until something can be written or read, and writes or reads it."""
        if self._left:
            self._poll.register(self._input, select.POLLOUT)
        elif self._waiting > 1:
            # Half of the time that all replies may take.
            pause = self._pace * self._waiting / 2
            if pause > _SHORTEST:
                time.sleep(min(pause, _LONGEST))
        found = dict(self._poll.poll(_milliseconds(clock)))
        if self._left:
            self._poll.unregister(self._input)
        if self._input in found:
            self._write()
        if self._output in found:
            self._read()

    def _write(self) -> None:
        """Writes as much as the pipe takes. If the process has ended, its last replies can still be read."""
        try:
            self._left = self._left[os.write(self._input, self._left) :] or _NOTHING
        except BlockingIOError:
            pass
        except BrokenPipeError:
            self._left = _NOTHING

    def _read(self) -> None:
        piece = os.read(self._output, _PIECE)
        if not piece:
            raise self._ended()
        self._pieces.append(piece)
        self._lacks -= len(piece)

    def _ended(self) -> Ended:
        assert self._process.stderr
        line = self._process.stderr.read().decode("utf-8", "surrogateescape").rstrip("\n")
        return Ended(self._process.wait(), line or f"{self.program} has ended")

    def end(self) -> None:
        """Ends it, and closes its pipes. If it was started before a fork, it only closes the pipes of this process."""
        if self._owner == os.getpid():
            self._process.kill()
            self._process.wait()
        else:
            self._process.returncode = 0
        KEPT.discard(self._process.pid)
        for stream in (self._process.stdin, self._process.stdout, self._process.stderr):
            if stream:
                with suppress(OSError):
                    stream.close()

    def __del__(self) -> None:
        with suppress(AttributeError):
            self.end()


def _milliseconds(clock: Clock) -> float | None:
    """The time after which a clock is asked again, if nothing comes before."""
    left = clock.left()
    return None if left is None else 1000 * max(left, clock.moment)
