"""A run of the program for a verdict: its statuses, its output, its end, and what it leaves. Shell scripts replace the program."""

from __future__ import annotations

import os
import signal
import tempfile
import unittest
from collections.abc import Iterator
from contextlib import contextmanager
from functools import partial
from pathlib import Path
from types import FrameType

from cmr_matrices import (
    BadCommandLine,
    BadText,
    CannotRead,
    CannotWrite,
    CmrError,
    OutOfMemory,
    ProgramFault,
    TimeLimitReached,
)
from cmr_matrices.classifying.verdicts import ask
from cmr_matrices.running.held_texts import held_text
from tests.support import is_gone, waits_until

PIPE = 2**16
"""The bytes for which a pipe has room."""


class Interrupt(Exception):
    """What a signal raises."""


class Asked(unittest.TestCase):
    def setUp(self) -> None:
        folder = tempfile.TemporaryDirectory()
        self.addCleanup(folder.cleanup)
        self.folder = Path(folder.name)

    def program(self, script: str) -> str:
        path = self.folder / "cmr"
        path.write_text(f"#!/bin/sh\n{script}\n", encoding="ascii")
        path.chmod(0o755)
        return str(path)

    def ways(self) -> Iterator[tuple[int, float | None]]:
        """A held text with no limit of time and with one."""
        with held_text(b"1 1 1\n") as text:
            yield text, None
            yield text, 60.0


class Verdicts(Asked):
    def test_the_statuses_that_are_answers(self) -> None:
        for status, verdict in ((0, "yes"), (1, "no"), (6, "undecided")):
            program = self.program(f'echo "$1: {verdict}"; echo more; exit {status}')
            for text, limit in self.ways():
                self.assertEqual(ask(program, ["camion"], text, "camion", limit), verdict)

    def test_the_text_is_read_anew_by_each_run(self) -> None:
        program = self.program('test "$(cat)" = "1 1 1" && echo "camion: yes"')
        for text, limit in self.ways():
            self.assertEqual([ask(program, [], text, "camion", limit) for _ in range(3)], ["yes"] * 3)

    def test_more_than_a_pipe_has_room_for(self) -> None:
        for size in (PIPE - 12, PIPE - 11, PIPE - 10, 10 * PIPE):
            program = self.program(f'echo "camion: no"; head -c {size} /dev/zero && exit 1')
            for text, limit in self.ways():
                self.assertEqual(ask(program, [], text, "camion", limit), "no", size)

    def test_a_first_line_that_is_no_answer(self) -> None:
        for printed in ("", "network: yes", "camion: no", "camion: yes "):
            program = self.program(f"echo '{printed}'")
            for text, limit in self.ways():
                with self.assertRaises(ProgramFault) as raised:
                    ask(program, [], text, "camion", limit)
                self.assertIn(f"its first line is {printed!r}", str(raised.exception))


class Faults(Asked):
    def faults(self, program: str) -> list[CmrError]:
        found = []
        for text, limit in self.ways():
            with self.assertRaises(CmrError) as raised:
                ask(program, [], text, "camion", limit)
            found.append(raised.exception)
        return found

    def test_the_statuses_that_are_none(self) -> None:
        kinds: list[tuple[int, str, type[CmrError]]] = [
            (2, "cmr: bad command line", BadCommandLine),
            (3, "cmr: <stdin>: BadEntry at byte 4", BadText),
            (4, "cmr: cannot read <stdin>", CannotRead),
            (4, "cmr: cannot write <stdout>", CannotWrite),
            (5, "cmr: out of memory", OutOfMemory),
            (7, "camion: yes", ProgramFault),
            (99, "", ProgramFault),
        ]
        for status, line, kind in kinds:
            found = self.faults(self.program(f"echo '{line}' >&2; exit {status}"))
            self.assertEqual([(type(fault), fault.args) for fault in found], [(kind, found[0].args)] * 2)

    def test_the_byte_of_a_fault(self) -> None:
        for fault in self.faults(self.program("echo 'cmr: <stdin>: BadEntry at byte 4' >&2; exit 3")):
            assert isinstance(fault, BadText)
            self.assertEqual((fault.kind, fault.byte), ("BadEntry", 4))

    def test_a_run_that_a_signal_ends(self) -> None:
        for fault in self.faults(self.program('echo "camion: yes"; kill -9 $$')):
            assert isinstance(fault, ProgramFault)
            self.assertEqual(fault.status, -signal.SIGKILL)

    def test_a_program_that_is_not_there(self) -> None:
        for text, limit in self.ways():
            with self.assertRaises(FileNotFoundError):
                ask("/nowhere/cmr", [], text, "camion", limit)


class Ended(Asked):
    @contextmanager
    def a_long_run(self) -> Iterator[str]:
        """A program that goes on, which is to be gone at the end."""
        number = self.folder / "number"
        yield self.program(f"echo $$ > {number}; exec sleep 100")
        waits_until(partial(is_gone, int(number.read_text(encoding="ascii"))), "the end of the program")
        number.unlink()

    def test_by_a_limit_of_time(self) -> None:
        with self.a_long_run() as program, held_text(b"") as text, self.assertRaises(TimeLimitReached):
            ask(program, [], text, "camion", 0.5)

    def test_by_what_ends_the_call(self) -> None:
        def interrupt(_number: int, _frame: FrameType | None) -> None:
            raise Interrupt

        before = signal.signal(signal.SIGALRM, interrupt)
        self.addCleanup(signal.signal, signal.SIGALRM, before)
        for text, limit in self.ways():
            with self.a_long_run() as program, self.assertRaises(Interrupt):
                signal.setitimer(signal.ITIMER_REAL, 0.5)
                ask(program, [], text, "camion", limit)

    def test_no_file_is_left_open(self) -> None:
        before = len(os.listdir("/dev/fd"))
        program = self.program('echo "camion: yes"')
        for text, limit in self.ways():
            ask(program, [], text, "camion", limit)
            with self.assertRaises(FileNotFoundError):
                ask("/nowhere/cmr", [], text, "camion", limit)
        self.assertEqual(len(os.listdir("/dev/fd")), before)

    def test_the_text_is_not_inherited(self) -> None:
        with held_text(b"") as text:
            self.assertFalse(os.get_inheritable(text))


if __name__ == "__main__":
    unittest.main()
