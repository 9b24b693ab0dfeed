"""What the package raises: inputs that are refused, and ends of the program that are no answers.

Every exception here is a `CmrError`, and those with a builtin counterpart are that too: a refused input is a `ValueError`, a
program that is missing a `FileNotFoundError`, a time limit a `TimeoutError`.
"""

from __future__ import annotations

import sys
from collections.abc import Sequence
from dataclasses import dataclass

__all__ = [
    "BadCoefficients",
    "BadCommandLine",
    "BadEntry",
    "BadInput",
    "BadText",
    "CannotRead",
    "CannotWrite",
    "CmrError",
    "CommandMissing",
    "Family",
    "LibraryMissing",
    "OutOfMemory",
    "ProgramFault",
    "ProgramMissing",
    "Refused",
    "TextPlace",
    "TimeLimitReached",
    "Undecided",
    "UnprovedProgram",
    "Unreadable",
]


def shown(value: object) -> str:
    """A value that is refused, in one short line."""
    text = repr(value).partition("\n")[0]
    return text if len(text) <= 60 else f"{text[:60]}.. of type {type(value).__name__}"


class CmrError(Exception):
    """All that this package raises of its own."""


class BadInput(CmrError, ValueError):
    """An input that is refused: a matrix, a text, a name or a model. Its text is one line."""


class BadEntry(BadInput):
    """An entry that the matrix may not have, with its position counted from 0, and the names of its lines if they have names."""

    def __init__(
        self,
        row: int,
        column: int,
        entry: object,
        allowed: str = "-1, 0 and 1",
        row_name: str | None = None,
        column_name: str | None = None,
    ) -> None:
        super().__init__(row, column, entry, allowed, row_name, column_name)
        self.row = row
        self.column = column
        self.entry = entry
        self.allowed = allowed
        self.row_name = row_name
        self.column_name = column_name

    def named(self, rows: Sequence[object] | None, columns: Sequence[object] | None) -> BadEntry:
        """The same with the names of all lines, of which those of the rows, or of the columns, may be missing."""
        names = [
            self.row_name if rows is None or self.row >= len(rows) else str(rows[self.row]),
            self.column_name if columns is None or self.column >= len(columns) else str(columns[self.column]),
        ]
        return BadEntry(self.row, self.column, self.entry, self.allowed, *names)

    def __str__(self) -> str:
        return self.counted(0)

    def counted(self, first: int) -> str:
        """What it says with rows and columns counted from 0, as in Python, or from 1, as the commands count them."""
        place = f"row {self.row + first}, column {self.column + first}"
        if (self.row_name, self.column_name) != (None, None):
            names = (
                str(number) if name is None else name
                for number, name in ((self.row + first, self.row_name), (self.column + first, self.column_name))
            )
            place = "row {}, column {} ({})".format(*names, place)
        return f"{place}: the entry {self.entry!r} is none of {self.allowed}"


class LibraryMissing(BadInput, ImportError):
    """A library that a call needs is not there: its name for pip, and the package of Debian that has it, if there is one.

    The text names the package for the Python that runs: only `/usr/bin/python3` uses the packages of Debian.
    """

    def __init__(self, use: str, package: str, debian: str | None) -> None:
        super().__init__(use, package, debian)
        self.use = use
        self.package = package
        self.debian = debian

    def __str__(self) -> str:
        is_own = sys.executable in ("/usr/bin/python3", "")
        pip = f"`{'pip' if is_own else f'{sys.executable} -m pip'} install {self.package}`"
        debian = f"`apt-get install {self.debian}` on Debian, elsewhere " if is_own and self.debian else ""
        return f"{self.use} needs {self.package}: {debian}{pip}"


class CommandMissing(BadInput):
    """A command of the system that a call needs is not there: its name, and the package of Debian that has it. No package of pip has it."""

    def __init__(self, use: str, command: str, debian: str) -> None:
        super().__init__(use, command, debian)
        self.use = use
        self.command = command
        self.debian = debian

    def __str__(self) -> str:
        return f"{self.use} needs the command {self.command}: `apt-get install {self.debian}` on Debian; pip has no package of it"


class Unreadable(BadInput):
    """A file of a model cannot be read, or a file of a result cannot be written. The system says why."""


@dataclass(frozen=True)
class Family:
    """Rows whose names are the same up to digits and bracketed text.

    The numbers of these rows, of those with refused entries, and of the refused entries.
    """

    name: str
    rows: int
    refused: int
    entries: int


class BadCoefficients(BadInput):
    """Coefficients of a model other than -1, 0 and 1: the position of the first, and the families of all rows."""

    def __init__(self, place: str, families: tuple[Family, ...]) -> None:
        super().__init__(place, families)
        self.place = place
        self.families = families

    def __str__(self) -> str:
        others = sum(family.entries for family in self.families) - 1
        return f"{self.place}, nor are {others} others" if others else self.place


class Undecided(CmrError):
    """The truth value of an answer that is undecided."""


class Refused(CmrError):
    """There is no such sum, or a tree does not have two parts. `cause` is what the program says, and `hint` what to do instead."""

    def __init__(self, cause: str, hint: str | None = None) -> None:
        super().__init__(cause, hint)
        self.cause = cause
        self.hint = hint

    def __str__(self) -> str:
        return self.cause if self.hint is None else f"{self.cause}: {self.hint}"


class TimeLimitReached(CmrError, TimeoutError):
    """The program was ended, because it ran longer than its limit in seconds."""

    def __init__(self, seconds: float) -> None:
        super().__init__(seconds)
        self.seconds = seconds

    def __str__(self) -> str:
        return f"no answer within {self.seconds:g} seconds"


class ProgramMissing(CmrError, FileNotFoundError):
    """There is no program at any of the places that were looked at."""

    def __init__(self, places: Sequence[str], name: str = "cmr") -> None:
        super().__init__(tuple(places), name)
        self.places = tuple(places)
        self.name = name

    def __str__(self) -> str:
        looked = "; ".join(self.places)
        return (
            f"the program {self.name} is not there (looked at: {looked}). In a clone of the repository `./cmr` proves and builds it, "
            "and `./try-cmr` compiles it without proofs in two minutes; a package of scripts/package contains it"
        )


class UnprovedProgram(UserWarning):
    """The program that is run was compiled without proofs, so nothing is proved of its answers."""


class ProgramFault(CmrError):
    """The program ended without an answer: its status, negative for a signal, and its own line."""

    def __init__(self, status: int, line: str) -> None:
        super().__init__(status, line)
        self.status = status
        self.line = line

    def __str__(self) -> str:
        if self.line:
            return self.line
        return (
            f"the program was ended by signal {-self.status}"
            if self.status < 0
            else f"the program has status {self.status}"
        )


class BadCommandLine(ProgramFault, ValueError):
    """The program refuses its words (status 2): an option is out of its range."""


@dataclass(frozen=True)
class TextPlace:
    """A word of a text, empty at the end of the text, and its position: its line and its column, counted from 1."""

    line: int
    column: int
    word: str

    @classmethod
    def at(cls, text: bytes, byte: int) -> TextPlace:
        """The place of the word that begins at a byte."""
        front = text[:byte]
        start = front.rfind(b"\n") + 1
        word = text[byte : byte + 1000].split(maxsplit=1)[:1]
        return cls(
            front.count(b"\n") + 1,
            len(front[start:].decode("utf-8", "replace")) + 1,
            word[0].decode("utf-8", "replace") if word else "",
        )

    @property
    def shown(self) -> str:
        """The word, or what it begins with if it is long."""
        return self.word if len(self.word) <= 30 else f"{self.word[:30]}.."

    def __str__(self) -> str:
        return f"line {self.line}, column {self.column}: " + (f"`{self.shown}`" if self.word else "the text ends")


class BadText(ProgramFault, BadInput):
    """A text has a fault (status 3): its kind, and the byte before which the text is valid, or None if the text is too long.

    `place` is the line, the column and the word at this byte. `hint` says what the text seems to be, if the package has given this text
    to the program.
    """

    def __init__(
        self,
        status: int,
        line: str,
        kind: str,
        byte: int | None,
        place: TextPlace | None = None,
        hint: str | None = None,
    ) -> None:
        super().__init__(status, line)
        self.args = (status, line, kind, byte, place, hint)
        self.kind = kind
        self.byte = byte
        self.place = place
        self.hint = hint

    def __str__(self) -> str:
        said = self.line if self.place is None else f"{self.line} ({self.place})"
        return said if self.hint is None else f"{said}: it seems to be {self.hint}"


class CannotRead(ProgramFault, OSError):
    """The program cannot read a file or its standard input (status 4)."""


class CannotWrite(ProgramFault, OSError):
    """The program cannot write a file or its standard output (status 4)."""


class OutOfMemory(ProgramFault, MemoryError):
    """Memory was refused to the program (status 5)."""
