"""The proved program: where it is, and a run of it."""

from __future__ import annotations

import os
import re
import shutil
import warnings
from collections.abc import Mapping, Sequence
from dataclasses import dataclass
from functools import lru_cache
from pathlib import Path

from ..errors import (
    BadCommandLine,
    BadInput,
    BadText,
    CannotRead,
    CannotWrite,
    CmrError,
    OutOfMemory,
    ProgramFault,
    ProgramMissing,
    TextPlace,
    UnprovedProgram,
)
from ..explained.guesses import guess
from ..version import __version__
from .batch.frames import Reply, Request, can_be_sent
from .batch.kept import batch_of, replies
from .clock import Clock, TimeLimit
from .single_run import single_run

__all__ = [
    "NO",
    "REFUSED",
    "TEXT_FAULT",
    "UNDECIDED",
    "YES",
    "Ran",
    "StrPath",
    "answered",
    "fault_of",
    "find_program",
    "run",
    "unproved",
]

StrPath = str | os.PathLike[str]

YES, NO, UNDECIDED, REFUSED = 0, 1, 6, 7

# The `parent` of the root is the root. `parents` has no such entry.
_CLONE = Path(__file__).resolve().parent.parent.parent.parent
# The prefix below which pip, apt or scripts/install has installed the package.
_BESIDE = _CLONE.parent.parent / "bin" / "cmr"
# Whether `scripts/package --unproved` has packed this package with its program.
_PACKED_UNPROVED = __version__.endswith("+unproved")
TEXT_FAULT = re.compile(r"cmr: (?P<name>.*): (?:(?P<kind>[A-Za-z]+) at byte (?P<byte>[0-9]+)|TooLong)", re.DOTALL)
"""The line of the program on the fault of a text."""


@dataclass(frozen=True)
class Ran:
    """A run that has answered: its status, the lines that it printed, and the texts of the files that it wrote, by name."""

    status: int
    lines: tuple[str, ...]
    files: Mapping[str, str]

    def said(self, *words: str) -> str:
        """What the first line says after one of these words and a colon. Raises `ProgramFault` if the line has another form."""
        line = self.lines[0] if self.lines else ""
        word, colon, said = line.partition(": ")
        if not colon or word not in words:
            raise ProgramFault(self.status, f"the program is not cmr: its first line is {line!r}")
        return said

    def file(self, name: str) -> str:
        """The text of a file that is written for every answer. Raises `ProgramFault` if it was not written."""
        if name not in self.files:
            raise ProgramFault(self.status, f"the program is not cmr: it did not write the file {name}")
        return self.files[name]


def find_program(program: StrPath | None = None) -> Path:
    """The program: the given one, or what `CMR_PROGRAM` names, is installed with the package, is on the `PATH`, or is built in this clone.

    The last of these is the program that `./try-cmr` has compiled in this clone without proofs, with the warning `UnprovedProgram`.
    What `scripts/package --unproved` or `scripts/install --unproved` has installed gives this warning too.

    Raises `ProgramMissing` with the places that were searched. A path that is given, by the argument or `CMR_PROGRAM`, is the only place.
    """
    path = _found(program)
    if path == unproved():
        warnings.warn("nothing is proved of this run: ./try-cmr compiled the program, and ./cmr proves it", UnprovedProgram)
    return path


def unproved() -> Path:
    """The path of the program that was compiled without proofs: in this clone, or where it is installed with this package."""
    return _BESIDE if _PACKED_UNPROVED else _unproved_in(_CLONE)


@lru_cache(maxsize=4)
def _unproved_in(clone: Path) -> Path:
    return clone / "out" / "unproved" / "cmr"


def _found(program: StrPath | None) -> Path:
    named = program if program is not None else os.environ.get("CMR_PROGRAM")
    if named is not None:
        if not isinstance(named, (str, os.PathLike)):
            raise BadInput(f"program is the path of the program, and here it is {named!r}")
        path = _kept_path(os.fspath(named)) if os.path.isabs(named) else Path(named).absolute()
        if not _can_be_run(path):
            raise ProgramMissing([f"{'the argument' if program is not None else 'CMR_PROGRAM'} {named}"])
        return path
    is_clone = _is_clone(_CLONE)
    if not is_clone:
        for path in (unproved(), _BESIDE):
            if _can_be_run(path):
                return path
    found = shutil.which("cmr")
    if found is not None:
        return Path(found).absolute()
    built = _CLONE / "crates" / "cmr" / "out" / "cmr"
    for path in (built, unproved()):
        if _can_be_run(path):
            return path
    clone = f"the clone, {built} and {unproved()}" if is_clone else "the clone, but the package is not in a clone"
    raise ProgramMissing(["CMR_PROGRAM, which is not set", "PATH", clone])


@lru_cache(maxsize=4)
def _is_clone(folder: Path) -> bool:
    return (folder / "crates.txt").exists()


@lru_cache(maxsize=16)
def _kept_path(named: str) -> Path:
    """An absolute path. Each call asks for it."""
    return Path(named)


def _can_be_run(path: Path) -> bool:
    return os.access(path, os.X_OK) and not os.path.isdir(path)


def run(
    words: Sequence[str],
    *,
    text: str = "",
    inputs: Mapping[str, str] | None = None,
    outputs: Sequence[str] = (),
    program: StrPath | None = None,
    time_limit: TimeLimit = None,
) -> Ran:
    """A run of the program on standard input and on files.

    If there is a program `cmr-batch`, the process of it that this thread keeps replies. Otherwise the run has a process and a folder of its
    own, which are removed when the run ends. `inputs` are the texts of the files that the program reads, and `outputs` the names of the
    files that it may write; its arguments use the same names. `time_limit` is in seconds. What ends the call before its end also ends the
    process.

    Raises `ProgramMissing`, `TimeLimitReached` or, if the program does not answer, the `ProgramFault` of its status.
    """
    clock = Clock.of(time_limit)
    texts = {"-": text} | dict(inputs or {})
    # A call that has begun its clock has found its program.
    path = program if clock is time_limit and isinstance(program, Path) else find_program(program)
    reply = _reply(path, words, {name: _encoded(content) for name, content in texts.items()}, outputs, clock)
    return answered(reply, outputs, texts)


def answered(reply: Reply, outputs: Sequence[str], texts: Mapping[str, str] | None = None) -> Ran:
    """The answer in a reply. Raises the fault of a status that is no answer. `texts` are those that the program was given, by name."""
    if reply.status not in (YES, NO, UNDECIDED, REFUSED):
        raise fault_of(reply.status, reply.error.decode("utf-8", "surrogateescape").rstrip("\n"), texts)
    files = {name: reply.files[name].decode("ascii") for name in outputs if name in reply.files}
    return Ran(reply.status, tuple(reply.output.decode("ascii").splitlines()), files)


def _reply(
    program: Path, words: Sequence[str], files: Mapping[str, bytes], outputs: Sequence[str], clock: Clock
) -> Reply:
    batch = batch_of(program) if clock.counts_kept else None
    if batch is not None and can_be_sent(words, files):
        return next(replies(batch, [Request.of(words, files)], clock))
    inputs = {name: content for name, content in files.items() if name != "-"}
    return single_run(program, words, files["-"], inputs, outputs, clock)


def _encoded(text: str) -> bytes:
    return text.encode("utf-8", "surrogateescape")


def fault_of(status: int, line: str, texts: Mapping[str, str] | None = None) -> CmrError:
    """The exception of a status that is no answer. `texts` are those that were given to the program, by their names."""
    match status:
        case 2:
            return BadCommandLine(status, line)
        case 3:
            found = TEXT_FAULT.fullmatch(line)
            if found and found["kind"]:
                byte, text = int(found["byte"]), (texts or {}).get(found["name"])
                if text is None:
                    return BadText(status, line, found["kind"], byte)
                data = _encoded(text)
                return BadText(status, line, found["kind"], byte, TextPlace.at(data, byte), guess(data).what)
            return BadText(status, line, "TooLong", None)
        case 4:
            return (CannotWrite if line.startswith("cmr: cannot write") else CannotRead)(status, line)
        case 5:
            return OutOfMemory(status, line)
    return ProgramFault(status, line)
