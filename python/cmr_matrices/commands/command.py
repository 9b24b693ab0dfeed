"""How the commands read, write and end.

Texts are UTF-8. A name in another encoding keeps its bytes.
"""

from __future__ import annotations

import argparse
import os
import re
import shutil
import sys
import warnings
from collections.abc import Callable, Iterator
from contextlib import contextmanager
from pathlib import Path
from typing import TypeVar

from ..errors import (
    BadEntry,
    BadInput,
    CannotRead,
    CannotWrite,
    CmrError,
    CommandMissing,
    LibraryMissing,
    OutOfMemory,
    Unreadable,
)
from ..explained.arguments import RANGES
from ..version import __version__

__all__ = [
    "BAD_FILE",
    "BAD_TEXT",
    "BAD_WORDS",
    "NO_MEMORY",
    "NO_PROGRAM",
    "command_parser",
    "end",
    "integer_between",
    "named_faults",
    "numbers_of",
    "read_as",
    "read_text",
    "status_of",
    "words_of",
    "write_text",
    "write_whole",
]

BAD_WORDS, BAD_TEXT, BAD_FILE, NO_MEMORY, NO_PROGRAM = 2, 3, 4, 5, 70
"""The statuses of runs without an answer. The first four are those of cmr, and the last one is that of `./cmr`."""

_Value = TypeVar("_Value")

_SAID: set[str] = set()


def command_parser(description: str | None) -> argparse.ArgumentParser:
    """The parser of a command that its description explains, with `--help` and `--version`. A warning of the command is one line."""
    warnings.showwarning = _say_warning
    parser = argparse.ArgumentParser(
        description=description, formatter_class=argparse.RawDescriptionHelpFormatter
    )
    parser.add_argument("--version", action="version", version=f"%(prog)s {__version__}")
    return parser


def _say_warning(message: Warning | str, *_: object, **__: object) -> None:
    """Prints a warning, once: a library that a command loads may make Python forget that it was given."""
    if str(message) not in _SAID:
        _SAID.add(str(message))
        print(f"{Path(sys.argv[0]).name}: {message}", file=sys.stderr)


def integer_between(least: int, greatest: int) -> Callable[[str], int]:
    """The type of an option whose values are the integers from `least` to `greatest`."""

    def taken(text: str) -> int:
        if not re.fullmatch("[0-9]{1,9}", text) or not least <= int(text) <= greatest:
            raise argparse.ArgumentTypeError(f"{text} is no number from {least} to {greatest}")
        return int(text)

    return taken


def numbers_of(option: str) -> Callable[[str], int]:
    """The type of an option that is passed on to the same option of `cmr`."""
    return integer_between(*RANGES[option])


def end(work: Callable[[], None]) -> int:
    """Does the work and gives the exit status: 1, with one line on standard error, if an input is refused."""
    name = Path(sys.argv[0]).name
    try:
        work()
        sys.stdout.flush()
    except BadInput as fault:
        print(f"{name}: {fault}", file=sys.stderr)
        return 1
    except BrokenPipeError:
        os.dup2(os.open(os.devnull, os.O_WRONLY), sys.stdout.fileno())
        return 1
    return 0


def status_of(fault: CmrError) -> int:
    """The status of a run that ends without an answer because of a fault."""
    if isinstance(fault, OutOfMemory):
        return NO_MEMORY
    if isinstance(fault, (Unreadable, CannotRead, CannotWrite)):
        return BAD_FILE
    if isinstance(fault, BadInput) and not isinstance(fault, (LibraryMissing, CommandMissing)):
        return BAD_TEXT
    return NO_PROGRAM


def words_of(fault: OSError) -> str:
    """What the system refused, in one line."""
    if isinstance(fault, shutil.Error) and isinstance(fault.args[0], list):
        _, path, why = fault.args[0][0]
        return f"{path}: {why}"
    path = fault.filename2 or fault.filename
    return f"{path}: {fault.strerror}" if path else str(fault.strerror or fault)


def read_text(name: str) -> str:
    """The text of a file, or of standard input for `-`."""
    try:
        data = sys.stdin.buffer.read() if name == "-" else Path(name).read_bytes()
    except OSError as fault:
        raise Unreadable(f"cannot read {name}: {fault.strerror}") from fault
    return data.decode("utf-8", "surrogateescape")


def read_as(name: str, reader: Callable[[str], _Value]) -> _Value:
    """What a reader makes of the text of a file. If it refuses the text, the error names the file."""
    text = read_text(name)
    with named_faults(name):
        return reader(text)


@contextmanager
def named_faults(name: str) -> Iterator[None]:
    """Names the file in each error about its text, with rows and columns counted from 1, as all commands count them."""
    try:
        yield
    except BadEntry as fault:
        raise BadInput(f"{name}: {fault.counted(1)}") from fault
    except BadInput as fault:
        raise BadInput(f"{name}: {fault}") from fault


def write_text(name: str, text: str) -> None:
    """Writes a text to a file, or to standard output for `-`."""
    data = text.encode("utf-8", "surrogateescape")
    try:
        if name == "-":
            sys.stdout.buffer.write(data)
            sys.stdout.buffer.flush()
        else:
            Path(name).write_bytes(data)
    except BrokenPipeError:
        raise
    except OSError as fault:
        raise Unreadable(f"cannot write {name}: {fault.strerror}") from fault


def write_whole(name: str, text: str) -> None:
    """Writes a text to a file so that a run which is ended leaves the file as it was. A device or a pipe is written at once."""
    path = Path(os.path.realpath(name))
    if path.exists() and not path.is_file():
        write_text(name, text)
        return
    beside = path.with_name(f".{path.name}.{os.getpid()}")
    try:
        beside.write_bytes(text.encode("utf-8", "surrogateescape"))
        os.replace(beside, path)
    except OSError as fault:
        raise Unreadable(f"cannot write {name}: {fault.strerror}") from fault
    finally:
        beside.unlink(missing_ok=True)
