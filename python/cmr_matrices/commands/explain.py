"""Runs `cmr WORDS..` with its own output and status, and if it is refused or undecided says more on standard error.

`--help` lists the tools, `TOOL --help` shows the usage of one, and `--version` the version of the package.

Words: which one is at fault, the usage of its tool, and ranges. Texts: line, column and word, and what the file seems to be.
Files: why they cannot be read or written. A run that would overwrite a file that it reads is refused (status 2).
"""

from __future__ import annotations

import os
import sys
import warnings
from collections.abc import Iterable, Iterator
from pathlib import Path

from ..errors import ProgramMissing, UnprovedProgram
from ..explained.advice import refused, undecided
from ..explained.arguments import TOOLS, Tool
from ..explained.command_line import Order, WordFault, asks_for_help, asks_for_version, read_words
from ..explained.faults import text_fault
from ..explained.files import before_the_run, cannot_read, cannot_write, written_inputs
from ..running.clock import Clock
from ..running.program import REFUSED, TEXT_FAULT, UNDECIDED, find_program, unproved
from ..running.single_run import single_run
from ..version import __version__
from .command import BAD_FILE, BAD_TEXT, BAD_WORDS, NO_MEMORY, NO_PROGRAM

__all__ = ["main"]


def _say(lines: Iterable[str]) -> None:
    for line in lines:
        print(f"explain: {line}", file=sys.stderr)


def _answered(words: list[str]) -> Iterator[str]:
    """The lines of an answer about the command itself, which runs no program."""
    tools = asks_for_help(words)
    if asks_for_version(words):
        yield f"cmr-explain {__version__}"
    elif tools is not None and len(tools) == 1:
        yield from _usage(tools[0])
    elif tools is not None:
        yield "usage: cmr-explain TOOL [WORD ..]"
        yield ""
        yield "Runs cmr with these words, and explains on standard error why a run is refused or undecided."
        yield "`cmr-explain TOOL --help` shows the words of a tool."
        yield ""
        yield from _tools()


def _usage(tool: Tool) -> Iterator[str]:
    yield f"usage: cmr {tool.name} {tool.usage}"
    if tool.other_usage:
        yield f"   or: cmr {tool.name} {tool.other_usage}"


def _tools() -> Iterator[str]:
    width = max(map(len, TOOLS))
    yield from (f"  {tool.name:{width}}  {tool.tells}" for tool in TOOLS.values())


def _run(words: list[str]) -> int:
    if answered := list(_answered(words)):
        print("\n".join(answered), flush=True)
        return 0
    order = read_words(words)
    data = b""
    if isinstance(order, Order):
        if over := written_inputs(order):
            _say([*over, "nothing was run"])
            return BAD_WORDS
        _say(before_the_run(order, at_terminal=sys.stdin is not None and sys.stdin.isatty()))
        if "-" in order.inputs.values() and sys.stdin is not None:
            data = sys.stdin.buffer.read()
    with warnings.catch_warnings():
        warnings.simplefilter("ignore", UnprovedProgram)
        program = find_program()
    if program == unproved():
        _say(["nothing is proved of this run; ./cmr proves and builds the program"])
    ran = single_run(program, words, data, {}, (), Clock(None))
    sys.stderr.buffer.write(ran.error)
    sys.stderr.flush()
    status = ran.status if ran.status >= 0 else 128 - ran.status
    try:
        sys.stdout.buffer.write(ran.output)
        sys.stdout.flush()
    except OSError as fault:
        _say([f"standard output cannot be written: {fault.strerror}"])
        os.dup2(os.open(os.devnull, os.O_WRONLY), sys.stdout.fileno())
        return BAD_FILE
    line = ran.error.decode("utf-8", "surrogateescape").rstrip("\n")
    _say(_explained(order, status, line, ran.output.decode("ascii", "replace").splitlines(), data))
    return status


def _explained(order: Order | WordFault, status: int, line: str, lines: list[str], data: bytes) -> Iterator[str]:
    if status == BAD_WORDS:
        yield from _of_words(order)
    elif status > 128:
        yield f"the program was ended by signal {status - 128}; use none of the files that it was to write"
    elif status == NO_MEMORY:
        yield "the system refused memory, and nothing was written: `ulimit -v` shows the limit"
    elif isinstance(order, WordFault):
        return
    elif status == BAD_TEXT and (found := TEXT_FAULT.fullmatch(line)):
        byte = int(found["byte"]) if found["byte"] else None
        texts = _texts(order, data) | {found["name"]: _text(found["name"], data)}
        yield from text_fault(order, found["name"], texts, found["kind"] or "TooLong", byte)
    elif status == BAD_FILE and line.startswith("cmr: cannot read "):
        yield from cannot_read(line.removeprefix("cmr: cannot read "))
    elif status == BAD_FILE and line.startswith("cmr: cannot write "):
        yield from cannot_write(line.removeprefix("cmr: cannot write "))
    elif status == UNDECIDED:
        yield from undecided(order, lines)
    elif status == REFUSED:
        yield from refused(order, lines[0] if lines else "", _texts(order, data))


def _of_words(order: Order | WordFault) -> Iterator[str]:
    if isinstance(order, WordFault):
        yield order.why
        if order.is_help:
            yield from _tools()
        elif order.tool is None:
            yield f"the tools are {', '.join(TOOLS)}"
    if order.tool is not None:
        yield from _usage(order.tool)


def _texts(order: Order, data: bytes) -> dict[str, bytes]:
    """The texts that a run has read, by name. `data` is standard input."""
    return {name: _text(name, data) for name in order.inputs.values()}


def _text(name: str, data: bytes) -> bytes:
    if name == "-":
        return data
    try:
        return Path(name).read_bytes()
    except OSError:
        return b""


def main() -> int:
    """Runs the program, and gives its status; 70 if there is no program."""
    try:
        return _run(sys.argv[1:])
    except ProgramMissing as fault:
        _say([str(fault)])
        return NO_PROGRAM
    except KeyboardInterrupt:
        return 130
