"""Why a file cannot be read or written, and whether one that is written is also read."""

from __future__ import annotations

import os
import stat
from collections.abc import Iterator
from difflib import get_close_matches
from pathlib import Path

from .arguments import OPTIONS
from .command_line import Order
from .guesses import guess

__all__ = ["before_the_run", "cannot_read", "cannot_write", "written_inputs"]


def written_inputs(order: Order) -> list[str]:
    """A line for each file that would be written and is also read, by its name or as standard input."""
    return [
        f"{name} is read and would be written over: `{option}` names the file that gets {OPTIONS[option].gets}"
        for option, name in order.outputs.items()
        if any(_is_input(name) if file == "-" else _is_same(name, file) for file in order.inputs.values())
    ]


def before_the_run(order: Order, *, at_terminal: bool) -> Iterator[str]:
    """What may be a mistake, apart from the arguments."""
    outputs = list(order.outputs.items())
    for place, (option, name) in enumerate(outputs):
        for other, same in outputs[:place]:
            if _is_same(name, same):
                yield f"`{other}` and `{option}` name one file, {name}, which keeps what is written last"
    if at_terminal and order.tool.reads_input and order.inputs["FILE"] == "-":
        yield f"no FILE is named, so {order.tool.name} reads the matrix from the terminal, up to Ctrl-D"
        for option, name in outputs:
            kind = guess(_front(name)).kind
            if kind in ("dense", "sparse"):
                yield f"`{option} {name}` names the file that gets {OPTIONS[option].gets}, and {name} is a matrix text"


def cannot_read(name: str) -> list[str]:
    """The cause, and names that are near."""
    if name == "-":
        return ["standard input cannot be read: it is closed, or a folder"]
    cause = _cause(name, "rb")
    near = get_close_matches(Path(name).name, _names(Path(name).parent), 1, 0.75) if cause.startswith("No such") else []
    hint = f": did you mean {Path(name).parent / near[0]}?" if near else ""
    return [f"{name or 'the empty name'}: {cause}{hint}"]


def cannot_write(name: str) -> list[str]:
    """The cause, as far as it shows once the run is over."""
    if name == "-":
        return ["standard output is closed or full"]
    path = Path(name)
    if path.is_dir():
        return [f"{name}: Is a directory"]
    if not path.parent.exists():
        return [f"{name}: there is no folder {path.parent}, and none is made"]
    if not path.parent.is_dir():
        return [f"{name}: {path.parent} is no folder"]
    if not os.access(path if path.exists() else path.parent, os.W_OK):
        return [f"{name}: Permission denied"]
    return [f"{name}: the disk is full, or what takes it is closed; do not use this file or those after it"]


def _cause(name: str, mode: str) -> str:
    try:
        with open(name, mode):
            return "it can be read now"
    except OSError as fault:
        return fault.strerror or str(fault)
    except ValueError as fault:
        return str(fault)


def _names(folder: Path) -> list[str]:
    try:
        return os.listdir(folder)
    except OSError:
        return []


def _front(name: str) -> bytes:
    try:
        return Path(name).read_bytes()
    except OSError:
        return b"?"


def _is_input(name: str) -> bool:
    """Whether standard input is a regular file of that name."""
    try:
        found = os.fstat(0)
        return stat.S_ISREG(found.st_mode) and os.path.samestat(found, os.stat(name))
    except OSError:
        return False


def _is_same(name: str, other: str) -> bool:
    """Whether two names are one regular file, be it there yet or not."""
    if os.path.exists(name) and not os.path.isfile(name):
        return False
    return os.path.realpath(name) == os.path.realpath(other) or (
        os.path.exists(name) and os.path.exists(other) and os.path.samefile(name, other)
    )
