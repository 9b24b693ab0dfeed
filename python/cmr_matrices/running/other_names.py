"""The other names of the program `cmr`: links to it, under which it is `cmr-batch` or `cmr-large`."""

from __future__ import annotations

import os
from functools import lru_cache
from pathlib import Path

__all__ = ["other_name"]


def other_name(program: str | os.PathLike[str], ending: str) -> Path | None:
    """The path of a program under its name with an ending, such as `-batch`, or None if there is none.

    It is beside the program, or is the link at the top of a clone to the program that was built there.
    """
    beside, link = _places(os.fspath(program), ending)
    if os.access(beside, os.X_OK):
        return beside
    return link if link is not None and _is_same(link, program) else None


@lru_cache(maxsize=16)
def _places(path: str, ending: str) -> tuple[Path, Path | None]:
    """The places beside a program and at the top of its clone. They are asked for at each call."""
    program = Path(path)
    link = program.parents[3] / f"{program.name}{ending}" if len(program.parents) > 3 else None
    return Path(f"{path}{ending}"), link


def _is_same(link: Path, program: str | os.PathLike[str]) -> bool:
    try:
        return os.path.samefile(link, program)
    except OSError:
        return False
