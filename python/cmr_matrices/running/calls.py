"""A call of the package: the program is found, and the clock of its limit goes, before anything is converted for it."""

from __future__ import annotations

from dataclasses import dataclass
from pathlib import Path

from .clock import Clock, TimeLimit
from .program import StrPath, find_program

__all__ = ["Call"]


@dataclass(frozen=True)
class Call:
    """The program of a call, and the time that is left of it."""

    program: Path
    clock: Clock

    @classmethod
    def begin(cls, program: StrPath | None, time_limit: TimeLimit) -> Call:
        """Raises `BadInput` if the limit is not valid, and `ProgramMissing`."""
        clock = Clock.of(time_limit)
        return cls(find_program(program), clock)
