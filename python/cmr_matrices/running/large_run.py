"""A run of `cmr-large`, which decides total unimodularity of matrices that are too large for `cmr`."""

from __future__ import annotations

from collections.abc import Sequence
from pathlib import Path
from typing import Literal

from ..errors import ProgramMissing
from .clock import Clock
from .other_names import other_name
from .program import Ran, answered
from .single_run import single_run

__all__ = ["LINES", "find_large", "large_of", "run_large"]

LINES = "lines"
"""The name of the file that gets the violator of a no, or the open part."""


def large_of(program: Path) -> Path | None:
    """The program `cmr-large` that belongs to a program `cmr`, or None if there is none."""
    return other_name(program, "-large")


def find_large(program: Path) -> Path:
    """The program `cmr-large` that belongs to a program `cmr`. Raises `ProgramMissing` if there is none."""
    found = large_of(program)
    if found is None:
        raise ProgramMissing([f"{program}-large"], "cmr-large")
    return found


def run_large(large: Path, text: bytes, form: Literal["dense", "sparse"], budget: Sequence[str], clock: Clock) -> Ran:
    """What `cmr-large tu` answers about a text, with the words of a budget. Raises what `run` raises."""
    return answered(single_run(large, ("tu", "-i", form, *budget, "-E", LINES), text, {}, (LINES,), clock), (LINES,))
