"""What the tests share, and how they skip what the machine does not have."""

from __future__ import annotations

import importlib.util
import os
import shutil
import sys
import time
import unittest
import warnings
from collections.abc import Callable
from pathlib import Path
from typing import Any, TypeVar

from cmr_matrices import Answer, Matrix, ProgramMissing, UnprovedProgram, find_program
from cmr_matrices.matrices.sources import MatrixLike
from cmr_matrices.questions.options import budget_words
from cmr_matrices.questions.reading import Question
from cmr_matrices.questions.tries import Tries
from cmr_matrices.running.batch.kept import batch_of
from cmr_matrices.running.clock import Clock
from cmr_matrices.running.large_run import large_of

TOP = Path(__file__).resolve().parents[2]
EXAMPLES = TOP / "examples"

FANO = [[1, 1, 0, 1], [1, 0, 1, 1], [0, 1, 1, 1]]
K5 = [[1, 1, 1, 0, 0, 0], [1, 0, 0, 1, 1, 0], [0, 1, 0, 1, 0, 1], [0, 0, 1, 0, 1, 1]]
R10 = [[1, 1, 0, 0, 1], [1, 1, 1, 0, 0], [0, 1, 1, 1, 0], [0, 0, 1, 1, 1], [1, 0, 0, 1, 1]]
TRIANGLE = [[1, 1, 0], [0, 1, 1], [1, 0, 1]]

_TOLD: set[str] = set()

PATIENCE = 120.0
"""Seconds that a test waits for what takes a moment on a free machine."""

_Test = TypeVar("_Test", bound=Callable[..., Any])


def _is_built() -> bool:
    try:
        with warnings.catch_warnings():
            warnings.simplefilter("error", UnprovedProgram)
            find_program()
    except (ProgramMissing, UnprovedProgram):
        return False
    return True


def _needs(tool: str, found: bool) -> Callable[[_Test], _Test]:
    if not found and tool not in _TOLD:
        print(f"{tool} is not there: what needs it is passed over", file=sys.stderr)
        _TOLD.add(tool)
    return unittest.skipUnless(found, f"{tool} is not there")


def needs_module(name: str) -> Callable[[_Test], _Test]:
    """Skips a test, by name, if Python has no such module."""
    return _needs(name, importlib.util.find_spec(name) is not None)


def needs_command(name: str) -> Callable[[_Test], _Test]:
    """Skips a test, by name, if the system has no such command."""
    return _needs(name, shutil.which(name) is not None)


def waits_until(happened: Callable[[], bool], what: str) -> None:
    """Waits until something has happened, and fails if it does not happen."""
    end = time.monotonic() + PATIENCE
    while not happened():
        if time.monotonic() > end:
            raise AssertionError(f"{what} takes longer than {PATIENCE:g} seconds")
        time.sleep(0.01)


def is_gone(process: int) -> bool:
    """Whether there is no process with this number."""
    try:
        os.kill(process, 0)
    except ProcessLookupError:
        return True
    return False


def question(property_name: str, lines: int | None, pivots: int) -> Question:
    """A question with its tree, and of regularity with the signed matrix and the chain."""
    tool = {"totally unimodular": "tu"}.get(property_name, property_name)
    files = {} if tool == "balanced" else {"-D": "tree"}
    files |= {"-M": "signed", "-C": "chain"} if tool == "regular" else {}
    return Question(property_name, (tool, *budget_words(lines, pivots, None)), files)


def asked_once(property_name: str, matrix: MatrixLike, *, lines: int | None = None, pivots: int = 0) -> Answer:
    """What one run of the program says, without parts and other orders."""
    return question(property_name, lines, pivots).ask(Matrix.of(matrix), None, None)


def tried(property_name: str, matrix: Matrix, count: int, *, lines: int | None = None, pivots: int = 0) -> Answer:
    """The answer of other orders of the lines, if the program leaves the matrix undecided."""
    asked = question(property_name, lines, pivots)
    answer = asked.ask(matrix, None, None)
    return Tries(count, 0, Clock(None), None).decided(asked, matrix, answer) if answer.is_undecided else answer


needs_program = _needs("the program cmr", _is_built())


def _has_batch() -> bool:
    return _is_built() and batch_of(find_program()) is not None


needs_batch = _needs("the program cmr-batch", _has_batch())


def _has_large() -> bool:
    return _is_built() and large_of(find_program()) is not None


needs_large = _needs("the program cmr-large", _has_large())
