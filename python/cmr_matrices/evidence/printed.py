"""The lines that the program prints and that name rows and columns."""

from __future__ import annotations

import re
from collections.abc import Iterable

from ..matrices.lines import LineSet

__all__ = ["LINE_SET", "line_set_of", "line_sets", "numbers_of"]

_NUMBERS = "(?: [0-9]{1,9})*"

LINE_SET = re.compile(
    f"(?P<what>[a-z]+) rows(?P<rows>{_NUMBERS}) columns(?P<columns>{_NUMBERS})(?P<rest> sum -?[0-9]{{1,9}})?"
)
"""A line such as `violator rows 1 2 columns 1 3 sum 2`."""


def line_set_of(found: re.Match[str]) -> LineSet:
    """The rows and columns of such a line, counted from 0."""
    return LineSet(numbers_of(found["rows"]), numbers_of(found["columns"]))


def line_sets(lines: Iterable[str]) -> dict[str, LineSet]:
    """The rows and columns of all such lines, by their first word."""
    return {found["what"]: line_set_of(found) for line in lines if (found := LINE_SET.fullmatch(line))}


def numbers_of(text: str) -> tuple[int, ...]:
    """Numbers of a text, counted from 1 there, as they are counted in Python."""
    return tuple(int(word) - 1 for word in text.split())
