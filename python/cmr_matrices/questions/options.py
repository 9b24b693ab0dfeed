"""The options of the searches as keywords, with their ranges, and the arguments of the program for them."""

from __future__ import annotations

from ..explained.arguments import RANGES
from ..given import whole

__all__ = ["budget_words"]


def budget_words(lines: int | None, pivots: int, workers: int | None) -> list[str]:
    """The arguments for a budget. An option that is None has no arguments, so the program uses its default; neither have 0 pivots."""
    return [
        *_words("--lines", None if lines is None else _within("--lines", "lines", lines)),
        *_words("--pivots", _within("--pivots", "pivots", pivots) or None),
        *_words("-w", None if workers is None else _within("-w", "workers", workers)),
    ]


def _within(option: str, keyword: str, value: int) -> int:
    return whole(keyword, value, *RANGES[option])


def _words(option: str, value: int | None) -> list[str]:
    return [] if value is None else [option, str(value)]
