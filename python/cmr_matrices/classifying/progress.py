"""How far a run is: a bar of tqdm on a terminal, and a line a minute elsewhere, both on standard error."""

from __future__ import annotations

import sys
import time
from collections.abc import Sequence
from typing import Any

from .streams import Source
from .work import Row

__all__ = ["Progress"]

_SECONDS = 60.0


class Progress:
    """Counts rows. If all inputs are files, it estimates the total from the bytes that are done."""

    def __init__(self, sources: Sequence[Source], parts: int) -> None:
        sizes = [source.size for source in sources]
        self._bytes = None if None in sizes else sum(size for size in sizes if size is not None) / parts
        self._done = self._before = self._found = 0
        self._begun = self._told = time.monotonic()
        self._bar = _bar()

    def skip(self, size: int) -> None:
        """A matrix that already has a row."""
        self._found += size
        self._before += 1

    def step(self, rows: Sequence[Row]) -> None:
        """Rows were written."""
        self._done += len(rows)
        self._found += sum([row.size for row in rows])
        if self._bar is not None:
            self._bar.total = self._total()
            self._bar.update(len(rows))
        elif time.monotonic() - self._told >= _SECONDS:
            self._told = time.monotonic()
            print(self._line(self._total()), file=sys.stderr, flush=True)

    def say(self, text: str) -> None:
        """Prints a line that stays, above the bar."""
        if self._bar is not None:
            self._bar.write(text, file=sys.stderr)
        else:
            print(text, file=sys.stderr, flush=True)

    def close(self) -> None:
        """Leaves the bar as it is."""
        if self._bar is not None:
            self._bar.close()

    def _total(self) -> int | None:
        """About how many rows this run will write."""
        if not self._bytes or not self._found:
            return None
        all_rows = (self._done + self._before) * max(self._bytes / self._found, 1.0)
        return max(round(all_rows) - self._before, self._done)

    def _line(self, total: int | None) -> str:
        rate = self._done / max(time.monotonic() - self._begun, 1e-9)
        left = "" if total is None else f", about {_clock((total - self._done) / rate)} left"
        return f"cmr-classify: {self._done} rows, {rate:.1f} a second{left}"


def _bar() -> Any:
    if not sys.stderr.isatty():
        return None
    try:
        from tqdm import tqdm  # pylint: disable=import-outside-toplevel
    except ImportError:
        return None
    tqdm.monitor_interval = 0
    return tqdm(unit=" matrices", file=sys.stderr, dynamic_ncols=True)


def _clock(seconds: float) -> str:
    minutes, rest = divmod(round(seconds), 60)
    hours, minutes = divmod(minutes, 60)
    return f"{hours}:{minutes:02d}:{rest:02d}"
