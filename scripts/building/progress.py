"""The progress of a long task: on a terminal one line that is updated, and otherwise only complete lines."""

from __future__ import annotations

import os
import sys
from typing import TextIO

CLEAR = "\r\x1b[K"


class Progress:
    """The progress line of a named task, on standard error. It is erased when the task ends."""

    def __init__(self, name: str, out: TextIO | None = None) -> None:
        self._name = name
        self._out = out or sys.stderr
        self.is_drawn = self._out.isatty()
        self._drawn = ""

    def show(self, text: str) -> None:
        """Updates the line on a terminal, truncated to its width. Otherwise it does nothing."""
        if self.is_drawn and text != self._drawn:
            columns = os.get_terminal_size(self._out.fileno()).columns or 80
            self._write(CLEAR + f"{self._name}: {text}"[: columns - 1])
            self._drawn = text

    def say(self, text: str) -> None:
        """Writes a permanent line."""
        self._write(f"{CLEAR if self._drawn else ''}{self._name}: {text}\n")
        self._drawn = ""

    def _write(self, text: str) -> None:
        self._out.write(text)
        self._out.flush()

    def __enter__(self) -> Progress:
        return self

    def __exit__(self, *_: object) -> None:
        if self._drawn:
            self._write(CLEAR)
            self._drawn = ""
