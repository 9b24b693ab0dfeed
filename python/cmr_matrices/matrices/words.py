"""The words of a text one after another: counts, lines and lists of lines. docs/FORMATS.md has the formats."""

from __future__ import annotations

import re
from itertools import islice

from ..errors import BadInput
from ..given import text_given
from .lines import Line, LineSet

__all__ = ["LARGE_LIMIT", "LIMIT", "Words"]

LIMIT = 1000
"""The most rows, and the most columns, that a matrix may have."""
LARGE_LIMIT = 2**24
"""The same of a matrix for `cmr-large`."""

_WORD = re.compile(r"[^\t-\r ]+")
_COUNT = re.compile(r"\+?[0-9]+")
# The numbers of nearly all words. Other words begin with a sign or a zero, are above the limit, or are no numbers.
_PLAIN = {str(number): number for number in range(LIMIT + 1)}


class Words:
    """Reads the words of a text. Every fault is a `BadInput` that names the character, counted from 0."""

    def __init__(self, text: str) -> None:
        self._text = text_given("the words", text)
        self._words: list[str] = _WORD.findall(self._text)
        self._next = 0

    def word(self) -> str:
        """The next word."""
        if self._next == len(self._words):
            raise BadInput("the text ends too early")
        self._next += 1
        return self._words[self._next - 1]

    def count(self, limit: int) -> int:
        """The next word as a number from 0 to a limit."""
        return self._value(self.word(), limit)

    def shape(self, limit: int = LIMIT) -> tuple[int, int]:
        """The next two words as the sizes of a matrix."""
        return self.count(limit), self.count(limit)

    def row(self, shape: tuple[int, int]) -> Line:
        """The next word as the number of a row."""
        return Line("row", self._line(self.word(), shape[0]))

    def column(self, shape: tuple[int, int]) -> Line:
        """The next word as the number of a column."""
        return Line("column", self._line(self.word(), shape[1]))

    def line(self, shape: tuple[int, int]) -> Line:
        """The next word as a line such as `r3` or `c12`."""
        word = self.word()
        if word[0] == "r":
            return Line("row", self._line(word[1:], shape[0]))
        if word[0] == "c":
            return Line("column", self._line(word[1:], shape[1]))
        raise self.fault(f"{_short(word)} is no row or column")

    def line_set(self, shape: tuple[int, int]) -> LineSet:
        """Two counts, followed by increasing lists of rows and columns."""
        rows, columns = self.count(shape[0]), self.count(shape[1])
        return LineSet(self._rising(rows, shape[0]), self._rising(columns, shape[1]))

    def end(self, what: str) -> None:
        """Refuses a further word."""
        if self._next < len(self._words):
            raise BadInput(what)

    def fault(self, what: str) -> BadInput:
        """A fault at the last word."""
        last = next(islice(_WORD.finditer(self._text), self._next - 1, None))
        return BadInput(f"{what} (at character {last.start()})")

    def unknown(self, word: str, what: str) -> BadInput:
        """The fault that the last word is not what is due."""
        return self.fault(f"{_short(word)} is {what}")

    def _rising(self, count: int, limit: int) -> tuple[int, ...]:
        numbers: list[int] = []
        for _ in range(count):
            numbers.append(self._line(self.word(), limit))
            if len(numbers) > 1 and numbers[-2] >= numbers[-1]:
                raise self.fault("the numbers of a list do not rise")
        return tuple(numbers)

    def _line(self, word: str, limit: int) -> int:
        number = self._value(word, limit)
        if number == 0:
            raise self.fault("rows and columns begin with 1")
        return number - 1

    def _value(self, word: str, limit: int) -> int:
        plain = _PLAIN.get(word)
        if plain is not None and plain <= limit:
            return plain
        if not _COUNT.fullmatch(word):
            raise self.fault(f"{_short(word)} is no number")
        digits = word.lstrip("+0") or "0"
        if len(digits) > len(str(limit)) or int(digits) > limit:
            raise self.fault(f"{_short(word)} is above {limit}")
        return int(digits)


def _short(word: str) -> str:
    return word if len(word) <= 20 else f"{word[:20]}.."
