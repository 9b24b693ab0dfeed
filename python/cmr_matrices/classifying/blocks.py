"""Blocks of matrices: the program is asked about many of them at once, and each row is given as soon as it is found."""

from __future__ import annotations

import time
from collections import deque
from collections.abc import Iterator, Sequence

from ..errors import CmrError
from .askers import Asker, ClassQuestion, Said
from .streams import Item
from .work import Row, Settings, Talk, talk

__all__ = ["classify", "classify_block", "rows_at_once"]

_BYTES = 2**13
"""The bytes that the texts of a group have at most, if it has more than one. Each text is sent once for each class."""


def classify(item: Item, settings: Settings) -> Row:
    """The row of a matrix. It raises nothing: the row contains every fault."""
    return classify_block([item], settings)[0]


def classify_block(items: Sequence[Item], settings: Settings) -> list[Row]:
    """The rows of some matrices, in the order in which they are found."""
    return [row for rows in rows_at_once(items, settings) for row in rows]


def rows_at_once(items: Sequence[Item], settings: Settings) -> Iterator[list[Row]]:
    """The rows of some matrices, in lists of those that are found at once."""
    left = deque(items)
    while left:
        with settings.asker() as asker:
            yield from _rows(_group(left, asker.most), settings, asker)


def _group(left: deque[Item], most: int) -> list[Item]:
    """Takes the matrices about which the program is asked at once: some with short texts, or a model, or one with a long text."""
    group = [left.popleft()]
    size = group[0].size
    while left and len(group) < most and group[0].text is not None and left[0].text is not None:
        size += left[0].size
        if size > _BYTES:
            break
        group.append(left.popleft())
    return group


class _Open:
    """A talk with its last questions, and with what was said of them."""

    def __init__(self, item: Item, settings: Settings) -> None:
        self._talk: Talk = talk(item, settings)
        self._settings = settings
        self.questions: Sequence[ClassQuestion] = ()
        self.said: list[Said] = []
        self.is_over = False

    def go_on(self) -> list[Row]:
        """Lets the talk take what was said, up to its next questions. Returns its row if it has none."""
        try:
            self.questions = self._talk.send(self.said) if self.questions else next(self._talk)
            self.said = []
        except StopIteration as end:
            self.is_over = True
            return [end.value]
        return []

    def asks_itself(self) -> bool:
        """Whether the talk may ask the program itself before it has other questions."""
        settings = self._settings
        return settings.minors or (settings.asks_again and any(said.verdict == "undecided" for said in self.said))


def _rows(items: Sequence[Item], settings: Settings, asker: Asker) -> Iterator[list[Row]]:
    """The rows of matrices about which the program is asked at once, round by round."""
    talks = [_Open(item, settings) for item in items]
    later = talks
    while talks:
        # A talk that asks the program itself goes on when the questions of the others are answered.
        for one in later:
            if rows := one.go_on():
                yield rows
        talks, later = [one for one in talks if not one.is_over], []
        for answered in _answered(talks, asker):
            rows = []
            for one in answered:
                if one.asks_itself():
                    later.append(one)
                else:
                    rows += one.go_on()
            if rows:
                yield rows


def _answered(talks: Sequence[_Open], asker: Asker) -> Iterator[list[_Open]]:
    """Asks the last questions of talks, and gives those whose questions are all answered, as many as are so at once."""
    asked = deque((one, question) for one in talks for question in one.questions)
    while asked:
        begun = time.monotonic()
        try:
            for found in asker.said([question for _, question in asked]):
                yield _taken(asked, found)
                begun = time.monotonic()
        except (CmrError, OSError, MemoryError) as fault:
            yield _failed(asked, Said("", time.monotonic() - begun, {}, fault))


def _taken(asked: deque[tuple[_Open, ClassQuestion]], found: Sequence[Said]) -> list[_Open]:
    """Takes answers to the first questions, and gives the talks of which they are the last ones."""
    answered = []
    for said in found:
        one, _ = asked.popleft()
        one.said.append(said)
        if len(one.said) == len(one.questions):
            answered.append(one)
    return answered


def _failed(asked: deque[tuple[_Open, ClassQuestion]], said: Said) -> list[_Open]:
    """Takes the fault of the first question. Except after a limit of time, no more is asked in its talk."""
    one = asked[0][0]
    left = 1 if isinstance(said.fault, TimeoutError) else len(one.questions) - len(one.said)
    return _taken(asked, [said, *[said._replace(seconds=0.0)] * (left - 1)])
