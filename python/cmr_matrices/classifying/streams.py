"""The sources of matrices: files and folders, streams of many texts, and models.

A text of either format states its own length, so a stream may contain many texts, one after another. They are found by counting words.
Only the program says which fault a text has. If the counts of a text are not valid, its end is unknown, and the rest is not read.
"""

from __future__ import annotations

import os
import re
import sys
from collections.abc import Iterable, Iterator
from contextlib import ExitStack
from dataclasses import dataclass
from itertools import islice
from pathlib import Path
from typing import BinaryIO, Literal, NamedTuple

from ..matrices.words import LARGE_LIMIT, LIMIT
from ..models.model_texts import FORMATS

__all__ = ["LARGE", "USUAL", "Format", "Item", "Limits", "Source", "items_of", "part_of", "sources_of", "texts_of"]

Format = Literal["dense", "sparse"]


class Limits(NamedTuple):
    """The most rows or columns of a matrix, of whose text the entries are kept, and the most bytes that a text may have.

    Of a longer text no more than one byte beyond is kept, by which the program sees it.
    """

    lines: int
    size: int


USUAL = Limits(LIMIT, 16 * 2**20)
"""The limits of `cmr`."""
LARGE = Limits(LARGE_LIMIT, 256 * 2**20)
"""The limits of `cmr-large`."""

_COUNT = re.compile(rb"\+?0*([0-9]{1,10})")
_WORD = re.compile(rb"[^\t-\r ]+")
_PIECE = 2**16
_WIDTH = 4
"""The bytes in which most entries are written, with the white space after them."""
_MODELS = frozenset(FORMATS)


@dataclass(frozen=True)
class Source:
    """A file with texts or a model, or standard input, which is `-`. `size` is the number of its bytes if it is a file."""

    name: str
    is_model: bool
    size: int | None


@dataclass(frozen=True)
class Item:
    """A matrix to be classified: the file and its number there, counted from 1, and its text, which begins at the byte `start`.

    A model has no text. If there is a `fault`, a kind and a message, the matrix could not be read.
    """

    file: str
    number: int
    text: bytes | None
    form: Format = "dense"
    start: int = 0
    size: int = 0
    fault: tuple[str, str] | None = None
    is_last: bool = False
    """Whether the end of the text is not known, so that what follows it is not read."""

    @property
    def name(self) -> str:
        """The matrix in messages."""
        return f"{self.file} {self.number}"


def sources_of(names: Iterable[str], leave_out: Iterable[str] = ()) -> list[Source]:
    """The files that are named, and those in folders that are named, in the order of their names and without hidden ones.

    A file is taken once, at its first place. Files and folders of `leave_out` are none of them.
    """
    found: dict[str, Source] = {}
    left_out = {os.path.realpath(name) for name in leave_out}
    for name in names:
        for file in [name] if name == "-" or not os.path.isdir(name) else _files_in(name, left_out):
            if file not in found:
                found[file] = _source(file)
    return list(found.values())


def items_of(sources: Iterable[Source], form: Format, limits: Limits = USUAL) -> Iterator[Item]:
    """The matrices of all sources in their order. A file that cannot be read is one item, with its fault."""
    for source in sources:
        if source.is_model:
            yield Item(source.name, 1, None, "sparse", size=source.size or 0)
            continue
        number = 0
        try:
            with ExitStack() as stack:
                stream = sys.stdin.buffer if source.name == "-" else stack.enter_context(open(source.name, "rb"))
                for number, (start, text, is_last) in enumerate(texts_of(stream, form, limits), 1):
                    yield Item(source.name, number, text, form, start, len(text), is_last=is_last)
        except OSError as fault:
            yield Item(source.name, number + 1, b"", form, fault=("CannotRead", fault.strerror or str(fault)))


def part_of(items: Iterable[Item], part: int, parts: int) -> Iterator[Item]:
    """Every matrix whose place among all is that of the part, counted from 1, so that each is in one part."""
    for place, item in enumerate(items):
        if place % parts == part - 1:
            yield item


def texts_of(stream: BinaryIO, form: Format, limits: Limits = USUAL) -> Iterator[tuple[int, bytes, bool]]:
    """The texts of a stream, each with the position of its first byte, and whether its end is unknown, so that it is the last one read."""
    words = _Words(stream, limits.size)
    head = 3 if form == "sparse" else 2
    while words.next() is not None:
        words.begin()
        start = words.start
        counts = _head(words, head)
        if counts is None:
            yield start, words.text(words.has_ended), not words.has_ended
            return
        rows, columns = counts[:2]
        if max(rows, columns) > limits.lines:
            yield start, words.text(False), False
            words.begin()
        entries = 3 * counts[2] if form == "sparse" else rows * columns
        is_short = not words.take(entries)
        if max(rows, columns) <= limits.lines:
            yield start, words.text(is_short), words.is_cut
        if words.is_cut:
            return


def _head(words: _Words, length: int) -> list[int] | None:
    """The counts with which a text begins, or None if they are not valid. The first word has been taken."""
    counts: list[int] = []
    while True:
        found = _COUNT.fullmatch(words.word)
        if found is None or int(found[1]) >= 2**31:
            return None
        counts.append(int(found[1]))
        if len(counts) == length:
            return counts
        if words.next() is None:
            return None


class _Words:
    """The words of a stream, and the bytes from the beginning of a text to the last word that was taken."""

    def __init__(self, stream: BinaryIO, limit: int) -> None:
        self._stream = stream
        self._limit = limit
        self._piece = b""
        """It ends at white space, or at the end of the stream."""
        self._base = 0
        self._rest = b""
        self._places: Iterator[re.Match[bytes]] = iter(())
        self._kept: list[bytes] = []
        self._kept_size = 0
        self._from = 0
        self.word = b""
        self.start = self.end = 0
        self.has_ended = False
        """Whether a word was asked for and there was none."""
        self.is_cut = False
        """Whether a word was longer than any text may be."""

    def next(self) -> bytes | None:
        """The next word, or None at the end."""
        while (found := next(self._places, None)) is None:
            if not self._read():
                self.has_ended = True
                return None
        self._stand_at(found)
        return self.word

    def take(self, count: int) -> bool:
        """Takes `count` words, and returns whether the stream has them, each of them whole."""
        if self._take_at_once(count):
            return True
        left = count
        while left and self.next() is not None and not self.is_cut:
            left -= 1
            last = None
            for last in islice(self._places, left):
                left -= 1
            if last is not None:
                self._stand_at(last)
        return not left

    def _take_at_once(self, count: int) -> bool:
        """Takes `count` words if the beginning of what was read has them, which is so for all short texts but those between two pieces."""
        at = self.end - self._base
        piece = self._piece[at : at + _WIDTH * count + _WIDTH]
        if len(piece) < 2 * count:
            return False
        words = piece.split(None, count)
        if len(words) <= count:
            return False
        end = at + len(piece[: len(piece) - len(words[count])].rstrip())
        self.start = self.end = self._base + end
        self._places = _WORD.finditer(self._piece, end)
        return True

    def begin(self) -> None:
        """Lets a text begin at the last word."""
        self._kept.clear()
        self._kept_size = 0
        self._from = self.start - self._base

    def text(self, to_the_end: bool) -> bytes:
        """The text up to the last word, or up to the end of the stream."""
        end = len(self._piece) if to_the_end else self.end - self._base
        return b"".join([*self._kept, self._piece[self._from : max(end, self._from)]])[: self._limit + 1]

    def _stand_at(self, found: re.Match[bytes]) -> None:
        self.start, self.end = self._base + found.start(), self._base + found.end()
        self.word = found[0]

    def _read(self) -> bool:
        """Takes the next piece, and says whether there was one."""
        pieces = [self._rest]
        size = len(self._rest)
        while True:
            read = self._stream.read1(_PIECE) if hasattr(self._stream, "read1") else self._stream.read(_PIECE)
            cut = _cut(read)
            pieces.append(read[:cut] if cut else read)
            size += len(read)
            self.is_cut = not cut and size > self._limit
            if cut or not read or self.is_cut:
                break
        piece = b"".join(pieces)
        if not piece:
            return False
        self._keep(self._piece[self._from :])
        self._base += len(self._piece)
        self._rest = read[cut:] if cut else b""
        self._piece, self._from = piece, 0
        self._places = _WORD.finditer(piece)
        return True

    def _keep(self, piece: bytes) -> None:
        if self._kept_size <= self._limit:
            self._kept.append(piece)
            self._kept_size += len(piece)


def _cut(read: bytes) -> int:
    """The position after the last white space of what was read, or 0 if there is none."""
    for place in range(len(read) - 1, -1, -1):
        if read[place] in b"\t\n\v\f\r ":
            return place + 1
    return 0


def _files_in(folder: str, left_out: set[str]) -> Iterator[str]:
    """The files in a folder, and the folders in it that cannot be read, which as files cannot be read either."""
    unread: list[OSError] = []
    for path, folders, files in os.walk(folder, onerror=unread.append):
        folders[:] = sorted(name for name in folders if not name.startswith(".") and _stays(path, name, left_out))
        for name in sorted(files):
            if not name.startswith(".") and _stays(path, name, left_out) and os.path.isfile(os.path.join(path, name)):
                yield os.path.join(path, name)
    yield from (os.fsdecode(fault.filename) for fault in unread)


def _stays(path: str, name: str, left_out: set[str]) -> bool:
    return os.path.realpath(os.path.join(path, name)) not in left_out


def _source(name: str) -> Source:
    if name == "-":
        return Source(name, False, None)
    try:
        size = os.stat(name).st_size if os.path.isfile(name) else None
    except OSError:
        size = None
    return Source(name, Path(name).suffix.lower() in _MODELS, size)
