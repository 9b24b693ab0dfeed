"""The sizes of a matrix, read from its text without the program.

>>> shape_of(b"2 3 1 0 1 0 -1 1", "dense")
Shape(rows=2, columns=3, nonzeros=4, is_binary=False)
>>> shape_of(b"2 3 2 1 1 +1 2 3 1", "sparse")
Shape(rows=2, columns=3, nonzeros=2, is_binary=True)
>>> shape_of(b"1 1 2", "dense")
"""

from __future__ import annotations

from collections.abc import Sequence
from typing import NamedTuple

from ..matrices.words import LIMIT
from .streams import Format

__all__ = ["Shape", "shape_of"]

_USUAL = frozenset((b"0", b"1", b"-1"))


class Shape(NamedTuple):
    """The sizes of a matrix, and whether it has no entry -1."""

    rows: int
    columns: int
    nonzeros: int
    is_binary: bool


def shape_of(text: bytes, form: Format, most: int = LIMIT) -> Shape | None:
    """The sizes of a matrix and what its entries are, or None if the text may have a fault, which the program then names.

    `most` is the greatest number of rows, and of columns.
    """
    try:
        return (_of_usual(text.split(), most) if form == "dense" else None) or _of_numbers(text, form, most)
    except ValueError:
        return None


def _of_usual(words: Sequence[bytes], most: int) -> Shape | None:
    """The sizes in a dense text that writes its entries as nearly all texts do, so that none of them has to be made a number."""
    entries = words[2:]
    kinds = set(entries)
    if not kinds <= _USUAL or len(words) < 2 or not b"".join(words[:2]).isdigit():
        return None
    rows, columns = map(int, words[:2])
    if max(rows, columns) > most or len(entries) != rows * columns:
        return None
    return Shape(rows, columns, len(entries) - entries.count(b"0"), b"-1" not in kinds)


def _of_numbers(text: bytes, form: Format, most: int) -> Shape | None:
    numbers = [int(word) for word in text.decode("ascii").split()]
    length = 3 if form == "sparse" else 2
    head, entries = numbers[:length], numbers[5::3] if form == "sparse" else numbers[2:]
    if b"_" in text or len(head) < length or min(head) < 0 or max(head[:2]) > most:
        return None
    is_whole = len(numbers) == length + (3 * head[2] if form == "sparse" else head[0] * head[1])
    values = set(entries)
    if not is_whole or not values <= {-1, 0, 1}:
        return None
    return Shape(head[0], head[1], len(entries) - entries.count(0), -1 not in values)
