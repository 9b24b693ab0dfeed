"""Entries of a matrix as bytes, row by row: they are tested, listed and written without a step of Python for each entry."""

from __future__ import annotations

from collections.abc import Iterable, Sequence
from dataclasses import dataclass
from itertools import compress, repeat
from operator import floordiv, mod
from typing import Any

from ..errors import BadEntry

__all__ = ["DenseEntries", "is_plain"]

_BYTES = {0: 0, 1: 1, -1: 255}
_VALUES = {1: 1, 255: -1}
_FEW = 20
"""Up to one nonzero in as many entries a sparse text is made faster than a dense one."""


@dataclass(frozen=True)
class DenseEntries:
    """Entries -1, 0 and 1, each in one byte: 255 is -1."""

    shape: tuple[int, int]
    data: bytes

    @classmethod
    def of_rows(cls, rows: Sequence[Sequence[Any]], columns: int) -> DenseEntries | None:
        """The entries of rows of one length, or None if one has not both the value and the hash of -1, 0 or 1."""
        try:
            # A row that is an array gives its numbers faster as a list.
            lists = (row.tolist() if hasattr(row, "tolist") else row for row in rows)
            data = b"".join(bytes(map(_BYTES.__getitem__, row)) for row in lists)
        except (KeyError, TypeError):
            return None
        return cls((len(rows), columns), data) if len(data) == len(rows) * columns else None

    @classmethod
    def of_array(cls, plain: Any) -> DenseEntries:
        """The entries of a plain array of numpy. Raises `BadEntry` at the first that is not -1, 0 or 1."""
        allowed = (plain == 0) | (plain == 1)
        if plain.dtype.kind in "if":
            allowed |= plain == -1
        rows, columns = map(int, plain.shape)
        if not allowed.all():
            row, column = divmod(int(allowed.argmin()), columns)
            raise BadEntry(row, column, plain[row, column].item())
        return cls((rows, columns), plain.astype("int8").tobytes())

    def __getitem__(self, place: tuple[int, int]) -> int:
        row, column = place
        return _VALUES.get(self.data[row * self.shape[1] + column], 0)

    @property
    def transposed(self) -> DenseEntries:
        """The entries of the transposed matrix."""
        rows, columns = self.shape
        return DenseEntries((columns, rows), b"".join(self.data[column::columns] for column in range(columns)))

    def nonzeros(self) -> tuple[tuple[int, int, int], ...]:
        """The triples (row, column, value) of the nonzeros, row by row."""
        return tuple(zip(*self._places(), map(_VALUES.__getitem__, self._signs())))

    def has_negative(self) -> bool:
        """Whether an entry is -1."""
        return b"\xff" in self.data

    def sum(self) -> int:
        """The sum of all entries."""
        return self.data.count(b"\x01") - self.data.count(b"\xff")

    def to_lists(self) -> list[list[int]]:
        """The rows as lists of numbers."""
        rows, columns = self.shape
        values = memoryview(self.data).cast("b").tolist()
        return [values[row * columns : (row + 1) * columns] for row in range(rows)]

    def text(self) -> str:
        """The canonical sparse text, with lines counted from 1."""
        rows, columns = self._places()
        counted = [f"{number} " for number in range(1, max(self.shape, default=0) + 1)]
        ends = {1: "1\n", 255: "-1\n"}
        signs = self._signs()
        triples = zip(
            map(counted.__getitem__, rows), map(counted.__getitem__, columns), map(ends.__getitem__, signs)
        )
        return f"{self.shape[0]} {self.shape[1]} {len(signs)}\n" + "".join(map("".join, triples))

    def dense_text(self) -> str | None:
        """A dense text, or None if there are few nonzeros, so that the sparse text is shorter."""
        if _FEW * len(self._signs()) <= len(self.data):
            return None
        entries = self.data.replace(b"\x00", b"0 ").replace(b"\x01", b"1 ").replace(b"\xff", b"-1 ")
        return f"{self.shape[0]} {self.shape[1]}\n{entries.decode('ascii')}\n"

    def _places(self) -> tuple[Iterable[int], Iterable[int]]:
        """The rows and the columns of the nonzeros."""
        places = list(compress(range(len(self.data)), self.data))
        columns = self.shape[1]
        return map(floordiv, places, repeat(columns)), map(mod, places, repeat(columns))

    def _signs(self) -> bytes:
        return self.data.translate(None, b"\x00")


def is_plain(taken: Any) -> bool:
    """Whether an array of numpy has two dimensions and truth values, whole or floating numbers."""
    return len(taken.shape) == 2 and taken.dtype.kind in "biuf"
