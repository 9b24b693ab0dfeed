"""Matrices of any size, as `cmr-large` reads them."""

from __future__ import annotations

from array import array
from bisect import bisect_left
from collections.abc import Iterable, Mapping, Sequence
from dataclasses import dataclass, field, replace
from itertools import compress
from typing import Any

from ..errors import BadEntry, BadInput
from .lines import LineSet, Names
from .matrix import Matrix, entry_of
from .sources import Entries, entries_of, has_many_lines
from .words import LARGE_LIMIT

__all__ = ["LargeMatrix", "is_large"]

_PLUS_ONE = (1).__add__


def is_large(source: Any) -> bool:
    """Whether an object is a matrix that is too large for `cmr`. Its entries are not looked at."""
    return isinstance(source, LargeMatrix) or has_many_lines(source)


@dataclass(frozen=True, eq=False)
class LargeMatrix:
    """A matrix with entries -1, 0 and 1 of any size.

    The rows, columns and values of its nonzeros are in three lists of one length, row by row. Lines are counted from 0.
    """

    shape: tuple[int, int]
    rows: Sequence[int] = field(repr=False)
    columns: Sequence[int] = field(repr=False)
    values: Sequence[int] = field(repr=False)
    names: Names | None = field(default=None, repr=False)

    @classmethod
    def of(cls, source: Any) -> LargeMatrix:
        """The matrix that another object represents, as `Matrix.of` takes it. Raises `BadInput` or `BadEntry`."""
        if isinstance(source, LargeMatrix):
            return source
        found = entries_of(source)
        for count, kind in zip(found.shape, ("rows", "columns")):
            if count > LARGE_LIMIT:
                raise BadInput(f"there are {count} {kind}, and a matrix for cmr-large may have at most {LARGE_LIMIT}")
        names = None
        if found.row_names is not None and found.column_names is not None:
            names = Names(tuple(map(str, found.row_names)), tuple(map(str, found.column_names)))
        try:
            return cls(found.shape, *_lists(found), names)
        except BadEntry as fault:
            raise (fault if names is None else fault.named(names.rows, names.columns)) from None

    @classmethod
    def of_entries(cls, entries: Mapping[tuple[int, int], int], names: Names) -> LargeMatrix:
        """The matrix with these nonzeros -1 and 1."""
        return cls(names.shape, *_sorted((*place, value) for place, value in entries.items()), names)

    @classmethod
    def from_text(cls, text: str, *, sparse: bool = False) -> LargeMatrix:
        """The matrix of a dense or a sparse text that `cmr-large` has read without a fault."""
        numbers = iter(map(int, text.split()))
        shape = next(numbers), next(numbers)
        if sparse:
            next(numbers)
            return cls(shape, *_sorted((row - 1, column - 1, value) for row, column, value in zip(numbers, numbers, numbers)))
        return cls(shape, *_sorted((*divmod(place, shape[1]), value) for place, value in enumerate(numbers) if value))

    def to_text(self) -> str:
        """The canonical sparse text, with lines counted from 1."""
        triples = zip(map(_PLUS_ONE, self.rows), map(_PLUS_ONE, self.columns), self.values)
        return "".join(["%d %d %d\n" % (*self.shape, len(self.values)), *map("%d %d %d\n".__mod__, triples)])

    def without(self, lines: LineSet) -> LargeMatrix:
        """The matrix in which all entries of some lines are 0."""
        rows, columns = set(lines.rows), set(lines.columns)
        kept = [row not in rows and column not in columns for row, column in zip(self.rows, self.columns)]
        rest = [array("i", compress(them, kept)) for them in (self.rows, self.columns, self.values)]
        return replace(self, rows=rest[0], columns=rest[1], values=rest[2])

    def submatrix(self, rows: Sequence[int], columns: Sequence[int]) -> Matrix:
        """The submatrix on some rows and columns, with their names. Raises `BadInput` if it is too large for `cmr`."""
        places = {column: place for place, column in enumerate(columns)}
        nonzeros = [
            (place, places[self.columns[at]], self.values[at])
            for place, row in enumerate(rows)
            for at in range(bisect_left(self.rows, row), bisect_left(self.rows, row + 1))
            if self.columns[at] in places
        ]
        names = self.names and self.names.part(rows, columns)
        return Matrix((len(rows), len(columns)), tuple(sorted(nonzeros)), names)


_Lists = tuple[Sequence[int], Sequence[int], Sequence[int]]


def _lists(found: Entries) -> _Lists:
    """The rows, columns and values of the nonzeros. Raises `BadEntry` at the first entry that is not -1, 0 or 1."""
    numbers = found.coordinates
    if numbers is None and found.array is not None:
        rows, columns = found.array.nonzero()
        numbers = rows, columns, found.array[rows, columns]
    if numbers is None:
        return _sorted((row, column, entry_of(row, column, value)) for row, column, value in found.entries)
    rows, columns, values = numbers
    allowed = values == 1
    if values.dtype.kind in "if":
        allowed |= values == -1
    faults = (~allowed & (values != 0)).nonzero()[0]
    if len(faults):
        at = faults[0]
        raise BadEntry(int(rows[at]), int(columns[at]), values[at].item())
    rows, columns, values = (
        array("i", it[allowed].astype("int32").tobytes()) for it in (rows, columns, values)
    )
    return rows, columns, values


def _sorted(triples: Iterable[tuple[int, int, int]]) -> _Lists:
    found = sorted(triple for triple in triples if triple[2])
    rows, columns, values = zip(*found) if found else ((), (), ())
    return array("i", rows), array("i", columns), array("i", values)
