"""Whether a large matrix has a part that no question decides, by arrays of numpy and scipy, in milliseconds.

The lines that are reducible are removed: zero lines, lines with one nonzero, and copies up to sign. If a connected part of the rest is too
large for the program, it needs a structure. Lines that are added to a matrix make no such part smaller, and give it no structure.
"""

from __future__ import annotations

from collections.abc import Iterator
from typing import Any

from ..errors import LibraryMissing
from ..libraries import library
from ..matrices.words import LIMIT

__all__ = ["Sieve"]

_PASSES = 200
"""How often all reducible lines are removed at once. Matrices that need more passes are not examined."""


class Sieve:
    """The nonzeros of a model, as arrays of rows, columns and entries -1 and 1."""

    def __init__(self, rows: list[int], columns: list[int], entries: list[int]) -> None:
        self._numpy = library("numpy", "examining a large model")
        self._graphs = library("scipy.sparse.csgraph", "examining a large model")
        self._sparse = library("scipy.sparse", "examining a large model")
        self._lines = self._numpy.array([rows, columns], dtype=int)
        self._entries = self._numpy.array(entries, dtype=float)
        self._sizes = [int(it.max(initial=0)) + 1 for it in self._lines]
        chance = self._numpy.random.default_rng(1)
        self._weights = [chance.integers(1, 1 << 30, size).astype(float) for size in self._sizes]

    @classmethod
    def of(cls, rows: list[int], columns: list[int], entries: list[int]) -> Sieve | None:
        """The sieve, or None if numpy or scipy is missing."""
        try:
            return cls(rows, columns, entries)
        except LibraryMissing:
            return None

    def is_hopeless(self, rows: list[int], most: int = LIMIT) -> bool:
        """Whether the matrix on these rows has a part with more than `most` lines of one kind and no structure."""
        np = self._numpy
        is_taken = np.zeros(self._sizes[0], dtype=bool)
        is_taken[rows] = True
        left = is_taken[self._lines[0]]
        lines, entries = self._lines[:, left], self._entries[left]
        for _ in range(_PASSES):
            left = self._irreducible(lines, entries)
            if left.all():
                return any(self._is_open(part, most) for part in self._parts(lines))
            lines, entries = lines[:, left], entries[left]
        return False

    def _irreducible(self, lines: Any, entries: Any) -> Any:
        """Which nonzeros are in no line with one nonzero, and in no copy of an earlier line. Copies are told by sums with random weights.

        A line is a copy only among the lines of its kind that are left, so the copies of one kind are removed at once.
        """
        np = self._numpy
        left = np.ones(len(entries), dtype=bool)
        for kind in (0, 1):
            left &= np.bincount(lines[kind], minlength=self._sizes[kind])[lines[kind]] > 1
        if not left.all():
            return left
        for kind in (0, 1):
            sums = np.bincount(lines[kind], entries * self._weights[1 - kind][lines[1 - kind]], self._sizes[kind])
            present = np.unique(lines[kind])
            _, first = np.unique(np.abs(sums[present]), return_index=True)
            is_first = np.zeros(self._sizes[kind], dtype=bool)
            is_first[present[first]] = True
            left = is_first[lines[kind]]
            if not left.all():
                return left
        return left

    def _parts(self, lines: Any) -> Iterator[Any]:
        """The nonzeros of each connected part."""
        height, count = self._sizes[0], sum(self._sizes)
        joined = (self._numpy.ones(lines.shape[1]), (lines[0], height + lines[1]))
        graph = self._sparse.coo_matrix(joined, (count, count))
        _, numbers = self._graphs.connected_components(graph, directed=False)
        own = numbers[lines[0]]
        for number in self._numpy.unique(own):
            yield lines[:, own == number]

    def _is_open(self, lines: Any, most: int) -> bool:
        """Whether a part has too many rows and columns, and neither two nonzeros at most in each line of a kind nor intervals."""
        np = self._numpy
        numbered = [np.unique(it, return_inverse=True)[1] for it in lines]
        counts = [np.bincount(it) for it in numbered]
        if min(map(len, counts)) <= most:
            return False
        for kind in (0, 1):
            least, greatest = np.full(len(counts[kind]), len(counts[1 - kind])), np.zeros(len(counts[kind]), dtype=int)
            np.minimum.at(least, numbered[kind], numbered[1 - kind])
            np.maximum.at(greatest, numbered[kind], numbered[1 - kind])
            if counts[kind].max() <= 2 or (greatest - least + 1 == counts[kind]).all():
                return False
        return True
