"""The Tutte polynomial of a matroid, by its flats.

T(x, y) is the sum of (x - 1)^(r(E) - r(A)) (y - 1)^(|A| - r(A)) over all sets A of elements. Sets with one closure have one rank, so it is
enough to count the sets of each size for each flat. The elements are added one after another.
"""

from __future__ import annotations

from collections import Counter
from collections.abc import Callable, Iterable
from itertools import product
from math import comb

from ..errors import BadInput
from .tableaux import bits_of

__all__ = ["Terms", "tutte_terms"]

Terms = dict[tuple[int, int], int]
"""The coefficients that are not 0, each by its exponents (i, j) of x and y."""

Covers = Callable[[int], Iterable[int]]
"""The classes of elements by which a flat becomes a flat of one rank more. All are sets of bits."""


def tutte_terms(size: int, loops: int, covers: Covers, most: int) -> Terms:
    """The polynomial of a matroid by its number of elements and its loops. Raises `BadInput` if more flats are needed than `most`."""
    flats = _Flats(loops, covers)
    counts = {loops: Counter({0: 1})}
    for element in range(size):
        longer = {flat: Counter(own) for flat, own in counts.items()}
        for flat, own in counts.items():
            larger = longer.setdefault(flats.larger(flat, element), Counter())
            larger.update({length + 1: number for length, number in own.items()})
        if len(longer) > most:
            raise BadInput(f"there are more than {most} flats")
        counts = longer
    rank = max(flats.ranks.values())
    exponents: Counter[tuple[int, int]] = Counter()
    for flat, own in counts.items():
        at = flats.ranks[flat]
        exponents.update({(rank - at, length - at): number for length, number in own.items()})
    return _expanded(exponents)


class _Flats:
    """The flats that are reached so far, with their ranks."""

    def __init__(self, loops: int, covers: Covers) -> None:
        self.ranks = {loops: 0}
        self._covers = covers
        self._larger: dict[int, dict[int, int]] = {}

    def larger(self, flat: int, element: int) -> int:
        """The closure of a flat with an element."""
        if flat >> element & 1:
            return flat
        if flat not in self._larger:
            self._larger[flat] = {place: flat | one for one in self._covers(flat) for place in bits_of(one)}
        found = self._larger[flat][element]
        self.ranks[found] = self.ranks[flat] + 1
        return found


def _expanded(exponents: Counter[tuple[int, int]]) -> Terms:
    """The sum of powers (x - 1)^a (y - 1)^b, each as often as said, by powers of x and y. The highest powers come first."""
    terms: Counter[tuple[int, int]] = Counter()
    for (a, b), number in exponents.items():
        for i, j in product(range(a + 1), range(b + 1)):
            terms[i, j] += number * comb(a, i) * comb(b, j) * (-1) ** (a - i + b - j)
    return {powers: terms[powers] for powers in sorted(terms, key=lambda powers: (-powers[0], powers[1])) if terms[powers]}
