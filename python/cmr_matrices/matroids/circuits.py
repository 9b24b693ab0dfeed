"""Circuits of small matroids, and the maps of elements that take the circuits of one matroid to the circuits of another.

A circuit is a minimal dependent set of elements: a minimal support of the nonzero vectors in the kernel of `[I A]`.
"""

from __future__ import annotations

from collections import Counter
from collections.abc import Iterator
from itertools import product

from ..errors import BadInput
from .tableaux import Field

__all__ = ["LARGEST", "circuits", "isomorphism"]

LARGEST = 4096
"""The most vectors of a kernel that are tried."""

Entries = list[list[int]]
"""The rows of a standard matrix `A`."""


def circuits(entries: Entries, columns: int, field: Field) -> frozenset[int]:
    """The circuits of the matroid of `[I A]`, each as a set of bits: the rows are the first elements, followed by the columns.

    Raises `BadInput` if the kernel of the matrix has more than `LARGEST` vectors.
    """
    if field**columns > LARGEST:
        raise BadInput(f"{columns} elements beside a basis are too many for a list of all circuits")
    height = len(entries)
    supports = set()
    for factors in product(range(field), repeat=columns):
        sums = (sum(entry * factor for entry, factor in zip(row, factors)) % field for row in entries)
        support = sum(1 << place for place, value in enumerate(sums) if value)
        supports.add(support | sum(1 << height + place for place, factor in enumerate(factors) if factor))
    supports.discard(0)
    found: list[int] = []
    for support in sorted(supports, key=int.bit_count):
        if not any(circuit & support == circuit for circuit in found):
            found.append(support)
    return frozenset(found)


def isomorphism(first: frozenset[int], second: frozenset[int], size: int) -> tuple[int, ...] | None:
    """The element of the second matroid for each element of the first, or None if no bijection maps circuits to circuits."""
    if sorted(map(int.bit_count, first)) != sorted(map(int.bit_count, second)):
        return None
    kinds = _kinds(first, size), _kinds(second, size)
    if Counter(kinds[0]) != Counter(kinds[1]):
        return None
    common = Counter(kinds[0])
    order = sorted(range(size), key=lambda element: common[kinds[0][element]])
    return next(_maps(first, second, order, kinds, {}), None)


Kind = tuple[tuple[int, int], ...]
"""How many circuits of each size an element is in."""


def _kinds(found: frozenset[int], size: int) -> list[Kind]:
    return [
        tuple(sorted(Counter(circuit.bit_count() for circuit in found if circuit >> element & 1).items()))
        for element in range(size)
    ]


def _maps(
    first: frozenset[int],
    second: frozenset[int],
    order: list[int],
    kinds: tuple[list[Kind], list[Kind]],
    to: dict[int, int],
) -> Iterator[tuple[int, ...]]:
    """All ways to map the elements that are left, so that the circuits among those that are mapped fit after each."""
    if len(to) == len(order):
        yield tuple(to[element] for element in range(len(order)))
        return
    element = order[len(to)]
    taken = set(to.values())
    for other in range(len(order)):
        if other not in taken and kinds[0][element] == kinds[1][other]:
            longer = {**to, element: other}
            if _fit(first, second, element, longer):
                yield from _maps(first, second, order, kinds, longer)


def _fit(first: frozenset[int], second: frozenset[int], element: int, to: dict[int, int]) -> bool:
    """Whether the circuits through the last element, among those that are mapped, are as many in both and go to each other."""
    inside = sum(1 << one for one in to)
    images = sum(1 << other for other in to.values())
    own = [circuit for circuit in first if circuit >> element & 1 and circuit & ~inside == 0]
    through = sum(1 for circuit in second if circuit >> to[element] & 1 and circuit & ~images == 0)
    return len(own) == through and all(
        sum(1 << other for one, other in to.items() if circuit >> one & 1) in second for circuit in own
    )
