"""Colours of the elements of two matroids at once, such that an isomorphism maps each element to one with the same colour.

The colours begin with what is given, and are refined until nothing changes: by the colours of the elements in common supports of short
cycles and cocycles, by the entries of `code_forms`, and by what elements are in the space of those that have a colour of their own, or
modulo that space.
"""

from __future__ import annotations

from collections import Counter
from collections.abc import Hashable, Iterator, Sequence
from itertools import combinations, product

from .code_forms import entries_between
from .tableaux import Field, Row, bits_of
from .vectors import ZERO, Span, added, normal, scaled, support

__all__ = ["Colours", "Structure", "refined"]

Colours = tuple[int, ...]
"""A colour for each element."""

_MOST_VECTORS = 4096
# The most supports that are used, and the most elements of a matroid whose supports of four elements are.
_MOST_SUPPORTS = 1500
_SMALL = 120


class Structure:
    """A matroid of rank at most its corank, by the vectors of its elements, with what refines colours."""

    def __init__(self, vectors: Sequence[Row], dual: Sequence[Row], field: Field) -> None:
        self.vectors, self.field, self.size = vectors, field, len(vectors)
        ranks = _rank(vectors), _rank(dual)
        self.rank = ranks[0]
        self.sets: list[tuple[Hashable, tuple[int, ...]]] = []
        for kind, own, height in ((0, vectors, ranks[0]), (1, dual, ranks[1])):
            supports = _supports(own, height, field)
            self.sets += (((kind, one.bit_count()), tuple(bits_of(one))) for one in supports)
        self.within: list[list[int]] = [[] for _ in vectors]
        for number, (_, members) in enumerate(self.sets):
            for member in members:
                self.within[member].append(number)
        self.near, self.known = entries_between(vectors, ranks[0], field)
        self.is_known = self.known == (1 << self.size) - 1

    def begins(self) -> list[Hashable]:
        """What an element is by itself."""
        return [(self.known >> at & 1, self.near[at] >> at & 1, self.near[at] >> self.size & 1) for at in range(self.size)]

    def by_sets(self, colours: Colours, ids: dict[Hashable, int]) -> list[Hashable]:
        """What an element is by the colours of the elements in its short supports, and of those with a nonzero entry."""
        told = [ids.setdefault((kind, *sorted(colours[at] for at in own)), len(ids)) for kind, own in self.sets]
        whole = (1 << self.size) - 1
        return [
            (
                colours[at],
                tuple(sorted(told[number] for number in self.within[at])),
                tuple(sorted(colours[other] for other in bits_of(self.near[at] & whole))),
            )
            for at in range(self.size)
        ]

    def by_span(self, colours: Colours) -> list[Hashable]:
        """What an element is in the space of the elements with colours of their own, in the order of these, and modulo the space."""
        counts = Counter(colours)
        span, field = Span(self.field), self.field
        for at in sorted((at for at in range(self.size) if counts[colours[at]] == 1), key=colours.__getitem__):
            span.add(self.vectors[at])
        rests = [span.reduced(vector) for vector in self.vectors]
        classes: dict[Row, list[int]] = {}
        for at, (rest, _) in enumerate(rests):
            classes.setdefault(normal(rest) if field == 3 else rest, []).append(colours[at])
        told: list[Hashable] = []
        for at, (rest, combination) in enumerate(rests):
            alike = () if rest == ZERO else tuple(sorted(classes[normal(rest) if field == 3 else rest]))
            told.append((colours[at], support(combination) if rest == ZERO else -1, alike))
        return told

    def by_rest(self, colours: Colours) -> list[Hashable]:
        """What an element is in the matroid without the elements that have colours of their own, by the entries of `code_forms`.

        They are known at more elements than in the whole matroid, in general at all.
        """
        counts = Counter(colours)
        rest = [at for at in range(self.size) if counts[colours[at]] > 1]
        if self.is_known or not rest or len(rest) == self.size:
            return list(colours)
        near, known = entries_between([self.vectors[at] for at in rest], self.rank, self.field)
        told: list[Hashable] = list(colours)
        for place, at in enumerate(rest):
            others = sorted(colours[rest[other]] for other in bits_of(near[place] & (1 << len(rest)) - 1))
            own = known >> place & 1, near[place] >> place & 1, near[place] >> len(rest) & 1
            told[at] = (colours[at], own, tuple(others))
        return told


def refined(one: Structure, two: Structure, colours: tuple[Colours, Colours]) -> tuple[Colours, Colours] | None:
    """Finer colours of two matroids, or None if they then have other numbers of elements of a colour."""
    now: tuple[Colours, Colours] | None = colours
    while now is not None:
        before = now
        ids: dict[Hashable, int] = {}
        told = one.by_sets(now[0], ids), two.by_sets(now[1], ids)
        now = _numbered(*told)
        if now is not None and len(set(now[0])) == len(set(before[0])):
            now = _numbered(one.by_span(now[0]), two.by_span(now[1]))
        if now is not None and len(set(now[0])) == len(set(before[0])):
            now = _numbered(one.by_rest(now[0]), two.by_rest(now[1]))
            if now is not None and len(set(now[0])) == len(set(before[0])):
                return now
    return None


def _numbered(one: list[Hashable], two: list[Hashable]) -> tuple[Colours, Colours] | None:
    """Numbers for what elements are, the same for the same in both matroids."""
    if Counter(one) != Counter(two):
        return None
    ids: dict[Hashable, int] = {}
    found = [tuple(ids.setdefault(key, len(ids)) for key in keys) for keys in (one, two)]
    return found[0], found[1]


def _rank(vectors: Sequence[Row]) -> int:
    return max((support(vector).bit_length() for vector in vectors), default=0)


def _supports(vectors: Sequence[Row], rank: int, field: Field) -> list[int]:
    """The supports of short linear relations: of all sizes up to some size, and no more than can be used."""
    height = len(vectors) - rank
    found = set(_all_relations(vectors, field)) if field**height <= _MOST_VECTORS else set(_short_relations(vectors, field))
    found.discard(0)
    sizes = Counter(map(int.bit_count, found))
    total, largest = 0, 0
    for size in sorted(sizes):
        total += sizes[size]
        if total > _MOST_SUPPORTS and largest:
            break
        largest = size
    return sorted(one for one in found if one.bit_count() <= largest)


def _all_relations(vectors: Sequence[Row], field: Field) -> Iterator[int]:
    """The supports of all relations: the fundamental ones of the elements outside of a basis, and their sums."""
    span = Span(field)
    basis: list[int] = []
    relations: list[Row] = []
    for at, vector in enumerate(vectors):
        rest, combination = span.reduced(vector)
        if rest == ZERO:
            relations.append(_placed(combination, basis, at))
        else:
            span.add(vector)
            basis.append(at)
    sums = [ZERO]
    for relation in relations:
        multiples = [scaled(field, factor, relation) for factor in (0, 1, -1)[:field]]
        sums = [added(field, one, multiple) for multiple in multiples for one in sums]
    yield from map(support, sums)


def _placed(combination: Row, basis: Sequence[int], at: int) -> Row:
    plus, minus = (sum(1 << basis[place] for place in bits_of(plane)) for plane in combination)
    return plus | 1 << at, minus


def _short_relations(vectors: Sequence[Row], field: Field) -> Iterator[int]:
    """The supports of relations of up to three elements, and of four if there are few elements."""
    places: dict[Row, list[int]] = {}
    for at, vector in enumerate(vectors):
        if vector == ZERO:
            yield 1 << at
        else:
            places.setdefault(normal(vector) if field == 3 else vector, []).append(at)
    for alike in places.values():
        yield from (1 << one | 1 << two for one, two in combinations(alike, 2))
    sums: dict[Row, list[int]] = {}
    for (one, first), (two, second) in combinations(enumerate(vectors), 2):
        if first == ZERO or second == ZERO:
            continue
        for factor in (1, -1)[: field - 1]:
            total = added(field, first, scaled(field, factor, second))
            total = normal(total) if field == 3 else total
            pair = 1 << one | 1 << two
            yield from (pair | 1 << three for three in places.get(total, ()) if three not in (one, two))
            sums.setdefault(total, []).append(pair)
    if len(vectors) <= _SMALL:
        for total, pairs in sums.items():
            if total != ZERO:
                yield from (one | two for one, two in product(pairs, repeat=2) if not one & two)
