"""Embeddings of a matroid into another one of the same rank over the same field: restrictions that are isomorphic to it.

Two representations over GF(2) or GF(3) with one basis differ only by signs (Brylawski and Lucas 1976). So the images of a basis, over GF(3)
with signs, determine the vectors of all other images. Each of these is looked up as soon as its basis elements have images.
"""

from __future__ import annotations

from collections.abc import Hashable, Iterable, Iterator
from dataclasses import dataclass
from typing import Any

from ..running.clock import Clock
from .tableaux import Field, Row, Tableau, bits_of
from .vectors import ZERO, Span, added, normal, scaled

__all__ = ["Embedding"]

Label = Hashable
Places = dict[Row, list[Label]]
"""The elements by their vectors; parallel elements have one."""


@dataclass(frozen=True)
class _Step:
    """An element of the basis to map next, and the others whose vectors are then known, each with its entries in rows that have images."""

    element: Label
    closed: tuple[tuple[Label, tuple[tuple[int, int], ...]], ...]


@dataclass(frozen=True)
class Embedding:
    """A matroid to be embedded, by the order in which its elements get images."""

    field: Field
    loops: tuple[Label, ...]
    steps: tuple[_Step, ...]
    clock: Clock

    @classmethod
    def of(cls, tableau: Tableau[Any], clock: Clock) -> Embedding:
        """The embedding of the matroid of a tableau. The elements with few entries in new rows come first."""
        left = {column: sum(vector) for column, vector in tableau.columns().items()}
        numbers = list(tableau.row_elements)
        order: list[int] = []
        loops = [tableau.column_elements[column] for column, own in left.items() if not own]
        steps: list[_Step] = []
        left = {column: own for column, own in left.items() if own}
        while len(order) < len(numbers):
            chosen = sum(1 << place for place in order)
            missing = min((own & ~chosen for own in left.values()), key=int.bit_count, default=(1 << len(numbers)) - 1 & ~chosen)
            order.append(next(bits_of(missing)))
            chosen |= 1 << order[-1]
            known = [column for column, own in left.items() if not own & ~chosen]
            closed = tuple((tableau.column_elements[column], _entries(tableau, column, order)) for column in known)
            steps.append(_Step(tableau.row_elements[numbers[order[-1]]], closed))
            left = {column: own for column, own in left.items() if column not in known}
        return cls(tableau.field, tuple(loops), tuple(steps), clock)

    def into(self, tableau: Tableau[Any]) -> dict[Label, Label] | None:
        """The image of each element in the matroid of a tableau that has the same rank, or None if there is no embedding."""
        vectors = {element: (1 << place, 0) for place, element in enumerate(tableau.row_elements.values())}
        vectors |= dict(zip(tableau.column_elements.values(), tableau.columns().values()))
        places: Places = {}
        for element, vector in vectors.items():
            places.setdefault(self._key(vector), []).append(element)
        to: dict[Label, Label] = {}
        if not self._take(((loop, ZERO) for loop in self.loops), places, to):
            return None
        return next(self._maps(places, to, []), None)

    def _maps(self, places: Places, to: dict[Label, Label], images: list[Row]) -> Iterator[dict[Label, Label]]:
        """The embeddings with some images. The elements that have none yet are in `places`."""
        if len(images) == len(self.steps):
            yield to
            return
        self.clock.left()
        step, span = self.steps[len(images)], Span(self.field)
        for image in images:
            span.add(image)
        for vector, sign in ((own, sign) for own in places if own not in span for sign in self._signs(images)):
            longer = [*images, scaled(self.field, sign, vector)]
            left, mapped = {own: list(elements) for own, elements in places.items()}, dict(to)
            known = ((element, self._sum(longer, entries)) for element, entries in step.closed)
            if self._take([(step.element, vector)], left, mapped) and self._take(known, left, mapped):
                yield from self._maps(left, mapped, longer)

    def _signs(self, images: list[Row]) -> tuple[int, ...]:
        """The signs that an image can have. The first one has either, up to the sign of all."""
        return (1, -1) if images and self.field == 3 else (1,)

    def _take(self, wanted: Iterable[tuple[Label, Row]], places: Places, to: dict[Label, Label]) -> bool:
        """Maps elements to some that have their vectors, and returns whether there are enough of these."""
        for element, vector in wanted:
            there = places.get(self._key(vector))
            if not there:
                return False
            to[element] = there.pop(0)
            if not there:
                del places[self._key(vector)]
        return True

    def _sum(self, images: list[Row], entries: tuple[tuple[int, int], ...]) -> Row:
        total = ZERO
        for place, entry in entries:
            total = added(self.field, total, scaled(self.field, entry, images[place]))
        return total

    def _key(self, vector: Row) -> Row:
        return vector if self.field == 2 else normal(vector)


def _entries(tableau: Tableau[Any], column: int, order: list[int]) -> tuple[tuple[int, int], ...]:
    """The nonzeros of a column, by the places of their rows in an order."""
    numbers = list(tableau.rows)
    found = ((place, tableau.entry(numbers[row], column)) for place, row in enumerate(order))
    return tuple((place, entry) for place, entry in found if entry)
