"""Isomorphisms of binary matroids, and of ternary ones, by the uniqueness of their representations.

Two representations of a matroid over GF(2), or over GF(3), differ only by a change of the basis of the space and by signs of elements
(Brylawski and Lucas 1976). So an isomorphism is known from the images of a basis: the other elements follow linearly. The search gives
elements images one after another, and refines the colours of all others after each. When every element has an image, elimination decides
whether this is an isomorphism.
"""

from __future__ import annotations

from collections import Counter
from collections.abc import Iterator, Sequence
from dataclasses import dataclass
from typing import Any

from ..running.clock import Clock
from .refinement import Colours, Structure, refined
from .tableaux import Row, Tableau

__all__ = ["Search"]

Map = tuple[int, ...]
"""The number of the image of each element."""


@dataclass(frozen=True)
class Search:
    """Two matroids over one field with equal numbers of elements and equal ranks, by their tableaux of numbered elements."""

    one: Tableau[Any]
    two: Tableau[Any]
    structures: tuple[Structure, Structure]
    clock: Clock

    @classmethod
    def of(cls, one: Tableau[Any], two: Tableau[Any], duals: tuple[Tableau[Any], Tableau[Any]], clock: Clock) -> Search:
        """The search for two tableaux, with those of the dual matroids. Elements are the numbers of the lines of the first ones."""
        made = [Structure(_vectors(own), _vectors(dual), own.field) for own, dual in ((one, duals[0]), (two, duals[1]))]
        return cls(one, two, (made[0], made[1]), clock)

    def first(self, fixed: Sequence[tuple[int, int]] = ()) -> Map | None:
        """An isomorphism that maps some elements as said, or None if there is none."""
        colours = self._begun(fixed)
        return None if colours is None else next(self._maps(colours), None)

    def _begun(self, fixed: Sequence[tuple[int, int]]) -> tuple[Colours, Colours] | None:
        """The first colours, in which some elements have colours of their own; None if an image is another kind of element."""
        begun = tuple(structure.begins() for structure in self.structures)
        colours: list[list[Any]] = [list(begun[0]), list(begun[1])]
        for number, (element, image) in enumerate(fixed):
            colours[0][element] = (number, colours[0][element])
            colours[1][image] = (number, colours[1][image])
        if Counter(colours[0]) != Counter(colours[1]):
            return None
        ids: dict[Any, int] = {}
        numbered = [tuple(ids.setdefault(key, len(ids)) for key in keys) for keys in colours]
        return numbered[0], numbered[1]

    def is_rigid(self, fixed: Sequence[tuple[int, int]]) -> bool:
        """Whether colours show that the identity is the only isomorphism of a matroid to itself that keeps some elements."""
        colours = self._begun(fixed)
        found = None if colours is None else refined(*self.structures, colours)
        return found is None or len(set(found[0])) == len(found[0])

    def _maps(self, given: tuple[Colours, Colours]) -> Iterator[Map]:
        """The isomorphisms that keep the colours."""
        self.clock.left()
        colours = refined(*self.structures, given)
        if colours is None:
            return
        counts = Counter(colours[0])
        several = [colour for colour in colours[0] if counts[colour] > 1]
        if not several:
            places = {colour: at for at, colour in enumerate(colours[1])}
            found = tuple(places[colour] for colour in colours[0])
            if self._is_isomorphism(found):
                yield found
            return
        chosen = min(several, key=lambda colour: (counts[colour], colour))
        element = colours[0].index(chosen)
        fresh = len(colours[0])
        for image, colour in enumerate(colours[1]):
            if colour == chosen:
                yield from self._maps((_with(colours[0], element, fresh), _with(colours[1], image, fresh)))

    def _is_isomorphism(self, found: Map) -> bool:
        """Whether a map of the elements maps the basis of the first matroid to a basis, and its matrix to the matrix by that basis."""
        other = self.two.copy()
        basis = [found[element] for element in self.one.row_elements.values()]
        for element in basis:
            line = other.places[element]
            if line.kind == "column":
                rows = (row for row, at in other.row_elements.items() if at not in basis and other.entry(row, line.number))
                row = next(rows, None)
                if row is None:
                    return False
                other.pivot(row, line.number)
        return self._has_matrix(other, found)

    def _has_matrix(self, other: Tableau[Any], found: Map) -> bool:
        """Whether a tableau has the matrix of the first matroid, up to the order and the signs of its lines."""
        rows = {row: other.places[found[element]].number for row, element in self.one.row_elements.items()}
        columns = {column: other.places[found[element]].number for column, element in self.one.column_elements.items()}
        pairs = [(self.one.entry(row, column), other.entry(rows[row], columns[column])) for row in rows for column in columns]
        if any(bool(one) != bool(two) for one, two in pairs):
            return False
        if self.one.field == 2:
            return True
        width = len(columns)
        ratios = [[one * two for one, two in pairs[row * width : (row + 1) * width]] for row in range(len(rows))]
        return _are_products(ratios)


def _are_products(ratios: list[list[int]]) -> bool:
    """Whether nonzeros 1 and -1 are the products of a sign for each row and a sign for each column."""
    columns = [list(column) for column in zip(*ratios)]
    signs: dict[tuple[bool, int], int] = {}
    for start in range(len(ratios)):
        if (True, start) in signs:
            continue
        signs[True, start] = 1
        pending = [(True, start)]
        for is_row, line in pending:
            for at, ratio in enumerate(ratios[line] if is_row else columns[line]):
                if ratio and (not is_row, at) not in signs:
                    signs[not is_row, at] = signs[is_row, line] * ratio
                    pending.append((not is_row, at))
    return all(
        not ratio or signs[True, row] * signs[False, column] == ratio
        for row, line in enumerate(ratios)
        for column, ratio in enumerate(line)
    )


def _with(colours: Colours, element: int, fresh: int) -> Colours:
    return (*colours[:element], fresh, *colours[element + 1 :])


def _vectors(tableau: Tableau[Any]) -> list[Row]:
    """The vectors of numbered elements, in the order of their numbers."""
    vectors = {element: (1 << place, 0) for place, element in enumerate(tableau.row_elements.values())}
    vectors |= dict(zip(tableau.column_elements.values(), tableau.columns().values()))
    return [vectors[element] for element in range(len(vectors))]
