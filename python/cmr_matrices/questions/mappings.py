"""Maps between matroids: isomorphisms, and the group of automorphisms of one matroid."""

from __future__ import annotations

from collections import Counter
from collections.abc import Hashable
from dataclasses import dataclass, field

from ..matrices.matrix import Matrix
from ..matroids.circuits import LARGEST, circuits
from ..matroids.isomorphisms import Search
from ..matroids.matroid_values import Label, MatroidValue
from ..matroids.tableaux import Field, Tableau
from ..running.clock import Clock
from .properties import is_totally_unimodular

__all__ = ["Automorphisms", "automorphisms_of", "fingerprint", "isomorphism_of"]


@dataclass(frozen=True)
class Automorphisms:
    """The group of the automorphisms of a matroid: how many there are, and some that generate all."""

    order: int
    generators: tuple[dict[Label, Label], ...] = field(repr=False)
    elements: tuple[Label, ...] = field(repr=False)

    @property
    def orbits(self) -> tuple[frozenset[Label], ...]:
        """The sets of elements that automorphisms map to each other, in the order of the elements."""
        orbits = {element: {element} for element in self.elements}
        for generator in self.generators:
            for element, image in generator.items():
                if orbits[element] is not orbits[image]:
                    orbits[element] |= orbits[image]
                    for other in orbits[image]:
                        orbits[other] = orbits[element]
        return tuple(dict.fromkeys(frozenset(orbit) for orbit in orbits.values()))


def isomorphism_of(one: MatroidValue, two: MatroidValue, clock: Clock) -> dict[Label, Label] | None:
    """The element of the second matroid for each element of the first, or None if they are not isomorphic."""
    if one.matrix.shape != two.matrix.shape:
        return None
    if one.field != two.field:
        ternary = one if one.field == 3 else two
        support = MatroidValue(ternary.matrix.support(), 2, ternary.elements)
        pair = (support, two) if ternary is one else (one, support)
        found = isomorphism_of(*pair, clock)
        return found if found is not None and _is_binary(ternary.matrix, clock) else None
    mapped = _search(one, two, clock).first()
    return None if mapped is None else {one.elements[at]: two.elements[to] for at, to in enumerate(mapped)}


def automorphisms_of(one: MatroidValue, clock: Clock) -> Automorphisms:
    """The automorphisms, by the orbits of elements while those before them are fixed."""
    search = _search(one, one, clock)
    base: list[int] = []
    for element in range(len(one)):
        fixed = [(other, other) for other in (*base, element)]
        if not search.is_rigid(fixed[:-1]):
            base.append(element)
    order, generators = 1, list[tuple[int, ...]]()
    for place in reversed(range(len(base))):
        element, fixed = base[place], [(other, other) for other in base[:place]]
        orbit = _orbit(element, generators)
        for image in range(len(one)):
            if image not in orbit and image not in base[:place]:
                found = search.first([*fixed, (element, image)])
                if found is not None:
                    generators.append(found)
                    orbit = _orbit(element, generators)
        order *= len(orbit)
    labelled = [{one.elements[at]: one.elements[to] for at, to in enumerate(found)} for found in generators]
    return Automorphisms(order, tuple(labelled), one.elements)


def fingerprint(one: MatroidValue, clock: Clock) -> Hashable:
    """What isomorphic matroids over one field have in common: the numbers of their short cycles and cocycles by size."""
    structure = _search(one, one, clock).structures[0]
    return one.matrix.shape, frozenset(Counter(kind for kind, _ in structure.sets).items())


def _orbit(element: int, generators: list[tuple[int, ...]]) -> set[int]:
    orbit, pending = {element}, [element]
    for at in pending:
        new = {generator[at] for generator in generators} - orbit
        orbit |= new
        pending += new
    return orbit


def _search(one: MatroidValue, two: MatroidValue, clock: Clock) -> Search:
    """The search on the matroids or on their duals, the ones with the smaller rank."""
    first, second = ((_tableau(own), _dual_tableau(own)) for own in (one, two))
    if one.matrix.shape[0] > one.matrix.shape[1]:
        first, second = first[::-1], second[::-1]
    return Search.of(first[0], second[0], (first[1], second[1]), clock)


def _tableau(own: MatroidValue) -> Tableau[int]:
    height = own.matrix.shape[0]
    return Tableau.of(own.matrix, own.field, range(height), range(height, len(own)))


def _dual_tableau(own: MatroidValue) -> Tableau[int]:
    height = own.matrix.shape[0]
    return Tableau.of(own.matrix.T, own.field, range(height, len(own)), range(height))


def _is_binary(matrix: Matrix, clock: Clock) -> bool:
    """Whether a ternary matroid has the circuits of the binary matroid of its support: by all circuits, or else by the program."""
    width = matrix.shape[1]
    if 3**width <= LARGEST:
        fields: tuple[Field, Field] = (2, 3)
        binary, ternary = (circuits(own.to_lists(), width, of) for own, of in zip((matrix.support(), matrix), fields))
        return binary == ternary
    return bool(is_totally_unimodular(matrix, time_limit=clock))
