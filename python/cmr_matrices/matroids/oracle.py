"""The rank of sets of elements, and what follows from it: closures, flats, bases, circuits, and the connectivity of sets.

The connectivity of a set X is lambda(X) = r(X) + r(E - X) - r(M).
"""

from __future__ import annotations

from collections.abc import Iterable, Iterator, Sequence

from ..errors import BadInput
from .circuits import circuits
from .connectivity import Crossings
from .matroid_values import Label, MatroidValue
from .tableaux import Field, Row, bits_of
from .tutte import Terms, tutte_terms
from .vectors import ZERO, Span, normal

__all__ = ["MOST_FLATS", "Oracle"]

MOST_FLATS = 20_000
"""The most flats of one rank that are listed."""

Labels = frozenset[Label]


class Oracle(MatroidValue):
    """A matroid with its rank function."""

    def rank(self, elements: Iterable[Label] | None = None) -> int:
        """The number of elements of a basis, or of a largest independent subset of some elements."""
        return self.matrix.shape[0] if elements is None else self._span(elements).count

    def corank(self, elements: Iterable[Label] | None = None) -> int:
        """The rank in the dual matroid: r*(X) = |X| + r(E - X) - r(M)."""
        if elements is None:
            return self.matrix.shape[1]
        inside = set(self.numbers(elements))
        rest = [element for number, element in enumerate(self.elements) if number not in inside]
        return len(inside) + self.rank(rest) - self.rank()

    def is_independent(self, elements: Iterable[Label]) -> bool:
        """Whether some elements are independent."""
        chosen = self._chosen(elements)
        return self.rank(chosen) == len(chosen)

    def is_basis(self, elements: Iterable[Label]) -> bool:
        """Whether some elements are a basis."""
        chosen = self._chosen(elements)
        return len(chosen) == self.rank() and self.is_independent(chosen)

    def is_circuit(self, elements: Iterable[Label]) -> bool:
        """Whether some elements are a circuit: dependent, and independent without any one of them."""
        chosen = self._chosen(elements)
        smaller = ([*chosen[:place], *chosen[place + 1 :]] for place in range(len(chosen)))
        return not self.is_independent(chosen) and all(map(self.is_independent, smaller))

    def closure(self, elements: Iterable[Label]) -> Labels:
        """All elements that do not increase the rank of some elements."""
        span = self._span(elements)
        return frozenset(one for one, vector in zip(self.elements, self.vectors()) if vector in span)

    def is_flat(self, elements: Iterable[Label]) -> bool:
        """Whether some elements are all of their closure."""
        chosen = self._chosen(elements)
        return self.closure(chosen) == set(chosen)

    def loops(self) -> Labels:
        """The elements of rank 0."""
        return frozenset(one for one, vector in zip(self.elements, self.vectors()) if vector == ZERO)

    def coloops(self) -> Labels:
        """The elements of every basis."""
        return frozenset(one for one, row in zip(self.basis, self.matrix.to_lists()) if not any(row))

    def bases(self) -> Iterator[Labels]:
        """All bases, one after another."""
        vectors = self.vectors()
        pending: list[tuple[tuple[int, ...], int]] = [((), 0)]
        while pending:
            chosen, start = pending.pop()
            missing = self.rank() - len(chosen)
            if not missing:
                yield frozenset(self.elements[number] for number in chosen)
                continue
            span = Span(self.field)
            for number in chosen:
                span.add(vectors[number])
            later = (number for number in range(start, len(vectors) - missing + 1) if vectors[number] not in span)
            pending.extend([((*chosen, number), number + 1) for number in later][::-1])

    def circuits(self) -> frozenset[Labels]:
        """The least dependent sets, for a matroid with few elements beside a basis: up to 12 over GF(2) and 7 over GF(3)."""
        found = circuits(self.matrix.to_lists(), self.matrix.shape[1], self.field)
        return frozenset(self._labels(circuit) for circuit in found)

    def cocircuits(self) -> frozenset[Labels]:
        """The circuits of the dual matroid, for a small rank: up to 12 over GF(2) and 7 over GF(3)."""
        height, width = self.matrix.shape
        # The first elements of the dual are the others of this one.
        found = circuits(self.matrix.T.to_lists(), height, self.field)
        return frozenset(self._labels(circuit >> width | (circuit & (1 << width) - 1) << height) for circuit in found)

    def hyperplanes(self) -> frozenset[Labels]:
        """The flats of a rank one less than that of the matroid: the complements of the cocircuits. The rank has to be small."""
        whole = frozenset(self.elements)
        return frozenset(whole - cocircuit for cocircuit in self.cocircuits())

    def flats(self, rank: int) -> frozenset[Labels]:
        """The flats of a rank. Raises `BadInput` if there are more than 20,000 of one rank up to this one."""
        if not 0 <= rank <= self.rank():
            return frozenset()
        vectors = self.vectors()
        found = {sum(1 << place for place, vector in enumerate(vectors) if vector == ZERO)}
        for _ in range(rank):
            above: set[int] = set()
            for flat in found:
                above.update(flat | larger for larger in _classes(self.field, vectors, flat))
                if len(above) > MOST_FLATS:
                    raise BadInput(f"there are more than {MOST_FLATS} flats of one rank")
            found = above
        return frozenset(map(self._labels, found))

    def tutte_polynomial(self) -> Terms:
        """The Tutte polynomial T(x, y), as the coefficient of each x^i y^j that is not 0, by (i, j).

        T(1, 1) is the number of bases, T(2, 1) that of independent sets, and the dual matroid has T(y, x). Raises `BadInput` if there are
        more than 20,000 flats.
        """
        vectors = self.vectors()
        loops = sum(1 << place for place, vector in enumerate(vectors) if vector == ZERO)
        return tutte_terms(len(self), loops, lambda flat: _classes(self.field, vectors, flat), MOST_FLATS)

    def connectivity(self, elements: Iterable[Label]) -> int:
        """lambda(X) = r(X) + r(E - X) - r(M) of some elements X."""
        inside = set(self.numbers(elements))
        sides: tuple[list[Label], list[Label]] = ([], [])
        for number, element in enumerate(self.elements):
            sides[number in inside].append(element)
        return self.rank(sides[0]) + self.rank(sides[1]) - self.rank()

    def components(self) -> tuple[Labels, ...]:
        """The connected components, each as its set of elements."""
        return tuple(map(self._labels, self._crossings().components()))

    def is_connected(self) -> bool:
        """Whether each two elements are in a common circuit. A matroid with at most one element is connected."""
        return len(self.components()) < 2

    def separation(self) -> tuple[Labels, Labels] | None:
        """A 1- or 2-separation (X, E - X), or None if the matroid is 3-connected.

        Of a 1-separation lambda(X) is 0, and both sides have an element. Of a 2-separation lambda(X) is 1, and both have two elements or
        more. If there is a 1-separation, one is returned.
        """
        found = self._crossings().separation()
        return None if found is None else (self._labels(found), frozenset(self.elements) - self._labels(found))

    def is_3connected(self) -> bool:
        """Whether there is neither a 1- nor a 2-separation."""
        return self.separation() is None

    def _chosen(self, elements: Iterable[Label]) -> list[Label]:
        """Some elements, each once, in their order."""
        return [self.elements[number] for number in dict.fromkeys(self.numbers(elements))]

    def _span(self, elements: Iterable[Label]) -> Span:
        vectors, span = self.vectors(), Span(self.field)
        for number in self.numbers(elements):
            span.add(vectors[number])
        return span

    def _labels(self, bits: int) -> Labels:
        return frozenset(element for place, element in enumerate(self.elements) if bits >> place & 1)

    def _crossings(self) -> Crossings:
        return Crossings.of(self.tableau())


def _classes(field: Field, vectors: Sequence[Row], flat: int) -> Iterable[int]:
    """The classes of elements outside of a flat that are parallel if the flat is contracted, as sets of bits."""
    span = Span(field)
    for place in bits_of(flat):
        span.add(vectors[place])
    classes: dict[Row, int] = {}
    for place, vector in enumerate(vectors):
        if not flat >> place & 1:
            rest = span.reduced(vector)[0]
            key = rest if field == 2 else normal(rest)
            classes[key] = classes.get(key, 0) | 1 << place
    return classes.values()
