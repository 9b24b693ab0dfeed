"""Sums of matroids and their summands: direct sums, two-sums at an element of each, three-sums along a triangle of two binary matroids.

Source: Seymour 1980; Oxley, *Matroid Theory*, chapters 7 and 9.
"""

from __future__ import annotations

from collections.abc import Iterable, Sequence
from typing import Any

from ..errors import BadInput
from .matroid_values import Label, label_set
from .oracle import Oracle
from .tableaux import Row, Tableau, bits_of
from .vectors import Span, added

__all__ = ["Columns", "direct_sum", "summands", "three_sum", "two_sum"]

Columns = tuple[int, list[tuple[Label, Row]]]
"""A number of rows, and the elements with their vectors: a representation of a sum."""


def direct_sum(one: Oracle, two: Oracle) -> Columns:
    """The vectors of the one in the first rows, and those of the other in the last ones."""
    _must_be_apart(one.elements, two.elements)
    _must_have_one_field(one, two)
    height = one.rank()
    last = (_shifted(vector, height) for vector in two.vectors())
    return height + two.rank(), [*zip(one.elements, one.vectors()), *zip(two.elements, last)]


def two_sum(one: Oracle, two: Oracle, at: Label, other: Label) -> Columns:
    """The sum in which both elements have the same vector, and are deleted."""
    _must_have_one_field(one, two)
    for matroid, element in ((one, at), (two, other)):
        matroid.numbers([element])
        if element in matroid.loops() | matroid.coloops():
            raise BadInput(f"a two-sum is at elements that are neither loops nor coloops, and {element} is one")
    _must_be_apart((element for element in one.elements if element != at), (element for element in two.elements if element != other))
    return _joined(one, _by_basis(two, [other]), [at], [other])


def three_sum(one: Oracle, two: Oracle, triangle: Sequence[Label]) -> Columns:
    """The sum along a triangle of both, whose elements have the same vectors in both and are deleted."""
    if (one.field, two.field) != (2, 2):
        raise BadInput("a three-sum is one of two binary matroids; a regular matroid has a matrix over GF(2) too")
    shared = list(dict.fromkeys(triangle))
    _must_be_apart((element for element in one.elements if element not in shared), two.elements)
    for matroid in (one, two):
        if len(shared) != 3 or not matroid.is_circuit(shared):
            raise BadInput(f"a three-sum is along a triangle of both, and {label_set(shared)} is no circuit with three elements of one")
        if len(matroid) < 7:
            raise BadInput(f"a three-sum is one of two matroids with 7 elements or more, and here are {len(matroid)}")
        if matroid.rank([element for element in matroid.elements if element not in shared]) < matroid.rank():
            raise BadInput(f"{label_set(shared)} contains a cocircuit, so there is no three-sum along it")
    return _joined(one, _by_basis(two, shared[:2]), shared, shared)


def summands(whole: Oracle, side: Iterable[Label], shared: Sequence[Label]) -> tuple[Columns, Columns]:
    """The elements of each side of a 1-, 2- or 3-separation, with those that represent the other side.

    The spaces that the sides span have lambda(X) dimensions in common: nothing, a point, or over GF(2) a triangle. The summands have its
    points as well, so their sum at these is the whole matroid.
    """
    inside = set(whole.numbers(side))
    vectors = list(zip(whole.elements, whole.vectors()))
    sides = [[one for place, one in enumerate(vectors) if (place in inside) == which] for which in (True, False)]
    points = _common(whole, [vector for _, vector in sides[0]], [vector for _, vector in sides[1]])
    order = len(points) + 1
    if order > 3 or order == 3 and whole.field == 3:
        raise BadInput(f"the sides are no separation of order 1, 2, or over GF(2) 3: r(X) + r(E - X) - r(M) is {len(points)}")
    if min(map(len, sides)) < (1, 2, 4)[len(points)]:
        raise BadInput(f"each side of a {order}-sum has {(1, 2, 4)[len(points)]} elements or more")
    points += [added(2, *points)] if order == 3 else []
    names = list(shared)[: len(points)]
    if len(set(names)) < len(points):
        raise BadInput(f"the summands have {len(points)} elements in common, and here are {len(set(names))} names for them")
    _must_be_apart(whole.elements, names)
    common = list(zip(names, points))
    return (whole.rank(), [*sides[0], *common]), (whole.rank(), [*common, *sides[1]])


def _common(whole: Oracle, one: Iterable[Row], two: Iterable[Row]) -> list[Row]:
    """A basis of the space that is spanned both by some vectors and by the others."""
    span, common = Span(whole.field), Span(whole.field)
    kept = [vector for vector in one if span.add(vector)]
    count, found = len(kept), list[Row]()
    for vector in two:
        rest, (plus, minus) = span.reduced(vector)
        if any(rest):
            span.add(vector)
            continue
        # The vector is the negative of a combination of both sides, so its part in the first ones is a combination of the others too.
        total: Row = (0, 0)
        for place in range(count):
            if (plus | minus) >> place & 1:
                total = added(whole.field, total, kept[place] if plus >> place & 1 else kept[place][::-1])
        if common.add(total):
            found.append(total)
    return found


def _must_have_one_field(one: Oracle, two: Oracle) -> None:
    if one.field != two.field:
        raise BadInput(f"a sum is one of two matroids over one field, and here they are over GF({one.field}) and GF({two.field})")


def _must_be_apart(one: Iterable[Label], two: Iterable[Label]) -> None:
    common = set(one) & set(two)
    if common:
        raise BadInput(f"both matroids of a sum have the elements {label_set(sorted(common, key=str))}; `relabelled` renames elements")


def _shifted(vector: Row, places: int) -> Row:
    return vector[0] << places, vector[1] << places


def _by_basis(matroid: Oracle, first: Sequence[Label]) -> Tableau[Any]:
    """The matrix by a basis with some elements."""
    tableau = matroid.tableau()
    for element in first:
        tableau.move(element, first)
    return tableau


def _joined(one: Oracle, two: Tableau[Any], kept: Sequence[Label], gone: Sequence[Label]) -> Columns:
    """The vectors in which the basis elements of the second that go have the vectors of the ones of the first that they are."""
    height, field = one.rank(), one.field
    own = dict(zip(one.elements, one.vectors()))
    images: dict[int, Row] = {}
    for place, (_, element) in enumerate(two.row_elements.items()):
        if element in gone:
            images[place] = own[kept[gone.index(element)]]
        else:
            images[place] = 1 << height, 0
            height += 1
    vectors: list[tuple[Label, Row]] = [(element, vector) for element, vector in own.items() if element not in kept]
    for place, element in enumerate(two.row_elements.values()):
        if element not in gone:
            vectors.append((element, images[place]))
    for element, (plus, minus) in zip(two.column_elements.values(), two.columns().values()):
        if element in gone:
            continue
        total: Row = (0, 0)
        for place in bits_of(plus):
            total = added(field, total, images[place])
        for place in bits_of(minus):
            total = added(field, total, images[place][::-1])
        vectors.append((element, total))
    return height, vectors
