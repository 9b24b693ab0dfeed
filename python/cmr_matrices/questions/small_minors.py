"""The search for a minor of a small matroid that is isomorphic to another matroid.

Every minor is (M / I) | X, where I is independent and X has the rank of M / I. So elements are contracted first, until the rank is that
of the minor: of isomorphic matroids one is kept, and of elements that automorphisms map to each other one is contracted. Then the other
matroid is embedded. If fewer elements are to be deleted than contracted, the search is for the dual minor of the dual matroid.
"""

from __future__ import annotations

from collections.abc import Iterator
from typing import TYPE_CHECKING

from ..evidence.forced_signs import forced_signs
from ..matrices.lines import Line
from ..matroids.embeddings import Embedding
from ..matroids.matroid_values import Label
from ..matroids.tableaux import Field
from ..running.clock import Clock
from .asked import matrix_given
from .mappings import automorphisms_of, fingerprint, isomorphism_of
from .minor_search import display, line_tableau
from .minor_values import FoundMinor

if TYPE_CHECKING:
    from .represented import Matroid

__all__ = ["minor_like"]


def minor_like(whole: Matroid, wanted: Matroid, clock: Clock) -> FoundMinor | None:
    """A minor that is isomorphic to a matroid, or None if there is none."""
    more_rank, more_corank = whole.rank() - wanted.rank(), whole.corank() - wanted.corank()
    same = None if more_rank < 0 or more_corank < 0 else _over(wanted, whole.field, clock)
    if same is None:
        return None
    is_dual = more_corank < more_rank
    one, two = (whole.dual(), same.dual()) if is_dual else (whole, same)
    found = _Contractions(two, clock).embedding(one, min(more_rank, more_corank))
    return None if found is None else _shown(whole, wanted, found, is_dual=is_dual)


def _over(wanted: Matroid, field: Field, clock: Clock) -> Matroid | None:
    """The matroid with a matrix over a field, or None if it has none: then it is no minor of a matroid over the field."""
    if wanted.field == field:
        return wanted
    entries = wanted.matrix.support() if field == 2 else forced_signs(wanted.matrix)[1]
    same = type(wanted).of(entries, field, row_names=wanted.basis, column_names=wanted.others)
    return None if isomorphism_of(same, wanted, clock) is None else same


_Found = tuple[dict[Label, Label], tuple[Label, ...]]
"""The element of the whole matroid for each element of the wanted one, and the elements that are contracted."""


class _Contractions:
    """The contractions of a matroid that were tried, by how many elements are still to be contracted."""

    def __init__(self, wanted: Matroid, clock: Clock) -> None:
        self._wanted = Embedding.of(wanted.tableau(), clock)
        self._clock = clock
        self._tried: dict[object, list[Matroid]] = {}

    def embedding(self, matroid: Matroid, more: int, contracted: tuple[Label, ...] = ()) -> _Found | None:
        """The wanted matroid in a matroid in which more elements are contracted."""
        self._clock.left()
        if not more:
            found = self._wanted.into(matroid.tableau())
            return None if found is None else (found, contracted)
        for element in self._elements(matroid):
            smaller = matroid.contract(element)
            alike = self._tried.setdefault((more, fingerprint(smaller, self._clock)), [])
            if all(isomorphism_of(smaller, other, self._clock) is None for other in alike):
                alike.append(smaller)
                below = self.embedding(smaller, more - 1, (*contracted, element))
                if below is not None:
                    return below
        return None

    def _elements(self, matroid: Matroid) -> Iterator[Label]:
        """The elements to contract, one of each orbit. Loops are not independent."""
        loops = matroid.loops()
        for orbit in automorphisms_of(matroid, self._clock).orbits:
            element = min(orbit, key=matroid.elements.index)
            if element not in loops:
                yield element


def _shown(whole: Matroid, wanted: Matroid, found: _Found, *, is_dual: bool) -> FoundMinor:
    """The minor in the matrix of the whole matroid, with its elements in the order of the wanted matroid."""
    to, gone = found
    kept = set(to.values())
    rest = [element for element in whole.elements if element not in kept and element not in gone]
    deleted, contracted = (gone, rest) if is_dual else (rest, gone)
    matrix = matrix_given(whole)
    lines = {element: Line("row", row) for row, element in enumerate(whole.basis)}
    lines |= {element: Line("column", column) for column, element in enumerate(whole.others)}
    tableau = line_tableau(matrix, whole.field)
    tableau.apply([(lines[element], "contract") for element in contracted])
    tableau.apply([(lines[element], "delete") for element in deleted])
    placed = display(tableau, matrix, [lines[to[element]] for element in wanted.elements])
    return FoundMinor(wanted, whole.field, matrix.shape, *placed, whole.elements, matrix.names)
