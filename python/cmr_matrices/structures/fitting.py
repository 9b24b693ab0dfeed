"""A tree for a matrix with too many lines of one kind for the program: from some of them, and a check of all others.

Different trees represent some columns, and a tree of more columns has fewer choices. So columns that are no paths in the tree are added,
until all columns are paths in the tree, or some columns have no tree, or they are too many.
"""

from __future__ import annotations

from collections.abc import Callable, Sequence

from ..matrices.words import LIMIT
from ..models.constraints import Constraints
from .paths import Arcs
from .structure import Structure, paths_structure

__all__ = ["fitted"]

_FIRST, _MORE = 200, 100


def fitted(constraints: Constraints, is_turned: bool, tree_of: Callable[[Sequence[int]], Arcs | None]) -> Structure | None:
    """The structure of a tree whose arcs are the rows, or the columns if it is turned. None if none is found.

    `tree_of` gives a tree for some of the other lines, or None if there is none.
    """
    counts = [0] * constraints.names.shape[0 if is_turned else 1]
    for place in constraints.entries:
        counts[place[0 if is_turned else 1]] += 1
    taken = sorted(range(len(counts)), key=lambda line: -counts[line])[:_FIRST]
    while len(taken) <= LIMIT:
        arcs = tree_of(sorted(taken))
        if arcs is None:
            return None
        structure, others = paths_structure(constraints, arcs, is_turned)
        if structure is not None:
            return structure
        taken += others[:: max(1, -(-len(others) // _MORE))]
    return None
