"""Excluded minors of a matrix that is outside of a class: the program says that it is, and what is found can be verified without it."""

from __future__ import annotations

from dataclasses import replace

from ..matrices.lines import Line
from ..matrices.matrix import Matrix
from ..matroids.matroid_values import MatroidValue
from ..matroids.tableaux import Tableau
from ..running.calls import Call
from ..running.program import StrPath
from .asked import MatroidLike, asked_property, matrix_given
from .excluded import ExcludedMinor, MinorClass, minor_class
from .minor_search import four_points, least_minor, line_tableau, named_minor
from .narrowing import GRAPHS, Narrowing
from .options import budget_words
from .reading import Question

__all__ = ["excluded_minor"]


def excluded_minor(
    matrix: MatroidLike,
    of: str,
    *,
    lines: int | None = None,
    workers: int | None = None,
    pivots: int = 20,
    time_limit: float | None = None,
    program: StrPath | None = None,
) -> ExcludedMinor | None:
    """An excluded minor of a matrix outside of a class, or None if the matrix is in the class.

    The classes, each with its excluded minors, are `totally unimodular` (U2,4), `regular` (F7, F7*), `graphic` (F7, F7*, M*(K5),
    M*(K3,3)), `cographic` (F7, F7*, M(K5), M(K3,3)), `network` (U2,4, M*(K5), M*(K3,3)), `conetwork` (U2,4, M(K5), M(K3,3)),
    `series-parallel` (U2,4, M(K4)) and `binary series-parallel` (M(K4)). Regular, graphic, cographic and binary series-parallel matrices
    are 0/1, and represent a binary matroid; the others represent one over GF(3). A `Matroid` is asked for the class of its field: over
    GF(3) `regular` is `totally unimodular`, `graphic` is `network` and `cographic` is `conetwork`, and over GF(2) the other way round.

    `lines` is the budget of each search, 0 to 24 lines (14); `workers` the threads that share it, 1 to 64 (1); `pivots` the number of
    pivots that may be made on the path to an open part, 0 to 100 (20). `time_limit` is in seconds, 0 to 2,000,000, for the whole call.
    `program` is the program's path.

    Raises `Undecided` if the program does not decide whether the matrix is in the class.

    Source: Tutte 1958 and 1959; Oxley, *Matroid Theory*; the module `excluded` says why.
    """
    kind = minor_class(asked_property(minor_class(of).name, matrix))
    budget = tuple(budget_words(lines, pivots, workers))
    call = Call.begin(program, time_limit)
    taken = matrix_given(matrix)
    if kind.field == 2:
        taken.must_be_binary()
    narrowing = Narrowing(call.clock, call.program, budget)
    if kind.name in ("cographic", "conetwork"):
        dual = minor_class(kind.name.removeprefix("co"))
        turned = _minor(narrowing, dual, taken.T)
        found = None if turned is None else turned.transposed()
    else:
        found = _minor(narrowing, kind, taken)
    labels = matrix.elements if isinstance(matrix, MatroidValue) else None
    return None if found is None else replace(found, labels=labels)


def _minor(narrowing: Narrowing, kind: MinorClass, matrix: Matrix) -> ExcludedMinor | None:
    """A minor that a class excludes, or None if the matrix is in the class."""
    tableau = line_tableau(matrix, kind.field)
    outside = narrowing.outside(kind.name) if kind.name not in GRAPHS else None
    if not (_narrowed(narrowing, kind, tableau) if outside is None else outside(tableau)):
        return None
    if kind.name == "totally unimodular":
        four_points(tableau)
    else:
        least_minor(tableau, kind, outside or narrowing.outside(kind.name))
    return named_minor(tableau, matrix, kind)


def _narrowed(narrowing: Narrowing, kind: MinorClass, tableau: Tableau[Line]) -> bool:
    """Whether a matrix is not totally unimodular, or not regular. Then lines are left on which it is not.

    The whole matrix, on which the program may spend long, is asked only if no part of it that is outside of a class of graphs shows a no.
    """
    parts = 0
    for part in narrowing.parts(tableau, kind.name):
        parts += 1
        if _shown(narrowing, kind, part):
            tableau.take(part)
            return True
    return parts == len(GRAPHS[kind.name]) and _shown(narrowing, kind, tableau, must_be_decided=True)


def _shown(narrowing: Narrowing, kind: MinorClass, tableau: Tableau[Line], *, must_be_decided: bool = False) -> bool:
    """Whether a no is shown by lines of a tableau, which are then left: a violator, or the lines of the steps of a chain."""
    files = {"-C": "chain"} if kind.name == "regular" else {}
    question = Question(kind.name, (kind.word, *narrowing.budget), files)
    answer = question.ask(tableau.matrix(), narrowing.program, narrowing.clock)
    if answer.is_undecided and must_be_decided:
        bool(answer)
    shown = answer.chain.needed if answer.chain is not None else answer.violator
    if shown is not None:
        tableau.keep(shown.rows, shown.columns)
    return shown is not None
