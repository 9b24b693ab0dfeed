"""The search for an excluded minor of a matrix outside of a class: it deletes and contracts the elements that are not needed.

If the matroid is in the class after the deletion of an element and after its contraction, the element is needed: every minor outside of
the class contains it. An element that is needed remains needed in each minor. So each element is tried once, and the remaining minor
contains no smaller minor outside of the class.
"""

from __future__ import annotations

from collections.abc import Callable, Iterator, Sequence

from ..errors import ProgramFault, Undecided
from ..matrices.lines import Line
from ..matrices.matrix import Matrix
from ..matroids.circuits import circuits, isomorphism
from ..matroids.named_matroids import field_of_named, named
from ..matroids.tableaux import Field, Operation, Tableau, bits_of
from ..running.program import NO
from .excluded import ExcludedMinor, MinorClass
from .minor_values import elements_after

__all__ = ["Outside", "display", "fewer_lines", "four_points", "least_minor", "line_tableau", "named_minor"]

Outside = Callable[[Tableau[Line]], bool | None]
"""Whether the matrix of a tableau is outside of a class; None if that is undecided."""


def line_tableau(matrix: Matrix, field: Field) -> Tableau[Line]:
    """The tableau of a matrix whose elements are its lines."""
    return Tableau.of(matrix, field, *elements_after(matrix.shape, ()))


def fewer_lines(tableau: Tableau[Line], outside: Outside) -> None:
    """Takes lines of a tableau outside of a class away, many at once and then fewer, while it stays outside."""
    _Reduction(tableau, outside).reduce(with_pivots=False)


def least_minor(tableau: Tableau[Line], kind: MinorClass, outside: Outside) -> None:
    """Reduces a tableau outside of a class to an excluded minor. Raises `Undecided` if the class of a smaller minor is undecided.

    Lines are removed before there are pivots, so that few pivots are needed. Series and parallel elements are removed without a question,
    since the excluded minors have none.
    """
    reduction = _Reduction(tableau, outside, lambda: _recognised(tableau, kind) is not None)
    reduction.reduce(with_pivots=False)
    reduction.reduce(with_pivots=True)
    while not reduction.is_done() and reduction.try_open():
        pass
    if reduction.open and not reduction.is_done():
        rows, columns = tableau.shape
        left = f"a minor of size {rows}x{columns} is outside of the class"
        raise Undecided(f"{left}, and whether smaller ones are is undecided")


class _Reduction:
    """A tableau outside of a class, and what is known of its elements."""

    def __init__(self, tableau: Tableau[Line], outside: Outside, is_done: Callable[[], bool] = lambda: False) -> None:
        self._tableau = tableau
        self._outside = outside
        self.is_done = is_done
        self._needed: set[tuple[Line, Operation]] = set()
        self.open: set[tuple[Line, Operation]] = set()
        """What is left undecided: deleting or contracting an element."""
        tableau.simplify()

    def reduce(self, *, with_pivots: bool) -> None:
        """Tries all elements, many at once and then fewer: to take their lines away, and with pivots what that leaves out."""
        size = len(self._tableau) // 2
        while size and not self.is_done():
            self._try_all(size, with_pivots)
            size = min(size, len(self._tableau)) // 2

    def _try_all(self, size: int, with_pivots: bool) -> None:
        elements = self._tableau.elements
        for start in range(0, len(elements), size):
            chunk = elements[start : start + size]
            goes = self._goes(chunk, by_lines=True) or (with_pivots and self._goes(chunk, by_lines=False))
            if goes and self.is_done():
                return

    def try_open(self) -> bool:
        """Tries the undecided elements again, since fewer elements are left. Returns whether it has removed an element."""
        again, self.open = self.open, set()
        return any([self._can_go([one]) for one in sorted(again)])

    def _goes(self, chunk: Sequence[Line], *, by_lines: bool) -> bool:
        """Removes the remaining elements of a chunk all at once, if that is possible, and returns whether it is."""
        places = self._tableau.places
        operations: list[tuple[Line, Operation]] = [
            (element, "contract" if (places[element].kind == "row") == by_lines else "delete")
            for element in chunk
            if element in places
        ]
        return self._can_go(operations)

    def _can_go(self, operations: Sequence[tuple[Line, Operation]]) -> bool:
        """Does operations if the matroid then stays outside of the class. Operations that are known to lead into it are not tried."""
        chosen = [one for one in operations if one not in self._needed and one[0] in self._tableau.places]
        if not chosen:
            return False
        smaller = self._tableau.copy()
        smaller.apply(chosen)
        smaller.simplify()
        is_outside = len(smaller) > 0 and self._outside(smaller)
        if is_outside:
            self._tableau.take(smaller)
        elif len(chosen) == 1:
            (self.open if is_outside is None else self._needed).add(chosen[0])
        return bool(is_outside)


def _recognised(tableau: Tableau[Line], kind: MinorClass) -> tuple[str, list[Line]] | None:
    """The excluded minor that is left, by its name and with its elements in the order of the named matroid, or None."""
    shape = tableau.shape
    for name in kind.excluded:
        of = field_of_named(name)
        wanted = named(name, of)
        if wanted.shape == shape:
            own = circuits(tableau.matrix().to_lists(), shape[1], tableau.field)
            found = isomorphism(circuits(wanted.to_lists(), shape[1], of), own, sum(shape))
            if found is not None:
                return name, [tableau.elements[place] for place in found]
    return None


def named_minor(tableau: Tableau[Line], matrix: Matrix, kind: MinorClass) -> ExcludedMinor:
    """The excluded minor that a tableau of a matrix contains, with as few pivots as lead to its elements.

    Raises `ProgramFault` if the tableau contains no excluded minor, since an answer of the search was then wrong.
    """
    found = _recognised(tableau, kind)
    if found is None:
        rows, columns = tableau.shape
        raise ProgramFault(NO, f"what is left, of size {rows}x{columns}, is no excluded minor of the class {kind.name}")
    return _displayed_minor(tableau, matrix, kind, *found)


def _displayed_minor(
    tableau: Tableau[Line], matrix: Matrix, kind: MinorClass, name: str, elements: Sequence[Line]
) -> ExcludedMinor:
    """The minor with these elements, in the order of the named matroid."""
    pivots, rows, columns = display(tableau, matrix, elements)
    return ExcludedMinor(kind.name, name, matrix.shape, pivots, rows, columns, matrix.names)


def display(
    tableau: Tableau[Line], matrix: Matrix, elements: Sequence[Line]
) -> tuple[tuple[tuple[int, int], ...], tuple[int, ...], tuple[int, ...]]:
    """Pivots that bring the basis of a minor into rows of the whole matrix, and the rows and the columns of its elements.

    The tableau has the minor, and the elements are first the basis and then the others.
    """
    basis, others = elements[: len(tableau.row_elements)], elements[len(tableau.row_elements) :]
    for element in basis:
        tableau.move(element, basis)
    in_rows = set(elements_after(matrix.shape, tableau.pivots)[0])
    leaving = [row for row in range(matrix.shape[0]) if Line("row", row) not in in_rows]
    entering = [line.number for line in sorted(in_rows) if line.kind == "column"]
    pivots = _pivots_between(matrix, tableau.field, leaving, entering)
    rows, columns = elements_after(matrix.shape, pivots)
    return pivots, tuple(rows.index(element) for element in basis), tuple(columns.index(element) for element in others)


def _pivots_between(
    matrix: Matrix, field: Field, leaving: Sequence[int], entering: Sequence[int]
) -> tuple[tuple[int, int], ...]:
    """Pivots that bring the elements of some columns into the basis, and those of as many rows out of it."""
    tableau = line_tableau(matrix, field)
    tableau.keep(leaving, entering)
    for column in entering:
        row = next(row for row in tableau.rows if tableau.entry(row, column))
        tableau.pivot(row, column)
        tableau.remove_row(row)
    return tuple(tableau.pivots)


def four_points(tableau: Tableau[Line]) -> None:
    """Leaves of a tableau over GF(3) that is a violator a minor U2,4, by pivots.

    A pivot over the integers keeps the sums of the other rows and columns even, and their total sum modulo 4. So some pivot makes an entry
    2 or -2: then its row, the row of that entry and the two columns are the minor.
    """
    while True:
        row, column = _first_nonzero(tableau)
        found = next(_odd_squares(tableau, row, column), None)
        if found is not None:
            for other in tableau.rows.keys() - {row, found[0]}:
                tableau.remove_row(other)
            tableau.remove_columns(tableau.column_elements.keys() - {column, found[1]})
            return
        tableau.pivot(row, column)
        tableau.remove_row(row)
        tableau.remove_columns([column])


def _first_nonzero(tableau: Tableau[Line]) -> tuple[int, int]:
    for row, (plus, minus) in tableau.rows.items():
        if plus | minus:
            return row, next(bits_of(plus | minus))
    raise ProgramFault(NO, "what the program names is no violator")


def _odd_squares(tableau: Tableau[Line], row: int, column: int) -> Iterator[tuple[int, int]]:
    """The places that are, with a row and a column, squares of nonzeros whose determinant is 2 or -2."""
    plus, minus = tableau.rows[row]
    sign = tableau.entry(row, column)
    for other, (ones, others) in tableau.rows.items():
        below = tableau.entry(other, column)
        if other == row or not below:
            continue
        unlike = ones & minus | others & plus if sign * below > 0 else ones & plus | others & minus
        yield from ((other, at) for at in bits_of(unlike))
