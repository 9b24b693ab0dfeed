"""Checks of evidence for which `cmr check` has no text: signings, reductions, minimal submatrices, graphs and faults.

Signings, reductions and faults are checked by plain arithmetic. The program answers for each graph, and for each minimal submatrix and what
is left of it without one of its lines.
"""

from __future__ import annotations

from collections.abc import Callable

from ..evidence.reductions import Reduction, Reductions
from ..evidence.signings import Signing
from ..matrices.lines import Line, LineSet
from ..matrices.matrix import Matrix
from ..matrices.submatrices import Submatrix
from .answers import Answer, Checked

__all__ = ["checked_graph", "checked_minimal", "checked_reductions", "checked_signing", "is_cycle"]

Rows = dict[Line, dict[Line, int]]


def checked_signing(matrix: Matrix, signing: Signing) -> Checked:
    """Whether each row has at most one sign, and each column sum is -1, 0 or 1."""
    signs = signing.as_dict()
    if len(signs) < len(signing.signs) or not all(row in range(matrix.shape[0]) for row in signs):
        return _refused("the signs are not signs of rows of the matrix")
    if not set(signs.values()) <= {1, -1}:
        return _refused("a sign is not 1 or -1")
    if not set(signing.column_sums(matrix)) <= {-1, 0, 1}:
        return _refused("a column sum is not -1, 0 or 1")
    return Checked(accepted=True, says="yes")


def checked_reductions(matrix: Matrix, reductions: Reductions, rest: LineSet, *, binary: bool) -> Checked:
    """Whether each step is a reduction of what the steps before it leave, and all of them leave `rest`, which has no reduction."""
    left = _lines_of(matrix)
    for number, step in enumerate(reductions):
        if not _is_reduction(left, step, binary):
            return Checked(accepted=False, step=number, rule=f"step {number + 1} of the reductions is no reduction")
        for line in left.pop(step.line):
            del left[line][step.line]
    kept = {Line("row", row) for row in rest.rows} | {Line("column", column) for column in rest.columns}
    if left.keys() != kept:
        return _refused("the reductions leave other lines")
    if any(_has_reduction(left, line, binary) for line in left):
        return _refused("a line that the reductions leave is reducible")
    return Checked(accepted=True, says="no" if left else "yes")


def checked_minimal(matrix: Matrix, minimal: Submatrix, has_property: Callable[[Matrix], bool]) -> Checked:
    """Whether a submatrix lacks the property, and has it without any one of its lines."""
    if minimal.shape != matrix.shape:
        return _refused("the minimal submatrix belongs to a matrix of another size")
    if has_property(minimal.submatrix(matrix)):
        return _refused("the minimal submatrix has the property")
    for line in (*(Line("row", row) for row in minimal.rows), *(Line("column", column) for column in minimal.columns)):
        rows = [row for row in minimal.rows if line != Line("row", row)]
        columns = [column for column in minimal.columns if line != Line("column", column)]
        if not has_property(matrix.submatrix(rows, columns)):
            return _refused(f"the minimal submatrix lacks the property without {line.kind} {line.number} too")
    return Checked(accepted=True, says="no")


def checked_graph(matrix: Matrix, answer: Answer, matrix_of: Callable[[], Matrix]) -> Checked:
    """Whether the graph of an answer is one for its property, and shows the matrix."""
    graph = answer.graph
    assert graph is not None
    arcs = "column" if answer.property_name in ("cographic", "conetwork") else "row"
    if answer.property_name in ("network", "conetwork") and not graph.directed:
        return _refused("the graph has no directions")
    if graph.shape != matrix.shape or graph.edges and graph.arc_kind != arcs or matrix_of() != matrix:
        return _refused("the graph is that of another matrix")
    return Checked(accepted=True, says="yes")


def is_cycle(matrix: Matrix, fault: Submatrix) -> bool:
    """Whether a violator has two nonzeros in each line, as a fault of balance and one of Camion's test have."""
    part = fault.submatrix(matrix)
    counts = [[0] * size for size in part.shape]
    for row, column, _ in part.nonzeros:
        counts[0][row] += 1
        counts[1][column] += 1
    return set(counts[0] + counts[1]) == {2}


def _refused(rule: str) -> Checked:
    return Checked(accepted=False, rule=rule)


def _lines_of(matrix: Matrix) -> Rows:
    """For each line its nonzeros, by the lines that cross it there."""
    rows, columns = matrix.shape
    lines: Rows = {Line("row", row): {} for row in range(rows)}
    lines |= {Line("column", column): {} for column in range(columns)}
    for row, column, value in matrix.nonzeros:
        lines[Line("row", row)][Line("column", column)] = value
        lines[Line("column", column)][Line("row", row)] = value
    return lines


def _is_reduction(left: Rows, step: Reduction, binary: bool) -> bool:
    own = left.get(step.line)
    if own is None or step.other == step.line:
        return False
    if step.reason == "zero":
        return not own
    if step.reason == "unit":
        return list(own) == [step.other]
    other = left.get(step.other) if step.other else None
    if step.other is None or other is None or step.other.kind != step.line.kind:
        return False
    return other == (own if step.reason == "copy" else _negative(own)) and not (binary and step.reason == "negative")


def _has_reduction(left: Rows, line: Line, binary: bool) -> bool:
    own = left[line]
    if len(own) < 2:
        return True
    # A copy or a negative has a nonzero in each line that crosses this one.
    near = [other for other in left[next(iter(own))] if other != line]
    return any(left[other] == own or (not binary and left[other] == _negative(own)) for other in near)


def _negative(line: dict[Line, int]) -> dict[Line, int]:
    return {crossing: -value for crossing, value in line.items()}
