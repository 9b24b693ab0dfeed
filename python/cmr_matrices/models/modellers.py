"""Constraint matrices of linear models: of files, and of what PuLP, Pyomo, linopy and scipy keep in memory.

The matrix has a row for each constraint and a column for each variable, with their names. The objective, right-hand sides and
bounds do not occur in it. docs/FROM_A_MODEL.md says what a verdict on it says of the model.

All raise `BadInput` if there are no rows, if there are more than 1,000 rows or columns, or if a coefficient is not -1, 0 or 1, with the
names of its row and its column.
"""

from __future__ import annotations

import os
import re
from typing import Any, Literal, get_args

from ..errors import BadCoefficients, BadInput, shown
from ..evidence.reductions import Reductions
from ..given import one_of
from ..matrices.large_matrix import LargeMatrix
from ..matrices.matrix import Matrix
from ..matrices.sources import MatrixLike
from ..running.program import StrPath
from .constraints import Choice, Constraints, Scaling, constraints_of_model, matrix_of_constraints, matrix_of_model
from .linear_models import read_model
from .model_objects import linopy_model, pulp_model, pyomo_model, scipy_model
from .model_reductions import connected_parts, reduced

__all__ = [
    "constraints_of_file",
    "from_linopy",
    "from_model",
    "from_model_scaled",
    "from_pulp",
    "from_pyomo",
    "from_scipy",
    "matrix_of_part",
    "reduced_parts",
    "text_of_model",
]

Format = Literal["mps", "lp", "mathprog"]
Pattern = str | re.Pattern[str]


def from_model(
    path: StrPath,
    *,
    form: Format | None = None,
    rows: Pattern | None = None,
    without: Pattern | None = None,
    unit_rows: bool = False,
    data: StrPath | None = None,
) -> Matrix:
    """The matrix of a model in a file: fixed or free MPS, the LP format of CPLEX, or GNU MathProg, with its `data` in a second file.

    Without `form`, the suffixes `.lp`, `.mod` and `.mps` determine the format, and otherwise the first characters of the file. With `rows`
    the matrix has the rows whose names have a match, with `without` the rows whose names have none, and with `unit_rows` the rows whose
    coefficients are -1, 0 and 1; its columns are those that occur in these rows. GLPK reads the files, so Debian's python3-swiglpk has to
    be installed.
    """
    choice = _choice(rows, without, unit_rows)
    return matrix_of_part(path, constraints_of_file(path, form, choice, data))


def from_model_scaled(
    path: StrPath,
    *,
    form: Format | None = None,
    rows: Pattern | None = None,
    without: Pattern | None = None,
    unit_rows: bool = False,
    data: StrPath | None = None,
) -> tuple[Matrix, tuple[Scaling, ...]]:
    """As `from_model`, after each row, and then each column, is divided by the common factor of its coefficients.

    A factor may be a fraction: rows of 0.5 are divided by 1/2. The second value lists the lines that were divided. Their right-hand sides
    have to be integral after the division; the list names those that are not.
    """
    choice = _choice(rows, without, unit_rows, scale=True)
    constraints = constraints_of_file(path, form, choice, data)
    return matrix_of_part(path, constraints), constraints.scalings


def reduced_parts(
    path: StrPath,
    *,
    form: Format | None = None,
    rows: Pattern | None = None,
    without: Pattern | None = None,
    unit_rows: bool = False,
    data: StrPath | None = None,
) -> tuple[tuple[Matrix, ...], Reductions]:
    """The connected parts of a model without its reducible lines, and the reductions. The model may have any number of rows.

    A line is reducible if it is zero, has one nonzero, or is a copy or a negative of another line. The matrix of the model is totally
    unimodular if and only if all parts are. Raises `BadInput` if a part is too large for a matrix.
    """
    choice = _choice(rows, without, unit_rows)
    left, steps = reduced(constraints_of_file(path, form, choice, data))
    return tuple(matrix_of_part(path, part) for part in connected_parts(left)), steps


def constraints_of_file(path: StrPath, form: Format | None, choice: Choice, data: StrPath | None) -> Constraints:
    """The chosen constraints of a model in a file, of any number. Every fault names the file."""
    if not isinstance(path, (str, os.PathLike)):
        raise BadInput(f"a model is the path of its file, and here it is {shown(path)}")
    if data is not None and not isinstance(data, (str, os.PathLike)):
        raise BadInput(f"data is the path of the file with the data, and here it is {shown(data)}")
    if form is not None:
        one_of("form", form, get_args(Format))
    name = os.fspath(path)
    model = read_model(name, form, None if data is None else os.fspath(data))
    try:
        return constraints_of_model(model, choice)
    except BadCoefficients as fault:
        raise BadCoefficients(f"{name}: {fault.place}", fault.families) from fault
    except BadInput as fault:
        raise BadInput(f"{name}: {fault}") from fault


def text_of_model(path: StrPath) -> str:
    """The sparse text of the constraint matrix of a model in a file, with any number of rows and columns."""
    constraints = constraints_of_file(path, None, Choice(), None)
    return LargeMatrix.of_entries(constraints.entries, constraints.names).to_text()


def matrix_of_part(path: StrPath, constraints: Constraints) -> Matrix:
    """The matrix of the constraints of a file. If there are too many, the error names the file."""
    try:
        return matrix_of_constraints(constraints)
    except BadInput as fault:
        raise BadInput(f"{os.fspath(path)}: {fault}") from fault


def _choice(rows: Pattern | None, without: Pattern | None, unit_rows: bool, *, scale: bool = False) -> Choice:
    return Choice(_pattern("rows", rows), _pattern("without", without), bool(unit_rows), scale)


def _pattern(name: str, pattern: Pattern | None) -> re.Pattern[str] | None:
    if pattern is None or (isinstance(pattern, re.Pattern) and isinstance(pattern.pattern, str)):
        return pattern
    if not isinstance(pattern, str):
        raise BadInput(f"{name} is a regular expression, and here it is {shown(pattern)}")
    try:
        return re.compile(pattern)
    except re.error as fault:
        raise BadInput(f"{name}: {pattern} is no regular expression: {fault}") from fault


def from_pulp(
    problem: Any, *, rows: Pattern | None = None, without: Pattern | None = None, unit_rows: bool = False
) -> Matrix:
    """The matrix of a `pulp.LpProblem`: its constraints in their order, and its variables in the order of `variables()`.

    `rows`, `without` and `unit_rows` choose constraints as in `from_model`. Raises `BadInput` if it has special ordered sets.
    """
    return matrix_of_model(pulp_model(problem), _choice(rows, without, unit_rows))[0]


def from_pyomo(
    model: Any, *, rows: Pattern | None = None, without: Pattern | None = None, unit_rows: bool = False
) -> Matrix:
    """The matrix of a model of Pyomo: its active constraints, and its variables that are not fixed.

    `rows`, `without` and `unit_rows` choose constraints as in `from_model`. Raises `BadInput` at a constraint that is not linear, or
    if it has special ordered sets.
    """
    return matrix_of_model(pyomo_model(model, "from_pyomo"), _choice(rows, without, unit_rows))[0]


def from_linopy(
    model: Any, *, rows: Pattern | None = None, without: Pattern | None = None, unit_rows: bool = False
) -> Matrix:
    """The matrix of a `linopy.Model`. Its lines have the labels of linopy as names, `con0`, `con1`, .., `var0`, `var1`, ..

    `rows`, `without` and `unit_rows` choose constraints as in `from_model`.
    """
    return matrix_of_model(linopy_model(model), _choice(rows, without, unit_rows))[0]


def from_scipy(
    A_ub: MatrixLike | None = None,  # noqa: N803 # pylint: disable=invalid-name
    A_eq: MatrixLike | None = None,  # noqa: N803 # pylint: disable=invalid-name
    *,
    rows: Pattern | None = None,
    without: Pattern | None = None,
    unit_rows: bool = False,
) -> Matrix:
    """The matrix of the arguments of `scipy.optimize.linprog`: the rows of `A_ub`, and below them those of `A_eq`.

    The rows are named `ub0`, `ub1`, .., `eq0`, `eq1`, .., and the columns `x0`, `x1`, .. `rows`, `without` and `unit_rows` choose rows
    by these names as in `from_model`, so `rows="eq"` takes those of `A_eq`.
    """
    return matrix_of_model(scipy_model(A_ub, None, A_eq), _choice(rows, without, unit_rows))[0]
