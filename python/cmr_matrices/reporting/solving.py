"""The linear program of one model, solved by GLPK: whether its optimal vertex is integral, for its objective and its sides and bounds.

It decides nothing about the matrix. The numbers are those of GLPK, which computes with floating point.
"""

from __future__ import annotations

import time
from dataclasses import dataclass, field
from math import isfinite
from typing import Any, Literal

from ..errors import LibraryMissing, TimeLimitReached
from ..libraries import library
from ..models.linear_models import Ends, Model

__all__ = ["Solved", "solved"]

_NEAR = 1e-6
"""How far a value may be from an integer."""

_BRANCHING = 2.0
"""The most seconds of the search for an integral solution."""

_LONGEST = 2_000_000.0


@dataclass(frozen=True)
class Solved:
    """What GLPK says of the linear program. If it is solved, it has a value, and the integer variables with other values are fractional."""

    state: Literal["optimal", "infeasible", "unbounded"]
    value: float | None = None
    fractional: tuple[tuple[int, float], ...] = field(default=(), repr=False)
    best: float | None = None
    """The value of the best integral solution that was found, if a variable is fractional."""
    is_best: bool = False
    """Whether GLPK says that no integral solution is better, or that there is none."""


def solved(model: Model, seconds: float | None) -> Solved | None:
    """What GLPK finds in this time. None if it is missing, or if the model is no linear program with a known objective.

    Raises `TimeLimitReached` if the time is over before the linear program is solved.
    """
    if model.objective is None or model.left_out or not model.sides or not model.bounds:
        return None
    try:
        glpk = library("swiglpk", "solving a model")
    except LibraryMissing:
        return None
    end = time.monotonic() + min(_LONGEST, _LONGEST if seconds is None else seconds)
    glpk.glp_term_out(glpk.GLP_OFF)
    problem = _problem(glpk, model)
    try:
        if _is_over(glpk, problem, end):
            raise TimeLimitReached(seconds or 0.0)
        return _of_problem(glpk, problem, model, end)
    finally:
        glpk.glp_delete_prob(problem)


def _is_over(glpk: Any, problem: Any, end: float) -> bool:
    """Solves the linear program. Whether the time ends it."""
    control = glpk.glp_smcp()
    glpk.glp_init_smcp(control)
    control.tm_lim = _milliseconds(end)
    return bool(glpk.glp_simplex(problem, control) == glpk.GLP_ETMLIM)


def _of_problem(glpk: Any, problem: Any, model: Model, end: float) -> Solved | None:
    """What the simplex method has found. None if it failed."""
    states = {glpk.GLP_NOFEAS: "infeasible", glpk.GLP_INFEAS: "infeasible", glpk.GLP_UNBND: "unbounded"}
    state = glpk.glp_get_status(problem)
    if state in states:
        return Solved(states[state])  # type: ignore[arg-type]
    if state != glpk.GLP_OPT:
        return None
    value = _plain(glpk.glp_get_obj_val(problem))
    taken = [column for column in range(len(model.columns)) if not any(model.whole) or model.whole[column]]
    values = ((column, glpk.glp_get_col_prim(problem, column + 1)) for column in taken)
    fractional = tuple((column, _plain(it)) for column, it in values if abs(it - round(it)) > _NEAR)
    if not fractional:
        return Solved("optimal", value)
    return Solved("optimal", value, fractional, *_best(glpk, problem, taken, min(end, time.monotonic() + _BRANCHING)))


def _best(glpk: Any, problem: Any, whole: list[int], end: float) -> tuple[float | None, bool]:
    """The value of an integral solution, or None, and whether none is better."""
    for column in whole:
        glpk.glp_set_col_kind(problem, column + 1, glpk.GLP_IV)
    control = glpk.glp_iocp()
    glpk.glp_init_iocp(control)
    control.tm_lim = _milliseconds(end)
    if glpk.glp_intopt(problem, control) not in (0, glpk.GLP_ETMLIM):
        return None, False
    state = glpk.glp_mip_status(problem)
    if state in (glpk.GLP_OPT, glpk.GLP_FEAS):
        return _plain(glpk.glp_mip_obj_val(problem)), state == glpk.GLP_OPT
    return None, bool(state == glpk.GLP_NOFEAS)


def _milliseconds(end: float) -> int:
    return max(1, min(int(1000 * (end - time.monotonic())), 2_000_000_000))


def _plain(value: float) -> float:
    """A value without the last digits, and an integer if it is near to one."""
    return float(round(value)) if abs(value - round(value)) <= _NEAR else float(f"{value:.9g}")


def _problem(glpk: Any, model: Model) -> Any:
    problem = glpk.glp_create_prob()
    assert model.objective is not None
    glpk.glp_set_obj_dir(problem, glpk.GLP_MAX if model.objective.is_maximised else glpk.GLP_MIN)
    glpk.glp_add_rows(problem, len(model.rows))
    glpk.glp_add_cols(problem, len(model.columns))
    for row, ends in enumerate(model.sides, 1):
        glpk.glp_set_row_bnds(problem, row, *_bounds(glpk, ends))
    for column, ends in enumerate(model.bounds, 1):
        glpk.glp_set_col_bnds(problem, column, *_bounds(glpk, ends))
    for column, cost in model.objective.coefficients:
        glpk.glp_set_obj_coef(problem, column + 1, cost)
    count = len(model.coefficients)
    rows, columns, values = glpk.intArray(count + 1), glpk.intArray(count + 1), glpk.doubleArray(count + 1)
    for place, it in enumerate(model.coefficients, 1):
        rows[place], columns[place], values[place] = it.row + 1, it.column + 1, it.value
    glpk.glp_load_matrix(problem, count, rows, columns, values)
    return problem


def _bounds(glpk: Any, ends: Ends) -> tuple[int, float, float]:
    if ends.lower == ends.upper:
        kind = glpk.GLP_FX
    elif isfinite(ends.lower):
        kind = glpk.GLP_DB if isfinite(ends.upper) else glpk.GLP_LO
    else:
        kind = glpk.GLP_UP if isfinite(ends.upper) else glpk.GLP_FR
    return kind, ends.lower if isfinite(ends.lower) else 0.0, ends.upper if isfinite(ends.upper) else 0.0
