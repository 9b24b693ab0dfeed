"""Models in memory: what PuLP, Pyomo, linopy and scipy keep, as values of this package."""

from __future__ import annotations

import re
from collections.abc import Iterable, Iterator, Sequence
from dataclasses import replace
from math import inf, isfinite
from typing import Any

from ..errors import BadInput, shown
from ..libraries import library
from ..matrices.sources import MatrixLike, entries_of
from .linear_models import Coefficient, Ends, Model, Objective
from .model_texts import NONLINEAR_OBJECTIVE, SEMICONTINUOUS

__all__ = ["linopy_model", "model_of", "pulp_model", "pyomo_model", "scipy_model"]

_Found = Iterable[tuple[int, int, Any]]


def model_of(problem: Any) -> Model:
    """The model that an object of PuLP, Pyomo, linopy or scipy is. A blank in a name becomes `_`."""
    if isinstance(problem, Model):
        model = problem
    elif _is_pulp(problem):
        model = pulp_model(problem)
    elif callable(getattr(problem, "component_data_objects", None)):
        model = pyomo_model(problem, "model_report")
    elif hasattr(problem, "matrices"):
        model = linopy_model(problem)
    elif (found := _constraints_of_scipy(problem)) is not None:
        model = _constraints_model(found)
    else:
        kinds = "a pulp.LpProblem, a ConcreteModel of Pyomo, a linopy.Model, constraints of scipy.optimize.milp or a Model"
        raise BadInput(f"a model is the path of its file, {kinds}, and here it is {shown(problem)}")
    return replace(model, rows=_without_blanks(model.rows), columns=_without_blanks(model.columns))


def _without_blanks(names: Iterable[str]) -> tuple[str, ...]:
    return tuple(re.sub(r"\s+", "_", name) for name in names)


def _is_pulp(problem: Any) -> bool:
    return callable(getattr(problem, "variables", None)) and hasattr(problem, "constraints")


def pulp_model(problem: Any) -> Model:
    """The model of a `pulp.LpProblem`: its constraints in their order, and its variables in the order of `variables()`."""
    if not _is_pulp(problem):
        raise BadInput(f"a model of PuLP is a pulp.LpProblem, and here it is {shown(problem)}")
    if getattr(problem, "sos1", None) or getattr(problem, "sos2", None):
        raise BadInput("no linear model: special ordered sets are no rows of a matrix")
    variables = list(problem.variables())
    places = {variable.name: place for place, variable in enumerate(variables)}
    constraints = list(problem.constraints.values())
    found = (
        (row, places[variable.name], value)
        for row, constraint in enumerate(constraints)
        for variable, value in constraint.items()
    )
    is_semicontinuous = any(getattr(variable, "cat", "") == "SemiContinuous" for variable in variables)
    rows, columns = tuple(map(str, problem.constraints)), tuple(variable.name for variable in variables)
    return Model(
        rows,
        columns,
        _coefficients(found, rows, columns),
        tuple(_side(constraint.sense, -constraint.constant) for constraint in constraints),
        tuple(_ends(variable.lowBound, variable.upBound) for variable in variables),
        tuple(variable.cat == "Integer" for variable in variables),
        (SEMICONTINUOUS,) if is_semicontinuous else (),
        Objective(tuple((places[it.name], float(value)) for it, value in problem.objective.items()), problem.sense == -1)
        if getattr(problem, "objective", None) is not None
        else None,
    )


def _side(sense: int, side: float) -> Ends:
    return Ends(-inf if sense < 0 else float(side), inf if sense > 0 else float(side))


def pyomo_model(model: Any, use: str) -> Model:
    """The model of a `ConcreteModel` of Pyomo: its active constraints, and its variables that are not fixed."""
    if not callable(getattr(model, "component_data_objects", None)):
        raise BadInput(f"a model of Pyomo is a ConcreteModel, and here it is {shown(model)}")
    environ = library("pyomo.environ", use)
    represented = library("pyomo.repn", use).generate_standard_repn
    if any(True for _ in model.component_data_objects(environ.SOSConstraint, active=True)):
        raise BadInput("no linear model: special ordered sets are no rows of a matrix")
    variables = [variable for variable in model.component_data_objects(environ.Var) if not variable.fixed]
    constraints = list(model.component_data_objects(environ.Constraint, active=True))
    places = {id(variable): place for place, variable in enumerate(variables)}
    found: list[tuple[int, int, Any]] = []
    sides = []
    for row, constraint in enumerate(constraints):
        terms = represented(constraint.body)
        if not terms.is_linear():
            raise BadInput(f"row {constraint.name}: the constraint is not linear")
        found += ((row, places[id(of)], value) for of, value in zip(terms.linear_vars, terms.linear_coefs))
        ends = (None if end is None else environ.value(end) for end in (constraint.lower, constraint.upper))
        sides.append(_ends(*(None if end is None else end - terms.constant for end in ends)))
    objectives = model.component_data_objects(environ.Objective, active=True)
    is_linear = all(represented(objective.expr).is_linear() for objective in objectives)
    rows, columns = (tuple(str(it.name) for it in lines) for lines in (constraints, variables))
    return Model(
        rows,
        columns,
        _coefficients(found, rows, columns),
        tuple(sides),
        tuple(_ends(variable.lb, variable.ub) for variable in variables),
        tuple(not variable.is_continuous() for variable in variables),
        () if is_linear else (NONLINEAR_OBJECTIVE,),
    )


def linopy_model(model: Any) -> Model:
    """The model of a `linopy.Model`. Its lines have the labels of linopy as names, `con0`, `con1`, .., `var0`, `var1`, .."""
    kept: Any = getattr(model, "matrices", None)
    if not all(hasattr(kept, part) for part in ("A", "clabels", "vlabels")):
        raise BadInput(f"a model of linopy is a linopy.Model, and here it is {shown(model)}")
    senses, sides = list(getattr(kept, "sense", ())), list(getattr(kept, "b", ()))
    bounds = zip(getattr(kept, "lb", ()), getattr(kept, "ub", ()))
    rows, columns = tuple(f"con{label}" for label in kept.clabels), tuple(f"var{label}" for label in kept.vlabels)
    return Model(
        rows,
        columns,
        _coefficients(entries_of(kept.A).entries, rows, columns),
        tuple(_side(_SENSES.get(str(sense)[:1], 0), side) for sense, side in zip(senses, sides)),
        tuple(_ends(lower, upper) for lower, upper in bounds),
        tuple(str(kind) in "BI" for kind in getattr(kept, "vtypes", ())),
        (NONLINEAR_OBJECTIVE,) if getattr(model, "is_quadratic", False) else (),
    )


_SENSES = {"<": -1, "=": 0, ">": 1}


def scipy_model(
    A_ub: MatrixLike | None = None,  # noqa: N803 # pylint: disable=invalid-name
    b_ub: Sequence[float] | None = None,
    A_eq: MatrixLike | None = None,  # noqa: N803 # pylint: disable=invalid-name
    b_eq: Sequence[float] | None = None,
    bounds: Any = None,
    integrality: Any = None,
) -> Model:
    """The model of the arguments of `scipy.optimize.linprog`, without `c`. Give it to `model_report`.

    The rows are named `ub0`, `ub1`, .., `eq0`, `eq1`, .., and the columns `x0`, `x1`, .. `bounds` is one pair, a sequence of pairs or a
    `scipy.optimize.Bounds`; the default is (0, None).
    """
    names: list[str] = []
    found: list[tuple[int, int, Any]] = []
    sides: list[Ends] = []
    widths: set[int] = set()
    for kind, source, given in (("ub", A_ub, b_ub), ("eq", A_eq, b_eq)):
        if source is None:
            continue
        entries = entries_of(source)
        count = entries.shape[0]
        found += ((row + len(names), column, value) for row, column, value in entries.entries)
        names += (f"{kind}{row}" for row in range(count))
        widths.add(entries.shape[1])
        if given is not None:
            values = map(float, _numbers(f"b_{kind}", given, count))
            sides += (Ends(side if kind == "eq" else -inf, side) for side in values)
    if len(widths) > 1:
        raise BadInput(f"A_ub and A_eq have {' and '.join(map(str, sorted(widths)))} columns")
    if sides and len(sides) < len(names):
        raise BadInput("right-hand sides are given for A_ub and for A_eq, or for neither")
    return _scipy_model(names, max(widths, default=0), found, sides, bounds, integrality)


def _scipy_model(
    names: Sequence[str], width: int, found: _Found, sides: Sequence[Ends], bounds: Any, integrality: Any
) -> Model:
    columns = tuple(f"x{column}" for column in range(width))
    return Model(
        tuple(names),
        columns,
        _coefficients(found, names, columns),
        tuple(sides),
        tuple(_bounds(bounds, width)),
        tuple(bool(kind) for kind in _numbers("integrality", 0 if integrality is None else integrality, width)),
    )


def _constraints_of_scipy(problem: Any) -> list[Any] | None:
    """The constraints of `scipy.optimize.milp`: a `LinearConstraint` or a list of them."""
    found = list(problem) if isinstance(problem, (list, tuple)) else [problem]
    is_one = all(all(hasattr(it, part) for part in ("A", "lb", "ub")) for it in found)
    return found if found and is_one else None


def _constraints_model(constraints: Sequence[Any]) -> Model:
    """The rows that have a bound, named `con[0]`, .., or `con0[0]`, .. if there are several constraints."""
    names: list[str] = []
    found: list[tuple[int, int, Any]] = []
    sides: list[Ends] = []
    widths: set[int] = set()
    for number, constraint in enumerate(constraints):
        entries = entries_of(constraint.A)
        pairs = (_numbers(name, getattr(constraint, name), entries.shape[0]) for name in ("lb", "ub"))
        ends = [_ends(lower, upper) for lower, upper in zip(*pairs)]
        taken = [row for row, it in enumerate(ends) if it.finite]
        places = {row: place for place, row in enumerate(taken, len(names))}
        found += ((places[row], column, value) for row, column, value in entries.entries if row in places)
        names += (f"con{number if len(constraints) > 1 else ''}[{row}]" for row in taken)
        sides += (ends[row] for row in taken)
        widths.add(entries.shape[1])
    if len(widths) > 1:
        raise BadInput(f"the constraints have {' and '.join(map(str, sorted(widths)))} columns")
    return _scipy_model(names, max(widths), found, sides, None, None)


def _numbers(name: str, given: Any, count: int) -> list[Any]:
    """One number for all, or as many as there are lines."""
    values = [given] * count if not hasattr(given, "__len__") else list(given)
    if len(values) == 1:
        values *= count
    if len(values) != count:
        raise BadInput(f"{name} has {len(values)} numbers, and there are {count} lines")
    return values


def _bounds(given: Any, width: int) -> Iterator[Ends]:
    if given is None:
        given = (0, None)
    if hasattr(given, "lb") and hasattr(given, "ub"):
        pairs = list(zip(_numbers("bounds", given.lb, width), _numbers("bounds", given.ub, width)))
    elif len(given) == 2 and not hasattr(given[0], "__len__"):
        pairs = [(given[0], given[1])] * width
    else:
        pairs = [(pair[0], pair[1]) for pair in given]
    if len(pairs) != width:
        raise BadInput(f"bounds has {len(pairs)} pairs, and there are {width} columns")
    yield from (_ends(lower, upper) for lower, upper in pairs)


def _ends(lower: Any, upper: Any) -> Ends:
    return Ends(-inf if lower is None else float(lower), inf if upper is None else float(upper))


def _coefficients(found: _Found, rows: Sequence[str], columns: Sequence[str]) -> tuple[Coefficient, ...]:
    """The coefficients, of which each has to be a finite number."""
    return tuple(Coefficient(row, column, _number(value, rows[row], columns[column])) for row, column, value in found)


def _number(value: Any, row: str, column: str) -> float:
    try:
        number = float(value)
    except (TypeError, ValueError):
        number = inf
    if not isfinite(number):
        raise BadInput(f"row {row}, column {column}: the coefficient {shown(value)} is no number")
    return number
