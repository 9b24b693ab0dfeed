"""The constraints of a model as a text in free MPS, which GLPK and solvers read."""

from __future__ import annotations

from collections.abc import Iterable, Iterator
from dataclasses import replace
from math import isfinite

from .linear_models import Coefficient, Ends, Model

__all__ = ["model_text", "rows_text"]


def model_text(model: Model) -> str:
    """The text. Its objective is minimised: it is that of the model, negated if that is maximised, and zero if none is known."""
    cost = "cost"
    while cost in model.rows:
        cost += "_"
    lines = [*_heads(model), *_rows(model, cost), *_columns(model, cost), *_sides(model), *_bounds(model), "ENDATA"]
    return "".join(f"{line}\n" for line in lines)


def rows_text(model: Model, rows: Iterable[int]) -> str:
    """The text of some rows of a model, with all its columns."""
    taken = sorted(rows)
    places = {row: place for place, row in enumerate(taken)}
    part = replace(
        model,
        rows=tuple(model.rows[row] for row in taken),
        coefficients=tuple(replace(it, row=places[it.row]) for it in model.coefficients if it.row in places),
        sides=tuple(model.sides[row] for row in taken) if model.sides else (),
    )
    return model_text(part)


def _heads(model: Model) -> Iterator[str]:
    """Comments on what the text does not contain."""
    if model.objective is not None and model.objective.is_maximised:
        yield "* The objective is negated: the model maximises it."
    yield from (f"* Without {what}." for what in model.left_out)


def _rows(model: Model, cost: str) -> Iterator[str]:
    yield "NAME"
    yield "ROWS"
    yield f" N {cost}"
    for name, ends in zip(model.rows, model.sides or [Ends(upper=0)] * len(model.rows)):
        yield f" {'E' if ends.lower == ends.upper else 'L' if isfinite(ends.upper) else 'G'} {name}"


def _columns(model: Model, cost: str) -> Iterator[str]:
    by_column: dict[int, list[Coefficient]] = {}
    costs: dict[int, float] = {}
    if model.objective is not None:
        sign = -1 if model.objective.is_maximised else 1
        costs = {column: sign * cost for column, cost in model.objective.coefficients}
    for coefficient in model.coefficients:
        by_column.setdefault(coefficient.column, []).append(coefficient)
    yield "COLUMNS"
    for column, name in enumerate(model.columns):
        is_whole = bool(model.whole) and model.whole[column]
        if is_whole:
            yield f" M{column} 'MARKER' 'INTORG'"
        yield f" {name} {cost} {costs.get(column, 0.0):.15g}"
        yield from (f" {name} {model.rows[it.row]} {it.value:.15g}" for it in by_column.get(column, ()) if it.value)
        if is_whole:
            yield f" E{column} 'MARKER' 'INTEND'"


def _sides(model: Model) -> Iterator[str]:
    yield "RHS"
    ranges = []
    for name, ends in zip(model.rows, model.sides):
        if ends.finite:
            yield f" RHS {name} {ends.finite[-1]:.15g}"
        if len(ends.finite) == 2:
            ranges.append(f" RNG {name} {ends.upper - ends.lower:.15g}")
    if ranges:
        yield "RANGES"
        yield from ranges


def _bounds(model: Model) -> Iterator[str]:
    yield "BOUNDS"
    for name, ends in zip(model.columns, model.bounds):
        if not ends.finite:
            yield f" FR BND {name}"
        elif ends.lower == ends.upper:
            yield f" FX BND {name} {ends.lower:.15g}"
        else:
            yield f" LO BND {name} {ends.lower:.15g}" if isfinite(ends.lower) else f" MI BND {name}"
            yield f" UP BND {name} {ends.upper:.15g}" if isfinite(ends.upper) else f" PL BND {name}"
