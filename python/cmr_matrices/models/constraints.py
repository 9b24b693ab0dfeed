"""The constraints of a model as integers: the chosen rows, scaling, and the families of rows that are refused."""

from __future__ import annotations

import re
from collections.abc import Iterable, Iterator, Mapping
from dataclasses import dataclass, replace
from fractions import Fraction
from math import gcd, lcm

from ..errors import BadCoefficients, BadInput, Family
from ..matrices.families import families_of
from ..matrices.lines import Names
from ..matrices.matrix import Matrix
from ..matrices.words import LIMIT
from .linear_models import Coefficient, Model

__all__ = [
    "Choice",
    "Constraints",
    "Scaling",
    "constraints_of_model",
    "matrix_of_constraints",
    "matrix_of_model",
    "rows_divided",
]

Entries = dict[tuple[int, int], Fraction]


@dataclass(frozen=True)
class Choice:
    """Which rows of a model are taken, and whether they are scaled.

    The names of these rows have a match of `rows` and none of `without`, and are not `omitted`. With `unit_rows` their coefficients are
    also -1, 0 and 1, after the division of rows if they are scaled. If rows are chosen, the columns are those that occur in these rows.
    """

    rows: re.Pattern[str] | None = None
    without: re.Pattern[str] | None = None
    unit_rows: bool = False
    scale: bool = False
    omitted: frozenset[str] = frozenset()
    without_columns: re.Pattern[str] | None = None
    """The columns whose names have a match are omitted after the division of rows."""

    @property
    def is_all(self) -> bool:
        """Whether all rows are taken."""
        return self.rows is None and self.without is None and not self.unit_rows and not self.omitted

    def takes(self, name: str) -> bool:
        """Whether a row is taken by its name."""
        wanted = self.rows is None or self.rows.search(name)
        is_omitted = name in self.omitted or (self.without is not None and self.without.search(name))
        return bool(wanted) and not is_omitted


@dataclass(frozen=True)
class Scaling:
    """A line that was divided by the common factor of its entries, which may be a fraction such as 1/2.

    `fractional` are the right-hand sides of the row that are not integers after the division.
    """

    kind: str
    name: str
    factor: int | Fraction
    fractional: tuple[float, ...] = ()

    def __str__(self) -> str:
        is_part = isinstance(self.factor, Fraction) and self.factor.numerator == 1
        done = f"multiplied by {self.factor.denominator}" if is_part else f"divided by {self.factor}"
        sides = "".join(f", and its right-hand side {side:.12g} becomes no integer" for side in self.fractional)
        return f"{self.kind} {self.name} {done}{sides}"


@dataclass(frozen=True)
class Constraints:
    """Entries -1 and 1 at places counted from 0, row by row, the names of all lines, and what was divided."""

    names: Names
    entries: Mapping[tuple[int, int], int]
    scalings: tuple[Scaling, ...] = ()


def matrix_of_model(model: Model, choice: Choice = Choice()) -> tuple[Matrix, tuple[Scaling, ...]]:
    """The constraint matrix of a model, and the lines that were divided if the matrix is scaled.

    Raises `BadInput` if an entry is not -1, 0 or 1, with the names of the row and the column at fault.
    """
    constraints = constraints_of_model(model, choice)
    return matrix_of_constraints(constraints), constraints.scalings


def matrix_of_constraints(constraints: Constraints) -> Matrix:
    """The matrix, which may have up to 1,000 rows and columns."""
    names = constraints.names
    for count, kind in ((len(names.rows), "rows"), (len(names.columns), "columns")):
        if count > LIMIT:
            raise BadInput(f"there are {count} {kind}, and a matrix may have at most {LIMIT}")
    nonzeros = sorted((row, column, entry) for (row, column), entry in constraints.entries.items())
    return Matrix(names.shape, tuple(nonzeros), names)


def constraints_of_model(model: Model, choice: Choice = Choice()) -> Constraints:
    """The chosen constraints, of any number. Raises `BadCoefficients` if an entry is not -1, 0 or 1."""
    if not model.rows:
        raise BadInput("there are no rows")
    taken = _only_rows(model, [row for row, name in enumerate(model.rows) if choice.takes(name)], choice.is_all)
    if not taken.rows:
        raise BadInput("there is no row whose name fits")
    entries, row_scalings = rows_divided(taken) if choice.scale else (_entries(taken), [])
    if choice.unit_rows:
        bad = {row for (row, _), entry in entries.items() if abs(entry) != 1}
        taken = _only_rows(taken, [row for row in range(len(taken.rows)) if row not in bad], False)
        if not taken.rows:
            raise BadInput("there is no row with only the coefficients -1, 0 and 1")
        entries, row_scalings = rows_divided(taken) if choice.scale else (_entries(taken), [])
    if choice.without_columns is not None:
        taken, entries = _without_columns(taken, entries, choice.without_columns)
    column_scalings: list[Scaling] = []
    if choice.scale:
        entries, column_scalings = _columns_divided(taken, entries)
    _must_be_units(taken, entries, "divided coefficient" if choice.scale else "coefficient")
    whole = {place: int(entry) for place, entry in entries.items()}
    return Constraints(Names(taken.rows, taken.columns), whole, tuple(row_scalings + column_scalings))


def _only_rows(model: Model, rows: list[int], is_all: bool) -> Model:
    """Some rows, and the columns that have a coefficient in them."""
    if is_all:
        return model
    row_places = {row: place for place, row in enumerate(rows)}
    kept = [coefficient for coefficient in model.coefficients if coefficient.row in row_places]
    columns = sorted({coefficient.column for coefficient in kept})
    column_places = {column: place for place, column in enumerate(columns)}
    return Model(
        tuple(model.rows[row] for row in rows),
        tuple(model.columns[column] for column in columns),
        tuple(Coefficient(row_places[at.row], column_places[at.column], at.value) for at in kept),
        tuple(model.sides[row] for row in rows) if model.sides else (),
    )


def _without_columns(model: Model, entries: Entries, pattern: re.Pattern[str]) -> tuple[Model, Entries]:
    """The model and its entries without the columns whose names have a match."""
    kept = [column for column, name in enumerate(model.columns) if not pattern.search(name)]
    places = {column: place for place, column in enumerate(kept)}
    found = tuple(replace(it, column=places[it.column]) for it in model.coefficients if it.column in places)
    taken = Model(model.rows, tuple(model.columns[column] for column in kept), found, model.sides)
    return taken, {(row, places[column]): entry for (row, column), entry in entries.items() if column in places}


def _entries(model: Model) -> Entries:
    """The nonzeros as fractions: 0.1 in a file is a tenth."""
    values = {value: Fraction(f"{value:.15g}") for value in {at.value for at in model.coefficients}}
    return {(at.row, at.column): values[at.value] for at in model.coefficients if at.value}


def rows_divided(model: Model) -> tuple[Entries, list[Scaling]]:
    """Divides each row by the common factor of its entries, and lists the rows that it changes."""
    entries = _entries(model)
    factors = _factors((row, entry) for (row, _), entry in entries.items())
    changed = {row for row, factor in factors.items() if factor != 1}
    divided = {place: entry / factors[place[0]] if place[0] in changed else entry for place, entry in entries.items()}
    scalings = []
    for row, factor in sorted(factors.items()):
        if factor != 1:
            sides = model.sides[row].finite if model.sides else ()
            broken = tuple(side for side in sides if (Fraction(f"{side:.15g}") / factor).denominator != 1)
            scalings.append(Scaling("row", model.rows[row], _plain(factor), broken))
    return divided, scalings


def _columns_divided(model: Model, entries: Entries) -> tuple[Entries, list[Scaling]]:
    factors = _factors((column, entry) for (_, column), entry in entries.items())
    changed = {column: factor for column, factor in sorted(factors.items()) if factor != 1}
    divided = {place: entry / changed[place[1]] if place[1] in changed else entry for place, entry in entries.items()}
    return divided, [Scaling("column", model.columns[column], _plain(factor)) for column, factor in changed.items()]


def _factors(entries: Iterable[tuple[int, Fraction]]) -> dict[int, Fraction]:
    """The common factor of the entries of each line: the greatest factor by which all entries become integers."""
    values: dict[int, set[Fraction]] = {}
    for line, entry in entries:
        values.setdefault(line, set()).add(entry)
    known: dict[frozenset[Fraction], Fraction] = {}
    return {line: _factor(frozenset(found), known) for line, found in values.items()}


def _factor(values: frozenset[Fraction], known: dict[frozenset[Fraction], Fraction]) -> Fraction:
    if values not in known:
        top = gcd(*(value.numerator for value in values))
        known[values] = Fraction(top, lcm(*(value.denominator for value in values)))
    return known[values]


def _plain(factor: Fraction) -> int | Fraction:
    return factor.numerator if factor.denominator == 1 else factor


def _must_be_units(model: Model, entries: Entries, entry_name: str) -> None:
    """Raises `BadCoefficients` at the first entry other than -1, 0 and 1, with the families of the rows that have such entries."""
    large = [place for place, entry in entries.items() if abs(entry) != 1]
    if large:
        row, column = large[0]
        entry = entries[row, column]
        fault = "is none of -1, 0 and 1" if entry.denominator == 1 else "is no integer"
        place = f"row {model.rows[row]}, column {model.columns[column]}"
        said = f"{place}: the {entry_name} {float(entry):.12g} {fault}"
        raise BadCoefficients(said, tuple(_families(model, large)))


def _families(model: Model, large: list[tuple[int, int]]) -> Iterator[Family]:
    counts: dict[int, int] = {}
    for row, _ in large:
        counts[row] = counts.get(row, 0) + 1
    for name, rows in families_of(model.rows).items():
        bad = [row for row in rows if row in counts]
        yield Family(name, len(rows), len(bad), sum(counts[row] for row in bad))
