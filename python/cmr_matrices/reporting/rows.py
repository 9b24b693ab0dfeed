"""The rows of a model, each divided by its common factor. Rows with entries other than -1, 0 and 1 are apart."""

from __future__ import annotations

from collections.abc import Iterable, Iterator, Mapping, Sequence
from dataclasses import dataclass, field
from fractions import Fraction
from functools import cached_property
from math import ceil, floor
from typing import Literal

from ..errors import BadInput
from ..matrices.lines import Names
from ..models.constraints import Constraints, Scaling, rows_divided
from ..models.linear_models import Ends, Model
from .patterns import row_groups

__all__ = ["Axis", "ModelRows", "NotWhole", "RowFamily", "said_rows"]


Axis = Literal["row", "column"]
"""Whether lines are rows with all their columns, or columns with all their rows."""


@dataclass(frozen=True)
class RowFamily:
    """Rows of one family: those whose entries are -1, 0 and 1, and the others, which are refused."""

    name: str
    rows: tuple[int, ...]
    refused: tuple[int, ...] = ()
    pattern: str = ""
    """The pattern of the rows, if their names are automatic and the family is divided."""


@dataclass(frozen=True)
class NotWhole:
    """A right-hand side of a row, or a bound of a column, that is no integer. A side is that of the divided row."""

    kind: str
    name: str
    value: float
    rounded: int | None = None
    """The integer to which it can be rounded so that no integral solution is lost: down if it is an upper bound, and up otherwise."""

    def __str__(self) -> str:
        what = "right-hand side" if self.kind == "row" else "bound"
        return f"{what} {self.value:.12g} of {self.name}"


@dataclass(frozen=True)
class ModelRows:
    """A model whose rows are divided by their common factors. Rows and columns are counted from 0, as in the model."""

    model: Model
    entries: Mapping[int, tuple[tuple[int, Fraction], ...]] = field(repr=False)
    """Of each row the columns with their entries."""
    divided: Mapping[int, Scaling] = field(repr=False)
    """The rows that were divided."""
    refused: frozenset[int] = field(repr=False)
    """The rows with an entry other than -1, 0 and 1."""

    @classmethod
    def of(cls, model: Model) -> ModelRows:
        """The divided rows. Raises `BadInput` if there are none, or if two rows or two columns have one name."""
        if not model.rows:
            raise BadInput("there are no rows")
        for kind, names in (("rows", model.rows), ("columns", model.columns)):
            if len(set(names)) < len(names):
                raise BadInput(f"two {kind} have the same name")
        entries, scalings = rows_divided(model)
        by_row: dict[int, list[tuple[int, Fraction]]] = {row: [] for row in range(len(model.rows))}
        for (row, column), entry in entries.items():
            by_row[row].append((column, entry))
        places = {name: row for row, name in enumerate(model.rows)}
        return cls(
            model,
            {row: tuple(found) for row, found in by_row.items()},
            {places[scaling.name]: scaling for scaling in scalings},
            frozenset(row for row, found in by_row.items() if any(abs(entry) != 1 for _, entry in found)),
        )

    @property
    def unit_rows(self) -> tuple[int, ...]:
        """The rows whose entries are -1, 0 and 1."""
        return tuple(row for row in self.entries if row not in self.refused)

    @cached_property
    def families(self) -> tuple[RowFamily, ...]:
        """The families of all rows, in the order of their first ones."""
        return tuple(
            RowFamily(
                group.name,
                tuple(row for row in group.rows if row not in self.refused),
                tuple(row for row in group.rows if row in self.refused),
                group.pattern,
            )
            for group in row_groups(self.model, self.entries)
        )

    def columns_of(self, rows: Iterable[int]) -> tuple[int, ...]:
        """The columns that are in some rows, or all columns if all rows are taken."""
        taken = set(rows)
        if len(taken) == len(self.model.rows):
            return tuple(range(len(self.model.columns)))
        return tuple(sorted({column for row in taken for column, _ in self.entries[row]}))

    def rows_of(self, columns: Iterable[int]) -> tuple[int, ...]:
        """The rows that some columns are in."""
        taken = set(columns)
        return tuple(row for row, found in self.entries.items() if any(column in taken for column, _ in found))

    def shape(self, axis: Axis, lines: Sequence[int]) -> tuple[int, int]:
        """The numbers of rows and columns of some rows with their columns, or of some columns with their rows."""
        if axis == "row":
            return len(lines), len(self.columns_of(lines))
        return len(self.rows_of(lines)), len(lines)

    def lines(self, axis: Axis, lines: Sequence[int]) -> Constraints:
        """Some rows and the columns that are in them, or some columns and the rows that they are in. The entries are -1, 0 and 1."""
        rows, columns = (lines, self.columns_of(lines)) if axis == "row" else (self.rows_of(lines), lines)
        places = {column: place for place, column in enumerate(columns)}
        model = self.model
        names = Names(tuple(model.rows[row] for row in rows), tuple(model.columns[column] for column in columns))
        entries = {
            (at, places[column]): int(entry)
            for at, row in enumerate(rows)
            for column, entry in self.entries[row]
            if column in places
        }
        return Constraints(names, entries)

    def constraints(self, rows: Sequence[int]) -> Constraints:
        """Some of the rows with entries -1, 0 and 1, in the order of the model, and the columns that are in them."""
        return self.lines("row", rows)

    def not_whole(self, rows: Iterable[int], columns: Iterable[int] | None = None) -> tuple[NotWhole, ...]:
        """The right-hand sides of some rows, and the bounds of some or all columns, that are no integers.

        The side of a row can be rounded if all its variables are integer and if its entries are integers. They are, after the division.
        """
        model, found = self.model, []
        whole = {column for column, is_whole in enumerate(model.whole) if is_whole}
        for row in rows if model.sides else ():
            factor = self.divided[row].factor if row in self.divided else 1
            is_whole = all(column in whole for column, _ in self.entries[row])
            found += [NotWhole("row", model.rows[row], *it) for it in _broken(model.sides[row], factor, is_whole)]
        for column in (range(len(model.bounds)) if columns is None else columns) if model.bounds else ():
            ends = _broken(model.bounds[column], 1, column in whole)
            found += [NotWhole("column", model.columns[column], *it) for it in ends]
        return tuple(found)


def _broken(ends: Ends, factor: int | Fraction, is_whole: bool) -> Iterator[tuple[float, int | None]]:
    """The ends that are no integers after the division, each with the integer to which it can be rounded."""
    for end in ends.finite:
        value = Fraction(f"{end:.15g}") / factor
        if value.denominator != 1:
            rounded = floor(value) if (end == ends.upper) == (factor > 0) else ceil(value)
            yield float(value), rounded if is_whole and ends.lower != ends.upper else None


def said_rows(family: str, names: Sequence[str]) -> str:
    """A family in few words: `skill(0..3)` if one number runs, otherwise `flow[..]`. One row is said by its name."""
    if len(names) == 1:
        return names[0]
    head, tail = _common(names), _common([name[::-1] for name in names])[::-1]
    middles = [name[len(head) : len(name) - len(tail)] for name in names]
    if all(middle.isdecimal() for middle in middles) and head[-1:] and not head[-1:].isdecimal():
        numbers = sorted(map(int, middles))
        if numbers == list(range(numbers[0], numbers[0] + len(numbers))):
            return f"{head}{numbers[0]}..{numbers[-1]}{tail}"
    return family


def _common(names: Sequence[str]) -> str:
    """What all names begin with, without digits at its end."""
    first, last = min(names), max(names)
    length = next((at for at, (one, other) in enumerate(zip(first, last)) if one != other), min(len(first), len(last)))
    return first[:length].rstrip("0123456789")
