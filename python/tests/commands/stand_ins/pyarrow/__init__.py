"""A stand-in for pyarrow on machines without it: tables with types, kept as JSON lines.

It refuses a value that is not of the type of its column, as pyarrow does.
"""

from __future__ import annotations

from collections.abc import Mapping, Sequence
from dataclasses import dataclass
from typing import Any


def int64() -> type:
    """The type of integers."""
    return int


def float64() -> type:
    """The type of floating point numbers."""
    return float


def string() -> type:
    """The type of texts."""
    return str


@dataclass(frozen=True)
class Schema:
    """The types of the columns by their names."""

    types: Mapping[str, type]

    @property
    def names(self) -> list[str]:
        """The names of the columns."""
        return list(self.types)


def schema(fields: Sequence[tuple[str, type]]) -> Schema:
    """A schema of names with their types."""
    return Schema(dict(fields))


@dataclass(frozen=True)
class Table:
    """Rows with a schema."""

    schema: Schema
    rows: Sequence[Mapping[str, Any]]

    @classmethod
    def from_pylist(cls, rows: Sequence[Mapping[str, Any]], wanted: Schema) -> Table:
        """The rows of a list, each with a value or None for each column."""
        for row in rows:
            for name, kind in wanted.types.items():
                if not isinstance(row[name], (kind, type(None))):
                    raise TypeError(f"column {name}: {row[name]!r}")
        return cls(wanted, [{name: row[name] for name in wanted.names} for row in rows])

    def to_pylist(self) -> list[Mapping[str, Any]]:
        """The rows as a list."""
        return list(self.rows)
