"""Families of rows. Those with automatic names, such as `r.4`, `c1` and `_C1`, are divided by the pattern of their variables and sense."""

from __future__ import annotations

import re
from collections.abc import Mapping, Sequence
from dataclasses import dataclass
from fractions import Fraction
from math import isfinite

from ..matrices.families import families_of, family_of
from ..models.linear_models import Ends, Model

__all__ = ["RowGroup", "row_groups"]

Entries = Mapping[int, Sequence[tuple[int, Fraction]]]

_AUTOMATIC = re.compile(r"r\.#|_?[cr]#|(con|row|constraint|ub|eq)_?#", re.I)
_INDEXES = re.compile(r"\[([^]]*)\]|\(([^)]*)\)|\{([^}]*)\}|[0-9]+(?:_[0-9]+)*")
_LETTERS = "ijklmn"
_MOST = 8
"""The most patterns into which a family is divided."""


@dataclass(frozen=True)
class RowGroup:
    """A family of rows, by its name. If it is divided, the pattern is such as `x[i,..] - open[..] <=`, and otherwise empty."""

    name: str
    rows: tuple[int, ...]
    pattern: str = ""


def row_groups(model: Model, entries: Entries) -> tuple[RowGroup, ...]:
    """The families of all rows, in the order of their first ones."""
    found: list[RowGroup] = []
    for name, rows in families_of(model.rows).items():
        patterns = _patterns(model, entries, rows) if _AUTOMATIC.fullmatch(name) and len(rows) > 1 else {}
        if 2 <= len(patterns) <= _MOST:
            found += (RowGroup(f"{name}: {pattern}", tuple(some), pattern) for pattern, some in patterns.items())
        else:
            found.append(RowGroup(name, tuple(rows)))
    return tuple(sorted(found, key=lambda group: group.rows[0]))


def _patterns(model: Model, entries: Entries, rows: Sequence[int]) -> dict[str, list[int]]:
    """The rows by their patterns."""
    families = [family_of(name) for name in model.columns]
    order = {family: place for place, family in enumerate(dict.fromkeys(families))}
    patterns: dict[str, list[int]] = {}
    for row in rows:
        terms: dict[str, list[tuple[int, Fraction]]] = {}
        for column, entry in entries[row]:
            terms.setdefault(families[column], []).append((column, entry))
        said = [_term([model.columns[at] for at, _ in found], [it for _, it in found]) for _, found in _sorted(terms, order)]
        sense = _sense(model.sides[row]) if model.sides else ""
        pattern = f"{' '.join(said)} {sense}".strip().removeprefix("+ ")
        patterns.setdefault(pattern, []).append(row)
    return patterns


def _sorted(
    terms: Mapping[str, list[tuple[int, Fraction]]], order: Mapping[str, int]
) -> list[tuple[str, list[tuple[int, Fraction]]]]:
    return sorted(terms.items(), key=lambda term: order[term[0]])


def _term(names: Sequence[str], entries: Sequence[Fraction]) -> str:
    """The variables of one family in a row, such as `+ x[i,..]` if they share their first index, with `k` for other coefficients."""
    signs = {entry > 0 for entry in entries}
    sign = "+-" if len(signs) == 2 else "+" if True in signs else "-"
    factor = "k " if any(abs(entry) != 1 for entry in entries) else ""
    return f"{sign} {factor}{_said(names)}"


def _said(names: Sequence[str]) -> str:
    """The family of some names, with a letter for each index that all of them share."""
    every = [[_parts(found) for found in _INDEXES.finditer(name)] for name in names]
    group = -1

    def shown(found: re.Match[str]) -> str:
        nonlocal group
        group += 1
        own = [indexes[group] for indexes in every]
        is_shared = [len(own) > 1 and len({parts[at : at + 1] for parts in own}) == 1 for at in range(len(own[0]))]
        rest, between = ("..", ",") if found[0][0] in "[({" else ("#", "_")
        inner = between.join(_LETTERS[at % len(_LETTERS)] if is_same else rest for at, is_same in enumerate(is_shared))
        inner = inner if any(is_shared) else rest
        return f"{found[0][0]}{inner}{found[0][-1]}" if rest == ".." else inner

    return _INDEXES.sub(shown, names[0])


def _parts(found: re.Match[str]) -> tuple[str, ...]:
    """The indexes of a name in one pair of brackets, or in one group of digits."""
    inner = next((group for group in found.groups() if group is not None), None)
    return tuple(found[0].split("_")) if inner is None else tuple(inner.split(","))


def _sense(ends: Ends) -> str:
    if ends.lower == ends.upper:
        return "="
    if isfinite(ends.lower) and isfinite(ends.upper):
        return "in a range"
    return "<=" if isfinite(ends.upper) else ">="
