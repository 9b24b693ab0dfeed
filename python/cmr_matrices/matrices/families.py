"""Families of names: names that are the same up to digits and bracketed text."""

from __future__ import annotations

import re
from collections.abc import Iterable

__all__ = ["families_of", "family_of"]

_BRACKETS = re.compile(r"\[[^]]*\]|\([^)]*\)|\{[^}]*\}")
_DIGITS = re.compile(r"[0-9]+(?:_[0-9]+)*")


def family_of(name: str) -> str:
    """What the names of a family share: `flow[a,b]` is of the family `flow[..]`, and `cap_3_4` of `cap_#`."""
    return _DIGITS.sub("#", _BRACKETS.sub(lambda found: f"{found[0][0]}..{found[0][-1]}", name))


def families_of(names: Iterable[str]) -> dict[str, list[int]]:
    """The places of the names of each family, in the order of their first ones."""
    found: dict[str, list[int]] = {}
    for place, name in enumerate(names):
        found.setdefault(family_of(name), []).append(place)
    return found
