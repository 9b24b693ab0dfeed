"""What callers give: texts, numbers, words and lists. An error says what is accepted."""

from __future__ import annotations

from collections.abc import Iterable, Sequence
from operator import index
from typing import Any

from .errors import BadInput, shown

__all__ = ["listed", "one_of", "text_given", "whole"]


def whole(name: str, value: Any, least: int | None = None, greatest: int | None = None) -> int:
    """An integer. Raises `BadInput` if the value is not an integer, or is outside of the range if there is one."""
    try:
        number = index(value)
    except TypeError:
        raise BadInput(f"{name} is an integer, and here it is {shown(value)}") from None
    if least is not None and greatest is not None and not least <= number <= greatest:
        raise BadInput(f"{name} is a number from {least} to {greatest}, and here it is {number}")
    return number


def one_of(name: str, value: Any, words: Sequence[str]) -> str:
    """A word. Raises `BadInput` if the value is not one of `words`."""
    if not isinstance(value, str) or value not in words:
        raise BadInput(f"{name} is one of {', '.join(words)}, and here it is {shown(value)}")
    return value


def listed(name: str, values: Any, what: str) -> list[Any]:
    """A list of the values of an iterable. Raises `BadInput` if the value is not iterable, or is a text."""
    if isinstance(values, (str, bytes)) or not isinstance(values, Iterable):
        raise BadInput(f"{name} is a list of {what}, and here it is {shown(values)}")
    return list(values)


def text_given(name: str, value: Any) -> str:
    """A text. Raises `BadInput` if the value is not a text."""
    if not isinstance(value, str):
        raise BadInput(f"{name}: a text is read, and here it is {shown(value)}")
    return value
