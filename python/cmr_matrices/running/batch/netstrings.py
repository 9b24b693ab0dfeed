"""Netstrings: a length in decimal digits, a colon, this number of bytes, and a comma.

>>> netstring(b"tu")
b'2:tu,'
>>> netstrings(b"2:tu,0:,")
[b'tu', b'']
>>> whole(b"2:tu,0:,3:net")
([b'tu', b''], 8)
>>> lacking(b"3:net")
1
"""

from __future__ import annotations

from collections.abc import Iterable
from functools import lru_cache

__all__ = ["NoNetstring", "lacking", "netstring", "netstrings", "row", "whole"]

_DIGITS = 10
"""The digits of the longest length, which is below 2^31."""
_COMMA, _ZERO = b",0"


class NoNetstring(ValueError):
    """Bytes that are the beginning of no netstring."""


def netstring(text: bytes) -> bytes:
    """The netstring of a text."""
    return b"%d:%b," % (len(text), text)


def row(texts: Iterable[bytes]) -> bytes:
    """The netstrings of some texts, one after another."""
    return b"".join(map(netstring, texts))


def netstrings(text: bytes) -> list[bytes]:
    """The texts of the netstrings in a text. Raises `NoNetstring` if it does not consist of netstrings."""
    found, end = whole(text)
    if end != len(text):
        raise NoNetstring(text)
    return found


def whole(text: bytes) -> tuple[list[bytes], int]:
    """The texts of the whole netstrings with which a text begins, and the place after them.

    Raises `NoNetstring` if there are none, and what is there begins none.
    """
    found: list[bytes] = []
    at, size = 0, len(text)
    try:
        while (colon := text.find(b":", at, at + _DIGITS + 1)) >= 0:
            end = colon + 1 + _length(text[at:colon])
            if end >= size:
                return found, at
            if text[end] != _COMMA:
                raise NoNetstring(text[at:colon])
            found.append(text[colon + 1 : end])
            at = end + 1
        if at < size:
            _length(text[at : at + _DIGITS + 1])
    except NoNetstring:
        if not found:
            raise
    return found, at


def lacking(text: bytes) -> int:
    """The bytes that the first netstring of a text lacks at least, or 0 if the text begins with a whole one or with none."""
    colon = text.find(b":", 0, _DIGITS + 1)
    try:
        if colon >= 0:
            return max(colon + 2 + _length(text[:colon]) - len(text), 0)
        if text:
            _length(text[: _DIGITS + 1])
    except NoNetstring:
        return 0
    return 1


@lru_cache(maxsize=1024)
def _length(digits: bytes) -> int:
    """The length with these digits, or the beginning of a length. A few lengths come again and again."""
    if not digits.isdigit() or len(digits) > _DIGITS or (len(digits) > 1 and digits[0] == _ZERO):
        raise NoNetstring(digits)
    return int(digits)
