"""Texts of models as solvers write them, changed to what GLPK reads. Each line keeps its number, so faults name the right line."""

from __future__ import annotations

import bz2
import gzip
import re
import zlib
from collections.abc import Iterator
from pathlib import Path

from ..errors import BadInput
from ..explained.guesses import guess
from .fixed_mps import distinct_names

__all__ = ["FORMATS", "NONLINEAR_OBJECTIVE", "ORDERED_SETS", "SEMICONTINUOUS", "format_of", "has_maximum", "left_out", "plain_text"]

FORMATS = {".lp": "lp", ".mod": "mathprog", ".mps": "mps"}
"""The formats of models that are read, by the suffixes of their files."""

NONLINEAR_OBJECTIVE, SEMICONTINUOUS = "an objective that is not linear", "semicontinuous variables"
ORDERED_SETS = "special ordered sets"
"""What a model may have beside rows and columns with bounds, and what its matrix does not show."""

_PACKED = (".gz", ".bz2")
_MARK = b"\xef\xbb\xbf"
# Sections of MPS that say nothing of rows and columns, and those with constraints that are no rows of a matrix.
_BESIDE = ("OBJSENSE", "OBJNAME", "OBJECT", "BRANCH", "QUADOBJ", "QMATRIX", "QSECTION", "START", "SETS")
_NAMED_OBJECTIVES = ("OBJNAME", "OBJECT")
_LEFT_OUT = dict.fromkeys(("QUADOBJ", "QMATRIX", "QSECTION"), NONLINEAR_OBJECTIVE) | {"SETS": ORDERED_SETS}
_SEMICONTINUOUS_BOUND = re.compile(r"\s+S[CI]\s")
_LP_COMMENT = re.compile(r"\\.*")
_OTHER = ("QCMATRIX", "CSECTION", "INDICATORS", "SOS", "SOS1", "SOS2", "GENCONS", "PWLOBJ")
_SENSES = ("MAX", "MIN", "MAXIMIZE", "MINIMIZE")
_LAZY = ("LAZYCONS", "USERCUTS")
_LP_OTHER = re.compile(
    r"\s*(general\s+constraints?|gen\s+cons|gencons|sos[12]?|pwlobj|scenarios?|multi-?objectives?)\s*:?\s*", re.I
)
_LP_LAZY = re.compile(r"\s*(lazy\s+constraints?|user\s+cuts?)\s*", re.I)
_LP_ROWS = re.compile(r"\s*(subject\s+to|such\s+that|st|s\.t\.|st\.)\b", re.I)
_LP_BEHIND = re.compile(r"\s*(bounds?|generals?|gen|integers?|int|binar(y|ies)|bin|semi\S*|semis?|end)\s*", re.I)
_PLAIN = r"(?:[0-9]+\.?[0-9]*|\.[0-9]+)(?:e[+-]?[0-9]+)?"
_NUMBER = rf"[+-]?\s*(?:{_PLAIN}|inf(?:inity)?)"
_SIGN = r"(?:<=|=<|<|>=|=>|>)"
_RANGE = re.compile(rf"(?<![^\s:])({_NUMBER}\s*{_SIGN})([^<>=:]*?{_SIGN}\s*{_NUMBER})", re.I)
_CONSTANT = re.compile(rf"(?:[+-]\s*|(?<![^\s:])){_PLAIN}(?=\s*(?:[+-]|$))", re.I)
_LP_HEAD = re.compile(r"\s*(max|min)\w*\s*([^\s:]+\s*:)?\s*", re.I)
_LP_LABEL = re.compile(r"[^\s:]+\s*:")
_LP_VARIABLE = re.compile(r"[^\s0-9.+<>=-][^\s+<>=-]*")
_LP_NO_ROW = {"an indicator": re.compile("->"), "a quadratic": re.compile(r"(?<!\S)\[|\^")}
_QUADRATIC = re.compile(r"[+-]?\s*\[[^]]*\]\s*(?:/\s*2)?", re.S)


def format_of(name: str, data: bytes) -> str:
    """The format: by the suffix of the file, otherwise by its first characters, and otherwise MPS."""
    suffixes = [suffix.lower() for suffix in Path(name).suffixes if suffix.lower() not in _PACKED]
    if suffixes and suffixes[-1] in FORMATS:
        return FORMATS[suffixes[-1]]
    kind = guess(_unpacked(data).removeprefix(_MARK)).kind
    return kind if kind in ("lp", "mathprog") else "mps"


def plain_text(data: bytes, form: str) -> bytes:
    """The text as GLPK reads it. Raises `BadInput` if it has constraints that are not rows of a matrix."""
    text = _unpacked(data).removeprefix(_MARK).decode("utf-8", "surrogateescape").replace("\r\n", "\n")
    if form == "mps":
        text = "\n".join(_mps_lines(distinct_names(text.split("\n"))))
    elif form == "lp":
        text = _lp(text)
    return text.encode("utf-8", "surrogateescape")


def left_out(data: bytes, form: str) -> tuple[str, ...]:
    """What `plain_text` leaves out of a text, if it decides whether the model is a linear program with bounds."""
    text = _unpacked(data).removeprefix(_MARK).decode("utf-8", "surrogateescape")
    found = {"mps": _left_out_of_mps, "lp": _left_out_of_lp}.get(form, lambda _: frozenset())(text.splitlines())
    return tuple(what for what in (NONLINEAR_OBJECTIVE, SEMICONTINUOUS, ORDERED_SETS) if what in found)


def has_maximum(data: bytes) -> bool | None:
    """Whether MPS maximises its objective, or None if a section names which objective it has."""
    section = ""
    is_maximised = False
    for line in _unpacked(data).removeprefix(_MARK).decode("utf-8", "surrogateescape").upper().splitlines():
        words = line.split()
        if not words or line.startswith("*"):
            continue
        if line[0] not in " \t" and not (section == "OBJSENSE" and words[0] in _SENSES):
            section = words[0]
        if section in _NAMED_OBJECTIVES:
            return None
        if section == "OBJSENSE":
            is_maximised = words[-1].startswith("MAX")
    return is_maximised


def _left_out_of_mps(lines: list[str]) -> frozenset[str]:
    section, found = "", set()
    for line in lines:
        if line[:1] not in ("", " ", "\t", "*"):
            section = line.split()[0].upper()
        elif section in _LEFT_OUT and line.strip():
            found.add(_LEFT_OUT[section])
        elif section == "BOUNDS" and _SEMICONTINUOUS_BOUND.match(line):
            found.add(SEMICONTINUOUS)
    return frozenset(found)


def _left_out_of_lp(lines: list[str]) -> frozenset[str]:
    plain = [_LP_COMMENT.sub("", line) for line in lines]
    first, last = _rows_of_lp(plain)
    found = {NONLINEAR_OBJECTIVE} if _QUADRATIC.search("\n".join(plain[:first])) else set()
    behind = (line.strip().lower() for line in plain[last:] if _LP_BEHIND.fullmatch(line))
    return frozenset(found | ({SEMICONTINUOUS} if any(line.startswith("semi") for line in behind) else set()))


def _unpacked(data: bytes) -> bytes:
    for magic, program, unpack in ((b"\x1f\x8b", "gunzip", gzip.decompress), (b"BZh", "bunzip2", bz2.decompress)):
        if data.startswith(magic):
            try:
                return unpack(data)
            except (OSError, EOFError, ValueError, zlib.error) as fault:
                raise BadInput(f"no model, it cannot be unpacked by {program}") from fault
    return data


def _mps_lines(lines: list[str]) -> Iterator[str]:
    """The lines of MPS. The lines of sections that GLPK does not know become comments."""
    section = ""
    for place, line in enumerate(lines, 1):
        first = line.split()[0].upper() if line[:1] not in ("", " ", "\t", "*") else ""
        is_lazy = first in _LAZY and section in ("ROWS", *_LAZY)
        if first and not (section == "OBJSENSE" and first in _SENSES):
            section = first
        if first in _OTHER:
            raise BadInput(f"no linear model, line {place}: constraints of the section {first} are no rows of a matrix")
        is_semicontinuous = section == "BOUNDS" and _SEMICONTINUOUS_BOUND.match(line)
        yield f"*{line}" if section in _BESIDE or is_semicontinuous or is_lazy else line


def _lp(text: str) -> str:
    """The text of an LP file without what GLPK does not know and what says nothing of rows and columns."""
    if re.match(r"\s*(/\*(.|\n)*?\*/\s*)?(max|min)\s*:", text, re.I):
        raise BadInput("no model, line 1: this is the LP format of lp_solve, which `xli` of lp_solve turns into MPS")
    lines = [_LP_COMMENT.sub("", line) for line in text.split("\n")]
    first, last = _rows_of_lp(lines)
    for place, line in enumerate(lines[first:], first + 1):
        _must_be_rows(line, place, place <= last)
    rows = "\n".join("" if _LP_LAZY.fullmatch(line) else line for line in lines[first:last])
    rows = _RANGE.sub(lambda found: _line_feeds(found[1]) + found[2], rows)
    objective = _objective("\n".join(lines[:first]), rows)
    behind = list(_without_semicontinuous(lines[last:]))
    return "\n".join([objective] * (first > 0) + [rows] * (last > first) + behind)


def _rows_of_lp(lines: list[str]) -> tuple[int, int]:
    """The positions at which the rows begin and end."""
    first = next((place for place, line in enumerate(lines) if _LP_ROWS.match(line)), len(lines))
    behind = (place for place, line in enumerate(lines) if place > first and _LP_BEHIND.fullmatch(line))
    return first, next(behind, len(lines))


def _must_be_rows(line: str, place: int, is_row: bool) -> None:
    """Raises `BadInput` at a line with constraints that are no rows of a matrix."""
    if _LP_OTHER.fullmatch(line):
        raise BadInput(f"no linear model, line {place}: constraints of this section are no rows of a matrix")
    for kind, sign in _LP_NO_ROW.items():
        if is_row and sign.search(line):
            raise BadInput(f"no linear model, line {place}: {kind} constraint is no row of a matrix")


def _objective(text: str, rows: str) -> str:
    """The objective without its quadratic part and its constant; 0 times a variable if the objective is empty."""
    linear = _blank(_CONSTANT, _blank(_QUADRATIC, text))
    if _LP_HEAD.fullmatch(linear) and (found := _LP_VARIABLE.search(_LP_LABEL.sub(" ", _LP_ROWS.sub("", rows, 1)))):
        return f"{linear} 0 {found[0]}"
    return linear


def _without_semicontinuous(lines: list[str]) -> Iterator[str]:
    """The sections after the rows, without the sections that name semicontinuous variables."""
    is_left_out = False
    for line in lines:
        if _LP_BEHIND.fullmatch(line):
            is_left_out = line.strip().lower().startswith("semi")
        yield "" if is_left_out else line


def _blank(pattern: re.Pattern[str], text: str) -> str:
    return pattern.sub(lambda found: _line_feeds(found[0]), text)


def _line_feeds(text: str) -> str:
    return re.sub(r"[^\n]", " ", text)
