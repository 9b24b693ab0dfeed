"""Names with blanks in fixed MPS. GLPK drops the blanks, which may make two names one."""

from __future__ import annotations

from collections.abc import Iterator

__all__ = ["distinct_names"]

# The positions of the names in a line: those of a row or column, and of two rows.
_FIELDS = (slice(4, 12), slice(14, 22), slice(39, 47))
_SECTIONS = ("ROWS", "COLUMNS")
_NAMED = (*_SECTIONS, "RHS", "RANGES", "BOUNDS")


def distinct_names(lines: list[str]) -> list[str]:
    """The lines of MPS. If two names differ only in blanks, each blank within a name becomes `_`."""
    names: dict[str, set[str]] = {section: set() for section in _SECTIONS}
    has_blanks = False
    for section, line in _data(lines):
        words = len(line.split())
        if section == "ROWS":
            has_blanks = has_blanks or words > 2
        elif section == "COLUMNS":
            has_blanks = has_blanks or words in (4, 6, 7, 8)
        if section in names and "'MARKER'" not in line:
            names[section].add(line[_FIELDS[0]].strip())
    if not has_blanks or all(len({"".join(name.split()) for name in found}) == len(found) for found in names.values()):
        return lines
    section, changed = "", []
    for line in lines:
        section = line.split()[0].upper() if line[:1] not in ("", " ", "\t", "*") else section
        is_data = line.startswith(" ") and section in _NAMED and "'MARKER'" not in line
        changed.append(_joined(line) if is_data else line)
    return changed


def _data(lines: list[str]) -> Iterator[tuple[str, str]]:
    """The lines that are no heads of sections and no comments, each with its section."""
    section = ""
    for line in lines:
        if line[:1] not in ("", " ", "\t", "*"):
            section = line.split()[0].upper()
        elif line.strip() and not line.startswith("*"):
            yield section, line


def _joined(line: str) -> str:
    for field in _FIELDS:
        name = line[field]
        inner = name.strip()
        if " " in inner:
            line = line[: field.start] + name.replace(inner, inner.replace(" ", "_")) + line[field.stop :]
    return line
