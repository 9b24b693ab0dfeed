"""What cmr prints or writes, with the names of a model in place of the numbers of rows and columns."""

from __future__ import annotations

import re
from collections.abc import Iterator

from ..errors import BadInput
from ..matrices.lines import Line, Names
from ..matrices.submatrices import Submatrix
from .printed import LINE_SET, line_set_of
from .reductions import REDUCTION, reduction_of
from .trees import Tree, outline_lines

__all__ = ["named_text"]

NUMBER = "[0-9]{1,9}"
EDGE = re.compile(f"({NUMBER} {NUMBER}) ([rc]{NUMBER})")
OUTLINE = re.compile(f"({NUMBER} [a-z0-9]+ {NUMBER}x{NUMBER})(?: row ({NUMBER}) column ({NUMBER}))?")
NUMBERS = re.compile(rf"\s*{NUMBER}(?:\s+{NUMBER})*\s*")


def named_text(text: str, names: Names, tree: Tree | None) -> str:
    """The text with names for the numbers of rows and columns.

    A tree text becomes its outline, and a submatrix text its two lists. In all other texts the lines that name rows or
    columns are changed, and all lines of an outline if the tree is given; other lines are not changed. Without the tree, only the pivots of
    an outline get names.
    """
    if text.split(maxsplit=1)[:1] in (["cmr-tree"], ["cmr-pivots"]):
        return "".join(f"{line}\n" for line in outline_lines(Tree.from_text(text), names))
    if NUMBERS.fullmatch(text):
        return names.line_set(_submatrix(text, names).lines) + "\n"
    outline = outline_lines(tree, names) if tree else None
    return "".join(f"{_named_line(line, names, outline)}\n" for line in text.splitlines())


def _named_line(line: str, names: Names, outline: Iterator[str] | None) -> str:
    if found := LINE_SET.fullmatch(line):
        return f"{found['what']} {names.line_set(line_set_of(found))}{found['rest'] or ''}"
    if REDUCTION.fullmatch(line):
        return reduction_of(line).named(names)
    if found := EDGE.fullmatch(line):
        return f"{found[1]} {names.line(Line.of_word(found[2]))}"
    if found := OUTLINE.fullmatch(line):
        if outline is not None:
            return _same_node(found[1], next(outline, ""))
        if found[2]:
            place = Line("row", int(found[2]) - 1), Line("column", int(found[3]) - 1)
            return f"{found[1]} at {names.line_list(place)}"
    return line


def _same_node(line: str, node: str) -> str:
    if not f"{node} ".startswith(f"{line} "):
        raise BadInput(f"the tree is not that of the outline: it has no node for the line `{line}`")
    return node


def _submatrix(text: str, names: Names) -> Submatrix:
    """A text of numbers only is a submatrix text. It begins with its counts, which have to be right."""
    numbers = [int(word) for word in text.split()]
    if len(numbers) < 4 or len(numbers) != 4 + numbers[2] + numbers[3]:
        raise BadInput("only numbers, but no submatrix: the counts and the lists do not fit")
    names.must_fit(numbers[0], numbers[1])
    return Submatrix.from_text(text, names)
