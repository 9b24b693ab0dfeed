"""Series-parallel reductions: lines that are removed one after another. docs/DEFINITIONS.md says when a line is reducible."""

from __future__ import annotations

import re
from collections.abc import Iterator
from dataclasses import dataclass, field
from typing import Literal, cast

from ..errors import BadInput
from ..given import text_given
from ..matrices.lines import Line, Names

__all__ = ["REDUCTION", "Reason", "Reduction", "Reductions", "reduction_of"]

Reason = Literal["zero", "unit", "copy", "negative"]

REDUCTION = re.compile("(?P<line>[rc][0-9]{1,9}) (?P<reason>zero|unit|copy|negative)(?: (?P<other>[rc][0-9]{1,9}))?")
"""A line of a list of reductions."""


@dataclass(frozen=True, slots=True)
class Reduction:
    """A line that goes, and why: it is zero, or has one nonzero (`unit`, in the line `other`), or equals `other`, or its negative."""

    line: Line
    reason: Reason
    other: Line | None = None

    def named(self, names: Names) -> str:
        """The reduction with names for its lines, such as `ann unit mon`."""
        other = f" {names.line(self.other)}" if self.other else ""
        return f"{names.line(self.line)} {self.reason}{other}"


@dataclass(frozen=True)
class Reductions:
    """The reductions of a matrix in their order."""

    steps: tuple[Reduction, ...]
    names: Names | None = field(default=None, compare=False, repr=False)

    def __len__(self) -> int:
        return len(self.steps)

    def __iter__(self) -> Iterator[Reduction]:
        return iter(self.steps)

    def __str__(self) -> str:
        lines = {line for step in self.steps for line in (step.line, step.other) if line}
        sizes = [
            1 + max((line.number for line in lines if line.kind == kind), default=-1) for kind in ("row", "column")
        ]
        names = self.names or Names.numbered(*sizes)
        return "\n".join(step.named(names) for step in self.steps)

    def to_text(self) -> str:
        """The list of reductions as the program writes it, with lines counted from 1."""
        return "".join(f"{_words(step)}\n" for step in self.steps)

    @classmethod
    def from_text(cls, text: str, names: Names | None = None) -> Reductions:
        """The reductions of a list. Raises `BadInput` if the text is not such a list."""
        steps = []
        for place, line in enumerate(text_given("no list of reductions", text).splitlines(), 1):
            found = REDUCTION.fullmatch(line)
            if not found or (found["other"] is None) != (found["reason"] == "zero"):
                raise BadInput(f"no list of reductions: line {place} is no reduction")
            steps.append(reduction_of(line))
        return cls(tuple(steps), names)


def reduction_of(line: str) -> Reduction:
    """The reduction that a line which `REDUCTION` matches says."""
    found = REDUCTION.fullmatch(line)
    if not found:
        raise BadInput("it is no reduction")
    other = Line.of_word(found["other"]) if found["other"] else None
    return Reduction(Line.of_word(found["line"]), cast(Reason, found["reason"]), other)


def _words(step: Reduction) -> str:
    return " ".join([step.line.word, step.reason, *([step.other.word] if step.other else [])])
