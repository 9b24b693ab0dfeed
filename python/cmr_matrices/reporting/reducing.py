"""What the reductions of a model leave, with a check of each step that is slow and plain."""

from __future__ import annotations

from collections import Counter
from dataclasses import dataclass

from ..errors import ProgramFault
from ..evidence.reductions import Reason, Reductions
from ..matrices.lines import Line
from ..models.constraints import Constraints
from ..models.model_reductions import connected_parts, reduced
from ..running.program import REFUSED

__all__ = ["Reduced", "reduced_and_checked", "reduced_model"]


@dataclass(frozen=True)
class Reduced:
    """How many lines went, by reason, from which size to which, and into how many connected parts the rest falls."""

    size: tuple[int, int]
    left: tuple[int, int]
    counts: dict[str, int]
    rows: int
    columns: int
    parts: int


def reduced_model(constraints: Constraints, left: Constraints, steps: Reductions) -> Reduced:
    """The counts of the reductions of a model."""
    kinds = Counter(step.line.kind for step in steps)
    counts = Counter(str(step.reason) for step in steps)
    return Reduced(
        constraints.names.shape,
        left.names.shape,
        {reason: counts[reason] for reason in ("zero", "unit", "copy", "negative") if counts[reason]},
        kinds["row"],
        kinds["column"],
        len(connected_parts(left)),
    )


def reduced_and_checked(constraints: Constraints) -> tuple[Constraints, Reductions]:
    """What the reductions leave, and their list, of which each step was tested."""
    left, steps = reduced(constraints)
    _must_reduce(constraints, steps, left)
    return left, steps


def _must_reduce(constraints: Constraints, steps: Reductions, left: Constraints) -> None:
    """Raises `ProgramFault` if a step is not what it says of what the steps before it leave, or if something else is left."""
    height, width = constraints.names.shape
    nears: dict[int, dict[int, int]] = {line: {} for line in range(height + width)}
    for (row, column), entry in constraints.entries.items():
        nears[row][height + column] = nears[height + column][row] = entry
    for step in steps:
        line = _number(step.line, height)
        own = nears.pop(line, None)
        other = _number(step.other, height) if step.other else -1
        if own is None or not _holds(step.reason, own, other, nears):
            raise ProgramFault(REFUSED, f"the reduction {step.named(constraints.names)} is none")
        for crossing in own:
            del nears[crossing][line]
    rows = sum(1 for line in nears if line < height)
    if (rows, len(nears) - rows) != left.names.shape or sum(map(len, nears.values())) != 2 * len(left.entries):
        raise ProgramFault(REFUSED, "the reductions do not leave what they say")


def _number(line: Line, height: int) -> int:
    return line.number if line.kind == "row" else height + line.number


def _holds(reason: Reason, own: dict[int, int], other: int, nears: dict[int, dict[int, int]]) -> bool:
    """Whether a line with these nonzeros is reducible for a reason."""
    match reason:
        case "zero":
            return not own
        case "unit":
            return list(own) == [other]
        case "copy":
            return own == nears.get(other)
        case "negative":
            return nears.get(other) == {line: -entry for line, entry in own.items()}
