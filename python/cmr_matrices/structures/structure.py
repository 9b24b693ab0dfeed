"""Which plain structure makes a matrix of any size totally unimodular, with evidence that is checked before it is told.

All structures are network matrices or transposed network matrices. Their checks are sums and comparisons of entries, line by line.
"""

from __future__ import annotations

from dataclasses import dataclass, field
from typing import Literal

from ..errors import ProgramFault
from ..models.constraints import Constraints
from ..running.program import REFUSED
from .halves import OddCycle, are_halves, has_two_at_most, is_odd_cycle, signs_or_cycle
from .intervals import are_intervals, interval_signs
from .paths import Arcs, are_forest, is_path
from .sparse import Sparse, columns_of, rows_of

__all__ = ["Structure", "paths_structure", "structure_of"]


@dataclass(frozen=True)
class Structure:
    """Why some constraints are totally unimodular. If it is turned, the evidence is that of the transposed matrix.

    `signs` are those of the rows, for two nonzeros in each column and for intervals. `arcs` are those of the rows, for paths.
    """

    kind: Literal["halves", "intervals", "paths"]
    is_turned: bool
    signs: tuple[int, ...] = field(default=(), repr=False)
    arcs: Arcs = field(default=(), repr=False)

    def holds(self, lines: Sparse) -> bool:
        """Whether the evidence is right for these columns, or for these rows if it is turned."""
        match self.kind:
            case "halves":
                return are_halves(lines, self.signs)
            case "intervals":
                return are_intervals(lines, self.signs)
            case "paths":
                return are_forest(self.arcs) and all(is_path(line, self.arcs) for line in lines)


def structure_of(constraints: Constraints) -> Structure | OddCycle | None:
    """A structure, or an odd cycle, which shows that there is none, or None if nothing is known. Takes linear time."""
    height, width = constraints.names.shape
    cycle: OddCycle | None = None
    for is_turned in (False, True):
        lines = _lines(constraints, is_turned)
        count = width if is_turned else height
        if has_two_at_most(lines):
            found = signs_or_cycle(lines, count)
            if isinstance(found, tuple):
                return _held(Structure("halves", is_turned, found), lines)
            if not is_odd_cycle(lines, found):
                raise ProgramFault(REFUSED, "an odd cycle is none")
            if cycle is None or len(found.rows) < len(cycle.rows):
                cycle = OddCycle(found.columns, found.rows) if is_turned else found
            continue
        signs = interval_signs(lines, count)
        if signs is not None:
            return _held(Structure("intervals", is_turned, signs), lines)
    return cycle


def paths_structure(constraints: Constraints, arcs: Arcs, is_turned: bool) -> tuple[Structure | None, list[int]]:
    """The structure of a tree if all columns are paths in it, and otherwise None with the columns that are none. Rows if it is turned."""
    lines = _lines(constraints, is_turned)
    others = [number for number, line in enumerate(lines) if not is_path(line, arcs)]
    return (None, others) if others else (_held(Structure("paths", is_turned, arcs=tuple(arcs)), lines), [])


def _lines(constraints: Constraints, is_turned: bool) -> Sparse:
    height, width = constraints.names.shape
    return rows_of(constraints.entries, height) if is_turned else columns_of(constraints.entries, width)


def _held(structure: Structure, lines: Sparse) -> Structure:
    if not structure.holds(lines):
        raise ProgramFault(REFUSED, f"the evidence of {structure.kind} does not hold")
    return structure
