"""Questions on some rows or columns of a model, whose answers count only with evidence that was checked.

`cmr check` accepts the evidence of the program's answers. `cmr-large` is asked about parts that are too large for the program. If it leaves
them open, they may have a structure, whose evidence is checked by plain arithmetic.
"""

from __future__ import annotations

import time
from collections.abc import Callable, Collection, Iterable, Sequence
from dataclasses import replace
from functools import cached_property, partial
from math import inf
from typing import Literal

from ..errors import ProgramFault, TimeLimitReached
from ..evidence.reductions import Reductions
from ..matrices.large_matrix import LargeMatrix
from ..matrices.lines import Names
from ..matrices.matrix import Matrix
from ..matrices.submatrices import Submatrix
from ..matrices.words import LIMIT
from ..models.constraints import Constraints, matrix_of_constraints
from ..models.model_reductions import connected_parts
from ..questions.answers import Answer
from ..running.clock import ProcessorClock, processor_seconds
from ..running.large_run import large_of
from ..running.program import REFUSED, StrPath, find_program
from ..structures.fitting import fitted
from ..structures.halves import OddCycle
from ..structures.paths import Arcs
from ..structures.sieve import Sieve
from ..structures.structure import Structure, structure_of
from .cycles import Crossings, faulty_cycles
from .deciding import Decider
from .pieces import Asked, Cells, Piece
from .reducing import reduced_and_checked
from .rows import Axis, ModelRows

__all__ = ["OVER", "ModelAsker", "Limit", "Tell"]

Tell = Callable[[str, int, int], None]
"""Is told the step of the work, how many questions it has put, and how many it may put, 0 for a step without questions."""

Limit = Literal["time", "questions"]
"""What has ended a step before its end."""

OVER = "the time is over"
"""Why a question is open that was not answered in time."""

_CHEAP = 0.5
"""The part of the time of a step that a cheap question may take."""

_MANY = 20_000
"""The most nonzeros of a matrix with a structure that is reduced, so that the program may answer its parts."""


_CYCLES = 5
"""How many cycles through a row are asked for a violator."""


class ModelAsker:
    """Puts questions to the program, and has each evidence checked. It counts both.

    The work has steps. `seconds` of processor time are for all of them, counted from `start`, so that other work of the machine ends no
    step. `clock_seconds` are the same by the clock. Each step ends at a part of them or at a number of questions. `ended` has the steps
    that such a limit has ended, with the limit, and `cycles` the violators that only arithmetic has checked.
    """

    def __init__(
        self,
        rows: ModelRows,
        *,
        lines: int | None,
        pivots: int,
        seconds: float | None,
        program: StrPath | None,
        tell: Tell | None = None,
        start: float | None = None,
        clock_seconds: float | None = None,
        clock_start: float | None = None,
    ) -> None:
        self.rows = rows
        self.lines = lines
        self.pivots = pivots
        self.program = program
        self.asked = 0
        self.checked = 0
        self.ended: dict[str, Limit] = {}
        self.cycles: set[Cells] = set()
        self._seconds = seconds
        self._start = self._end = processor_seconds() if start is None else start
        self._clock_seconds = clock_seconds
        self._clock_start = self._clock_end = time.monotonic() if clock_start is None else clock_start
        self._most = 0
        self._begun = 0
        self._what = ""
        self._tell = tell
        self._known: dict[tuple[Axis, tuple[int, ...]], Asked] = {}
        self._cheap: dict[tuple[Axis, tuple[int, ...]], Asked] = {}
        self._reduced: dict[tuple[Axis, tuple[int, ...]], tuple[Constraints, Reductions]] = {}
        self._crossings: Crossings | None = None
        self._sieve: tuple[Sieve | None] | None = None
        self._places = [
            {name: place for place, name in enumerate(names)} for names in (rows.model.rows, rows.model.columns)
        ]

    def begin(self, what: str, most: int, part: float) -> None:
        """Begins a step with at most `most` questions, which ends when this part of all time is over."""
        self._end = self._start + part * (self._seconds or 0.0)
        self._clock_end = self._clock_start + part * (self._clock_seconds or 0.0)
        self._what, self._most, self._begun = what, most, self.asked

    @property
    def most(self) -> int:
        """The most questions of the step."""
        return self._most

    @property
    def is_spent(self) -> bool:
        """Whether the step has no time or no question left. If so, `ended` says it of the step."""
        left = self.left()
        if left is not None and left <= 0:
            self.ended[self._what] = "time"
        elif self.asked - self._begun >= self._most:
            self.ended[self._what] = "questions"
        else:
            return False
        return True

    def left(self) -> float | None:
        """The seconds that are left of the step, by the processor or by the clock."""
        left = inf if self._seconds is None else self._end - processor_seconds()
        if self._clock_seconds is not None:
            left = min(left, self._clock_end - time.monotonic())
        return None if left == inf else left

    def clock(self, share: float = 1.0) -> ProcessorClock:
        """A clock of a share of the seconds that are left of the step. Raises `TimeLimitReached` if none are left."""
        left = self.left()
        if left is None:
            return ProcessorClock(None)
        if left <= 0:
            raise TimeLimitReached(self._seconds or self._clock_seconds or 0.0)
        end = inf if self._clock_seconds is None else self._clock_end
        return ProcessorClock(left * share, end)

    def ask(self, lines: Iterable[int], axis: Axis = "row", *, pivots: bool = True, share: float = 1.0, cheap: float = _CHEAP) -> Asked:
        """Whether some rows with entries -1, 0 and 1, with all columns that are in them, are totally unimodular; or some columns.

        The cheap questions come first, within the share `cheap` of the time that is left of the step. If they decide nothing, and if
        `pivots` says so, the open parts are asked again with pivots, within `share` of the time that is left.
        """
        key = axis, tuple(sorted(lines))
        if key in self._known:
            return self._known[key]
        asked = self._cheap.get(key)
        if asked is None:
            asked = self._joined(key, self._pieces(key, cheap))
            if not asked.is_over:
                # A later step may have the time that this one had not.
                self._cheap[key] = asked
        if asked.verdict == "yes" and asked.is_hasty:
            asked = self._joined(key, [self._again(piece) for piece in asked.pieces])
        if asked.verdict == "undecided" and pivots and self.pivots:
            asked = self._joined(key, [self._pivoted(piece, share) for piece in asked.pieces])
        if asked.verdict != "undecided" or (pivots and not asked.is_over):
            self._known[key] = asked
        return asked

    def reduced(self, lines: Iterable[int], axis: Axis = "row") -> tuple[Constraints, Reductions]:
        """What the reductions leave of some rows or columns, and their list, of which each step was tested."""
        key = axis, tuple(sorted(lines))
        if key not in self._reduced:
            self._reduced[key] = reduced_and_checked(self.rows.lines(*key))
        return self._reduced[key]

    def ask_matrix(self, matrix: Matrix, share: float = 1.0) -> Answer:
        """The answer of the cheap questions on a matrix, whose evidence is checked: the violator of a no, and otherwise the tree."""
        return self._told(lambda: self._decider(share).cheap(matrix))

    def _told(self, ask: Callable[[], Answer], *, is_checked: bool = True) -> Answer:
        self.asked += 1
        if self._tell:
            self._tell(self._what, self.asked - self._begun, self._most)
        try:
            answer = ask()
        except TimeLimitReached:
            self.ended[self._what] = "time"
            raise
        self.checked += is_checked
        return answer

    def _decider(self, share: float) -> Decider:
        return Decider(self.clock(share), self.program, self.lines)

    def _pieces(self, key: tuple[Axis, tuple[int, ...]], cheap: float) -> list[Piece]:
        """The parts, until one of them is not totally unimodular. Later ones are not asked."""
        constraints = self.rows.lines(*key)
        if max(constraints.names.shape) <= LIMIT:
            return [self._piece(constraints, cheap)]
        is_many = len(constraints.entries) > _MANY
        found = self._structure(constraints, asks=is_many)
        if isinstance(found, Piece):
            return [found]
        if found is not None and is_many:
            return [Piece(constraints, None, None, found)]
        # The program answers the parts that are not too large.
        pieces: list[Piece] = []
        parts = connected_parts(self.reduced(key[1], key[0])[0])
        for number, part in enumerate(parts, 1):
            pieces.append(self._piece(part))
            if pieces[-1].violator is not None:
                return pieces + [Piece(other, None, None) for other in parts[number:]]
        return pieces

    def _joined(self, key: tuple[Axis, tuple[int, ...]], pieces: Sequence[Piece]) -> Asked:
        """The answer that the answers on the parts make."""
        is_reduced = max(self.rows.shape(*key)) > LIMIT
        rows = key[1] if key[0] == "row" else self.rows.rows_of(key[1])
        for piece in pieces:
            if piece.violator is not None:
                found = self.cells(piece.constraints, piece.violator)
                return Asked(rows, "no", tuple(pieces), is_reduced, violator=found)
        if all(piece.is_yes for piece in pieces):
            return Asked(rows, "yes", tuple(pieces), is_reduced)
        is_over = any(piece.is_over for piece in pieces)
        piece = next(piece for piece in pieces if not piece.is_yes)
        if piece.answer is None:
            size = "x".join(map(str, piece.constraints.names.shape))
            why = OVER if piece.is_over else f"{size} is larger than a matrix may be, and no structure of it was recognised"
            return Asked(rows, "undecided", tuple(pieces), is_reduced, why_open=why, is_over=is_over)
        if piece.answer.open is None:
            raise ProgramFault(REFUSED, "an answer has neither a yes nor a violator nor an open part")
        left = self.cells(piece.constraints, piece.answer.open)
        why = f"a part of {len(left.rows)}x{len(left.columns)} is neither recognised nor separated"
        return Asked(rows, "undecided", tuple(pieces), is_reduced, open=left, why_open=why, is_over=is_over)

    def _piece(self, constraints: Constraints, cheap: float = _CHEAP) -> Piece:
        """The cheap answer on a part, or its structure if it is too large for the program or if the time is over."""
        if max(constraints.names.shape) > LIMIT:
            found = self._structure(constraints, asks=True)
            if isinstance(found, Piece):
                return found
            try:
                return Piece(constraints, None, None, found or self._fitted(constraints))
            except TimeLimitReached:
                self.ended[self._what] = "time"
                return Piece(constraints, None, None, is_over=True)
        matrix = matrix_of_constraints(constraints)
        try:
            return Piece(constraints, matrix, self.ask_matrix(matrix, cheap))
        except TimeLimitReached:
            structure = structure_of(constraints)
            if isinstance(structure, Structure):
                return Piece(constraints, matrix, None, structure)
            return Piece(constraints, matrix, None, is_over=True)

    def _again(self, piece: Piece) -> Piece:
        """A part for which the program had no time, with its answer if it has time now. Otherwise its structure has to do."""
        if piece.structure is None or piece.matrix is None:
            return piece
        try:
            answer = self.ask_matrix(piece.matrix)
        except TimeLimitReached:
            return piece
        return Piece(piece.constraints, piece.matrix, answer) if answer.verdict == "yes" else piece

    def _pivoted(self, piece: Piece, share: float) -> Piece:
        """A part that is left open with the answer after pivots. If the time is over, it stays as it is."""
        matrix = piece.matrix
        if piece.is_yes or matrix is None or (piece.answer is not None and not piece.answer.is_undecided):
            return piece
        ask = partial(Decider.pivoted, matrix=matrix, pivots=self.pivots)
        try:
            answer = self._told(lambda: ask(self._decider(share)))
        except TimeLimitReached:
            return replace(piece, is_over=True)
        return replace(piece, answer=answer, is_over=False)

    def _structure(self, constraints: Constraints, *, asks: bool) -> Structure | Piece | None:
        """The structure of a part of any size, or the part with its answer. `cmr-large` is asked if `asks` says so, or about a large cycle.

        An odd cycle that excludes a structure counts if `cmr check` accepts it as a violator, or if it is too large for `cmr check`.
        """
        found = structure_of(constraints)
        cycle = None
        if isinstance(found, OddCycle):
            cycle = Submatrix(constraints.names.shape, found.rows, found.columns, constraints.names)
            if not self.cells(constraints, cycle).is_too_large:
                return self._violated(constraints, cycle)
        answer = self._large(constraints) if asks or cycle is not None else None
        if answer is not None and answer.verdict == "yes" and not isinstance(found, OddCycle):
            return Piece(constraints, None, answer, found)
        if answer is not None and answer.violator is not None and not isinstance(found, Structure):
            is_large = self.cells(constraints, answer.violator).is_too_large
            return Piece(constraints, None, answer) if is_large else self._violated(constraints, answer.violator)
        if answer is not None and not answer.is_undecided:
            raise ProgramFault(REFUSED, f"cmr-large says {answer.verdict}, and the arithmetic of the package the opposite")
        if cycle is None:
            return None if isinstance(found, OddCycle) else found
        self.cycles.add(self.cells(constraints, cycle))
        return Piece(constraints, None, None, cycle=cycle)

    def _violated(self, constraints: Constraints, violator: Submatrix) -> Piece | None:
        """A part with a violator that `cmr check` accepts, or None if the time is over."""
        cells = self.cells(constraints, violator)
        try:
            self._told(lambda: self._decider(_CHEAP).violator(self.matrix_of(cells)))
        except TimeLimitReached:
            return None
        return Piece(constraints, None, Answer("totally unimodular", "no", violator=violator))

    def _large(self, constraints: Constraints) -> Answer | None:
        """What `cmr-large` says of a part, or None if there is no such program or if the time is over."""
        if not self._has_large:
            return None
        matrix = LargeMatrix.of_entries(constraints.entries, constraints.names)
        try:
            return self._told(lambda: self._decider(_CHEAP).large(matrix), is_checked=False)
        except TimeLimitReached:
            return None

    @cached_property
    def _has_large(self) -> bool:
        return large_of(find_program(self.program)) is not None

    def _fitted(self, constraints: Constraints) -> Structure | None:
        """The structure of a tree, if one kind of lines has at most 1,000."""
        for is_turned in (False, True):
            if constraints.names.shape[is_turned] > LIMIT:
                continue

            def tree_of(lines: Sequence[int], turned: bool = is_turned) -> Arcs | None:
                every = tuple(range(constraints.names.shape[turned]))
                part = Submatrix(constraints.names.shape, *((tuple(lines), every) if turned else (every, tuple(lines))))
                matrix = self.matrix_of(self.cells(constraints, part))
                return self._decider(_CHEAP).arcs(matrix.T if turned else matrix)

            found = fitted(constraints, is_turned, tree_of)
            if found is not None:
                return found
        return None

    def violator_in(self, cells: Cells) -> Cells | None:
        """A violator of a submatrix, or None if it has none or is left open."""
        try:
            part = self.ask_matrix(self.matrix_of(cells), _CHEAP).violator
        except TimeLimitReached:
            return None
        return None if part is None else cells.part(part)

    def fault_through(self, row: int, others: Collection[int]) -> Cells | None:
        """A violator among the lines of a short cycle through a row and some of the other rows. None if none is found."""
        if self._crossings is None:
            self._crossings = Crossings(self.rows)
        for cells in faulty_cycles(self._crossings, row, others, _CYCLES):
            found = None if cells.is_too_large or self.is_spent else self.violator_in(cells)
            if found is not None:
                return found
        return None

    def is_hopeless(self, lines: Iterable[int]) -> bool:
        """Whether rows with entries -1, 0 and 1 have a part that is too large for the program and has no structure, by numpy and scipy."""
        if self._sieve is None:
            unit = self.rows.unit_rows
            found = [(row, column, int(entry)) for row in unit for column, entry in self.rows.entries[row]]
            rows, columns, entries = (list(it) for it in zip(*found)) if found else ([], [], [])
            self._sieve = (Sieve.of(rows, columns, entries),)
        (sieve,) = self._sieve
        return sieve is not None and sieve.is_hopeless(list(lines))

    def cells(self, constraints: Constraints, part: Submatrix) -> Cells:
        """The rows and columns of the model that a part of some constraints has."""
        return self.all_cells(constraints).part(part)

    def all_cells(self, constraints: Constraints) -> Cells:
        """The rows and columns of the model that some constraints have."""
        rows, columns = self._places
        names = constraints.names
        return Cells(tuple(rows[name] for name in names.rows), tuple(columns[name] for name in names.columns))

    def matrix_of(self, cells: Cells) -> Matrix:
        """The submatrix of the model on some lines, whose entries have to be -1, 0 and 1."""
        kept = {column: place for place, column in enumerate(cells.columns)}
        nonzeros = sorted(
            (place, kept[column], int(entry))
            for place, row in enumerate(cells.rows)
            for column, entry in self.rows.entries[row]
            if column in kept
        )
        model = self.rows.model
        names = Names(tuple(model.rows[row] for row in cells.rows), tuple(model.columns[it] for it in cells.columns))
        return Matrix((len(cells.rows), len(cells.columns)), tuple(nonzeros), names)
