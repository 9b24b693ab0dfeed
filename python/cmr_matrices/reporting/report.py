"""The report of one model: from the model to what a modeller asks of it."""

from __future__ import annotations

import os
import re
import time
from collections.abc import Iterable, Mapping, Sequence
from dataclasses import dataclass, field, replace
from typing import Any, Literal, get_args

from ..errors import BadInput, TimeLimitReached, shown
from ..evidence.trees import Tree
from ..given import one_of
from ..given import whole as whole_number
from ..matrices.matrix import Matrix
from ..models.linear_models import Model, read_model
from ..models.model_objects import model_of
from ..models.modellers import Format
from ..models.mps import rows_text
from ..questions.answers import Verdict
from ..running.clock import Clock, processor_seconds
from ..running.program import StrPath, find_program, unproved
from .asking import Limit, ModelAsker, Tell
from .integers import Integers, integers_of
from .keeping import Budget, Kept, keep_blocks
from .minimal import Minimal, minimal_violator
from .pieces import Asked, Cells
from .reasons import REASON_OF_LARGE, Reason, reason_of, reason_of_structure, reason_of_tree
from .reducing import Reduced, reduced_model
from .row_by_row import kept_row_by_row
from .rows import ModelRows, NotWhole, RowFamily, said_rows
from .sampling import near_lines
from .solving import Solved, solved

__all__ = ["FamilyLine", "ModelReport", "PIVOTS", "QUESTIONS", "model_report"]

PIVOTS = 20
"""How many pivots are made on the way to a part that is left open."""

QUESTIONS = 300
"""The most questions of each search for rows to keep."""

_FEW = 6
_SAMPLES = (100, 300, 1000)
# The parts of all time at which the steps end.
_WHOLE, _NEAR, _SMALLER, _FAMILIES, _ROWS, _COLUMNS, _ALL = 0.4, 0.55, 0.6, 0.72, 0.83, 0.95, 1.0

_WHOLE_STEP = "the whole matrix"

State = Literal["kept", "relaxed", "partly", "open"]


@dataclass(frozen=True)
class FamilyLine:
    """What becomes of a family of rows: how many there are, which rows are relaxed, and why."""

    name: str
    said: str
    rows: int
    state: State
    relaxed: tuple[int, ...]
    coefficients: tuple[int, ...]
    """The rows with coefficients other than -1, 0 and 1."""
    violator: Cells | None
    is_open: bool
    """Whether no violator shows that it cannot be kept: a question was left open, or was not asked."""
    pattern: str = ""
    """The pattern of its rows, if they have automatic names."""


@dataclass(frozen=True)
class ModelReport:
    """What was found of a model. `verdict` is that on its whole matrix.

    `cmr check` accepted the evidence of each answer of `cmr`. The report says which parts only arithmetic of the package decided.
    """

    model: str
    """The name of the model, or the path of its file."""
    verdict: Verdict
    rows: ModelRows = field(repr=False)
    file: str = field(repr=False)
    """The file that the commands read: that of the model, or the one for which `to_mps` gives the text."""
    is_in_memory: bool = field(repr=False)
    is_proved: bool = field(repr=False)
    """Whether the program was not one that `./try-cmr` has compiled without proofs."""
    pivots: int = field(repr=False)
    lines: int | None = field(repr=False)
    form: str | None = field(repr=False)
    data: str | None = field(repr=False)
    whole: Asked = field(repr=False)
    """The answer on all rows whose coefficients are -1, 0 and 1."""
    reduced: Reduced = field(repr=False)
    reason: Reason | None = field(repr=False)
    """Why the rows that are kept are totally unimodular."""
    minimal: Minimal | None = field(repr=False)
    families: tuple[FamilyLine, ...] = field(repr=False)
    kept: Kept | None = field(repr=False)
    within: Mapping[str, Kept] = field(repr=False)
    """What is kept of the families of which single rows were tried, in the order in which they were tried."""
    rest: Asked | None = field(repr=False)
    """The answer on the rows that are kept."""
    integers: Integers | None = field(repr=False)
    """Which variables have to stay integer, if the matrix is not totally unimodular."""
    solved: Solved | None = field(repr=False)
    """What GLPK finds of the linear program with its objective. It does not decide the verdict."""
    asked: int = field(repr=False)
    checked: int = field(repr=False)
    ended: Mapping[str, Limit] = field(repr=False)
    """The steps that a limit has ended. What `time` has ended may depend on the speed of the machine."""
    cycles: frozenset[Cells] = field(repr=False)
    """The violators that only arithmetic of the package has checked."""
    time_limit: float | None = field(repr=False)
    clock_limit: float | None = field(repr=False)
    questions: int = field(repr=False)

    @property
    def shape(self) -> tuple[int, int]:
        """The numbers of rows and columns of the model."""
        return len(self.rows.model.rows), len(self.rows.model.columns)

    @property
    def relaxed(self) -> tuple[int, ...]:
        """The rows to relax, counted from 0."""
        return tuple(sorted(row for family in self.families for row in family.relaxed))

    @property
    def relax(self) -> tuple[str, ...]:
        """The names of the rows to relax."""
        return tuple(self.rows.model.rows[row] for row in self.relaxed)

    @property
    def relax_said(self) -> tuple[str, ...]:
        """The rows to relax, in few words, family by family."""
        return tuple(self._relaxed(family) for family in self.families if family.relaxed)

    def _relaxed(self, family: FamilyLine) -> str:
        if len(family.relaxed) == family.rows:
            return family.said
        if len(family.relaxed) > _FEW:
            return f"{len(family.relaxed)} of the {family.rows} rows of {family.said}"
        *others, last = (self.rows.model.rows[row] for row in family.relaxed)
        return f"{', '.join(others)} and {last}" if others else last

    @property
    def not_whole(self) -> tuple[NotWhole, ...]:
        """The right-hand sides of the kept rows, and the bounds, that are no integers."""
        return self.rows.not_whole(self.rest.rows if self.rest is not None else self.whole.rows)

    def names_of(self, cells: Cells) -> tuple[tuple[str, ...], tuple[str, ...]]:
        """The names of some rows and columns."""
        model = self.rows.model
        return tuple(model.rows[row] for row in cells.rows), tuple(model.columns[column] for column in cells.columns)

    def to_text(self) -> str:
        """The report as text."""
        from .texts import report_text

        return report_text(self)

    def to_html(self) -> str:
        """The report as one page of HTML that needs no other file."""
        from .page import report_page

        return report_page(self)

    def to_json(self) -> str:
        """The report as one object of JSON."""
        from .texts import report_json

        return report_json(self)

    def to_mps(self, rows: Literal["all", "kept", "relaxed"] = "all") -> str:
        """The model in free MPS, or the model with the rows that are kept or relaxed only. All columns are in each of these.

        The commands of the report of a model in memory read it.
        """
        one_of("rows", rows, ("all", "kept", "relaxed"))
        relaxed = set(self.relaxed)
        every = range(len(self.rows.model.rows))
        return rows_text(self.rows.model, [row for row in every if rows == "all" or (row in relaxed) == (rows == "relaxed")])

    def __str__(self) -> str:
        return self.to_text().rstrip("\n")


def model_report(
    model: Any,
    *,
    form: Format | None = None,
    data: StrPath | None = None,
    lines: int | None = None,
    pivots: int = PIVOTS,
    questions: int = QUESTIONS,
    time_limit: float | None = None,
    clock_limit: float | None = None,
    program: StrPath | None = None,
    tell: Tell | None = None,
    solve: bool = True,
) -> ModelReport:
    """The report of a model: is its constraint matrix totally unimodular, and why? If not, which rows spoil it, and which to relax?

    `model` is the path of a file, in the formats of `from_model` with `form` and `data`, or a model in memory: a `pulp.LpProblem`, a
    `ConcreteModel` of Pyomo, a `linopy.Model`, constraints of `scipy.optimize.milp`, or the arguments of `scipy.optimize.linprog` in
    `scipy_model`.

    `lines` is the budget of the search, 0 to 24 lines (14); `pivots` how many pivots may be made on the way to a part that is left open,
    0 to 100 (20). `questions`, 1 to 100,000 (300), are the most for each search for rows to keep. `time_limit` is in seconds,
    0 to 2,000,000, of processor time for the whole call: the search ends then, and `ended` names the steps that are not done. `clock_limit`
    is the same by the clock. `program` is the program's path. `tell` is called with each question. If `solve` is true, and if the model
    has a linear objective, GLPK solves its linear program at the end.
    """
    start, clock_start = processor_seconds(), time.monotonic()
    whole_number("questions", questions, 1, 100_000)
    limit, clock_seconds = Clock(time_limit).limit, Clock(clock_limit).limit
    proved = find_program(program) != unproved()
    if tell is not None:
        tell("reading the model", 0, 0)
    source = _source(model, form, data, limit)
    rows = source.rows
    asker = ModelAsker(
        rows,
        lines=lines,
        pivots=pivots,
        seconds=limit,
        program=program,
        tell=tell,
        start=start,
        clock_seconds=clock_seconds,
        clock_start=clock_start,
    )
    found = _Work(asker, rows, questions).done()
    solution = _solution(asker, rows.model) if solve else None
    return ModelReport(
        model=source.name,
        verdict="no" if rows.refused or found.minimal is not None else found.whole.verdict,
        rows=rows,
        file=source.file,
        is_in_memory=source.is_in_memory,
        is_proved=proved,
        pivots=pivots,
        lines=lines,
        form=form,
        data=None if data is None else os.fspath(data),
        **vars(found),
        solved=solution,
        asked=asker.asked,
        checked=asker.checked,
        ended=dict(asker.ended),
        cycles=frozenset(asker.cycles),
        time_limit=limit,
        clock_limit=clock_seconds,
        questions=questions,
    )


def _solution(asker: ModelAsker, model: Model) -> Solved | None:
    """What GLPK finds in the time that is left."""
    step = "the linear program with its objective"
    asker.begin(step, 1, _ALL)
    try:
        return None if asker.is_spent else solved(model, asker.left())
    except TimeLimitReached:
        asker.ended[step] = "time"
        return None


@dataclass(frozen=True)
class _Source:
    """A model with its name and the file that commands read."""

    model: Model
    name: str
    file: str
    is_in_memory: bool

    @property
    def rows(self) -> ModelRows:
        """The divided rows of the model. A fault names the model."""
        try:
            return ModelRows.of(self.model)
        except BadInput as fault:
            raise BadInput(f"{self.name}: {fault}") from fault


def _source(model: Any, form: Format | None, data: StrPath | None, seconds: float | None) -> _Source:
    if isinstance(model, (str, os.PathLike)):
        if data is not None and not isinstance(data, (str, os.PathLike)):
            raise BadInput(f"data is the path of the file with the data, and here it is {shown(data)}")
        if form is not None:
            one_of("form", form, get_args(Format))
        path = os.fspath(model)
        read = read_model(path, form, None if data is None else os.fspath(data), seconds)
        return _Source(read, path, path, False)
    if form is not None or data is not None:
        raise BadInput("form and data go with a model in a file, and here it is one in memory")
    said = getattr(model, "name", None)
    name = said if isinstance(said, str) and said.strip() else "model"
    file = re.sub(r"[^\w.-]", "_", name)
    return _Source(model_of(model), name, f"{file}.mps", True)


@dataclass(frozen=True)
class _Found:
    """What the steps find, under the names of `ModelReport`."""

    whole: Asked
    reduced: Reduced
    reason: Reason | None
    minimal: Minimal | None
    families: tuple[FamilyLine, ...]
    kept: Kept | None
    within: Mapping[str, Kept]
    rest: Asked | None
    integers: Integers | None = None


def _violators(kept: Kept | None, within: Mapping[str, Kept]) -> list[Cells]:
    """All violators that the searches have found."""
    return [cells for search in (kept, *within.values()) if search for _, cells in search.violators]


class _Work:
    """The steps of a report, one after another."""

    def __init__(self, asker: ModelAsker, rows: ModelRows, questions: int) -> None:
        self._asker = asker
        self._rows = rows
        self._questions = questions
        self._families = rows.families

    def done(self) -> _Found:
        """All that is found. If the time of the whole matrix was over, it is asked again in the time that the other steps leave."""
        unit = self._rows.unit_rows
        whole, violator = self._first(unit)
        found = self._with(whole, violator)
        again = self._again(unit) if whole.is_over and found.minimal is None else None
        if again is not None and again.violator is not None:
            found = replace(found, whole=again, minimal=minimal_violator(self._asker, again.violator, _ALL))
        elif again is not None:
            found = self._with(again, None)
        return self._explained(found)

    def _first(self, unit: tuple[int, ...]) -> tuple[Asked, Cells | None]:
        """The answer on all rows with entries -1, 0 and 1, and a violator of them."""
        self._asker.begin(_WHOLE_STEP, self._questions, _WHOLE)
        whole = self._asker.ask(unit, pivots=False, cheap=1.0)
        violator = whole.violator or (self._near_violator(whole) if whole.verdict == "undecided" else None)
        if violator is None:
            self._asker.begin(_WHOLE_STEP, self._questions, _WHOLE)
            whole = self._asker.ask(unit)
            violator = whole.violator
        if whole.verdict != "undecided":
            self._asker.ended.pop(_WHOLE_STEP, None)
        return whole, violator

    def _again(self, unit: tuple[int, ...]) -> Asked | None:
        """The answer on all these rows in the time that is left, if there is one."""
        self._asker.begin(_WHOLE_STEP, self._questions, _ALL)
        if self._asker.is_spent:
            return None
        answer = self._asker.ask(unit, cheap=1.0)
        if answer.verdict == "undecided":
            return None
        self._asker.ended.pop(_WHOLE_STEP, None)
        return answer

    def _with(self, whole: Asked, violator: Cells | None) -> _Found:
        """What follows from the answer on all rows: a small violator, and the rows that are kept."""
        reduced = reduced_model(self._rows.constraints(whole.rows), *self._asker.reduced(whole.rows))
        minimal = minimal_violator(self._asker, violator, _SMALLER) if violator is not None else None
        kept, lines, within, rest = self._relaxed(whole, minimal)
        named = {self._families[number].name: search for number, search in within.items()}
        # If the whole matrix is left open, a violator of some of its rows decides it.
        others = _violators(kept, named)
        if minimal is None and others:
            smaller = min(others, key=lambda cells: len(cells.rows) + len(cells.columns))
            minimal = minimal_violator(self._asker, smaller, _ALL)
        return _Found(whole, reduced, None, minimal, lines, kept, named, rest)

    def _explained(self, found: _Found) -> _Found:
        """The same with the reasons, and with the variables that have to stay integer."""
        reason = self._reason(found.rest) if found.rest is not None else None
        if found.whole.verdict == "yes" and not self._rows.refused:
            return replace(found, reason=reason)
        known = _violators(found.kept, found.within) + ([found.minimal.cells] if found.minimal is not None else [])
        integers = integers_of(self._asker, self._rows, self._questions, _COLUMNS, known)
        if integers.answer is not None:
            integers = replace(integers, reason=self._reason(integers.answer))
        return replace(found, reason=reason, integers=integers)

    def _relaxed(
        self, whole: Asked, minimal: Minimal | None
    ) -> tuple[Kept | None, tuple[FamilyLine, ...], dict[int, Kept], Asked | None]:
        """What is kept of the rows with entries -1, 0 and 1: the search of families, the families, the searches of rows, and the answer."""
        if whole.verdict == "yes":
            return None, self._lines(None, {}), {}, whole
        families = {number: family for number, family in enumerate(self._families) if family.rows}
        budget = Budget("families of rows", self._questions, _FAMILIES)
        known = [minimal.cells] if minimal is not None else []
        blocks = [family.rows for family in families.values()]
        kept = keep_blocks(self._asker, (), blocks, budget, all_sets=True, known=known)
        numbers = [list(families)[at] for at in kept.blocks]
        within = kept_row_by_row(self._asker, families, numbers, self._questions, (_FAMILIES, _ROWS))
        kept = kept.closed(blocks, (cells for search in within.values() for _, cells in search.violators))
        answers = [search.answer for search in (kept, *within.values()) if search.answer is not None]
        lines = self._lines((list(families), kept), within)
        return kept, lines, within, answers[-1] if answers else None

    def _near_violator(self, whole: Asked) -> Cells | None:
        """A violator among near lines of the first part that is too large to be asked."""
        part = next((piece.constraints for piece in whole.pieces if piece.is_too_large), None)
        if part is None:
            return None
        cells = self._asker.all_cells(part)
        self._asker.begin("near lines of the matrix", len(_SAMPLES), _NEAR)
        for most in _SAMPLES:
            rows, columns = near_lines(part, most)
            near = Cells(tuple(cells.rows[row] for row in rows), tuple(cells.columns[column] for column in columns))
            violator = None if self._asker.is_spent else self._asker.violator_in(near)
            if violator is not None:
                return violator
        return None

    def _reason(self, asked: Asked) -> Reason:
        """Why the rows that are kept are totally unimodular, part by part."""
        self._asker.begin("why they are totally unimodular", self._questions, _ALL)
        found = [reason_of_structure(it.structure, it.constraints) for it in asked.pieces if it.structure is not None]
        found += [
            self._reason_of(piece.matrix, piece.tree)
            for piece in asked.pieces
            if piece.matrix is not None and piece.tree is not None and piece.structure is None
        ]
        found += [REASON_OF_LARGE for it in asked.pieces if it.is_yes and it.tree is None and it.structure is None]
        if not found:
            return Reason("network", "It is a network matrix: the reductions remove its rows and columns one by one.")
        words = {reason.word for reason in found}
        if len(found) == 1:
            return found[0]
        if words == {"network"}:
            return Reason(
                "network",
                f"Each of its {len(found)} connected parts is a network matrix, so the network simplex method solves it.",
            )
        kinds = {
            "network": "network matrices",
            "conetwork": "transposed network matrices",
            "sums": "sums of such matrices",
        }
        said = " or ".join(kind for word, kind in kinds.items() if word in words)
        return Reason("sums", f"Its {len(found)} connected parts are {said}.")

    def _reason_of(self, matrix: Matrix, tree: Tree) -> Reason:
        """The reason of one part. If there is no time to look for a graph, it is that of the tree."""
        try:
            return reason_of(matrix, tree, self._asker.program, self._asker.clock())
        except TimeLimitReached:
            self._asker.ended["why they are totally unimodular"] = "time"
            return reason_of_tree(tree)

    def _lines(
        self, chosen: tuple[Sequence[int], Kept] | None, within: Mapping[int, Kept]
    ) -> tuple[FamilyLine, ...]:
        places = {place: at for at, place in enumerate(chosen[0])} if chosen else {}
        return tuple(
            self._line(family, places.get(number), chosen[1] if chosen else None, within.get(number))
            for number, family in enumerate(self._families)
        )

    def _line(self, family: RowFamily, place: int | None, kept: Kept | None, within: Kept | None) -> FamilyLine:
        violator: Cells | None = None
        is_open = False
        spoiling: Iterable[int] = ()
        if kept is not None and place in kept.refused:
            assert place is not None
            # Some rows of the family may have a violator though the family is left open.
            found = [cells for _, cells in within.violators] if within else []
            spoiling = [family.rows[at] for at in within.refused] if within else family.rows
            # If all its rows can be kept one after another, the family is kept.
            violator = (kept.refused[place] or next(iter(found), None)) if spoiling else None
            is_open = violator is None and bool(spoiling)
        relaxed = tuple(sorted({*family.refused, *spoiling}))
        count = len(family.rows) + len(family.refused)
        state: State = "kept" if not relaxed else "relaxed" if len(relaxed) == count else "partly"
        if state == "relaxed" and is_open and not family.refused:
            state = "open"
        names = self._rows.model.rows
        name = family.name.removesuffix(f": {family.pattern}")
        said = said_rows(name, [names[row] for row in sorted((*family.rows, *family.refused))])
        said = f"{said} ({family.pattern})" if family.pattern else said
        return FamilyLine(family.name, said, count, state, relaxed, family.refused, violator, is_open, family.pattern)
