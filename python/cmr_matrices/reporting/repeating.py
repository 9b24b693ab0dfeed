"""The commands that repeat each answer of a report."""

from __future__ import annotations

import re
import shlex
from collections.abc import Iterable, Sequence
from dataclasses import dataclass
from pathlib import Path

from ..matrices.families import family_of
from ..matrices.submatrices import Submatrix
from ..matrices.words import LIMIT
from .integers import Integers
from .pieces import Asked, Cells, Piece
from .report import PIVOTS, QUESTIONS, ModelReport

__all__ = ["Repeated", "repeated", "row_pattern"]

_LONGEST = 3000
"""The most characters of a command."""

_PATTERN = 300
"""The most characters of a regular expression of rows. Longer ones are replaced by a file of names."""

_APART = 6
"""The most parts that have commands of their own."""


@dataclass(frozen=True)
class Repeated:
    """An answer, the commands that give it again, and the first line that the last one of them prints."""

    what: str
    commands: tuple[str, ...]
    says: str


def repeated(report: ModelReport) -> tuple[Repeated, ...]:
    """The commands of all answers, which write files beside one another into one folder. Commands that would be too long are omitted."""
    found = _Commands(report).all()
    return tuple(it for it in found if all(len(command) <= _LONGEST for command in it.commands))


class _Commands:
    def __init__(self, report: ModelReport) -> None:
        self._report = report
        self._stem = re.sub(r"[^A-Za-z0-9_-]", "_", Path(report.file).name.split(".")[0]) or "model"

    def all(self) -> Iterable[Repeated]:
        report = self._report
        if report.rows.refused:
            words = ["model_to_matrix", *self._source(), f"{self._stem}.txt", f"{self._stem}.names"]
            yield Repeated("the coefficients other than -1, 0 and 1", (shlex.join(words),), "")
        if report.whole.rows:
            what = "the rows with coefficients -1, 0 and 1" if report.rows.refused else "the whole matrix"
            yield from self._asked(what, self._stem, report.whole, ())
        if report.reason is not None and report.reason.words and report.whole.verdict == "yes" and not report.whole.is_reduced:
            yield self._class(self._stem)
        if report.minimal is not None:
            yield self._violator("the smallest violator", f"{self._stem}-violator", report.minimal.cells)
        for number, family in enumerate(report.families, 1):
            if family.violator is not None:
                what = f"why {family.said} cannot be kept beside the others"
                yield self._violator(what, f"{self._stem}-family{number}", family.violator)
        yield from self._other_violators()
        if report.rest is not None and report.rest is not report.whole:
            name = f"{self._stem}-rest"
            relaxed = [row for row in report.relaxed if row not in report.rows.refused]
            yield from self._asked("what is left once these rows are relaxed", name, report.rest, relaxed)
            if report.reason is not None and report.reason.words and not report.rest.is_reduced:
                yield self._class(name)
        if report.integers is not None and report.integers.answer is not None:
            yield from self._variables(report.integers, report.integers.answer)

    def _other_violators(self) -> Iterable[Repeated]:
        """The violators that rule out sets with more rows, without those of the families that are relaxed."""
        report = self._report
        if report.kept is None or not report.kept.is_largest:
            return
        told = {family.violator for family in report.families}
        families = [family for family in report.families if len(family.coefficients) < family.rows]
        others = [(blocks, cells) for blocks, cells in report.kept.violators if cells not in told]
        for number, (blocks, cells) in enumerate(others, 1):
            said = ", ".join(families[at].said for at in sorted(blocks))
            yield self._violator(f"why not all of {said} can be kept", f"{self._stem}-set{number}", cells)

    def _source(self) -> list[str]:
        report = self._report
        words = ["--format", report.form] if report.form else []
        # A name that begins with a hyphen would be an option.
        file = f"./{report.file}" if report.file.startswith("-") else report.file
        return [*words, *(["--data", report.data] if report.data else []), file]

    def _relaxed(self, file: str) -> str:
        """The command that writes the names of the rows to relax. Its first lines are those of this report."""
        report = self._report
        words = ["--lines", str(report.lines)] if report.lines is not None else []
        words += [] if report.pivots == PIVOTS else ["--pivots", str(report.pivots)]
        words += [] if report.questions == QUESTIONS else ["--questions", str(report.questions)]
        words += [] if report.time_limit is None else ["--time-limit", f"{report.time_limit:g}"]
        return shlex.join(["cmr-model", *words, "--relaxed", file, *self._source()])

    def _matrix(self, name: str, choice: Sequence[str], reduces: bool, *, has_all_rows: bool = False) -> str:
        report = self._report
        words = [
            *(["--unit-rows"] if report.rows.refused and not has_all_rows else []),
            *(["--scale"] if report.rows.divided else []),
            *choice,
            *(["--reduce", f"{name}.list", "--parts", name] if reduces else []),
        ]
        return shlex.join(["model_to_matrix", *words, *self._source(), f"{name}.txt", f"{name}.names"])

    def _asked(self, what: str, name: str, asked: Asked, relaxed: Sequence[int]) -> Iterable[Repeated]:
        names = self._report.rows.model.rows
        pattern = row_pattern([names[row] for row in relaxed], names) if relaxed else ""
        without = ["--without", pattern] if pattern else []
        if len(pattern) > _PATTERN:
            file = f"{self._stem}.relaxed"
            without = ["--without-names", file]
            yield Repeated("the rows to relax, as a file of their names", (self._relaxed(file),), "")
        yield from self._answers(what, name, asked, self._matrix(name, without, asked.is_reduced))

    def _variables(self, found: Integers, asked: Asked) -> Iterable[Repeated]:
        """The commands for the columns of the variables that need not be declared as integers."""
        model = self._report.rows.model
        if len(model.rows) > LIMIT and not asked.is_reduced:
            # The rows without these variables would make the matrix too large.
            return
        names, name = model.columns, f"{self._stem}-variables"
        choice = ["--without-columns", row_pattern([names[column] for column in found.fixed], names)]
        what = "the columns of the " + ("continuous variables" if found.suffices else "variables that need not be integer")
        yield from self._answers(what, name, asked, self._matrix(name, choice, asked.is_reduced, has_all_rows=True))

    def _answers(self, what: str, name: str, asked: Asked, first: str) -> Iterable[Repeated]:
        """The commands for the parts of an answer, after the command that writes the matrix."""
        answered = [number for number, piece in enumerate(asked.pieces, 1) if _is_answer_of_tu(piece)]
        if not asked.pieces or (not answered and not asked.is_reduced):
            yield Repeated(what, (first,), "")
        elif asked.is_reduced and any(piece.is_too_large for piece in asked.pieces):
            # A part is too large, and model_to_matrix writes none of them.
            return
        elif len(answered) > _APART:
            verdict = self._verdict(asked, answered[0])
            loop = f"for part in {' '.join(map(str, answered))}; do"
            commands = [f"{loop} {command}; done" for command in self._of_part(f"{name}/$part")]
            yield Repeated(f"{what}, part by part", (first, *commands), verdict)
        else:
            for number in answered:
                text, about = (f"{name}/{number}", f"{what}, part {number}") if asked.is_reduced else (name, what)
                start = [first] if number == answered[0] else []
                yield Repeated(about, (*start, *self._of_part(text)), self._verdict(asked, number))

    def _of_part(self, text: str) -> list[str]:
        """The question on a matrix, and the check of its tree."""
        return [
            f"{self._tu()} -D {text}.tree {text}.txt | name_lines {text}.names",
            f"cmr check -i sparse {text}.txt {text}.tree | name_lines {text}.names",
        ]

    def _verdict(self, asked: Asked, number: int) -> str:
        answer = asked.pieces[number - 1].answer
        return "" if answer is None else f"accepted: {answer.verdict}"

    def _tu(self) -> str:
        report = self._report
        words = ["cmr", "tu", "-i", "sparse"]
        words += ["--lines", str(report.lines)] if report.lines is not None else []
        return shlex.join([*words, *(["--pivots", str(report.pivots)] if report.pivots else [])])

    def _class(self, name: str) -> Repeated:
        reason = self._report.reason
        assert reason is not None
        command = f"cmr {' '.join(reason.words)} -i sparse -G {name}.graph {name}.txt"
        return Repeated("why", (command,), f"{reason.word}: yes")

    def _violator(self, what: str, name: str, cells: Cells) -> Repeated:
        """The violator as a text, and its check, on the whole matrix, or on the violator's rows only if the matrix is too large."""
        report = self._report
        rows = report.whole.rows
        is_large = report.whole.is_reduced
        base = name if is_large else self._stem
        taken = cells.rows if is_large else rows
        columns = report.rows.columns_of(taken)
        places = {row: place for place, row in enumerate(taken)}
        across = {column: place for place, column in enumerate(columns)}
        part = Submatrix(
            (len(taken), len(columns)),
            tuple(places[row] for row in cells.rows),
            tuple(across[column] for column in cells.columns),
        )
        names = report.rows.model.rows
        first = [self._matrix(name, ["--rows", row_pattern([names[row] for row in taken], names)], False)]
        lines = " ".join(shlex.quote(line) for line in part.to_text().splitlines())
        commands = [
            *(first if is_large else []),
            f"printf '%s\\n' {lines} > {name}.violator",
            f"cmr check -i sparse {base}.txt {name}.violator | name_lines {base}.names",
        ]
        is_short = max(len(columns), len(taken)) <= LIMIT
        return Repeated(what, tuple(commands) if is_short else (), "accepted: no")


def _is_answer_of_tu(piece: Piece) -> bool:
    """Whether `cmr tu` gives the answer on a part again. A no may be that of a violator, which is checked by itself."""
    answer = piece.answer
    if answer is None or answer.tree is None or piece.is_over:
        return False
    return answer.verdict != "no" or answer.tree.root.kind != "violator"


def row_pattern(wanted: Sequence[str], names: Iterable[str]) -> str:
    """A regular expression that has a match in these names, and in no other: by families if they have no other rows, else by names."""
    taken = set(wanted)
    parts = [_family_pattern(family) for family in dict.fromkeys(map(family_of, wanted))]
    pattern = _one_of(parts)
    if {name for name in names if re.search(pattern, name)} == taken:
        return pattern
    return _one_of([re.escape(name) for name in wanted])


def _one_of(parts: Sequence[str]) -> str:
    return f"^{parts[0]}$" if len(parts) == 1 else f"^({'|'.join(parts)})$"


def _family_pattern(family: str) -> str:
    """What fits to the names of a family, such as `flow[..]` or `cap_#`."""
    escaped = re.escape(family).replace(r"\#", "[0-9]+(_[0-9]+)*")
    for first, inside, last in (("[", "[^]]*", "]"), ("(", "[^)]*", ")"), ("{", "[^}]*", "}")):
        escaped = escaped.replace(rf"\{first}\.\.\{last}", rf"\{first}{inside}\{last}")
    return escaped
