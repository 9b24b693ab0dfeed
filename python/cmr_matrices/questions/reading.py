"""Answers as values: runs the program on a question, and reads what it prints and writes."""

from __future__ import annotations

from collections.abc import Mapping
from dataclasses import dataclass, field, replace

from ..errors import ProgramFault
from ..evidence.chains import Chain
from ..evidence.graphs import Graph
from ..evidence.printed import line_sets
from ..evidence.reductions import Reductions
from ..evidence.trees import Tree
from ..matrices.lines import LineSet
from ..matrices.matrix import Matrix
from ..matrices.pages import SHOWN
from ..matrices.submatrices import Submatrix
from ..running.clock import TimeLimit
from ..running.program import NO, YES, Ran, StrPath, run
from .answers import Answer, Verdict

__all__ = ["GRAPH_QUESTIONS", "Question", "printed_part", "read_answer"]

GRAPH_QUESTIONS = {
    "graphic": ("graphic",),
    "cographic": ("graphic", "-t"),
    "network": ("network",),
    "conetwork": ("network", "-t"),
    "series-parallel": ("series-parallel",),
    "binary series-parallel": ("series-parallel", "-b"),
}
"""For each property of graphs, the arguments of the program that ask for it. A no has a minimal submatrix without the property."""


@dataclass(frozen=True)
class Question:
    """A tool of the program with its arguments, and the files that it writes, each by the option that names it."""

    property_name: str
    words: tuple[str, ...]
    files: Mapping[str, str] = field(default_factory=dict)
    said: str = ""
    """The program's own word for the property, if that is another."""

    def ask(self, matrix: Matrix, program: StrPath | None, time_limit: TimeLimit) -> Answer:
        """What the program says of a matrix."""
        form, text = matrix.for_program()
        ran = run(
            [*self.words, "-i", form, *(word for option in self.files.items() for word in option)],
            text=text,
            outputs=tuple(self.files.values()),
            program=program,
            time_limit=time_limit,
        )
        is_directed = self.words[0] == "network"
        return read_answer(ran, matrix, self.property_name, word=self.said, directed=is_directed)


def read_answer(ran: Ran, matrix: Matrix, property_name: str, *, word: str = "", directed: bool = True) -> Answer:
    """The answer that a run on a matrix has printed and written, with all its evidence.

    `word` is the program's own word for the property, if that is another. Raises `ProgramFault` if the first line is not the line of the
    answer, for example after a run of another program.
    """
    verdict: Verdict = "yes" if ran.status == YES else "no" if ran.status == NO else "undecided"
    if ran.said(word or property_name) != verdict:
        raise ProgramFault(ran.status, f"the program is not cmr: it says {ran.lines[0]!r}")
    found = line_sets(ran.lines)
    names = matrix.names
    texts = ran.files
    signed = Matrix.from_text(texts["signed"]) if "signed" in texts else None
    # A violator of regularity is one of the signed matrix.
    violated = signed if property_name == "regular" else matrix
    return Answer(
        property_name=property_name,
        verdict=verdict,
        violator=printed_part(found, matrix, "violator", violated) or printed_part(found, matrix, "fault", violated),
        open=printed_part(found, matrix, "open"),
        minimal=_minimal(printed_part(found, matrix, "minimal", matrix), property_name),
        rest=printed_part(found, matrix, "rest"),
        tree=Tree.from_text(texts["tree"], names) if "tree" in texts else None,
        graph=Graph.from_text(texts["graph"], directed=directed, names=names) if "graph" in texts else None,
        reductions=Reductions.from_text(texts["reductions"], names) if "reductions" in texts else None,
        signed=None if signed is None else Matrix(signed.shape, signed.nonzeros, names),
        chain=Chain.from_text(texts["chain"], names) if "chain" in texts else None,
    )


def _minimal(part: Submatrix | None, property_name: str) -> Submatrix | None:
    """The submatrix with what it shows."""
    meaning = f"It is not {property_name}, and without any one of its rows and columns it is."
    return None if part is None else replace(part, meaning=meaning)


def printed_part(
    found: Mapping[str, LineSet], matrix: Matrix, word: str, entries: Matrix | None = None
) -> Submatrix | None:
    """The submatrix that was printed after a word, or None if there is none.

    If a matrix is given and the submatrix is small, it is shown with its entries.
    """
    lines = found.get(word)
    if lines is None:
        return None
    is_shown = entries is not None and max(len(lines.rows), len(lines.columns)) <= SHOWN
    shown = _entries(entries, lines) if entries is not None and is_shown else None
    return Submatrix(matrix.shape, lines.rows, lines.columns, matrix.names, shown)


def _entries(matrix: Matrix, lines: LineSet) -> tuple[tuple[int, ...], ...]:
    return tuple(tuple(matrix[row, column] for column in lines.columns) for row in lines.rows)
