"""The questions that decide one matrix, the cheap ones first, with the check of each evidence by the program."""

from __future__ import annotations

from collections.abc import Iterator
from dataclasses import dataclass, replace

from ..errors import ProgramFault, TimeLimitReached
from ..evidence.nodes import Node
from ..evidence.trees import Tree
from ..matrices.large_matrix import LargeMatrix
from ..matrices.lines import LineSet
from ..matrices.matrix import Matrix
from ..matrices.submatrices import Submatrix
from ..questions.answers import Answer
from ..questions.large_questions import ask_large
from ..questions.line_orders import drawn_orders
from ..questions.narrowing import Narrowing
from ..questions.options import budget_words
from ..questions.properties import has_no_cycle_fault, is_network, is_totally_unimodular
from ..questions.reading import Question
from ..questions.tools import check
from ..running.calls import Call
from ..running.clock import Clock
from ..running.program import REFUSED, StrPath
from ..structures.paths import Arcs

__all__ = ["Decider"]

_ORDERS = 12
"""In how many other orders of the lines a cycle fault of an open part is looked for. Each takes milliseconds."""


@dataclass(frozen=True)
class Decider:
    """The program with its options, within a time."""

    clock: Clock
    program: StrPath | None
    lines: int | None

    def cheap(self, matrix: Matrix) -> Answer:
        """The answer without pivots, and if it is open a no by a cycle fault in another order or by a small part, if there is one.

        If the time is over after the first answer, it is the undecided one.
        """
        answer = self._held(matrix, self._asked(matrix, 0))
        try:
            found = next(self._noes(matrix, answer), None) if answer.is_undecided else None
            return answer if found is None else self._held(matrix, found)
        except TimeLimitReached:
            return answer

    def pivoted(self, matrix: Matrix, pivots: int) -> Answer:
        """The answer with as many pivots."""
        return self._held(matrix, self._asked(matrix, pivots))

    def violator(self, matrix: Matrix) -> Answer:
        """The no of a matrix that is itself a violator. Raises `ProgramFault` if `cmr check` does not accept that it is one."""
        return self._held(matrix, _no(matrix, _all_lines(matrix)))

    def large(self, matrix: LargeMatrix) -> Answer:
        """The answer of `cmr-large`, which is proved and has no evidence for `cmr check`."""
        return ask_large(matrix, Call.begin(self.program, self.clock), budget_words(self.lines, 0, None))

    def arcs(self, matrix: Matrix) -> Arcs | None:
        """The arcs of the rows in a tree in which all columns are paths, or None if the matrix is no network matrix."""
        graph = is_network(matrix, certificate=True, program=self.program, time_limit=self.clock).graph
        return None if graph is None else tuple((edge.tail, edge.head) for edge in graph.arcs)

    def _asked(self, matrix: Matrix, pivots: int) -> Answer:
        return is_totally_unimodular(
            matrix,
            certificate=True,
            parts=False,
            lines=self.lines,
            pivots=pivots,
            time_limit=self.clock,
            program=self.program,
        )

    def _noes(self, matrix: Matrix, answer: Answer) -> Iterator[Answer]:
        """What shows that a matrix that is left open is not totally unimodular."""
        part = answer.open
        if part is not None:
            for order in drawn_orders(matrix, part.lines, _ORDERS, 0):
                fault = has_no_cycle_fault(order.reordered(), program=self.program, time_limit=self.clock).violator
                if fault is not None:
                    yield _no(matrix, order.submatrix(fault))
        question = Question("totally unimodular", ("tu", *budget_words(self.lines, 0, None)), {"-D": "tree"})
        found = Narrowing(self.clock, self.program).decided(question, matrix)
        if found is not None:
            yield found

    def _held(self, matrix: Matrix, answer: Answer) -> Answer:
        """The answer. Raises `ProgramFault` if `cmr check` does not accept its evidence with its verdict."""
        if answer.verdict == "no" and answer.violator is not None:
            matrix = answer.violator.submatrix(matrix)
            evidence: Tree | Submatrix | None = _all_lines(matrix)
        else:
            evidence = answer.tree
        if evidence is None:
            raise ProgramFault(REFUSED, f"the answer {answer.verdict} has no evidence")
        checked = check(matrix, evidence, program=self.program, time_limit=self.clock)
        if not checked.accepted or checked.says != answer.verdict:
            raise ProgramFault(REFUSED, f"cmr check refuses the evidence: {checked.rule or checked.says}")
        return answer


def _no(matrix: Matrix, violator: Submatrix) -> Answer:
    """The no that a violator shows."""
    every = LineSet(tuple(range(matrix.shape[0])), tuple(range(matrix.shape[1])))
    tree = Tree(matrix.shape, Node("violator", every, fault=violator.lines), matrix.names)
    return replace(Answer("totally unimodular", "no"), violator=violator, tree=tree)


def _all_lines(matrix: Matrix) -> Submatrix:
    """All lines of a matrix."""
    rows, columns = matrix.shape
    return Submatrix(matrix.shape, tuple(range(rows)), tuple(range(columns)))
