"""A no by a part of a matrix: a small part outside of two classes of graphs, which shows that the whole matrix lacks the property.

A matrix that is not regular is neither graphic nor cographic, and one that is not totally unimodular is neither a network matrix nor the
transpose of one. These four classes are decided fast at every size. So lines are removed while the rest stays outside of one of them: few
lines are left, also of a large matrix. If the rest lacks the property, its chain or violator is one of the whole matrix. If it has the
property, nothing is known of the whole matrix.

Source: Tutte 1959 and Seymour 1980, by which graphic and cographic matroids are regular.
"""

from __future__ import annotations

from collections.abc import Iterator, Mapping
from dataclasses import dataclass, replace

from ..errors import ProgramFault
from ..evidence.nodes import Node
from ..evidence.trees import Tree
from ..matrices.lines import Line, LineSet
from ..matrices.matrix import Matrix
from ..matroids.tableaux import Tableau
from ..running.clock import Clock
from ..running.program import REFUSED, StrPath, run
from .answers import Answer
from .line_orders import LineOrder
from .minor_search import Outside, fewer_lines, line_tableau
from .reading import GRAPH_QUESTIONS, Question, read_answer
from .tools import Evidence, check

__all__ = ["GRAPHS", "Narrowing"]

GRAPHS = {"totally unimodular": ("network", "conetwork"), "regular": ("graphic", "cographic")}
"""For a property two classes of graphs that have it."""


@dataclass(frozen=True)
class Narrowing:
    """The program, with the time that is left and the words of the budget for its searches."""

    clock: Clock
    program: StrPath | None
    budget: tuple[str, ...] = ()

    def decided(self, question: Question, matrix: Matrix) -> Answer | None:
        """The no to a question that a part of a matrix shows, with evidence on the whole matrix, or None if no part shows one."""
        files = {"-M": "signed", "-C": "chain"} if question.property_name == "regular" else {}
        tableau = line_tableau(matrix, 2 if files else 3)
        for part in self.parts(tableau, question.property_name):
            order = LineOrder(matrix, *_numbers(part.elements))
            found = replace(question, files=files).ask(order.reordered(), self.program, self.clock)
            if found.verdict == "no":
                return self._no(matrix, order, found)
        return None

    def parts(self, tableau: Tableau[Line], property_name: str) -> Iterator[Tableau[Line]]:
        """The part outside of each of the two classes of graphs. A matrix that is in one of them has no parts."""
        for graphs in GRAPHS[property_name]:
            smaller, outside = tableau.copy(), self.outside(graphs)
            if not outside(smaller):
                return
            fewer_lines(smaller, outside)
            yield smaller

    def outside(self, name: str) -> Outside:
        """The test whether the matrix of a tableau is outside of a class."""
        words = ("regular", *self.budget) if name == "regular" else GRAPH_QUESTIONS[name]

        def test(tableau: Tableau[Line]) -> bool | None:
            ran = run(
                [*words, "-i", "dense"], text=tableau.to_text(), program=self.program, time_limit=self.clock.left()
            )
            answer = read_answer(ran, Matrix(tableau.shape, ()), name)
            return None if answer.is_undecided else answer.verdict == "no"

        return test

    def _no(self, matrix: Matrix, order: LineOrder, found: Answer) -> Answer:
        """The answer on the whole matrix that a part shows. Its evidence is named by the lines of the whole matrix, and tested there."""
        chain = found.chain and order.chain(found.chain)
        signed = found.signed and _signed(matrix, order, found.signed)
        violator = found.violator and replace(order.submatrix(found.violator), entries=found.violator.entries)
        evidence, says = (violator, "no") if chain is None else (chain, "not regular")
        if violator is None or evidence is None:
            raise ProgramFault(REFUSED, "the no of a part has no evidence")
        self._must_say(matrix, evidence, says)
        every = LineSet(tuple(range(matrix.shape[0])), tuple(range(matrix.shape[1])))
        tree = Tree(matrix.shape, Node("violator", every, fault=violator.lines), matrix.names)
        return replace(found, violator=violator, tree=tree, signed=signed, chain=chain)

    def _must_say(self, matrix: Matrix, evidence: Evidence, says: str) -> None:
        """Tests by `check` what the evidence of a part says of the whole matrix."""
        checked = check(matrix, evidence, program=self.program, time_limit=self.clock)
        if checked.says != says:
            raise ProgramFault(REFUSED, f"the evidence of a part is refused: {checked.rule or checked.says}")


def _numbers(elements: tuple[Line, ...]) -> tuple[tuple[int, ...], tuple[int, ...]]:
    """The rows and the columns among lines."""
    rows = tuple(line.number for line in elements if line.kind == "row")
    return rows, tuple(line.number for line in elements if line.kind == "column")


def _signed(matrix: Matrix, order: LineOrder, part: Matrix) -> Matrix:
    """The matrix with the signs of a part. Other ones stay as they are."""
    signs: Mapping[tuple[int, int], int] = {
        (order.rows[row], order.columns[column]): value for row, column, value in part.nonzeros
    }
    nonzeros = tuple((row, column, signs.get((row, column), value)) for row, column, value in matrix.nonzeros)
    return Matrix(matrix.shape, nonzeros, matrix.names)
