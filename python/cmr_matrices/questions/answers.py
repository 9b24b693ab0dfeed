"""Answers with their evidence."""

from __future__ import annotations

from dataclasses import dataclass, field, fields
from html import escape
from typing import Any, Literal

from ..errors import Undecided
from ..evidence.chains import Chain
from ..evidence.graphs import Graph
from ..evidence.reductions import Reductions
from ..evidence.signings import Signing
from ..evidence.trees import Tree
from ..matrices.matrix import Matrix
from ..matrices.pages import paragraph
from ..matrices.submatrices import Submatrix
from ..matrices.words import LIMIT
from ..matroids.matroid_values import Label

__all__ = ["Answer", "Checked", "Parts", "Verdict"]

Verdict = Literal["yes", "no", "undecided"]


@dataclass(frozen=True)
class Answer:
    """What the program says of a matrix: true for a yes, false for a no. The truth value of an undecided answer raises `Undecided`.

    An answer is not a truth value itself: `answer == True` raises `TypeError`. Use `bool(answer)` or `answer.verdict == "yes"`.

    Evidence that does not belong to the question or to the verdict, or was not asked for, is None. The documentation of
    each function says which evidence it gives.
    """

    property_name: str
    """The property in words, such as `totally unimodular`."""
    verdict: Verdict
    violator: Submatrix | None = field(default=None, repr=False)
    """Of a no: a submatrix whose rows and columns have even sums and whose entries sum to 2 modulo 4."""
    open: Submatrix | None = field(default=None, repr=False)
    """Of an undecided answer: the submatrix that is too large for the budget, or for `cmr`."""
    minimal: Submatrix | None = field(default=None, repr=False)
    """Of a no: a submatrix without the property that has it when any one of its lines is removed."""
    rest: Submatrix | None = field(default=None, repr=False)
    """What the series-parallel reductions leave."""
    tree: Tree | None = field(default=None, repr=False)
    """The decomposition tree, of the signed matrix if there is one."""
    graph: Graph | None = field(default=None, repr=False)
    """Of a yes: the graph that shows the property."""
    reductions: Reductions | None = field(default=None, repr=False)
    """The series-parallel reductions in their order."""
    signed: Matrix | None = field(default=None, repr=False)
    """The 0/1 matrix with the signs that make it totally unimodular, if any signs do."""
    chain: Chain | None = field(default=None, repr=False)
    """Of a no on regularity: the steps which show that no signs do."""
    signing: Signing | None = field(default=None, repr=False)
    """Of a yes of `sign`: the signs of the rows."""
    tries: int = field(default=0, repr=False)
    """In how many other orders of the lines the question was asked again."""
    of_matroid: str | None = field(default=None, repr=False)
    """Of a question about a `Matroid` its property, such as `regular` if the matrix over GF(3) is totally unimodular."""
    labels: tuple[Label, ...] | None = field(default=None, compare=False, repr=False)
    """Of a question about a `Matroid` its elements."""

    @property
    def edges(self) -> dict[Label, tuple[int, int]]:
        """Of a yes with a graph about a `Matroid` the ends of each element in the graph, where elements are texts."""
        if self.graph is None or self.labels is None:
            return {}
        height = self.graph.shape[0]
        lines = {edge.line: (edge.tail, edge.head) for edge in self.graph.edges}
        return {self.labels[line.number + height * (line.kind == "column")]: ends for line, ends in lines.items()}

    @property
    def asked(self) -> str:
        """The property in words, and of a matroid over GF(3) also the property of its matrix that decides."""
        if self.of_matroid is None or self.of_matroid in self.property_name:
            return self.of_matroid or self.property_name
        return f"{self.of_matroid} ({self.property_name} over GF(3))"

    @property
    def is_undecided(self) -> bool:
        """Whether a part is left open that is too large for the budget."""
        return self.verdict == "undecided"

    def __bool__(self) -> bool:
        if self.open is not None and max(len(self.open.rows), len(self.open.columns)) > LIMIT:
            raise Undecided(f"{self.asked}: undecided, the open part of {self.open.lines.size} is too large for `cmr`")
        if self.is_undecided:
            raise Undecided(
                f"{self.asked}: undecided, the open part is larger than the budget; `pivots=100` makes more pivots of it, "
                "`lines` up to 24 is a larger budget, and `tries=20` asks again in other orders of the lines"
            )
        return self.verdict == "yes"

    def __str__(self) -> str:
        named = (("violator", self.violator), ("open", self.open), ("rest", self.rest), ("minimal", self.minimal))
        lines = [
            f"{self.asked}: {self.verdict}",
            *(f"{what}{' of the signed matrix' * lines.of_signed} {lines}" for what, lines in named if lines is not None),
        ]
        return "\n".join([*lines, *([] if self.tree is None else [str(self.tree)])])

    def __eq__(self, other: object) -> bool:
        return _are_equal(self, other)

    def _repr_html_(self) -> str:
        named = (("violator", self.violator), ("open", self.open), ("rest", self.rest), ("minimal", self.minimal))
        parts = [f"<p><b>{escape(self.asked)}: {self.verdict}</b></p>\n"]
        for what, part in named:
            if part is not None:
                of = " of the signed matrix" if part.of_signed else ""
                parts += paragraph(f"{what}{of}, {part.lines.size} of {part.shape[0]}x{part.shape[1]}"), part._repr_html_()
        drawn = self.tree or self.graph
        if drawn is not None:
            parts.append(drawn._repr_html_() or "")
        return "".join(parts)


@dataclass(frozen=True)
class Checked:
    """What `check` says of evidence: true if the evidence keeps its rules, and false if `check` refuses it."""

    accepted: bool
    says: Literal["yes", "no", "undecided", "not regular"] | None = None
    """What accepted evidence says of the matrix."""
    violator: Submatrix | None = field(default=None, repr=False)
    open: Submatrix | None = field(default=None, repr=False)
    path: tuple[int, ...] | None = None
    """The first node that breaks a rule: the numbers of the children, counted from 0, that lead to it from the root."""
    step: int | None = None
    """The first step of a chain that breaks a rule, counted from 0. The violator counts as the step after the last."""
    rule: str | None = None
    """The rule of docs/FORMATS.md that the node breaks; of an answer also what its graph, signs or violator lack."""
    hint: str | None = field(default=None, repr=False)
    """What to check instead, if refused evidence belongs to another matrix: that of `is_regular` to its signed matrix."""

    def __str__(self) -> str:
        if self.accepted:
            return f"accepted: {self.says}"
        place = "" if self.path is None else f"node {'.'.join(str(child) for child in self.path) or 'root'} "
        step = "" if self.step is None else f"step {self.step} "
        return f"refused: {place}{step}{self.rule or ''}".rstrip() + ("" if self.hint is None else f"; {self.hint}")

    def _repr_html_(self) -> str:
        return paragraph(str(self))

    def __bool__(self) -> bool:
        return self.accepted

    def __eq__(self, other: object) -> bool:
        return _are_equal(self, other)


@dataclass(frozen=True)
class Parts:
    """Two matrices whose sum, of this kind, is a matrix with its lines in the order of `rows` and `columns`, counted from 0."""

    kind: Literal["two", "delta", "y", "mixed", "concentrated"]
    first: Matrix
    second: Matrix
    rows: tuple[int, ...] = field(repr=False)
    columns: tuple[int, ...] = field(repr=False)


def _are_equal(value: Any, other: object) -> bool:
    """Whether two answers are equal. Raises `TypeError` for a truth value or a text, which no answer is equal to."""
    if isinstance(other, (bool, str)) or type(other).__name__ in ("bool_", "bool"):
        name = type(value).__name__
        said = "accepted" if name == "Checked" else "verdict"
        raise TypeError(f"no {name} is equal to {other!r}: `bool(value)` is its truth value, and `value.{said}` what it says")
    if type(other) is not type(value):
        return False
    return all(getattr(value, it.name) == getattr(other, it.name) for it in fields(value) if it.compare)
