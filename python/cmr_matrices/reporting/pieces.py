"""Answers on some rows or columns of a model, part by part, and what shows them."""

from __future__ import annotations

from dataclasses import dataclass, field

from ..evidence.trees import Tree
from ..matrices.matrix import Matrix
from ..matrices.submatrices import Submatrix
from ..matrices.words import LIMIT
from ..models.constraints import Constraints
from ..questions.answers import Answer, Verdict
from ..structures.structure import Structure

__all__ = ["Asked", "Cells", "Piece"]


@dataclass(frozen=True)
class Cells:
    """Some rows and columns of a model, counted from 0, in increasing order."""

    rows: tuple[int, ...]
    columns: tuple[int, ...]

    @property
    def is_too_large(self) -> bool:
        """Whether it has more lines than a matrix may have, so that the program answers no question on it."""
        return max(len(self.rows), len(self.columns)) > LIMIT

    def part(self, part: Submatrix) -> Cells:
        """The lines of the model that a submatrix of the submatrix on these lines has."""
        return Cells(tuple(self.rows[at] for at in part.rows), tuple(self.columns[at] for at in part.columns))


@dataclass(frozen=True)
class Piece:
    """A connected part of a model, and the matrix that was asked, with its answer. Both are None if it was not asked.

    A part that is too large for `cmr` has no matrix, and the answer is that of `cmr-large`. A part that neither answers in its time may have
    a structure instead, or an odd cycle that is too large for `cmr check`. Only the arithmetic of this package has checked these.
    """

    constraints: Constraints = field(repr=False)
    matrix: Matrix | None = field(repr=False)
    answer: Answer | None
    structure: Structure | None = None
    is_over: bool = False
    """Whether it is open because the time was over."""
    cycle: Submatrix | None = None

    @property
    def violator(self) -> Submatrix | None:
        """The violator of a no."""
        return self.cycle if self.answer is None else self.answer.violator

    @property
    def tree(self) -> Tree | None:
        """The decomposition tree of the answer."""
        return None if self.answer is None else self.answer.tree

    @property
    def is_too_large(self) -> bool:
        """Whether it has more lines than a matrix may have."""
        return max(self.constraints.names.shape) > LIMIT

    @property
    def is_yes(self) -> bool:
        """Whether it is totally unimodular, by the program or by a structure."""
        return self.structure is not None or (self.answer is not None and self.answer.verdict == "yes")


@dataclass(frozen=True)
class Asked:
    """Whether some lines of a model are totally unimodular. A no has a violator, and an undecided answer says why it is open.

    `rows` are the rows that were asked about, with all their columns or with some of them. The matrix of a large question is reduced,
    and its connected parts are asked.
    """

    rows: tuple[int, ...]
    verdict: Verdict
    pieces: tuple[Piece, ...] = field(repr=False)
    is_reduced: bool
    violator: Cells | None = None
    open: Cells | None = None
    why_open: str = ""
    is_over: bool = False
    """Whether a part is open because the time was over."""

    @property
    def arithmetic(self) -> tuple[Piece, ...]:
        """The parts that only have a structure: no proved program has answered them."""
        return tuple(piece for piece in self.pieces if piece.structure is not None and piece.answer is None)

    @property
    def is_hasty(self) -> bool:
        """Whether a part has a structure only because the program had no time for it."""
        return any(piece.structure is not None and piece.matrix is not None for piece in self.pieces)
