"""Chains of signs, which show that a 0/1 matrix is not regular. docs/DEFINITIONS.md says when a chain is sound, and why it shows it."""

from __future__ import annotations

from dataclasses import dataclass, field

from ..errors import BadInput
from ..matrices.lines import LineSet, Names
from ..matrices.pages import paragraph
from ..matrices.words import LIMIT, Words

__all__ = ["Chain", "ChainStep"]


@dataclass(frozen=True, slots=True)
class ChainStep:
    """A one of the matrix, in a row and a column counted from 0, that gets its sign.

    If `lines` is None, the sign is free and is +1. Otherwise it is forced: it makes the sum over these lines divisible by 4.
    """

    row: int
    column: int
    lines: LineSet | None = None


@dataclass(frozen=True)
class Chain:
    """Steps that sign the ones of a 0/1 matrix of the given shape, and then lines that are a violator of these signs."""

    shape: tuple[int, int]
    steps: tuple[ChainStep, ...] = field(repr=False)
    violator: LineSet
    names: Names | None = field(default=None, compare=False, repr=False)

    def to_text(self) -> str:
        """The canonical chain text, with lines counted from 1."""
        steps = [f"{_step_text(step)}\n" for step in self.steps]
        head = f"cmr-chain 1\n{self.shape[0]} {self.shape[1]} {len(steps)}\n"
        return f"{head}{''.join(steps)}violator {self.violator.words}\n"

    @property
    def needed(self) -> LineSet:
        """The lines of the violator, and of the steps on which its signs depend.

        The submatrix on these lines is not regular either: the chain of these steps shows it.
        """
        forced = {(step.row, step.column): step.lines for step in self.steps}
        rows, columns = set(self.violator.rows), set(self.violator.columns)
        pending = [(row, column) for row in rows for column in columns]
        while pending:
            lines = forced.pop(pending.pop(), None)
            if lines is not None:
                rows.update(lines.rows)
                columns.update(lines.columns)
                pending += ((row, column) for row in lines.rows for column in lines.columns)
        return LineSet(tuple(sorted(rows)), tuple(sorted(columns)))

    def __str__(self) -> str:
        names = self.names or Names.numbered(*self.shape)
        free = sum(step.lines is None for step in self.steps)
        signs = f"{free} free signs and {len(self.steps) - free} forced ones"
        return f"not regular: {signs} lead to a violator in {names.line_set(self.violator)}"

    def _repr_html_(self) -> str:
        return paragraph(str(self))

    @classmethod
    def from_text(cls, text: str, names: Names | None = None) -> Chain:
        """The chain that a text contains. Raises `BadInput` if the text is not a chain."""
        words = Words(text)
        try:
            if words.word() != "cmr-chain" or words.word() != "1":
                raise BadInput("it does not begin with the words `cmr-chain 1`")
            shape = words.shape()
            steps = tuple(_step(words, shape) for _ in range(words.count(min(shape[0] * shape[1], LIMIT * LIMIT))))
            if words.word() != "violator":
                raise words.fault("the violator is missing")
            violator = words.line_set(shape)
            words.end("words follow the violator")
        except BadInput as fault:
            raise BadInput(f"no chain: {fault}") from fault
        return cls(shape, steps, violator, names)


def _step(words: Words, shape: tuple[int, int]) -> ChainStep:
    kind = words.word()
    if kind not in ("free", "forced"):
        raise words.unknown(kind, "no step")
    row, column = words.row(shape).number, words.column(shape).number
    return ChainStep(row, column, words.line_set(shape) if kind == "forced" else None)


def _step_text(step: ChainStep) -> str:
    place = f"{step.row + 1} {step.column + 1}"
    return f"free {place}" if step.lines is None else f"forced {place} {step.lines.words}"
