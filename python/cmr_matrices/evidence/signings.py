"""Signings of sets of rows, the evidence of Ghouila-Houri's condition for one set. docs/DEFINITIONS.md has the steps of the run."""

from __future__ import annotations

from collections.abc import Iterable
from dataclasses import dataclass, field

from ..errors import BadInput
from ..given import text_given
from ..matrices.lines import Names
from ..matrices.matrix import Matrix
from ..matrices.sources import MatrixLike

__all__ = ["Signing", "SigningStep"]


@dataclass(frozen=True, slots=True)
class SigningStep:
    """A step of the run: a pivot in a row and a column, or a row that is put aside if the column is None. Counted from 0."""

    row: int
    column: int | None = None


@dataclass(frozen=True)
class Signing:
    """A sign, 1 or -1, for each row of a set, with which every column sum is -1, 0 or 1, and the steps that led to it."""

    signs: tuple[tuple[int, int], ...]
    steps: tuple[SigningStep, ...] = field(repr=False)
    names: Names | None = field(default=None, compare=False, repr=False)

    def as_dict(self) -> dict[int, int]:
        """The sign of each row."""
        return dict(self.signs)

    def column_sums(self, matrix: MatrixLike) -> list[int]:
        """The sum of the signed rows in each column of a matrix."""
        whole = Matrix.of(matrix)
        signs = self.as_dict()
        sums = [0] * whole.shape[1]
        for row, column, value in whole.nonzeros:
            sums[column] += signs.get(row, 0) * value
        return sums

    def to_text(self) -> str:
        """The lines that the program prints, with lines counted from 1."""
        signs = [f"row {row + 1} {'+' if sign > 0 else '-'}\n" for row, sign in self.signs]
        steps = [
            f"aside {step.row + 1}\n" if step.column is None else f"pivot {step.row + 1} {step.column + 1}\n"
            for step in self.steps
        ]
        return "".join(signs + steps)

    @classmethod
    def from_text(cls, text: str, names: Names | None = None) -> Signing:
        """The signing that printed lines have. Raises `BadInput` at a line that is none of them."""
        return cls.from_lines(text_given("no signing", text).splitlines(), names)

    @classmethod
    def from_lines(cls, lines: Iterable[str], names: Names | None = None) -> Signing:
        """The same of lines that are split already."""
        signs, steps = [], []
        for line in lines:
            match line.split(" "):
                case ["row", row, "+" | "-" as sign] if row.isdecimal():
                    signs.append((int(row) - 1, 1 if sign == "+" else -1))
                case ["pivot", row, column] if row.isdecimal() and column.isdecimal():
                    steps.append(SigningStep(int(row) - 1, int(column) - 1))
                case ["aside", row] if row.isdecimal():
                    steps.append(SigningStep(int(row) - 1))
                case _:
                    raise BadInput(f"no signing: {line!r} is no line of one")
        return cls(tuple(signs), tuple(steps), names)
