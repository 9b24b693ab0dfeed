"""Total unimodularity of a matrix that is too large for `cmr`: `cmr-large` decides it, and `cmr` the parts that it leaves open.

`cmr-large` removes lines with at most one nonzero, and decides the connected parts of the rest. If it leaves a part open, `cmr tu` is asked
about the part, with pivots and in other orders, and `cmr-large` about the matrix without the lines of the part. A violator of either is one of the matrix. The matrix is
totally unimodular if and only if the part and the other parts are.
"""

from __future__ import annotations

from collections.abc import Callable, Sequence
from dataclasses import dataclass, replace
from typing import Literal

from ..errors import ProgramFault, TimeLimitReached
from ..matrices.large_matrix import LargeMatrix
from ..matrices.matrix import Matrix
from ..matrices.pages import SHOWN
from ..matrices.submatrices import Submatrix
from ..matrices.words import LIMIT
from ..running.calls import Call
from ..running.large_run import LINES, find_large, run_large
from ..running.program import NO, YES
from .answers import Answer, Verdict

__all__ = ["LargeQuestion", "ask_large", "ask_large_text"]

_NAME = "totally unimodular"


def ask_large(matrix: LargeMatrix, call: Call, budget: Sequence[str] = ()) -> Answer:
    """What one run of `cmr-large` with the words of a budget says of a matrix: a no has a violator, an undecided answer the open part."""
    answer = ask_large_text(matrix.to_text().encode("ascii"), "sparse", call, budget)
    named = [part and replace(part, names=matrix.names) for part in (answer.violator, answer.open)]
    return replace(answer, violator=named[0] and _shown(matrix, named[0]), open=named[1])


def ask_large_text(text: bytes, form: Literal["dense", "sparse"], call: Call, budget: Sequence[str] = ()) -> Answer:
    """The same of the matrix of a text."""
    ran = run_large(find_large(call.program), text, form, budget, call.clock)
    verdict: Verdict = "yes" if ran.status == YES else "no" if ran.status == NO else "undecided"
    if ran.said(_NAME) != verdict:
        raise ProgramFault(ran.status, f"the program is not cmr-large: it says {ran.lines[0]!r}")
    part = None if verdict == "yes" else Submatrix.from_text(ran.file(LINES))
    return Answer(_NAME, verdict, violator=part) if verdict == "no" else Answer(_NAME, verdict, open=part)


@dataclass(frozen=True)
class LargeQuestion:
    """The program with its time, what asks it about a part that is small enough for `cmr`, and the budget of `cmr-large`."""

    call: Call
    ask: Callable[[Matrix], Answer]
    budget: Sequence[str] = ()

    def answer(self, matrix: LargeMatrix) -> Answer:
        """The answer. An undecided one has the first part that no question decides.

        If the time is over, an undecided answer is returned if a part is known that is open.
        """
        rest, undecided = matrix, Answer(_NAME, "yes")
        try:
            while (found := ask_large(rest, self.call, self.budget)).open is not None:
                answer = self._of_part(matrix, found)
                if answer.verdict == "no":
                    return answer
                undecided = answer if undecided.verdict == "yes" else undecided
                rest = rest.without(found.open.lines)
        except TimeLimitReached:
            if undecided.verdict == "yes":
                raise
            return undecided
        return found if found.verdict == "no" else undecided

    def _of_part(self, matrix: LargeMatrix, undecided: Answer) -> Answer:
        """The answer on a part that is left open, on the lines of the matrix. It is the undecided one if the part is too large."""
        part = undecided.open
        assert part is not None
        if max(len(part.rows), len(part.columns)) > LIMIT:
            return undecided
        try:
            answer = self.ask(matrix.submatrix(part.rows, part.columns))
        except TimeLimitReached:
            return undecided
        return replace(answer, violator=answer.violator and part.part(answer.violator), open=answer.open and part.part(answer.open))


def _shown(matrix: LargeMatrix, part: Submatrix) -> Submatrix:
    """The submatrix, with its entries if it is small."""
    if max(len(part.rows), len(part.columns)) > SHOWN:
        return part
    entries = matrix.submatrix(part.rows, part.columns).to_lists()
    return replace(part, entries=tuple(map(tuple, entries)))
