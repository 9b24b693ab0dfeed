"""The questions about a matrix. The proved program decides each of them.

All accept whatever `Matrix.of` accepts. Those about matroids also accept a `Matroid`, and use its field: the module `asked` says how. All
have these keywords:

* `certificate`: whether to compute evidence that costs more than the answer;
* `parts`: whether a part of the matrix may decide a no before pivots are made (default true): the module `narrowing` says how;
* `lines`: the budget of the search through row sets, 0 to 24 (default 14);
* `workers`: how many threads share the searches, 1 to 64; it changes no answer;
* `pivots`: how many pivots may be made on the path to a part that is left open, 0 to 100 (default 20): docs/DEFINITIONS.md has the rule;
* `tries`: the number of other orders of the lines in which an undecided matrix is asked again, 0 to 1000 (default 0); `seed`, any
  integer, determines these orders, and each has as many pivots;
* `time_limit`: the seconds that the whole call may take, 0 to 2,000,000, or None for no limit (the default). The conversion of the
  argument to a matrix is not interrupted. The program is ended when the time is over. If there is an undecided answer by then, it is
  returned;
* `program`: the program's path; without it, the package searches for the program.

All raise `ProgramMissing` before they look at the matrix, `BadEntry` and `BadInput` if an argument is not a valid matrix or is out of its
range, `TimeLimitReached`, and `OutOfMemory`.
"""

from __future__ import annotations

from dataclasses import dataclass, replace

from ..errors import TimeLimitReached
from ..given import whole
from ..matrices.large_matrix import LargeMatrix, is_large
from ..matrices.matrix import Matrix
from ..matrices.sources import MatrixLike
from ..matroids.matroid_values import MatroidValue
from ..running.calls import Call
from ..running.clock import TimeLimit
from ..running.program import StrPath
from .answers import Answer
from .asked import MatroidLike, asked_property, matrix_given, matroid_property
from .large_questions import LargeQuestion
from .narrowing import Narrowing
from .options import budget_words
from .reading import GRAPH_QUESTIONS, Question
from .tries import Tries

__all__ = [
    "has_no_cycle_fault",
    "is_balanced",
    "is_cographic",
    "is_conetwork",
    "is_graphic",
    "is_network",
    "is_regular",
    "is_series_parallel",
    "is_totally_unimodular",
]


def is_totally_unimodular(
    matrix: MatroidLike,
    *,
    certificate: bool = False,
    parts: bool = True,
    lines: int | None = None,
    workers: int | None = None,
    pivots: int = 20,
    tries: int = 0,
    seed: int = 0,
    time_limit: TimeLimit = None,
    program: StrPath | None = None,
) -> Answer:
    """Whether every square submatrix has the determinant -1, 0 or 1.

    A no has a `violator`, and an undecided answer the part that is `open`. With `certificate` there is also the `tree`. Without `parts`
    and `tries` the answer and its tree are those of one run of the program with as many pivots.

    A matrix with more than 1,000 rows or columns needs the program `cmr-large`, which is beside `cmr`, and its answer has no `tree`. The
    budget and the workers apply to `cmr-large`, and all options to each part that it leaves open.

    `lines` is the budget of the search, 0 to 24 lines (14); `workers` the threads that share it, 1 to 64 (1); `pivots` how many pivots
    may be made on the path to a part that is left open, 0 to 100 (20); `tries` in how many other orders an undecided matrix is asked again,
    0 to 1000 (0), which `seed`, any integer (0), determines. `time_limit` is in seconds, 0 to 2,000,000, for the whole call. `program` is
    the program's path.

    Source: Ghouila-Houri 1962; Hoffman and Kruskal 1956; Seymour 1980.
    """
    name = asked_property("totally unimodular", matrix)
    search = _Search(name, lines, workers, pivots, tries, seed, parts=parts)
    call = Call.begin(program, time_limit)
    if is_large(matrix):
        budget = budget_words(lines, 0, workers)
        return LargeQuestion(call, lambda part: search.answer(part, False, call), budget).answer(LargeMatrix.of(matrix))
    return search.answer(matrix, certificate, call)


def is_regular(
    matrix: MatroidLike,
    *,
    certificate: bool = False,
    parts: bool = True,
    lines: int | None = None,
    workers: int | None = None,
    pivots: int = 20,
    tries: int = 0,
    seed: int = 0,
    time_limit: TimeLimit = None,
    program: StrPath | None = None,
) -> Answer:
    """Whether the ones of a 0/1 matrix can be signed so that it becomes totally unimodular.

    This decides whether the binary matroid of `[I A]` is regular. A no has a `violator` of the signed
    matrix. With `certificate` there are the `signed` matrix, its `tree`, and for a no the `chain`.

    `lines` is the budget of the search, 0 to 24 lines (14); `workers` the threads that share it, 1 to 64 (1); `pivots` how many pivots
    may be made on the path to a part that is left open, 0 to 100 (20); `tries` in how many other orders an undecided matrix is asked again,
    0 to 1000 (0), which `seed`, any integer (0), determines. `time_limit` is in seconds, 0 to 2,000,000, for the whole call. `program` is
    the program's path.

    Source: Camion 1965; Seymour 1980; Truemper, *Matroid Decomposition*.
    """
    search = _Search(asked_property("regular", matrix), lines, workers, pivots, tries, seed, parts=parts)
    return search.answer(matrix, certificate, Call.begin(program, time_limit))


def is_graphic(
    matrix: MatroidLike, *, certificate: bool = False, time_limit: TimeLimit = None, program: StrPath | None = None
) -> Answer:
    """Whether a 0/1 matrix is the matrix of paths in a tree: each column has ones at the arcs of a path.

    With `certificate` a yes has the `graph`, which is undirected, and a no a `minimal` submatrix.

    `time_limit` is in seconds, 0 to 2,000,000, for the whole call, and `program` the program's path.

    Source: Tutte 1960; Schrijver, *Theory of Linear and Integer Programming*, chapter 20.
    """
    return _asked(_graph_question(asked_property("graphic", matrix), certificate), matrix, time_limit, program)


def is_cographic(
    matrix: MatroidLike, *, certificate: bool = False, time_limit: TimeLimit = None, program: StrPath | None = None
) -> Answer:
    """Whether the transpose of a 0/1 matrix is graphic. The arcs of the `graph` represent the columns; otherwise as `is_graphic`.

    `time_limit` is in seconds, 0 to 2,000,000, for the whole call, and `program` the program's path.
    """
    return _asked(_graph_question(asked_property("cographic", matrix), certificate), matrix, time_limit, program)


def is_network(
    matrix: MatroidLike, *, certificate: bool = False, time_limit: TimeLimit = None, program: StrPath | None = None
) -> Answer:
    """Whether a matrix is the matrix of paths in a directed tree: an entry is 1 if the path takes the arc forwards, -1 if backwards.

    With `certificate` a yes has the `graph`, which is directed, and a no a `minimal` submatrix.

    `time_limit` is in seconds, 0 to 2,000,000, for the whole call, and `program` the program's path.

    Source: Tutte 1965; Schrijver, *Theory of Linear and Integer Programming*, chapters 19 and 20.
    """
    return _asked(_graph_question(asked_property("network", matrix), certificate), matrix, time_limit, program)


def is_conetwork(
    matrix: MatroidLike, *, certificate: bool = False, time_limit: TimeLimit = None, program: StrPath | None = None
) -> Answer:
    """Whether the transposed matrix is a network matrix. The arcs of the `graph` represent the columns; otherwise as `is_network`.

    `time_limit` is in seconds, 0 to 2,000,000, for the whole call, and `program` the program's path.
    """
    return _asked(_graph_question(asked_property("conetwork", matrix), certificate), matrix, time_limit, program)


def is_series_parallel(
    matrix: MatroidLike,
    *,
    binary: bool = False,
    certificate: bool = False,
    time_limit: TimeLimit = None,
    program: StrPath | None = None,
) -> Answer:
    """Whether removing lines that are zero, have one nonzero, or equal another line or its negative leaves no lines.

    With `binary` the matrix is 0/1, and negatives do not count. Of a `Matroid` the field decides, and not `binary`. A no has
    the `rest`. With `certificate` there are the `reductions`, and for a no a `minimal` submatrix.

    `time_limit` is in seconds, 0 to 2,000,000, for the whole call, and `program` the program's path.

    Source: series-parallel matrices of the CMR library.
    """
    name = asked_property("binary series-parallel" if binary else "series-parallel", matrix)
    files = {"-N": "minimal", "-S": "reductions"} if certificate else {}
    return _asked(Question(name, GRAPH_QUESTIONS[name], files), matrix, time_limit, program)


def is_balanced(
    matrix: MatrixLike,
    *,
    lines: int | None = None,
    workers: int | None = None,
    pivots: int = 20,
    tries: int = 0,
    seed: int = 0,
    time_limit: TimeLimit = None,
    program: StrPath | None = None,
) -> Answer:
    """Whether no submatrix with exactly two nonzeros in each line has a sum of 2 modulo 4.

    A no has such a submatrix as its `violator`, and an undecided answer has all lines as `open`. A yes that other orders have found
    has the `tree` of the totally unimodular matrix.

    `lines` is the budget of the search, 0 to 24 lines (14); `workers` the threads that share it, 1 to 64 (1); `pivots` how many pivots
    may be made on the path to a part that is left open, 0 to 100 (20); `tries` in how many other orders an undecided matrix is asked again,
    0 to 1000 (0), which `seed`, any integer (0), determines. `time_limit` is in seconds, 0 to 2,000,000, for the whole call. `program` is
    the program's path.

    Source: Berge 1970; Truemper, *Matroid Decomposition*.
    """
    search = _Search(asked_property("balanced", matrix), lines, workers, pivots, tries, seed)
    return search.answer(matrix, True, Call.begin(program, time_limit))


def has_no_cycle_fault(
    matrix: MatrixLike, *, time_limit: TimeLimit = None, program: StrPath | None = None
) -> Answer:
    """Camion's test: whether there is no cycle fault. If some signs of these nonzeros are totally unimodular, these signs are then too.

    A no has the cycle fault as its `violator`. Which fault is found depends on the order of the lines.

    `time_limit` is in seconds, 0 to 2,000,000, for the whole call, and `program` the program's path.

    Source: Camion 1965; docs/DEFINITIONS.md.
    """
    question = Question(asked_property("without cycle fault", matrix), ("camion",), said="camion")
    return _asked(question, matrix, time_limit, program)


_BINARY = {"regular", "graphic", "cographic", "binary series-parallel"}
"""The properties of 0/1 matrices."""

_SEARCHES: dict[str, tuple[str, dict[str, str]]] = {
    "totally unimodular": ("tu", {"-D": "tree"}),
    "regular": ("regular", {"-D": "tree", "-M": "signed", "-C": "chain"}),
    "balanced": ("balanced", {}),
}
"""The tool of the program for a question that may stay undecided, and the files of its evidence."""


@dataclass(frozen=True)
class _Search:
    """A question that may stay undecided, with what a caller lets it spend. Raises `BadInput` for a number out of its range."""

    property_name: str
    lines: int | None
    workers: int | None
    pivots: int
    tries: int
    seed: int
    parts: bool = False

    def __post_init__(self) -> None:
        self.words(self.pivots)
        whole("tries", self.tries, 0, 1000)
        whole("seed", self.seed)

    def words(self, pivots: int) -> tuple[str, ...]:
        """The words of the program with a number of pivots."""
        return _SEARCHES[self.property_name][0], *budget_words(self.lines, pivots, self.workers)

    def answer(self, given: MatroidLike, certificate: bool, call: Call) -> Answer:
        """The answer, without evidence that is not asked for."""
        taken = _taken(given, self.property_name)
        files = _SEARCHES[self.property_name][1] if certificate or self.tries else {}
        answer = self._decided(Question(self.property_name, self.words(self.pivots), files), taken, call)
        answer = _of_matroid(_of_signed(answer), given)
        return answer if certificate else replace(answer, tree=None, signed=None, chain=None)

    def _decided(self, question: Question, matrix: Matrix, call: Call) -> Answer:
        """The answer of the first step that decides: the program without pivots, a part, the program with pivots, other orders."""
        first = replace(question, words=self.words(0)) if self.parts else question
        answer = first.ask(matrix, call.program, call.clock)
        try:
            if answer.is_undecided and self.parts:
                found = Narrowing(call.clock, call.program).decided(question, matrix)
                answer = answer if found is None else found
            if answer.is_undecided and first.words != question.words:
                answer = question.ask(matrix, call.program, call.clock)
        except TimeLimitReached:
            return answer
        if answer.is_undecided and self.tries:
            answer = Tries(self.tries, self.seed, call.clock, call.program).decided(question, matrix, answer)
        return answer


def _asked(question: Question, given: MatroidLike, time_limit: TimeLimit, program: StrPath | None) -> Answer:
    """Asks a question that the program always decides."""
    call = Call.begin(program, time_limit)
    answer = question.ask(_taken(given, question.property_name), call.program, call.clock)
    return _of_matroid(answer, given)


def _of_matroid(answer: Answer, given: MatroidLike) -> Answer:
    """The answer, and about a matroid with its property and its elements."""
    if not isinstance(given, MatroidValue):
        return answer
    return replace(answer, of_matroid=matroid_property(answer.property_name, given), labels=given.elements)


def _of_signed(answer: Answer) -> Answer:
    """The answer with evidence that names the signed matrix, to which the evidence of regularity belongs."""
    if answer.property_name != "regular":
        return answer
    violator = answer.violator and replace(answer.violator, of_signed=True)
    return replace(answer, violator=violator, tree=answer.tree and replace(answer.tree, signed=answer.signed))


def _taken(given: MatroidLike, property_name: str) -> Matrix:
    taken = matrix_given(given)
    if property_name in _BINARY:
        taken.must_be_binary()
    return taken


def _graph_question(name: str, certificate: bool) -> Question:
    return Question(name, GRAPH_QUESTIONS[name], {"-N": "minimal", "-G": "graph"} if certificate else {})
