"""Why a matrix is totally unimodular, in a sentence that a modeller knows."""

from __future__ import annotations

from collections import Counter
from collections.abc import Sequence
from dataclasses import dataclass, replace
from typing import Literal

from ..errors import ProgramFault
from ..evidence.trees import Tree
from ..evidence.walks import arcs_of_walks
from ..matrices.families import family_of
from ..matrices.lines import Line, Names
from ..matrices.matrix import Matrix
from ..models.constraints import Constraints
from ..questions.properties import is_conetwork, is_network
from ..running.clock import Clock
from ..running.program import REFUSED, StrPath
from ..structures.sparse import columns_of, rows_of
from ..structures.structure import Structure

__all__ = ["REASON_OF_LARGE", "Reason", "reason_of", "reason_of_structure", "reason_of_tree"]

_LEAVES = {
    "network": ("network matrix", "network matrices"),
    "conetwork": ("transposed network matrix", "transposed network matrices"),
    "r10": ("matrix R10", "matrices R10"),
    "enumerated": ("small matrix of which every set of lines was tried", "small matrices of which every set of lines was tried"),
}
_SUMS = {"twosum": "two-sum", "delta": "three-sum", "y": "three-sum", "mixed": "three-sum", "concentrated": "three-sum"}

_Line = Sequence[tuple[int, int]]

_SIMPLEX = {
    False: "It is a network matrix, so the network simplex method solves the linear program",
    True: "Its transpose is a network matrix, so the network simplex method solves the dual linear program",
}


@dataclass(frozen=True)
class _Kind:
    """How the columns of a network matrix look, or the rows if it is turned. The plainest kind has the least rank."""

    rank: int
    is_turned: bool
    said: str


@dataclass(frozen=True)
class Reason:
    """A word for the class, the sentence, and the words of the program that show it, if there are any."""

    word: Literal["network", "conetwork", "sums"]
    sentence: str
    words: tuple[str, ...] = ()


REASON_OF_LARGE = Reason(
    "sums",
    "Rows of one variable and variables of one row are removed one by one. Each connected part of the rest is a network matrix or the "
    "transpose of one, with at most two, or consecutive equal, nonzeros in each column, or in each row; or `cmr-large` has decomposed it.",
)
"""Why a matrix is totally unimodular of which only `cmr-large` says so."""


def reason_of(matrix: Matrix, tree: Tree, program: StrPath | None, clock: Clock) -> Reason:
    """Why the matrix of a tree that says yes is totally unimodular: the plainest reason that the program shows.

    The arcs of each walk in a graph are compared with the matrix.
    """
    names = matrix.names or Names.numbered(*matrix.shape)
    constraints = Constraints(names, {(row, column): entry for row, column, entry in matrix.nonzeros})
    kinds = (_kind_of(constraints, is_turned=False), _kind_of(constraints, is_turned=True))
    for kind in sorted(kinds, key=lambda it: it.rank):
        if _is_shown(matrix, is_turned=kind.is_turned, program=program, clock=clock):
            return _network_reason(kind)
    return reason_of_tree(tree)


def reason_of_tree(tree: Tree) -> Reason:
    """Why the matrix of a tree that says yes is totally unimodular, by the kinds of its nodes."""
    return Reason("sums", _of_sums(tree))


def _is_shown(matrix: Matrix, *, is_turned: bool, program: StrPath | None, clock: Clock) -> bool:
    asked = is_conetwork if is_turned else is_network
    answer = asked(matrix, certificate=True, program=program, time_limit=clock)
    if answer.verdict != "yes":
        return False
    assert answer.graph is not None
    taken = arcs_of_walks(answer.graph) or {}
    found = {_place(walk, arc): sign for walk, arcs in taken.items() for arc, sign in arcs}
    if found != {(row, column): entry for row, column, entry in matrix.nonzeros}:
        raise ProgramFault(REFUSED, "the graph of the program is not that of the matrix")
    return True


def _place(walk: Line, arc: Line) -> tuple[int, int]:
    return (arc.number, walk.number) if arc.kind == "row" else (walk.number, arc.number)


def reason_of_structure(structure: Structure, constraints: Constraints) -> Reason:
    """Why constraints with a structure are totally unimodular."""
    return _network_reason(_kind_of(constraints, is_turned=structure.is_turned))


def _network_reason(kind: _Kind) -> Reason:
    sentence = f"{_SIMPLEX[kind.is_turned]}: {kind.said}."
    return Reason("conetwork", sentence, ("network", "-t")) if kind.is_turned else Reason("network", sentence, ("network",))


def _kind_of(constraints: Constraints, *, is_turned: bool) -> _Kind:
    """The plainest kind that fits to the columns of a network matrix, or to its rows if it is turned."""
    height, width = constraints.names.shape
    lines = [line for line in (rows_of(constraints.entries, height) if is_turned else columns_of(constraints.entries, width)) if line]
    if not lines:
        return _Kind(0, is_turned, "there are no coefficients")
    rest = _without_units(lines)
    for some, apart in ((lines, ""), (rest, "apart from variables of one row, " if is_turned else "apart from rows of one variable, ")):
        if some and max(map(len, some)) <= 2:
            found = _pairs_of_rows(some) if is_turned else _pairs_of_columns(some, constraints.names)
            return replace(found, said=f"{apart}{found.said}")
    if all(line[-1][0] - line[0][0] == len(line) - 1 and len({entry for _, entry in line}) == 1 for line in lines):
        which = "the variables of each row are" if is_turned else "the rows of each variable are"
        return _Kind(3, is_turned, f"{which} consecutive in the order of the model (intervals)")
    which = "each row is a path in a tree whose arcs are the variables"
    return _Kind(4, is_turned, which if is_turned else "each variable is a path in a tree whose arcs are the rows")


def _without_units(lines: Sequence[_Line]) -> list[_Line]:
    """The lines without the crossing lines that have one nonzero."""
    counts = Counter(other for line in lines for other, _ in line)
    found = [[(other, entry) for other, entry in line if counts[other] > 1] for line in lines]
    return [line for line in found if line]


def _are_differences(lines: Sequence[_Line]) -> bool:
    """Whether two nonzeros of a line have opposite signs, and some line has two."""
    pairs = [line for line in lines if len(line) == 2]
    return bool(pairs) and all(one[1] != other[1] for one, other in pairs)


def _pairs_of_rows(lines: Sequence[_Line]) -> _Kind:
    """The kind of rows with at most two nonzeros."""
    if _are_differences(lines):
        return _Kind(1, True, "each row is at most a difference of two variables, as in a minimum cut")
    return _Kind(2, True, "each row has at most two variables")


def _pairs_of_columns(lines: Sequence[_Line], names: Names) -> _Kind:
    """The kind of columns with at most two nonzeros."""
    families = [family_of(name) for name in names.rows]
    two = list(dict.fromkeys(families[row] for line in lines for row, _ in line))
    is_one_of_each = all(len({families[row] for row, _ in line}) == len(line) for line in lines)
    if len(two) == 2 and is_one_of_each and all(entry == 1 for line in lines for _, entry in line):
        said = f"each variable is in at most one row of {two[0]} and one of {two[1]}, as in a transport or an assignment"
        return _Kind(1, False, said)
    if _are_differences(lines):
        return _Kind(1, False, "each variable has at most one 1 and one -1, as in a flow")
    return _Kind(2, False, "each variable is in at most two rows, as in a flow, a transport or an assignment")


def _of_sums(tree: Tree) -> str:
    kinds = Counter(node.kind for _, node in tree.walk())
    nodes = [node for _, node in tree.walk() if node.kind not in ("reduced", "empty")]
    if len(nodes) == 1 and nodes[0].kind == "enumerated":
        size = nodes[0].lines.size
        return f"The reductions leave a part of {size}, and every set of lines on its shorter side was tried (Ghouila-Houri 1962)."
    leaves = [_counted(kinds[kind], *words) for kind, words in _LEAVES.items() if kinds[kind]]  # type: ignore[index]
    sums: Counter[str] = Counter()
    for kind, word in _SUMS.items():
        sums[word] += kinds[kind]  # type: ignore[index]
    joined = [_counted(count, word, f"{word}s") for word, count in sums.items() if count]
    pivots = _counted(kinds["pivoted"], "pivot", "pivots")
    after = f", after {pivots}" if kinds["pivoted"] else ""
    by = f" by {' and '.join(joined)}" if joined else ""
    return f"It is composed of {_listed(leaves)}{by}{after} (Seymour's decomposition)."


def _counted(count: int, one: str, several: str) -> str:
    return f"one {one}" if count == 1 else f"{count} {several}"


def _listed(words: list[str]) -> str:
    return " and ".join([", ".join(words[:-1]), words[-1]] if len(words) > 1 else words)
