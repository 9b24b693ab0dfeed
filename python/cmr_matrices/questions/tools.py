"""The other tools of the program: they sign rows, split and compose sums, check evidence, and generate matrices.

All take `time_limit`, the seconds that the whole call may take, 0 to 2,000,000, and `program`, the program's path. They raise what the
questions raise.
"""

from __future__ import annotations

from collections.abc import Iterable, Iterator
from dataclasses import replace
from operator import index
from typing import Literal, cast, get_args

from ..errors import BadCommandLine, BadInput, Refused, shown
from ..evidence.chains import Chain
from ..evidence.graphs import Edge, Graph
from ..evidence.printed import line_sets
from ..evidence.signings import Signing
from ..evidence.trees import Tree
from ..given import listed, one_of, whole
from ..matrices.large_matrix import LargeMatrix, is_large
from ..matrices.lines import LineSet
from ..matrices.matrix import Matrix
from ..matrices.sources import MatrixLike
from ..matrices.submatrices import Submatrix
from ..matrices.words import LIMIT
from ..matroids.matroid_values import MatroidValue
from ..running.calls import Call
from ..running.clock import TimeLimit
from ..running.program import REFUSED, YES, StrPath, run
from .answer_checks import checked_graph, checked_minimal, checked_reductions, checked_signing, is_cycle
from .answers import Answer, Checked, Parts
from .asked import MatroidLike, asked_property, matrix_given
from .reading import GRAPH_QUESTIONS, Question, printed_part, read_answer

__all__ = ["Evidence", "SumKind", "check", "compose", "generate", "matrix_of", "parts", "sign"]

SumKind = Literal["one", "two", "delta", "y", "mixed", "concentrated"]
Evidence = Tree | Chain | Submatrix | str


def sign(
    matrix: MatrixLike,
    rows: Iterable[int] | None = None,
    *,
    time_limit: float | None = None,
    program: StrPath | None = None,
) -> Answer:
    """Signs some rows, or all, so that every column sum is -1, 0 or 1.

    `rows` are numbers counted from 0. A yes has the `signing`. A no has a `violator` with rows among these, so the matrix is not totally
    unimodular; the rows themselves may still have a signing.

    `time_limit` is in seconds, 0 to 2,000,000, for the whole call, and `program` the program's path.

    Source: Ghouila-Houri 1962; Camion 1965; docs/DEFINITIONS.md.
    """
    call = Call.begin(program, time_limit)
    taken = Matrix.of(matrix)
    given = range(taken.shape[0]) if rows is None else listed("rows", rows, "numbers of rows, counted from 0")
    chosen = sorted({whole("a row", row) for row in given})
    for row in chosen:
        if not 0 <= row < taken.shape[0]:
            raise BadInput(f"there is no row {row} in a matrix of size {taken.shape[0]}x{taken.shape[1]}")
    form, text = taken.for_program()
    inputs = {"matrix": text, "rows": Submatrix(taken.shape, tuple(chosen), ()).to_text()}
    ran = run(["sign", "-i", form, "matrix", "rows"], inputs=inputs, program=call.program, time_limit=call.clock)
    answer = read_answer(ran, taken, "signed")
    return replace(answer, signing=Signing.from_lines(ran.lines[1:], taken.names)) if ran.status == YES else answer


def check(
    matrix: MatroidLike, evidence: Evidence | Answer, *, time_limit: TimeLimit = None, program: StrPath | None = None
) -> Checked:
    """Checks evidence for a matrix, whatever made it: a tree, a chain, a violator, or the text of one of these.

    The tree and the violator of `is_regular` belong to its signed matrix, `answer.signed`. If they are refused for another matrix, the
    `hint` says so. A violator of the 0/1 matrix of a `Matroid` over GF(2) says nothing of the matroid, and an answer for the other field
    is about another matroid: both are refused.

    If it is given an answer, `check` checks all of its evidence, which has to say what the answer says:

    * the chain of a no on regularity, and the tree of a yes on it, on the signed matrix;
    * the tree of other answers, or the violator, which for a no on balance also has two nonzeros in each line;
    * the graph, whose matrix (`matrix_of`) has to be this one;
    * the signing, whose column sums have to be -1, 0 or 1;
    * the reductions, step by step, with what they leave;
    * the minimal submatrix, which has to lack the property, and to have it when any one of its lines is removed.

    `time_limit` is in seconds, 0 to 2,000,000, for the whole call, and `program` the program's path.

    Of a matrix with more than 1,000 rows or columns it checks a violator with no more of them.

    Raises `BadInput` if an answer has none of these, and `BadText` if a text is not evidence, with the byte at fault.
    """
    call = Call.begin(program, time_limit)
    if is_large(matrix):
        return _check_large(LargeMatrix.of(matrix), evidence, call)
    taken = matrix_given(matrix)
    if isinstance(evidence, Answer):
        wanted = asked_property(evidence.property_name, matrix)
        if wanted != evidence.property_name:
            return Checked(accepted=False, rule=f"the answer is for the other field: of this matroid {wanted} is asked")
        return _check_answer(taken, evidence, call)
    checked = _check(taken, evidence, call)
    if isinstance(matrix, MatroidValue) and matrix.field == 2 and checked.says == "no":
        return Checked(accepted=False, rule="it is evidence on the 0/1 matrix, whose matroid over GF(2) may be regular")
    return checked if checked.accepted else replace(checked, hint=_hint(taken, evidence))


def _check_large(matrix: LargeMatrix, evidence: Evidence | Answer, call: Call) -> Checked:
    """Checks a violator of a large matrix on its own lines."""
    violator = evidence.violator if isinstance(evidence, Answer) else evidence
    if not isinstance(violator, Submatrix):
        raise BadInput(f"evidence on a matrix with more than {LIMIT} rows or columns is a violator, and here it is {shown(evidence)}")
    part = violator.submatrix(matrix)
    rows, columns = part.shape
    checked = _check(part, Submatrix(part.shape, tuple(range(rows)), tuple(range(columns))), call)
    return replace(checked, violator=violator) if checked.accepted else checked


def _check(taken: Matrix, evidence: Evidence, call: Call) -> Checked:
    if not isinstance(evidence, (str, Tree, Chain, Submatrix)):
        kinds = "a Tree, a Chain, a violator (a Submatrix), an Answer that has one, or the text of one"
        raise BadInput(f"evidence is {kinds}, and here it is {shown(evidence)}")
    text = evidence if isinstance(evidence, str) else evidence.to_text()
    if text.split(maxsplit=1)[:1] == ["cmr-chain"]:
        taken.must_be_binary()
    form, matrix = taken.for_program()
    inputs = {"matrix": matrix, "evidence": text}
    ran = run(["check", "-i", form, "matrix", "evidence"], inputs=inputs, program=call.program, time_limit=call.clock)
    if ran.status == REFUSED:
        return _refusal(ran.said("refused"))
    says = cast(Literal["yes", "no", "undecided", "not regular"], ran.said("accepted"))
    found = line_sets(ran.lines)
    violator, left = printed_part(found, taken, "violator"), printed_part(found, taken, "open")
    return Checked(accepted=True, says=says, violator=violator, open=left)


def parts(
    matrix: MatroidLike, tree: Tree | str, *, time_limit: float | None = None, program: StrPath | None = None
) -> Parts:
    """The two matrices of which a matrix is the sum, by the root of its tree. `compose` is the inverse.

    `time_limit` is in seconds, 0 to 2,000,000, for the whole call, and `program` the program's path.

    Raises `Refused` if the root is neither a two-sum nor a three-sum, or if the tree breaks a rule.
    """
    call = Call.begin(program, time_limit)
    taken = matrix_given(matrix)
    if not isinstance(tree, (str, Tree)):
        raise BadInput(f"tree is a Tree or the text of one, and here it is {shown(tree)}")
    form, text = taken.for_program()
    inputs = {"matrix": text, "tree": tree if isinstance(tree, str) else tree.to_text()}
    words = ["parts", "-i", form, "matrix", "tree", "-A", "first", "-B", "second"]
    ran = run(words, inputs=inputs, outputs=("first", "second"), program=call.program, time_limit=call.clock)
    if ran.status == REFUSED:
        raise Refused(ran.said("refused"), _hint(taken, tree))
    said = ran.said("parts")
    order = line_sets(ran.lines)["order"]
    kind = cast(Literal["two", "delta", "y", "mixed", "concentrated"], "two" if said == "twosum" else said)
    first, second = Matrix.from_text(ran.file("first")), Matrix.from_text(ran.file("second"))
    return Parts(kind, first, second, order.rows, order.columns)


def compose(
    kind: SumKind,
    first: MatrixLike,
    second: MatrixLike,
    *,
    time_limit: float | None = None,
    program: StrPath | None = None,
) -> Matrix:
    """The sum of two matrices: a one-sum, a two-sum, or a three-sum in one of its four forms.

    `time_limit` is in seconds, 0 to 2,000,000, for the whole call, and `program` the program's path.

    `kind` is one, two, delta, y, mixed or concentrated. Raises `Refused` if there is no such sum, with the cause of docs/FORMATS.md.
    """
    call = Call.begin(program, time_limit)
    one_of("kind", kind, get_args(SumKind))
    inputs = {"first": Matrix.of(first).to_text(), "second": Matrix.of(second).to_text()}
    words = ["compose", "-i", "sparse", kind, "first", "second", "-M", "sum"]
    ran = run(words, inputs=inputs, outputs=("sum",), program=call.program, time_limit=call.clock)
    if ran.status == REFUSED:
        raise Refused(ran.said("refused"))
    return Matrix.from_text(ran.file("sum"))


def generate(
    kind: Literal["network", "twosum"],
    size: int,
    number: int,
    *,
    time_limit: float | None = None,
    program: StrPath | None = None,
) -> Matrix:
    """A matrix that is the same on every machine: a random network matrix, or the two-sum of `size` matrices of R10.

    `time_limit` is in seconds, 0 to 2,000,000, for the whole call, and `program` the program's path.

    `size` is 1 to 1000, with `twosum` at most 249, and `number`, 0 to 2147483647, chooses among the matrices of this size.
    docs/DEFINITIONS.md has the definition. Raises `BadCommandLine` if `size` or `number` is out of its range.
    """
    call = Call.begin(program, time_limit)
    one_of("kind", kind, ("network", "twosum"))
    for name, value, most in (("size", size, 249 if kind == "twosum" else 1000), ("number", number, 2**31 - 1)):
        least = 0 if name == "number" else 1
        if not least <= whole(name, value) <= most:
            raise BadCommandLine(2, f"{name} is a number from {least} to {most}, and here it is {value}")
    words = ["generate", kind, str(index(size)), str(index(number)), "--lines", "0", "-M", "matrix"]
    return Matrix.from_text(run(words, outputs=("matrix",), program=call.program, time_limit=call.clock).file("matrix"))


def matrix_of(graph: Graph | str, *, time_limit: float | None = None, program: StrPath | None = None) -> Matrix:
    """The matrix for which a graph shows the property: the matrix of its paths, with signs if the graph is directed.

    `time_limit` is in seconds, 0 to 2,000,000, for the whole call, and `program` the program's path.

    Raises `BadText` if a text, which is read as a directed graph, is not a graph with its rows first.
    """
    call = Call.begin(program, time_limit)
    if not isinstance(graph, (str, Graph)):
        raise BadInput(f"graph is a Graph or the text of one, and here it is {shown(graph)}")
    return _matrix_of(Graph.from_text(graph) if isinstance(graph, str) else graph, call)


def _matrix_of(taken: Graph, call: Call) -> Matrix:
    is_turned = taken.arc_kind == "column"
    text = _turned(taken).to_text() if is_turned else taken.to_text()
    tool = "network" if taken.directed else "graphic"
    ran = run([tool, "-c"], text=text, program=call.program, time_limit=call.clock)
    matrix = Matrix.from_text("\n".join(ran.lines))
    matrix = matrix.T if is_turned else matrix
    return Matrix(matrix.shape, matrix.nonzeros, taken.names)


def _check_answer(matrix: Matrix, answer: Answer, call: Call) -> Checked:
    """Checks all evidence of an answer. It is accepted if each piece says what the answer does."""
    expected = "not regular" if (answer.property_name, answer.verdict) == ("regular", "no") else answer.verdict
    found = list(_checked_pieces(matrix, answer, call))
    if not found:
        raise BadInput(
            f"the answer `{answer.property_name}: {answer.verdict}` has no evidence to check; "
            "`certificate=True` asks for it, if its question has some"
        )
    for checked in found:
        if checked.accepted and checked.says != expected:
            return Checked(accepted=False, rule=f"the evidence says {checked.says}, and the answer {answer.verdict}")
    return next((checked for checked in found if not checked.accepted), found[0])


def _checked_pieces(matrix: Matrix, answer: Answer, call: Call) -> Iterator[Checked]:
    if answer.chain is not None:
        yield _check(matrix, answer.chain, call)
    elif answer.signed is not None and answer.tree is not None:
        matrix.must_be_binary()
        if [place[:2] for place in answer.signed.nonzeros] != [place[:2] for place in matrix.nonzeros]:
            yield Checked(accepted=False, rule="the signed matrix has other nonzeros")
        else:
            yield _check(answer.signed, answer.tree, call)
    elif answer.tree is not None:
        yield _check(matrix, answer.tree, call)
    elif answer.violator is not None and answer.property_name != "regular":
        if answer.property_name in ("balanced", "without cycle fault") and not is_cycle(matrix, answer.violator):
            yield Checked(accepted=False, rule="the violator has not two nonzeros in each line")
        else:
            yield _check(matrix, answer.violator, call)
    yield from _checked_here(matrix, answer, call)


def _checked_here(matrix: Matrix, answer: Answer, call: Call) -> Iterator[Checked]:
    """Checks the evidence that the package checks itself."""
    if answer.graph is not None:
        graph = answer.graph
        yield checked_graph(matrix, answer, lambda: _matrix_of(graph, call))
    if answer.signing is not None:
        yield checked_signing(matrix, answer.signing)
    binary = answer.property_name == "binary series-parallel"
    if binary:
        matrix.must_be_binary()
    if answer.reductions is not None:
        rest = LineSet((), ()) if answer.rest is None else answer.rest.lines
        yield checked_reductions(matrix, answer.reductions, rest, binary=binary)
    if answer.minimal is not None and answer.property_name in GRAPH_QUESTIONS:
        question = Question(answer.property_name, GRAPH_QUESTIONS[answer.property_name])
        yield checked_minimal(
            matrix, answer.minimal, lambda part: question.ask(part, call.program, call.clock).verdict == "yes"
        )


def _turned(graph: Graph) -> Graph:
    return Graph(_turned_edges(graph.arcs), _turned_edges(graph.walks), graph.directed)


def _turned_edges(edges: tuple[Edge, ...]) -> tuple[Edge, ...]:
    return tuple(Edge(edge.tail, edge.head, edge.line.transposed()) for edge in edges)


def _hint(matrix: Matrix, evidence: Evidence) -> str | None:
    """What to do if evidence of `is_regular` was given with a matrix that is not its signed matrix."""
    if isinstance(evidence, Submatrix) and evidence.of_signed:
        return "the violator belongs to the signed matrix of `is_regular`: give `answer.signed`, or check the whole answer or its `chain`"
    if isinstance(evidence, Tree) and evidence.signed is not None and evidence.signed != matrix:
        return "the tree belongs to the signed matrix of `is_regular`: give `tree.signed`, or check the whole answer"
    return None


def _refusal(said: str) -> Checked:
    place, rule = said.split(" ", 1)
    if place == "step":
        return Checked(accepted=False, step=int(rule) - 1)
    path = () if place == "root" else tuple(int(child) - 1 for child in place.split("."))
    return Checked(accepted=False, path=path, rule=rule)
