"""Questions in other orders of the lines, about a matrix that the program leaves undecided.

In its own order the program has found no cycle fault of an open part. If the part is not totally unimodular, the program finds one in
nearly every other order. This question is fast, so it comes first. The second question is about the whole matrix, if another order may
change its decomposition.

An answer in another order counts only after its evidence is mapped back to the matrix's own order, and `check` accepts it there. The
evidence of a no is a violator, or a chain for regularity. The evidence of a yes is a tree, of the signed matrix for regularity.
"""

from __future__ import annotations

from collections.abc import Callable, Iterator
from dataclasses import dataclass, replace

from ..errors import ProgramFault, TimeLimitReached
from ..evidence.chains import Chain, ChainStep
from ..evidence.forced_signs import forced_signs
from ..evidence.nodes import Node
from ..evidence.trees import Tree
from ..matrices.lines import LineSet
from ..matrices.matrix import Matrix
from ..matrices.submatrices import Submatrix
from ..running.clock import Clock
from ..running.program import REFUSED, StrPath
from .answer_checks import is_cycle
from .answers import Answer
from .line_orders import LineOrder, drawn_orders
from .reading import Question
from .tools import Evidence, check

__all__ = ["Tries"]

_CAMION = Question("without cycle fault", ("camion",), said="camion")

_Found = Iterator[Answer | None]
"""What is found in one order after another, or None if nothing is found."""


@dataclass(frozen=True)
class Tries:
    """How often a matrix is asked again, in which orders, within which time, and of which program."""

    count: int
    seed: int
    clock: Clock
    program: StrPath | None

    def decided(self, question: Question, matrix: Matrix, undecided: Answer) -> Answer:
        """The answer to a question in other orders, or the undecided answer if no order decides it within the limit of time.

        The question asks for the tree of its answer.
        """
        in_own_order: dict[str, Callable[[Question, Matrix, Answer], _Found]] = {
            "totally unimodular": self._violated,
            "regular": self._not_regular,
            "balanced": self._not_balanced,
        }
        number = 0
        try:
            for found in in_own_order[question.property_name](question, matrix, undecided):
                number = number % self.count + 1
                if found is not None:
                    return replace(found, tries=number)
        except TimeLimitReached:
            pass
        return replace(undecided, tries=number)

    def _violated(self, question: Question, matrix: Matrix, undecided: Answer) -> _Found:
        """Of total unimodularity: cycle faults of the open parts, and then the whole matrix."""
        assert undecided.tree is not None
        for hit in self._faults(matrix, undecided.tree):
            yield hit and self._no_with_fault(matrix, undecided, *hit)
        for order, found in self._wholes(question, matrix, undecided.tree):
            if found.is_undecided or found.tree is None:
                yield None
                continue
            tree = order.tree(found.tree)
            self._must_say(matrix, tree, found.verdict)
            yield replace(found, tree=tree, violator=found.violator and order.submatrix(found.violator))

    def _not_regular(self, question: Question, matrix: Matrix, undecided: Answer) -> _Found:
        """Of regularity: the same on signs that are forced, whose steps are the chain of a no."""
        assert undecided.tree is not None
        steps, signed = forced_signs(matrix)
        for hit in self._faults(signed, undecided.tree):
            yield hit and self._no_signing(matrix, signed, steps, hit[0])
        for order, found in self._wholes(question, matrix, undecided.tree):
            if found.is_undecided or found.tree is None or found.signed is None:
                yield None
                continue
            tree, signed = order.tree(found.tree), order.entries(found.signed)
            chain = found.chain and order.chain(found.chain)
            if chain is not None:
                self._must_say(matrix, chain, "not regular")
            else:
                self._must_sign(matrix, signed, tree)
            violator = found.violator and order.submatrix(found.violator)
            yield replace(found, tree=tree, signed=signed, chain=chain, violator=violator)

    def _not_balanced(self, question: Question, matrix: Matrix, undecided: Answer) -> _Found:
        """Of balance: cycle faults of the whole matrix, and then whether it is totally unimodular."""
        lines = LineSet(tuple(range(matrix.shape[0])), tuple(range(matrix.shape[1])))
        for order in drawn_orders(matrix, lines, self.count, self.seed):
            fault = self._fault(order)
            if fault is not None:
                self._must_say(matrix, fault, "no")
                if not is_cycle(matrix, fault):
                    raise ProgramFault(REFUSED, "the fault of another order is refused: it is no cycle")
                yield replace(undecided, verdict="no", violator=fault, open=None)
            yield None
        unimodular = Question("totally unimodular", ("tu", *question.words[1:]), {"-D": "tree"})
        own = self._ask(unimodular, matrix)
        assert own.tree is not None
        for order, found in self._wholes(unimodular, matrix, own.tree) if own.is_undecided else ():
            if found.verdict == "no":
                return
            if found.is_undecided or found.tree is None:
                yield None
                continue
            tree = order.tree(found.tree)
            self._must_say(matrix, tree, "yes")
            yield replace(undecided, verdict="yes", open=None, tree=tree)

    def _faults(self, matrix: Matrix, tree: Tree) -> Iterator[tuple[Submatrix, Node] | None]:
        """The open parts of a tree in other orders: a cycle fault, with the node of its part."""
        parts = [node for _, node in tree.walk() if node.kind == "undecided"]
        orders = [drawn_orders(matrix, node.lines, self.count, self.seed) for node in parts]
        for together in zip(*orders):
            found = ((self._fault(order), node) for order, node in zip(together, parts))
            yield next(((fault, node) for fault, node in found if fault is not None), None)

    def _fault(self, order: LineOrder) -> Submatrix | None:
        """A cycle fault in an order, if there is one, on the lines of the matrix."""
        fault = self._ask(_CAMION, order.reordered()).violator
        return fault and order.submatrix(fault)

    def _wholes(self, question: Question, matrix: Matrix, tree: Tree) -> Iterator[tuple[LineOrder, Answer]]:
        """The whole matrix in other orders, if its decomposition may differ: only sums and pivots depend on the order."""
        if "--pivots" in question.words or any(node.connectors for _, node in tree.walk()):
            for order in drawn_orders(matrix, tree.root.lines, self.count, self.seed):
                yield order, self._ask(question, order.reordered())

    def _no_with_fault(self, matrix: Matrix, undecided: Answer, fault: Submatrix, part: Node) -> Answer:
        """The answer whose tree has a fault in a part that was left open."""
        self._must_say(matrix, fault, "no")
        tree = undecided.tree and replace(
            undecided.tree, root=undecided.tree.root.rebuilt(_WithFault(part, fault.lines))
        )
        return replace(undecided, verdict="no", violator=fault, open=None, tree=tree)

    def _no_signing(self, matrix: Matrix, signed: Matrix, steps: tuple[ChainStep, ...], fault: Submatrix) -> Answer:
        chain = Chain(matrix.shape, steps, fault.lines, matrix.names)
        self._must_say(matrix, chain, "not regular")
        every = LineSet(tuple(range(matrix.shape[0])), tuple(range(matrix.shape[1])))
        tree = Tree(matrix.shape, Node("violator", every, fault=fault.lines), matrix.names)
        return Answer("regular", "no", violator=fault, tree=tree, signed=signed, chain=chain)

    def _must_sign(self, matrix: Matrix, signed: Matrix, tree: Tree) -> None:
        """Tests that a signed matrix has the ones of a 0/1 matrix, and its tree."""
        if [place[:2] for place in signed.nonzeros] != [place[:2] for place in matrix.nonzeros]:
            raise ProgramFault(REFUSED, "the signed matrix of another order is not one of the matrix")
        self._must_say(signed, tree, "yes")

    def _ask(self, question: Question, matrix: Matrix) -> Answer:
        """What the program says within the time that is left."""
        return question.ask(matrix, self.program, self.clock)

    def _must_say(self, matrix: Matrix, evidence: Evidence, says: str) -> None:
        """Tests by `check` what evidence from another order says."""
        checked = check(matrix, evidence, program=self.program, time_limit=self.clock)
        if checked.says != says:
            raise ProgramFault(REFUSED, f"the evidence of another order is refused: {checked.rule or checked.says}")


@dataclass(frozen=True)
class _WithFault:
    """The change of a tree in which one open part gets a fault."""

    part: Node
    fault: LineSet

    def __call__(self, node: Node, children: tuple[Node, ...]) -> Node:
        return Node("violator", node.lines, fault=self.fault) if node is self.part else replace(node, children=children)
