"""Seymour's decomposition of a regular matroid, with matroids as its parts.

Every regular matroid is built by direct sums, 2-sums and 3-sums from graphic matroids, cographic matroids and copies of R10 (Seymour 1980).
The program returns a tree of submatrices. Here each node is a minor with labels, and its graph. Pivots change the basis and not the
matroid, so the nodes of pivots are omitted.
"""

from __future__ import annotations

from collections.abc import Iterable, Iterator
from dataclasses import dataclass, field, replace
from html import escape
from typing import TYPE_CHECKING, Any

from ..errors import BadInput, Undecided
from ..evidence.graphs import Edge, Graph
from ..evidence.nodes import Node, NodeKind
from ..evidence.trees import Tree
from ..matrices.lines import Line, Names
from ..matrices.matrix import Matrix
from ..matrices.pages import paragraph
from ..matroids.matroid_values import Label, label_set
from .answers import Answer
from .asked import matrix_given
from .properties import is_regular

if TYPE_CHECKING:
    from .represented import Matroid

__all__ = ["Decomposition", "decomposed"]

KINDS: dict[NodeKind, str] = {
    "empty": "empty",
    "network": "graphic",
    "conetwork": "cographic",
    "r10": "R10",
    "enumerated": "regular",
    "reduced": "series-parallel extension",
    "onesum": "direct sum",
    "twosum": "2-sum",
    "delta": "3-sum",
    "y": "3-sum",
    "mixed": "3-sum",
    "concentrated": "3-sum",
}


@dataclass(frozen=True, eq=False)
class Decomposition:
    """A matroid of Seymour's decomposition: a sum of its parts, an extension of its only part, or a leaf.

    The parts are minors, and their elements keep their labels. In a 2-sum or 3-sum each part has one or three elements of the other side
    as well, which represent the other side: they are `shared`.
    """

    matroid: Matroid
    kind: str
    """Of a leaf `graphic`, `cographic`, `R10` or `empty`, and `regular` if an exhaustive search decided. Otherwise `direct sum`, `2-sum`,
    `3-sum` or `series-parallel extension`."""
    parts: tuple[Decomposition, ...] = field(default=(), repr=False)
    shared: tuple[tuple[Label, ...], ...] = field(default=(), repr=False)
    """For each part of a 2-sum or 3-sum its elements of the other side. Of a 3-sum they are a triangle or a triad of the part."""
    removed: tuple[Label, ...] = field(default=(), repr=False)
    """The loops, coloops, and elements in series or parallel with others that an extension has, and its part has not."""
    graph: Graph | None = field(default=None, repr=False)
    """Of a graphic leaf its graph, and of a cographic leaf the graph of the dual matroid; its edges have the names of the elements."""

    def walk(self) -> Iterator[tuple[int, Decomposition]]:
        """Each part in preorder, with its depth: 0 for the whole matroid."""
        pending = [(0, self)]
        while pending:
            depth, one = pending.pop()
            yield depth, one
            pending.extend((depth + 1, part) for part in reversed(one.parts))

    def leaves(self) -> tuple[Decomposition, ...]:
        """The leaves from left to right."""
        return tuple(one for _, one in self.walk() if not one.parts)

    @property
    def edges(self) -> dict[Label, tuple[int, int]]:
        """Of a leaf with a graph the ends of the edge that each element is. In the graph itself elements are texts."""
        found = () if self.graph is None else self.graph.edges
        return {self.matroid.label(edge.line): (edge.tail, edge.head) for edge in found}

    def shared_as(self, part: int) -> str:
        """What the shared elements of a part are in it: `element`, `triangle` or `triad`."""
        shared = self.shared[part]
        if len(shared) == 1:
            return "element"
        return "triangle" if self.parts[part].matroid.is_circuit(shared) else "triad"

    def summands(self, shared: Iterable[Label] = ("p", "q", "r")) -> tuple[Matroid, ...]:
        """The matroids of which it is the direct sum, the 2-sum or the 3-sum, with an element or a triangle in common, named `shared`.

        A part is its summand up to these names, except a part of a 3-sum whose shared elements are a triad: in the summand there is instead
        a triangle, and each element of it is spanned by two elements of the triad. Summands of a 3-sum are over GF(2).
        """
        if self.kind not in ("2-sum", "3-sum"):
            return tuple(part.matroid for part in self.parts)
        side = [element for element in self.parts[0].matroid.elements if element not in self.shared[0]]
        binary = type(self.matroid)(self.matroid.matrix.support(), 2, self.matroid.elements)
        return (self.matroid if self.kind == "2-sum" else binary).summands(side, shared)

    def __str__(self) -> str:
        return "\n".join(f"{'  ' * depth}{line}" for depth, one in self.walk() for line in [one._line()])

    def _line(self) -> str:
        """What it is, with its elements if it is a leaf, and what its parts share."""
        text = f"{self.kind}, rank {self.matroid.rank()}, {len(self.matroid)} elements"
        if not self.parts:
            return f"{text} {label_set(self.matroid.elements)}"
        told = [f"{self.shared_as(part)} {label_set(shared)}" for part, shared in enumerate(self.shared)]
        told += [f"without {label_set(self.removed)}"] if self.removed else []
        return f"{text}: {', '.join(told)}" if told else text

    def _repr_html_(self) -> str:
        pieces = [f"<pre>{escape(str(self))}</pre>\n"]
        for leaf in self.leaves():
            drawn = leaf.graph and leaf.graph._repr_html_()
            if drawn:
                pieces.append(paragraph(leaf._line()) + drawn)
        return "".join(pieces)


def decomposed(matroid: Matroid, lines: int, **options: Any) -> Decomposition:
    """The decomposition of a regular matroid. Raises `BadInput` if it is not regular, and `Undecided` if that is undecided."""
    answer = is_regular(matroid, certificate=True, parts=False, lines=lines, **options)
    if not answer:
        raise BadInput("the matroid is not regular, and only a regular matroid has a decomposition; `excluded_minor` shows why")
    tree = answer.tree
    if tree is None or tree.verdict != "yes":
        raise Undecided("the answer has no decomposition")
    return _Reader(matroid, _numbered(matroid, answer), tree).read()


def _numbered(matroid: Matroid, answer: Answer) -> Matrix:
    """The totally unimodular matrix of the tree, with the numbers of the elements as names."""
    matrix = matrix_given(matroid) if answer.signed is None else answer.signed
    height = matroid.rank()
    return Matrix.of(matrix, row_names=range(height), column_names=range(height, len(matroid)))


class _Reader:
    """Makes the matroids of a tree from its leaves up."""

    def __init__(self, matroid: Matroid, matrix: Matrix, tree: Tree) -> None:
        self._whole = matroid
        self._tree = tree
        self._parts = {id(node): part for node, part in tree.submatrices(matrix)}

    def read(self) -> Decomposition:
        """The decomposition of the whole matroid."""
        done: list[Decomposition] = []
        for _, node in reversed(list(self._tree.walk())):
            below = tuple(done.pop() for _ in node.children)
            done.append(below[0] if node.kind == "pivoted" else self._made(node, below))
        return done.pop()

    def _made(self, node: Node, below: tuple[Decomposition, ...]) -> Decomposition:
        part = self._parts[id(node)]
        names = part.names or Names((), ())
        rows, columns = (tuple(self._whole.elements[int(name)] for name in own) for own in (names.rows, names.columns))
        entries = part if self._whole.field == 3 else part.support()
        matroid = type(self._whole).of(entries, self._whole.field, row_names=rows, column_names=columns)
        own = set(matroid.elements)
        made = Decomposition(matroid, KINDS[node.kind], below, graph=_graph(node, matroid))
        if node.kind == "reduced":
            return replace(made, removed=tuple(one for one in matroid.elements if one not in set(below[0].matroid.elements) & own))
        if node.side is not None:
            places = {Line("row", row): at for row, at in zip(node.rows, rows)}
            places |= {Line("column", column): at for column, at in zip(node.columns, columns)}
            one = {places[line] for line in node.side}
            first = tuple(it for it in below[0].matroid.elements if it not in one)
            return replace(made, shared=(first, tuple(it for it in below[1].matroid.elements if it in one)))
        return made


def _graph(node: Node, matroid: Matroid) -> Graph | None:
    """The graph of a leaf, with the lines of its own matrix."""
    if node.graph is None:
        return None
    places = {Line("row", row): Line("row", place) for place, row in enumerate(node.rows)}
    places |= {Line("column", column): Line("column", place) for place, column in enumerate(node.columns)}
    arcs, walks = (tuple(Edge(it.tail, it.head, places[it.line]) for it in own) for own in (node.graph.arcs, node.graph.walks))
    names = Names(tuple(map(str, matroid.basis)), tuple(map(str, matroid.others)))
    return Graph(arcs, walks, False, names)
