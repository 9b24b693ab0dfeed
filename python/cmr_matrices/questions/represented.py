"""Matroids that a matrix represents over GF(2) or GF(3), with labels for their elements: minors, sums, isomorphisms, and questions."""

from __future__ import annotations

import ast
import re
from collections.abc import Iterable
from typing import Any

from ..errors import BadInput, shown
from ..given import listed, text_given
from ..libraries import library
from ..matrices.matrix import Matrix
from ..matrices.sources import MatrixLike
from ..matroids.matroid_sums import Columns, direct_sum, summands, three_sum, two_sum
from ..matroids.matroid_values import Label, labels_of, tableau_of_columns
from ..matroids.named_matroids import field_of_named, named
from ..matroids.oracle import Oracle
from ..matroids.tableaux import Field, Row, Tableau
from ..running.clock import Clock
from .answers import Answer
from .excluded import ExcludedMinor
from .mappings import Automorphisms, automorphisms_of, isomorphism_of
from .matroid_pages import matroid_page
from .matroid_trees import Decomposition, decomposed
from .minor_values import FoundMinor
from .minors import excluded_minor
from .properties import is_cographic, is_graphic, is_regular, is_series_parallel
from .small_minors import minor_like

__all__ = ["Matroid"]

_SAGE = re.compile(r"\s*Matroid\(groundset=(?P<elements>\[.*\]),\s*matrix=Matrix\(GF\((?P<field>[23])\),\s*(?P<rows>.*)\)\)\s*", re.S)


class Matroid(Oracle):
    """The matroid that `[I A]` represents over a field. `matrix` is `A`: its rows name the elements of a basis, its columns the others.

    Elements are labels: texts, numbers, or other values that can be keys. They stay what they are in minors, duals and sums.
    Two values are equal if their matrices, labels and fields are; `is_isomorphic` asks whether the matroids are the same up to labels.
    """

    @classmethod
    def of(
        cls,
        matrix: MatrixLike,
        field: Field = 2,
        *,
        row_names: Iterable[object] | None = None,
        column_names: Iterable[object] | None = None,
    ) -> Matroid:
        """The matroid of a matrix `A`, over GF(2) or GF(3). Elements without names are `r0`, `r1`, .. and `c0`, `c1`, .."""
        given = [None if names is None else labels_of(names) for names in (row_names, column_names)]
        taken = Matrix.of(matrix, row_names=given[0], column_names=given[1])
        if taken.names is None:
            return cls(taken, field)
        rows, columns = (plain if own is None else own for own, plain in zip(given, (taken.names.rows, taken.names.columns)))
        return cls(taken, field, (*rows, *columns))

    @classmethod
    def from_named(cls, name: str, field: Field | None = None) -> Matroid:
        """A matroid of the literature that `named` knows, such as `F7*`, `R10`, `M*(K3,3)` or `U2,4`.

        The representation is over the `field`. The default is GF(2), and GF(3) if the matroid is not binary.
        """
        chosen = field_of_named(name) if field is None else field
        return cls(named(name, chosen), chosen)

    @classmethod
    def from_representation(
        cls, matrix: MatrixLike, field: Field = 2, *, elements: Iterable[object] | None = None
    ) -> Matroid:
        """The matroid of the columns of any matrix over a field: its elements are the columns, in any representation.

        Entries are -1, 0 and 1; over GF(2) -1 is 1. The basis is the first in the order of the columns. Without `elements`, the names
        are the labels of a frame's columns, or otherwise `e0`, `e1`, ..
        """
        if field not in (2, 3):
            raise BadInput(f"the field has 2 or 3 elements, and here it is {shown(field)}")
        taken = Matrix.of(matrix)
        count = taken.shape[1]
        labels: tuple[Label, ...] = taken.names.columns if taken.names else tuple(f"e{place}" for place in range(count))
        if elements is not None:
            labels = labels_of(elements)
        if len(labels) != count:
            raise BadInput(f"there are {len(labels)} elements, and {count} columns")
        if len(set(labels)) < len(labels):
            raise BadInput("two elements have one name")
        planes = [[0, 0] for _ in range(count)]
        for row, column, value in taken.nonzeros:
            planes[column][field == 3 and value < 0] |= 1 << row
        vectors: list[Row] = [(plus, minus) for plus, minus in planes]
        return cls._of(tableau_of_columns(field, taken.shape[0], zip(labels, vectors)), field)

    @classmethod
    def from_graph(cls, graph: Any, field: Field = 2) -> Matroid:
        """The cycle matroid of a graph of networkx. A directed graph gives the matroid of the undirected one.

        The label of an edge is `name` or `label` in its data, or otherwise its ends `(u, v)`, with its key in a multigraph: the edge as
        networkx has it. If two edges would have one label, all labels are the edges.
        """
        networkx = library("networkx", "from_graph")
        if not isinstance(graph, networkx.Graph):
            raise BadInput(f"a graph of networkx is taken, and here it is {shown(graph)}")
        edges = [tuple(edge) for edge in (graph.edges(keys=True) if graph.is_multigraph() else graph.edges())]
        names = [data.get("name", data.get("label")) for *_, data in graph.edges(data=True)]
        labels = labels_of(edge if name is None else name for edge, name in zip(edges, names))
        if len(set(labels)) < len(labels):
            labels = labels_of(edges)
        places = {node: place for place, node in enumerate(graph)}
        vectors = (_incidence(places[edge[0]], places[edge[1]], field) for edge in edges)
        return cls._of(tableau_of_columns(field, len(places), zip(labels, vectors)), field)

    @classmethod
    def from_sage(cls, text: str) -> Matroid:
        """The matroid of a text as `to_sage` writes it, with a column for each element. Raises `BadInput` if it has no such matrix."""
        found = _SAGE.fullmatch(text_given("no matroid", text))
        try:
            if found is None:
                raise ValueError("it is not `Matroid(groundset=[..], matrix=Matrix(GF(2), [..]))`")
            field: Field = 2 if found["field"] == "2" else 3
            elements, rows = ast.literal_eval(found["elements"]), ast.literal_eval(found["rows"])
            if isinstance(rows, tuple):
                height, width = rows
                return cls.from_representation(Matrix((height, width), ()), field, elements=elements)
            signs = [[-1 if field == 3 and entry == 2 else entry for entry in row] for row in rows]
            return cls.from_representation(signs, field, elements=elements)
        except (ValueError, TypeError, SyntaxError, RecursionError, MemoryError) as fault:
            raise BadInput(f"no matroid: {fault}") from fault

    def dual(self) -> Matroid:
        """The dual matroid, whose bases are the complements of the bases. `A` transposed represents it, up to signs of lines."""
        return Matroid.of(self.matrix.T, self.field, row_names=self.others, column_names=self.basis)

    def relabelled(self, labels: Iterable[object] | dict[Any, Any]) -> Matroid:
        """The matroid with other labels: a list for all elements in their order, or a dictionary from the elements that get others."""
        if isinstance(labels, dict):
            self.numbers(labels)
            labels = [labels.get(element, element) for element in self.elements]
        found = labels_of(labels)
        if len(found) != len(self):
            raise BadInput(f"there are {len(found)} labels, and {len(self)} elements")
        height = self.rank()
        return Matroid.of(self.matrix, self.field, row_names=found[:height], column_names=found[height:])

    def pivot(self, basic: Label, other: Label) -> Matroid:
        """The same matroid by the basis in which `other` replaces `basic`: a pivot of the matrix over the field.

        Raises `BadInput` if these elements then are no basis.
        """
        self.numbers([basic, other])
        if basic not in self.basis or other not in self.others:
            raise BadInput(f"a pivot is at an element of the basis and another, and here it is at {basic} and {other}")
        tableau = self.tableau()
        row, column = tableau.places[basic].number, tableau.places[other].number
        if not tableau.entry(row, column):
            raise BadInput(f"there is no pivot at {basic} and {other}, where the entry is 0")
        tableau.pivot(row, column)
        return self._of(tableau, self.field)

    def delete(self, *elements: Label) -> Matroid:
        """The minor without some elements."""
        return self.minor(delete=elements)

    def contract(self, *elements: Label) -> Matroid:
        """The minor in which some elements are contracted."""
        return self.minor(contract=elements)

    def minor(self, *, delete: Iterable[Label] = (), contract: Iterable[Label] = ()) -> Matroid:
        """The minor in which some elements are deleted and others contracted. Raises `BadInput` for what is no element, or is both."""
        deleted, contracted = (
            dict.fromkeys(self.elements[number] for number in self.numbers(given, what))
            for what, given in (("delete", delete), ("contract", contract))
        )
        if deleted.keys() & contracted.keys():
            raise BadInput("an element is to be deleted and contracted")
        tableau = self.tableau()
        tableau.apply([(element, "delete") for element in deleted])
        tableau.apply([(element, "contract") for element in contracted])
        return self._of(tableau, self.field)

    def simplify(self) -> Matroid:
        """The minor without loops, and with one of all elements that are parallel."""
        tableau = self.tableau()
        tableau.remove_reducible_columns()
        return self._of(tableau, self.field)

    def cosimplify(self) -> Matroid:
        """The minor without coloops, and with one of all elements that are in series."""
        tableau = self.tableau()
        tableau.remove_reducible_rows()
        return self._of(tableau, self.field)

    def direct_sum(self, other: Matroid) -> Matroid:
        """The direct sum with a matroid that has other elements."""
        return self._of_sum(direct_sum(self, other))

    def two_sum(self, other: Matroid, at: Label, other_at: Label) -> Matroid:
        """The 2-sum with another matroid, at an element of each: neither of them is a loop or a coloop, and the sum has neither.

        `compose("two", A, B)` is its matrix form, at the last column of A and the first row of B.
        """
        return self._of_sum(two_sum(self, other, at, other_at))

    def three_sum(self, other: Matroid, triangle: Iterable[Label]) -> Matroid:
        """The 3-sum of two binary matroids along a triangle of both, which the sum does not have.

        Both have at least seven elements, the triangle contains no cocircuit of either, and they have no other elements in common.
        `compose("delta", A, B)` is its matrix form: the last row and the last two columns of A are a triangle, and so are the first row and
        the first two columns of B.
        """
        return self._of_sum(three_sum(self, other, listed("triangle", triangle, "three elements")))

    def summands(self, side: Iterable[Label], shared: Iterable[Label] = ("p", "q", "r")) -> tuple[Matroid, Matroid]:
        """The two matroids of which it is the direct sum, the 2-sum or the 3-sum, by one side X of a 1-, 2- or 3-separation (X, E - X).

        Those of a 2-sum have one element in common, and those of a 3-sum, which is one over GF(2), a triangle. `shared` has names for them.
        Raises `BadInput` if there is no such sum: a side of a 2-sum has two elements or more, and one of a 3-sum four.
        """
        one, two = summands(self, listed("side", side, "elements"), labels_of(shared))
        return self._of_sum(one), self._of_sum(two)

    def isomorphism(self, other: Matroid, *, time_limit: float | None = None) -> dict[Label, Label] | None:
        """The element of another matroid for each element of this one, or None if they are not isomorphic.

        `time_limit` is in seconds, 0 to 2,000,000. Raises `TimeLimitReached`.
        """
        return isomorphism_of(self, other, Clock.of(time_limit))

    def is_isomorphic(self, other: Matroid, *, time_limit: float | None = None) -> bool:
        """Whether two matroids are the same up to the labels of their elements. `time_limit` is in seconds, 0 to 2,000,000."""
        return self.isomorphism(other, time_limit=time_limit) is not None

    def find_minor(self, other: Matroid, *, time_limit: float | None = None) -> FoundMinor | None:
        """A minor that is isomorphic to another matroid, with the elements that it has, or None if there is no such minor.

        The matroid has to be small, with up to about 15 elements. `time_limit` is in seconds, 0 to 2,000,000.
        """
        return minor_like(self, other, Clock.of(time_limit))

    def has_minor(self, other: Matroid, *, time_limit: float | None = None) -> bool:
        """Whether a small matroid has a minor that is isomorphic to another matroid. `time_limit` is in seconds, 0 to 2,000,000."""
        return self.find_minor(other, time_limit=time_limit) is not None

    def automorphisms(self, *, time_limit: float | None = None) -> Automorphisms:
        """The group of the automorphisms: its order, generators and orbits. `time_limit` is in seconds, 0 to 2,000,000."""
        return automorphisms_of(self, Clock.of(time_limit))

    def is_regular(self, **options: Any) -> Answer:
        """Whether it is regular, with the keywords of the function `is_regular`."""
        return is_regular(self, **options)

    def is_graphic(self, **options: Any) -> Answer:
        """Whether it is graphic, with the keywords of the function `is_graphic`."""
        return is_graphic(self, **options)

    def is_cographic(self, **options: Any) -> Answer:
        """Whether it is cographic, with the keywords of the function `is_cographic`."""
        return is_cographic(self, **options)

    def is_series_parallel(self, **options: Any) -> Answer:
        """Whether it is a direct sum of series-parallel networks, with the keywords of the function `is_series_parallel`."""
        return is_series_parallel(self, **options)

    def excluded_minor(self, of: str, **options: Any) -> ExcludedMinor | None:
        """An excluded minor for a class such as `graphic`, or None, with the keywords of the function `excluded_minor`."""
        return excluded_minor(self, of, **options)

    def decomposition(self, *, lines: int = 0, **options: Any) -> Decomposition:
        """Seymour's decomposition of a regular matroid: its summands as matroids with their elements, their kinds and their graphs.

        `lines` is the budget of exhaustive searches, 0 to 24 lines (0). With 0, every leaf is graphic, cographic or R10. The other
        keywords are those of the function `is_regular`. Raises `BadInput` if the matroid is not regular, and `Undecided`.
        """
        return decomposed(self, lines, **options)

    def to_sage(self) -> str:
        """A text that Sage takes for this matroid: `Matroid(groundset=[..], matrix=Matrix(GF(2), [..]))`, with all of `[I A]`."""
        rows = [
            [int(at == place) for at in range(self.rank())] + [entry % self.field for entry in row]
            for place, row in enumerate(self.matrix.to_lists())
        ]
        entries = str(rows) if rows else f"0, {len(self)}"
        return f"Matroid(groundset={list(self.elements)}, matrix=Matrix(GF({self.field}), {entries}))"

    def __repr__(self) -> str:
        return f"Matroid(rank {self.rank()}, {len(self)} elements, over GF({self.field}))"

    def _repr_html_(self) -> str:
        return matroid_page(self)

    @classmethod
    def _of(cls, tableau: Tableau[Any], field: Field) -> Matroid:
        rows, columns = tableau.row_elements.values(), tableau.column_elements.values()
        return cls.of(tableau.matrix(), field, row_names=rows, column_names=columns)

    def _of_sum(self, columns: Columns) -> Matroid:
        return self._of(tableau_of_columns(self.field, *columns), self.field)


def _incidence(tail: int, head: int, field: Field) -> Row:
    if tail == head:
        return 0, 0
    return (1 << tail | 1 << head, 0) if field == 2 else (1 << tail, 1 << head)
