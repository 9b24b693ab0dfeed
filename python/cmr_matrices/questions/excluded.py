"""Excluded minors as evidence: matroids of the literature that a matrix has as minors, and that no matrix of a class has.

A 0/1 matrix A represents a binary matroid by [I A] over GF(2). The excluded minors are:

* F7 and F7* for regular binary matroids (Tutte 1958);
* F7, F7*, M*(K5) and M*(K3,3) for graphic binary matroids (Tutte 1959), and the duals of these for cographic ones;
* U2,4 for regular matroids over GF(3): a matroid without it is binary, and one that is binary and ternary is regular (Tutte 1958);
* U2,4, M*(K5) and M*(K3,3) for graphic matroids over GF(3): F7 and F7* have no representation over GF(3);
* U2,4 and M(K4) for direct sums of series-parallel networks (Dirac 1952; Duffin 1965; Brylawski 1971).

A matrix with entries -1, 0 and 1 is totally unimodular if and only if its matroid over GF(3) is regular. A regular matroid has a totally
unimodular representation with the same basis, and two representations over GF(3) with one basis differ only by signs of lines (Brylawski
and Lucas 1976). So a matrix that is not totally unimodular has a minor U2,4, even if its support is regular and only its signs are at
fault. For the same reason it is a network matrix if and only if that matroid is graphic.

A violator leads to a minor U2,4. A pivot inside a violator keeps the sums of the other lines even and their total sum 2 modulo 4, and there
are fewer lines. In the end a pivot makes an entry 2 or -2: two rows and two columns with four nonzeros and the determinant 2 or -2, which
is 0 over GF(2) and is not 0 over GF(3).

Source: Oxley, *Matroid Theory*; Truemper, *Matroid Decomposition*; Schrijver, *Theory of Linear and Integer Programming*, chapters 19
to 21.
"""

from __future__ import annotations

from dataclasses import dataclass, field, replace
from typing import TYPE_CHECKING

from ..errors import BadInput
from ..matrices.lines import Names
from ..matrices.matrix import Matrix
from ..matrices.words import LIMIT, Words
from ..matroids.matroid_values import Label
from ..matroids.named_matroids import field_of_named, named
from ..matroids.tableaux import Field
from .asked import MatroidLike
from .minor_values import Minor, elements_after

if TYPE_CHECKING:
    from .represented import Matroid

__all__ = ["CLASSES", "ExcludedMinor", "MinorClass", "elements_after", "minor_class"]


@dataclass(frozen=True)
class MinorClass:
    """A class of matrices whose matroids have none of certain minors."""

    name: str
    """The property, as answers name it."""
    word: str
    """Its name in texts and tables, which is one word."""
    field: Field
    excluded: tuple[str, ...]


CLASSES = (
    MinorClass("totally unimodular", "tu", 3, ("U2,4",)),
    MinorClass("regular", "regular", 2, ("F7", "F7*")),
    MinorClass("graphic", "graphic", 2, ("F7", "F7*", "M*(K5)", "M*(K3,3)")),
    MinorClass("cographic", "cographic", 2, ("F7", "F7*", "M(K5)", "M(K3,3)")),
    MinorClass("network", "network", 3, ("U2,4", "M*(K5)", "M*(K3,3)")),
    MinorClass("conetwork", "conetwork", 3, ("U2,4", "M(K5)", "M(K3,3)")),
    MinorClass("series-parallel", "series-parallel", 3, ("U2,4", "M(K4)")),
    MinorClass("binary series-parallel", "binary-series-parallel", 2, ("M(K4)",)),
)
"""The classes, each with the matroids of which a matrix outside of it has one as a minor, and a matrix of it has none."""


def minor_class(name: str) -> MinorClass:
    """The class of a name, which is the property in words or its name in tables. Raises `BadInput` if there is none."""
    for one in CLASSES:
        if name in (one.name, one.word):
            return one
    raise BadInput(f"{name} is no class with excluded minors; these are {', '.join(one.name for one in CLASSES)}")


@dataclass(frozen=True)
class ExcludedMinor(Minor):
    """A minor of the matroid of a matrix by which the matrix is outside of a class.

    After the `pivots`, made over the field one after another in the whole matrix, its submatrix on `rows` and `columns`, in this order, is
    the matrix of the matroid that `name` names; over GF(3) it is so up to signs. A pivot exchanges the elements of its row and its column.
    The elements that are then at other rows are contracted, and the elements at other columns are deleted.
    """

    property_name: str
    """The class in words, such as `graphic`."""
    name: str
    """The matroid, such as `F7*` or `M*(K3,3)`."""
    shape: tuple[int, int]
    pivots: tuple[tuple[int, int], ...]
    """Rows and columns, counted from 0."""
    rows: tuple[int, ...]
    columns: tuple[int, ...]
    names: Names | None = field(default=None, compare=False, repr=False)
    labels: tuple[Label, ...] | None = field(default=None, compare=False, repr=False)
    """Of a minor of a `Matroid` the elements of the matroid."""

    @property
    def matroid(self) -> Matroid:
        """The matroid of the literature, with its own names of elements."""
        # A matroid offers the search for its excluded minors, so its module is above this one.
        from .represented import Matroid

        return Matroid.from_named(self.name)

    @property
    def field(self) -> Field:
        """The field over which the matrix represents the matroid that has the minor."""
        return minor_class(self.property_name).field

    def fault(self, matrix: MatroidLike, *, first: int = 0) -> str | None:
        """What is wrong with it as a minor of the matroid of a matrix that the class excludes, or None if nothing is wrong.

        Rows and columns are counted from `first`: from 0 as in Python, or from 1 as in texts.
        """
        try:
            self._entries(matrix)
            kind = minor_class(self.property_name)
        except BadInput as fault:
            return str(fault)
        if self.name not in kind.excluded:
            return f"{self.name} is no excluded minor of the class {kind.name}"
        return super().fault(matrix, first=first)

    def transposed(self) -> ExcludedMinor:
        """The dual minor, by which the transposed matrix is outside of the dual class."""
        return replace(
            self,
            property_name=_DUAL_CLASSES.get(self.property_name, self.property_name),
            name=_DUALS.get(self.name, self.name),
            shape=self.shape[::-1],
            pivots=tuple((column, row) for row, column in self.pivots),
            rows=self.columns,
            columns=self.rows,
            names=self.names and self.names.transposed(),
            labels=self.labels and (*self.labels[self.shape[0] :], *self.labels[: self.shape[0]]),
        )

    def to_text(self) -> str:
        """The text of the minor, with lines counted from 1: docs/TOOLS.md has its parts."""
        places = (f"{row + 1} {column + 1}" for row, column in self.pivots)
        return "\n".join(
            [
                "cmr-minor 1",
                f"{minor_class(self.property_name).word} {self.name}",
                f"{self.shape[0]} {self.shape[1]}",
                " ".join(["pivots", str(len(self.pivots)), *places]),
                " ".join(["rows", str(len(self.rows)), *(str(row + 1) for row in self.rows)]),
                " ".join(["columns", str(len(self.columns)), *(str(column + 1) for column in self.columns)]),
                "",
            ]
        )

    @classmethod
    def from_text(cls, text: str, names: Names | None = None) -> ExcludedMinor:
        """The minor that a text has. Raises `BadInput` if it has none."""
        words = Words(text)
        try:
            _expect(words, "cmr-minor", "1")
            kind = minor_class(words.word())
            name, shape = words.word(), words.shape()
            _named(name)
            _expect(words, "pivots")
            pivots = tuple((words.row(shape).number, words.column(shape).number) for _ in range(words.count(2 * LIMIT)))
            _expect(words, "rows")
            rows = tuple(words.row(shape).number for _ in range(words.count(shape[0])))
            _expect(words, "columns")
            columns = tuple(words.column(shape).number for _ in range(words.count(shape[1])))
            words.end("words follow the columns")
        except BadInput as fault:
            raise BadInput(f"no minor: {fault}") from fault
        return cls(kind.name, name, shape, pivots, rows, columns, names)

    def _field(self) -> Field:
        return self.field

    def _other(self) -> Matroid:
        return self.matroid

    def _title(self) -> str:
        return self.name

    def _page_title(self) -> str:
        return f"excluded minor {self.name} of the class {self.property_name}"


def _named(name: str) -> Matrix:
    return named(name, field_of_named(name))


_DUALS = {"F7": "F7*", "M(K5)": "M*(K5)", "M(K3,3)": "M*(K3,3)"}
_DUALS |= {dual: name for name, dual in _DUALS.items()}
_DUAL_CLASSES = {"graphic": "cographic", "network": "conetwork"}
_DUAL_CLASSES |= {dual: name for name, dual in _DUAL_CLASSES.items()}


def _expect(words: Words, *due: str) -> None:
    for word in due:
        found = words.word()
        if found != word:
            raise words.unknown(found, f"not `{word}`, which is due")
