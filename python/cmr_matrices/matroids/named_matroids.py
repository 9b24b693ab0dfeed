"""Matroids of the literature, by the matrix A of a representation [I A] over GF(2) or GF(3).

The matrix has a row for each element of a basis and a column for each other element. Over GF(2) a column has ones at the basis elements
that add up to its element. The transposed matrix represents the dual matroid.

Source: Seymour for R10 and R12; Oxley, *Matroid Theory*, appendix, for the others.
"""

from __future__ import annotations

import re
from collections.abc import Callable, Sequence
from itertools import combinations

from ..errors import BadInput, shown
from ..evidence.edge_lists import graph_of_edges
from ..evidence.forced_signs import forced_signs
from ..evidence.walks import arcs_of_walks
from ..matrices.lines import Names
from ..matrices.matrix import Matrix
from ..matrices.words import LIMIT
from .geometries import affine, dowling, numbered, projective, spike, uniform, whirl
from .tableaux import Field

__all__ = ["NAMED", "TERNARY", "field_of_named", "named"]

TERNARY = (
    "U2,4, R6, O7, P7, F7- (non-Fano), J, P8, R8, T8, R9, S(5,6,12), AG(2,3), W^3 (any whirl), Q3(GF(3)*) (any ternary Dowling geometry)"
)
"""The matroids that `named` knows over GF(3) and that are not binary, for a person."""

NAMED = (
    "R10, R12, T12, F7 or PG(2,2), PG(3,2) and AG(3,2) (any PG and AG over GF(2) and GF(3)), S8, Z4 (any binary spike with a tip), K5 (any "
    "K and number), K3,3 (any two numbers), W4 (any wheel), V8, Petersen, prism, cube, octahedron, U2,3 (any regular uniform matroid), "
    f"over GF(3) {TERNARY}, and each with * for its dual"
)
"""What `named` knows, for a person."""

_BINARY_TABLES = {
    "R10": ("11001", "11100", "01110", "00111", "10011"),
    "R12": ("111000", "110100", "100010", "010001", "001011", "000111"),
    "F7": ("1101", "1011", "0111"),
    "AG(3,2)": ("0111", "1011", "1101", "1110"),
    "S8": ("0111", "1011", "1101", "1111"),
    "T12": ("110001", "111000", "011100", "001110", "000111", "100011"),
}
_TERNARY_TABLES = {
    "U2,4": ("11", "1-"),
    "R6": ("111", "1-1", "10-"),
    "O7": ("1111", "01--", "1010"),
    "P7": ("1011", "1101", "-110"),
    "F7-": ("1101", "1011", "0111"),
    "J": ("0111", "1100", "1010", "1001"),
    "P8": ("011-", "1011", "1101", "-110"),
    "R8": ("-111", "1-11", "11-1", "111-"),
    "R9": ("110011", "1011--", "011-1-"),
    "T8": ("0111", "1011", "1101", "1110"),
    "S(5,6,12)": ("011111", "101--1", "1101--", "1-101-", "1--101", "11--10"),
}
_ENTRIES = {"0": 0, "1": 1, "-": -1}
_REGULAR_TABLES = ("R10", "R12")
_OTHER_NAMES = {"FANO": "F7", "PG(2,2)": "F7", "U24": "U2,4", "WAGNER": "V8", "NONFANO": "F7-", "NON-FANO": "F7-"}
_OTHER_NAMES |= {"K33": "K3,3", "W^2": "U2,4", "Q3": "CUBE", "K2,2,2": "OCTAHEDRON", "AG23": "AG(2,3)", "AG32": "AG(3,2)"}
_OTHER_NAMES |= {"PG23": "PG(2,3)", "AG(1,3)": "U2,3", "TERNARYDOWLING3": "Q3(GF(3)*)", "EXTENDEDTERNARYGOLAYCODE": "S(5,6,12)"}
_SAGE_NAMES = {"WHEEL": "W", "WHIRL": "W^", "COMPLETEGRAPHIC": "K", "Z": "Z"}
_NOT_OF_NAMES = re.compile(
    r"MATROIDS\.(?:(?:CATALOG|NAMED_MATROIDS)\.)?|\(\)|[ _{}$\\]|MATHCAL|MATHRM|TEXT|OPERATORNAME|LEFT|RIGHT"
)
"""What the spellings of LaTeX and Sage have besides a name."""
_OF_GRAPH = re.compile(r"M?(?P<dual>\*?)\((?P<graph>.+)\)(?P<duals>\**)")
_OF_SAGE = re.compile(r"(?P<kind>WHEEL|WHIRL|COMPLETEGRAPHIC|Z)\(?(?P<number>[0-9]{1,4})\)?")
_GEOMETRY = re.compile(r"(?P<kind>[PA]G)\((?P<dimension>[0-9]{1,3}),(?P<field>[0-9]{1,3})\)")
_WHIRL = re.compile(r"W\^(?P<rank>[0-9]{1,4})")
_DOWLING = re.compile(r"Q(?P<rank>[0-9]{1,3})\(GF\(3\)(?:\*|\^TIMES|\^×)\)")
_UNIFORM = re.compile(r"U(?:NIFORM)?\(?(?P<rank>[0-9]{1,4}),(?P<size>[0-9]{1,4})\)?")
_NAME = re.compile(r"(?P<kind>[KWZ])(?P<first>[0-9]{1,4})(?:,(?P<second>[0-9]{1,4}))?")

Edges = Sequence[tuple[object, object]]


def named(name: str, field: Field = 2) -> Matrix:
    """The matrix of a matroid by its name, such as `R10`, `F7*`, `K5`, `K3,3*`, `W4` or `AG(3,2)`, with names of its elements.

    `K5` and `K3,3` are the matroids of complete graphs, also as `M(K5)` and `M*(K5)`, `W4` is the matroid of the wheel with four spokes,
    `V8` the matroid of the Möbius ladder on eight nodes, and `Z4` the binary spike of rank 4 with its tip. `W^3` is a whirl, `F7-` the
    non-Fano matroid, `S(5,6,12)` the one of the ternary Golay code, and `PG(3,2)`, `AG(2,3)` and `Q3(GF(3)*)` are geometries. Spellings of
    LaTeX and of Sage are known too: `F_7^*`, `M^*(K_{3,3})`, `\\mathcal{W}^3`, `Whirl(3)`, `matroids.catalog.NonFano()`.

    With `field=3` the matrix represents the matroid over GF(3), and has entries -1, 0 and 1. `U2,4`, `R6`, `O7`, `P7`, `F7-`, `J`, `P8`,
    `R8`, `T8`, `R9`, `S(5,6,12)`, whirls and the geometries over GF(3) are not binary, so they have a matrix over GF(3) only.

    Raises `BadInput` if it is no name, if the matroid has no matrix over the field, or if the matrix would have more than 1,000 rows or
    columns.
    """
    plain, is_dual = _plain(name)
    matrix = _over(plain, name, field)
    return matrix.T if is_dual else matrix


def field_of_named(name: str) -> Field:
    """The field over which the matroid of a name is meant if none is said: GF(3) if it is not binary."""
    plain = _plain(name)[0]
    found = _GEOMETRY.fullmatch(plain)
    is_ternary = plain in _TERNARY_TABLES or _WHIRL.fullmatch(plain) or _DOWLING.fullmatch(plain) or found and found["field"] == "3"
    return 3 if is_ternary else 2


def _plain(name: str) -> tuple[str, bool]:
    """A name as the tables have it, and whether the dual matroid is meant."""
    if not isinstance(name, str):
        raise BadInput(f"a matroid is known by its name, such as {NAMED}, and here it is {shown(name)}")
    plain = _NOT_OF_NAMES.sub("", name.upper().replace("−", "-")).replace("^AST", "*").replace("^*", "*").replace("^-", "-")
    plain = plain.removesuffix("DUAL") + "*" * plain.endswith("DUAL")
    if of_graph := _OF_GRAPH.fullmatch(plain):
        plain = of_graph["graph"] + of_graph["dual"] + of_graph["duals"]
    bare = plain.rstrip("*")
    is_dual = (len(plain) - len(bare)) % 2 == 1
    if of_sage := _OF_SAGE.fullmatch(bare):
        bare = f"{_SAGE_NAMES[of_sage['kind']]}{of_sage['number']}"
    if uniform_name := _UNIFORM.fullmatch(bare):
        bare = f"U{uniform_name['rank']},{uniform_name['size']}"
    return _OTHER_NAMES.get(bare, bare), is_dual


def _over(plain: str, name: str, field: Field) -> Matrix:
    """The matrix over a field, of which the binary one of a regular matroid gets signs over GF(3)."""
    if field not in (2, 3):
        raise BadInput(f"the field has 2 or 3 elements, and here it is {shown(field)}")
    ternary = _ternary(plain, name)
    if ternary is not None:
        if field == 2:
            raise BadInput(f"{name} is not binary, so no 0/1 matrix represents it over GF(2); it has a matrix over GF(3)")
        return ternary
    matrix, is_regular = _binary(plain, name)
    if field == 2:
        return matrix
    if not is_regular:
        raise BadInput(f"{name} is binary and not regular, so no matrix represents it over GF(3)")
    return forced_signs(matrix)[1]


def _ternary(plain: str, name: str) -> Matrix | None:
    """The matrix over GF(3) of a matroid that is not binary, or None for other names."""
    if plain in _TERNARY_TABLES:
        return _of_table(_TERNARY_TABLES[plain])
    if found := _WHIRL.fullmatch(plain):
        return whirl(name, int(found["rank"]))
    if found := _DOWLING.fullmatch(plain):
        return dowling(name, int(found["rank"]))
    found = _GEOMETRY.fullmatch(plain)
    return _geometry(name, found, 3) if found and found["field"] == "3" else None


def _geometry(name: str, found: re.Match[str], field: Field) -> Matrix:
    return (projective if found["kind"] == "PG" else affine)(name, int(found["dimension"]), field)


def _binary(plain: str, name: str) -> tuple[Matrix, bool]:
    """The 0/1 matrix of a binary matroid, and whether the matroid is regular."""
    if plain in _BINARY_TABLES:
        return _of_table(_BINARY_TABLES[plain]), plain in _REGULAR_TABLES
    if plain in _GRAPHS:
        return _of_edges(_GRAPHS[plain]()), True
    if (found := _GEOMETRY.fullmatch(plain)) and found["field"] == "2":
        # A line has three points, and an affine plane four: they are graphic, and all larger geometries have a minor F7.
        return _geometry(name, found, 2), int(found["dimension"]) < (2 if found["kind"] == "PG" else 3)
    if found := _UNIFORM.fullmatch(plain):
        return uniform(name, int(found["rank"]), int(found["size"])), True
    found = _NAME.fullmatch(plain)
    if not found:
        raise BadInput(f"{name} is no name that is known here: {NAMED}")
    first, second = int(found["first"]), int(found["second"] or 0)
    if found["kind"] == "Z":
        return spike(name, first, has_second=bool(found["second"])), False
    return _of_edges(_named_edges(name, found["kind"], first, second if found["second"] else None)), True


def _named_edges(name: str, kind: str, first: int, second: int | None) -> Edges:
    """The edges of a wheel, a complete graph or a complete bipartite graph."""
    if kind == "W":
        if second is not None or first < 3:
            raise BadInput(f"{name} is no wheel, which has three spokes or more")
        return _wheel(first)
    if first < 1 or second == 0:
        raise BadInput(f"{name} is no complete graph, which has a node or more")
    edges = first * (first - 1) // 2 if second is None else first * second
    if edges > 2 * LIMIT:
        raise BadInput(f"{name} has {edges} edges, and a matrix may have at most {LIMIT} rows and {LIMIT} columns")
    return list(combinations(range(1, first + 1), 2)) if second is None else _bipartite(first, second)


def _wheel(spokes: int) -> Edges:
    rim = range(1, spokes + 1)
    return [("hub", node) for node in rim] + [(node, node % spokes + 1) for node in rim]


def _bipartite(first: int, second: int) -> Edges:
    """The edges at the first nodes of the two sides come first, and are the tree."""
    pairs = [(f"a{one}", f"b{two}") for one in range(1, first + 1) for two in range(1, second + 1)]
    return sorted(pairs, key=lambda pair: pair[0] != "a1" and pair[1] != "b1")


def _ladder() -> Edges:
    """The Möbius ladder on eight nodes: a cycle with an edge between each two opposite nodes."""
    return [(node, node % 8 + 1) for node in range(1, 9)] + [(node, node + 4) for node in range(1, 5)]


def _petersen() -> Edges:
    """A cycle of outer nodes 1 to 5, spokes to inner nodes 6 to 10, and a star of these."""
    outer = range(1, 6)
    spokes = [(node, node + 5) for node in outer]
    return [*((node, node % 5 + 1) for node in outer), *spokes, *((6 + at, 6 + (at + 2) % 5) for at in range(5))]


def _prism() -> Edges:
    """Two triangles with an edge between each two corresponding nodes."""
    return [(1, 2), (2, 3), (1, 3), (4, 5), (5, 6), (4, 6), (1, 4), (2, 5), (3, 6)]


def _cube() -> Edges:
    """Two squares with an edge between each two corresponding nodes."""
    squares = [(first + node, first + (node + 1) % 4) for first in (1, 5) for node in range(4)]
    return [*squares, *((node, node + 4) for node in range(1, 5))]


def _octahedron() -> Edges:
    """Six nodes, of which the opposite ones 1 and 4, 2 and 5, 3 and 6 are not joined."""
    return [(one, two) for one, two in combinations(range(1, 7), 2) if two - one != 3]


_GRAPHS: dict[str, Callable[[], Edges]] = {
    "V8": _ladder,
    "PETERSEN": _petersen,
    "PRISM": _prism,
    "CUBE": _cube,
    "OCTAHEDRON": _octahedron,
}


def _of_table(rows: Sequence[str]) -> Matrix:
    """The matrix of a table, with the elements 1, 2, .. in the order of the rows and then of the columns."""
    return numbered([[_ENTRIES[entry] for entry in row] for row in rows])


def _of_edges(edges: Edges) -> Matrix:
    """The 0/1 matrix of the walks that the other edges close in the tree of the first ones."""
    graph = graph_of_edges(edges, directed=False)
    taken = arcs_of_walks(graph) or {}
    triples = ((line.number, walk.number, 1) for walk, arcs in taken.items() for line, _ in arcs)
    matrix = Matrix.from_triples(triples, graph.shape)
    names = graph.names or Names.numbered(*graph.shape)
    return Matrix.of(matrix, row_names=names.rows, column_names=names.columns)
