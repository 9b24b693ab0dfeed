"""Bases of matroids and of their minors by brute force, and the excluded minors by what the literature says of them.

Nothing here calls the package: a minor is what the ranks of sets of columns of `[I A]` say, and not what pivots lead to.
"""

from __future__ import annotations

from collections.abc import Iterable, Sequence
from itertools import combinations

Rows = Sequence[Sequence[int]]
Bases = set[frozenset[str]]


def rank(vectors: Iterable[Sequence[int]], field: int) -> int:
    """The rank of vectors over the field of 2 or 3 elements."""
    left = [[value % field for value in vector] for vector in vectors]
    found = 0
    while left:
        first = left.pop()
        place = next((at for at, value in enumerate(first) if value), None)
        if place is not None:
            found += 1
            left = [
                [(value * first[place] - vector[place] * own) % field for value, own in zip(vector, first)]
                for vector in left
            ]
    return found


def columns_of(rows: Rows) -> list[tuple[int, ...]]:
    """The columns of `[I A]`: an element for each row, and then one for each column. There has to be a row."""
    height = len(rows)
    return [tuple(int(row == place) for row in range(height)) for place in range(height)] + [*zip(*rows)]


def minor_bases(rows: Rows, field: int, contracted: Sequence[int], names: dict[int, str]) -> Bases:
    """The bases of the minor on the elements that are named, with others contracted and the rest deleted.

    Elements are numbered as the columns of `[I A]`.
    """
    vectors = columns_of(rows) if rows else [()] * (1 + max([*contracted, *names], default=-1))
    below = [vectors[element] for element in contracted]
    least = rank(below, field)
    size = rank([*below, *(vectors[element] for element in names)], field) - least
    return {
        frozenset(names[element] for element in chosen)
        for chosen in combinations(names, size)
        if rank([*below, *(vectors[element] for element in chosen)], field) == least + size
    }


def spanning_trees(edges: Iterable[str]) -> Bases:
    """The spanning trees of a connected graph with edges such as `1-2`."""
    pairs = {edge: tuple(edge.split("-")) for edge in edges}
    nodes = {node for pair in pairs.values() for node in pair}
    sets = combinations(pairs, len(nodes) - 1)
    return {frozenset(chosen) for chosen in sets if _is_tree([pairs[edge] for edge in chosen])}


def _is_tree(pairs: list[tuple[str, ...]]) -> bool:
    parts = {node: {node} for pair in pairs for node in pair}
    for tail, head in pairs:
        if parts[tail] is parts[head]:
            return False
        joined = parts[tail] | parts[head]
        for node in joined:
            parts[node] = joined
    return len(parts) == len(pairs) + 1


def complements(bases: Bases) -> Bases:
    """The bases of the dual matroid."""
    whole = frozenset().union(*bases)
    return {whole - basis for basis in bases}


_LINES = ("124", "135", "236", "456", "347", "257", "167")
"""Seven points and seven lines: each two points are on one line."""


def _fano() -> Bases:
    points = "1234567"
    assert all(sum({one, two} <= set(line) for line in _LINES) == 1 for one, two in combinations(points, 2))
    return {frozenset(three) for three in combinations(points, 3) if "".join(three) not in _LINES}


K5 = spanning_trees(f"{one}-{two}" for one, two in combinations("12345", 2))
K33 = spanning_trees(f"a{one}-b{two}" for one in "123" for two in "123")
EXCLUDED = {
    "F7": _fano(),
    "F7*": complements(_fano()),
    "M(K5)": K5,
    "M*(K5)": complements(K5),
    "M(K3,3)": K33,
    "M*(K3,3)": complements(K33),
    "M(K4)": spanning_trees(f"{one}-{two}" for one, two in combinations("1234", 2)),
    "U2,4": {frozenset(pair) for pair in combinations("1234", 2)},
}
"""The bases of the excluded minors, by the names of their elements."""
