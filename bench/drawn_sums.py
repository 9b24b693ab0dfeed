"""Random sums that are totally unimodular, each in four bases, and matrices with entries 0 and 1 that are nearly regular.

A sum has 2 to 16 pieces and up to 300 lines: networks, conetworks, R10 and R12, in two-sums and in three-sums of the forms delta, Y and
mixed at connecting lines that the networks have. Pivots lead from the composed matrix to the other bases, with separations of all forms.
"""

from __future__ import annotations

import random
from dataclasses import dataclass

from measuring import Matrix
from separations import shuffled

__all__ = ["BASES", "NEAR", "Drawn", "near_regular", "sum_in_basis"]

Draw = random.Random
Walk = dict[int, int]

R10 = [[1, 1, 0, 0, 1], [1, 1, 1, 0, 0], [0, 1, 1, 1, 0], [0, 0, 1, 1, -1], [1, 0, 0, -1, 1]]
R12 = [
    [1, 1, 1, 0, 0, 0],
    [1, 1, 0, 1, 0, 0],
    [1, 0, 0, 0, 1, 0],
    [0, 1, 0, 0, 0, 1],
    [0, 0, 1, 0, -1, -1],
    [0, 0, 0, 1, -1, -1],
]
# F7 as [A a a; c 0 1], which the three-sum needs.
F7 = [[1, 0, 1, 1], [0, 1, 1, 1], [1, 1, 0, 1]]
OTHER = {"flat": "tall", "tall": "flat", "line": "line"}

MOST_PIECES, MOST_LINES, MOST_ARCS = 16, 300, 14

BASES = ("as composed", "10 pivots", "300 pivots", "200 pivots, then sparse")
PIVOTS = {"as composed": 0, "10 pivots": 10, "300 pivots": 300, "200 pivots, then sparse": 200}

NEAR = ("F7", "one entry changed", "one element added")


@dataclass(frozen=True)
class Drawn:
    """A matrix, with its kind."""

    kind: str
    entries: Matrix


class Tree:
    """A random tree with an arc for each node except the first, and walks in it."""

    def __init__(self, draw: Draw, size: int) -> None:
        self.draw, self.size = draw, size
        self.parents = [0] + [draw.randrange(node) for node in range(1, size + 1)]
        self.signs = [0] + [draw.choice((1, -1)) for _ in range(size)]

    def way(self, node: int) -> Walk:
        """The arcs from a node to the first one."""
        found = {}
        while node:
            found[node] = self.signs[node]
            node = self.parents[node]
        return found

    def walk(self, tail: int, head: int) -> Walk:
        found = self.way(tail)
        for arc, sign in self.way(head).items():
            found[arc] = found.get(arc, 0) - sign
        return {arc: sign for arc, sign in found.items() if sign}

    def drawn(self) -> Walk:
        return self.walk(*self.draw.sample(range(self.size + 1), 2))

    def flat(self, arc: int) -> tuple[Walk, Walk] | None:
        """Two walks that differ in an arc: without it, and with it."""
        near, far = self.draw.sample([arc, self.parents[arc]], 2)
        starts = [node for node in range(self.size + 1) if node != near and arc not in self.walk(node, near)]
        if not starts:
            return None
        start = self.draw.choice(starts)
        return self.walk(start, near), self.walk(start, far)

    def tall(self, arc: int) -> tuple[Walk, int] | None:
        """A walk from the middle of an arc, without the arc, and the sign of the half of the arc that it begins in."""
        is_below = self.draw.random() < 0.5
        start = arc if is_below else self.parents[arc]
        ends = [node for node in range(self.size + 1) if node != start and arc not in self.walk(start, node)]
        if not ends:
            return None
        return self.walk(start, self.draw.choice(ends)), -self.signs[arc] if is_below else self.signs[arc]


def connecting(tree: Tree, arc: int, kind: str) -> tuple[list[int], list[Walk]] | None:
    """The connecting rows and columns of a kind at an arc, if there are any. A negative row is the half of an arc that a walk begins in."""
    if kind == "line":
        return [arc], [tree.drawn()]
    if kind == "flat":
        flat = tree.flat(arc)
        return flat and ([arc], list(flat))
    tall = tree.tall(arc)
    return tall and ([arc, -arc], [tall[0] | {-arc: tall[1]}])


def network(draw: Draw, first: str, last: str, most: int) -> Matrix | None:
    """A network matrix that begins and ends with the connecting lines of these kinds, or None if the tree has none."""
    tree = Tree(draw, draw.randint(4, most))
    columns = [tree.drawn() for _ in range(draw.randint(3, most))]
    arcs = draw.sample(range(1, tree.size + 1), 2)
    start, end = (connecting(tree, arc, kind) for arc, kind in zip(arcs, (first, last)))
    if start is None or end is None:
        return None
    rows = start[0][::-1] + [arc for arc in range(1, tree.size + 1) if arc not in arcs] + end[0]
    columns = start[1][::-1] + columns + end[1]
    return [[column.get(row, column.get(abs(row), 0)) for column in columns] for row in rows]


def transposed(entries: Matrix) -> Matrix:
    return [list(column) for column in zip(*entries)]


def piece(draw: Draw, first: str, last: str, most: int = MOST_ARCS) -> Matrix:
    """A network of up to `most` arcs, or a transposed one, with these kinds of connecting lines; R10 and R12 are for two-sums."""
    if first == last == "line" and draw.random() < 0.5:
        return [list(row) for row in draw.choice((R10, R12))]
    is_transposed = draw.random() < 0.5
    while True:
        kinds = (OTHER[first], OTHER[last]) if is_transposed else (first, last)
        made = network(draw, *kinds, most)
        if made is not None:
            return transposed(made) if is_transposed else made


def as_one(entries: Matrix, kind: str) -> tuple[Matrix, list[int], list[int], int]:
    """A, a, c and e of a matrix that ends in the connecting lines."""
    *rows, last = entries
    if kind == "flat":
        return [row[:-2] for row in rows], [row[-2] for row in rows], last[:-2], last[-1]
    return [row[:-1] for row in rows[:-1]], [row[-1] for row in rows[:-1]], last[:-1], last[-1]


def as_two(entries: Matrix, kind: str) -> tuple[Matrix, list[int], list[int], int]:
    """B, b, d and e of a matrix that begins with the connecting lines."""
    first, *rows = entries
    if kind == "flat":
        return [row[2:] for row in rows], first[2:], [row[0] for row in rows], first[0]
    return [row[1:] for row in rows[1:]], first[1:], [row[0] for row in rows[1:]], first[0]


def summed(one: Matrix, last: str, two: Matrix, first: str) -> Matrix:
    """The two-sum or the three-sum of two matrices."""
    if last == "line":
        upper = [row + [0] * (len(two[0]) - 1) for row in one[:-1]]
        return upper + [[row[0] * entry for entry in one[-1]] + row[1:] for row in two]
    a_block, a, c, e = as_one(one, last)
    b_block, b, d, corner = as_two(two, first)
    upper = [row + [entry * other for other in b] for row, entry in zip(a_block, a)]
    return upper + [[e * corner * entry * other for other in c] + row for row, entry in zip(b_block, d)]


def composed(draw: Draw, with_fano: bool) -> Matrix:
    """A sum of 2 to 16 pieces. The first piece may be F7 or its dual, in a three-sum."""
    count = draw.randint(2, MOST_PIECES)
    kinds = [draw.choice(("line", "line", "flat", "tall")) for _ in range(count + 1)]
    if with_fano:
        kinds[1] = draw.choice(("flat", "tall"))
    # Each side of a two-sum has one connecting line; the others may differ.
    firsts = [kind if kind == "line" else draw.choice(("flat", "tall")) for kind in kinds]
    made = piece(draw, firsts[0], kinds[1])
    if with_fano:
        made = F7 if kinds[1] == "flat" else transposed(F7)
    for at in range(1, count):
        made = summed(made, kinds[at], piece(draw, firsts[at], kinds[at + 1]), firsts[at])
    return made


def drawn_sum(draw: Draw, with_fano: bool = False) -> Matrix:
    """A sum of up to 300 lines."""
    while True:
        made = composed(draw, with_fano)
        if len(made) + len(made[0]) <= MOST_LINES:
            return made


class Basis:
    """The nonzeros of a matrix by rows, for pivots over the integers or, if it is binary, over two values."""

    def __init__(self, entries: Matrix, is_binary: bool) -> None:
        self.width, self.is_binary = len(entries[0]), is_binary
        self.rows = [{column: entry for column, entry in enumerate(row) if entry} for row in entries]

    def nonzero(self, draw: Draw) -> tuple[int, int]:
        """The position of a random nonzero."""
        row = draw.choice([row for row, line in enumerate(self.rows) if line])
        return row, draw.choice(sorted(self.rows[row]))

    def pivot(self, row: int, column: int) -> None:
        sign, pivot_row = self.rows[row][column], self.rows[row]
        others = {place: entry for place, entry in pivot_row.items() if place != column}
        for line in self.rows:
            if line is not pivot_row and column in line:
                factor = sign * line[column]
                self.subtract(line, factor, others)
                line[column] = 1 if self.is_binary else -factor
        self.rows[row] = {place: sign * entry for place, entry in others.items()} | {column: sign}

    def subtract(self, line: Walk, factor: int, others: Walk) -> None:
        for place, entry in others.items():
            value = line.pop(place, 0) - factor * entry
            if value := value % 2 if self.is_binary else value:
                line[place] = value

    def more_nonzeros(self, row: int, column: int) -> int:
        """How many more nonzeros there are after a pivot, if the matrix is totally unimodular or binary."""
        pivot_row = self.rows[row]
        crossed = [line for line in self.rows if line is not pivot_row and column in line]
        return sum(-1 if place in line else 1 for line in crossed for place in pivot_row if place != column)

    def entries(self) -> Matrix:
        return [[row.get(column, 0) for column in range(self.width)] for row in self.rows]


def in_basis(entries: Matrix, kind: str, is_binary: bool, draw: Draw) -> Matrix:
    """The matrix after pivots at random nonzeros, shuffled."""
    basis = Basis(entries, is_binary)
    for _ in range(PIVOTS[kind]):
        basis.pivot(*basis.nonzero(draw))
    if kind.endswith("sparse"):
        keep_sparse(basis, draw)
    return shuffled(basis.entries(), draw)


def keep_sparse(basis: Basis, draw: Draw) -> None:
    """Pivots at those of 400 random nonzeros that add no nonzeros."""
    for _ in range(400):
        row, column = basis.nonzero(draw)
        if basis.more_nonzeros(row, column) <= 0:
            basis.pivot(row, column)


def sum_in_basis(number: int) -> Drawn:
    """The matrix of a number: four numbers one after another are a sum in its four bases, with lines negated."""
    kind = BASES[number % len(BASES)]
    draw = Draw(number)
    entries = in_basis(drawn_sum(Draw(f"sum {number // len(BASES)}")), kind, False, draw)
    signs = draw.choices((1, -1), k=len(entries))
    return Drawn(kind, [[sign * entry for entry in row] for sign, row in zip(signs, entries)])


def changed(entries: Matrix, kind: str, draw: Draw) -> Matrix:
    """The matrix with an entry exchanged between 0 and 1, or with a row or a column of two to four ones more."""
    if kind == "one entry changed":
        line = draw.choice(entries)
        place = draw.randrange(len(line))
        line[place] = 1 - line[place]
        return entries
    if draw.random() < 0.5:
        return transposed(with_row(transposed(entries), draw))
    return with_row(entries, draw)


def with_row(entries: Matrix, draw: Draw) -> Matrix:
    width = len(entries[0])
    chosen = draw.sample(range(width), min(width, draw.randint(2, 4)))
    return [*entries, [int(column in chosen) for column in range(width)]]


def near_regular(number: int) -> Drawn:
    """The matrix of a number: the support of a sum with F7 or its dual, or of a sum that is changed, in one of the four bases."""
    kind, basis = NEAR[number % len(NEAR)], BASES[number // len(NEAR) % len(BASES)]
    draw = Draw(f"near {number}")
    entries = [[abs(entry) for entry in row] for row in drawn_sum(draw, with_fano=kind == "F7")]
    if kind != "F7":
        entries = changed(entries, kind, draw)
    return Drawn(kind, in_basis(entries, basis, True, draw))
