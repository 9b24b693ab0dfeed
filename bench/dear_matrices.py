"""The matrices of `dear_inputs.py`: those on which a tool took longer than expected, and matrices of extreme shapes."""

from __future__ import annotations

import random
from collections.abc import Callable, Sequence
from dataclasses import dataclass

from measuring import Matrix
from networks import mixed, one_path, path_between, recursive, with_entry
from separations import CIRCULANT, parts, shuffled, sums, two_sum

__all__ = ["INPUTS", "Input"]

Draw = random.Random

LEAST_SIZE, MOST_SIZE = 10, 1000


@dataclass(frozen=True)
class Input:
    """A kind of matrix. A number of rows or columns that is `None` is the size that is asked for."""

    name: str
    make: Callable[[int, Draw], Matrix]
    rows: int | None = None
    columns: int | None = None

    def shape(self, size: int) -> tuple[int, int]:
        """The numbers of rows and columns."""
        return self.rows or size, self.columns or size

    def entries(self, size: int) -> Matrix:
        """The matrix of a size, which is the same in each run."""
        if not LEAST_SIZE <= size <= MOST_SIZE:
            raise ValueError(f"a size is {LEAST_SIZE} to {MOST_SIZE}, not {size}")
        return self.make(size, Draw(f"{self.name} {size}"))


def diagonal(blocks: Sequence[Matrix]) -> Matrix:
    """The matrix with these diagonal blocks."""
    width, start, entries = sum(len(block[0]) for block in blocks), 0, []
    for block in blocks:
        after = width - start - len(block[0])
        entries += [[0] * start + row + [0] * after for row in block]
        start += len(block[0])
    return entries


def transposed(entries: Matrix) -> Matrix:
    return [list(column) for column in zip(*entries)]


def support(entries: Matrix) -> Matrix:
    return [[abs(entry) for entry in row] for row in entries]


def scrambled(entries: Matrix, draw: Draw) -> Matrix:
    """The matrix with random lines negated, and with its lines shuffled."""
    rows, columns = (draw.choices((1, -1), k=count) for count in (len(entries), len(entries[0])))
    return shuffled([[sign * other * entry for other, entry in zip(columns, row)] for sign, row in zip(rows, entries)], draw)


def random_paths(parents: list[int], count: int, draw: Draw) -> list[dict[int, int]]:
    """Paths between random nodes of a tree."""
    return [path_between(parents, *draw.sample(range(len(parents)), 2)) for _ in range(count)]


def one_more(make: Callable[[int, Draw], Matrix]) -> Callable[[int, Draw], Matrix]:
    """The support of another matrix, with one nonzero more."""
    return lambda size, draw: with_entry(support(make(size, draw)), {0: 1}, draw)


def ones(size: int, _: Draw) -> Matrix:
    return [[1] * size for _ in range(size)]


def zeros(size: int, _: Draw) -> Matrix:
    return [[0] * size for _ in range(size)]


def one_row(size: int, _: Draw) -> Matrix:
    return [[1] * size]


def one_column(size: int, _: Draw) -> Matrix:
    return [[1] for _ in range(size)]


def dense(size: int, draw: Draw) -> Matrix:
    """Half of the entries are not 0."""
    return [[draw.choice((0, 0, 1, -1)) for _ in range(size)] for _ in range(size)]


def sparse(size: int, draw: Draw) -> Matrix:
    """Three entries of each row are not 0."""
    rows = [{column: draw.choice((1, -1)) for column in draw.sample(range(size), 3)} for _ in range(size)]
    return [[row.get(column, 0) for column in range(size)] for row in rows]


def all_but_diagonal(size: int, _: Draw) -> Matrix:
    """Any two supports of lines differ in two places."""
    return [[int(row != column) for column in range(size)] for row in range(size)]


def staircase(size: int, _: Draw) -> Matrix:
    """The ones of each row are a prefix of the row before it."""
    return [[1] * (size - row) + [0] * row for row in range(size)]


def last_ten_signs(size: int, draw: Draw) -> Matrix:
    """No entry is 0, and rows differ only in the signs of the last ten columns."""
    shared = [draw.choice((1, -1)) for _ in range(size - 10)]
    return [shared + [-1 if row >> place & 1 else 1 for place in range(10)] for row in range(size)]


def equal_lines(size: int, draw: Draw) -> Matrix:
    """Each line is a line of R10, or the negative of one."""
    kinds = [place % 5 for place in range(size)]
    return scrambled([[CIRCULANT[row][column] for column in kinds] for row in kinds], draw)


def ten_rows(size: int, draw: Draw) -> Matrix:
    """A network of ten arcs and many paths, so that many columns are equal."""
    parents = [0] + [draw.randrange(node) for node in range(1, 11)]
    return mixed(random_paths(parents, size, draw), 10, draw)


def cycle(size: int, _: Draw) -> Matrix:
    """One cycle through all lines, in their order."""
    return [[int(column in (row, (row + 1) % size)) for column in range(size)] for row in range(size)]


def shuffled_cycle(size: int, draw: Draw) -> Matrix:
    return scrambled(cycle(size, draw), draw)


def turned_cycle(size: int, draw: Draw) -> Matrix:
    """One cycle with the sign of an entry changed. If its size is even, it is a violator itself."""
    return with_entry(cycle(size, draw), {1: -1}, draw)


def cycle_and_column(size: int, _: Draw) -> Matrix:
    """One cycle through all rows but the last, which is a copy of the first, and a column of three ones."""
    ends = {0, size // 3, 2 * size // 3}
    rows = [row + [int(place in ends)] for place, row in enumerate(cycle(size - 1, Draw()))]
    return [*rows, list(rows[0])]


def random_tree(size: int, draw: Draw) -> Matrix:
    return mixed(recursive(size, draw), size, draw)


def deep_tree(size: int, draw: Draw) -> Matrix:
    """A network in whose tree the arc r leads from one of the five nodes before r."""
    parents = [0] + [draw.randrange(max(0, node - 5), node) for node in range(1, size + 1)]
    return mixed(random_paths(parents, size, draw), size, draw)


def transposed_deep_tree(size: int, draw: Draw) -> Matrix:
    return transposed(deep_tree(size, draw))


def long_path(size: int, draw: Draw) -> Matrix:
    """A network in one path. Its columns are intervals, three tenths of the rows on average."""
    return mixed(one_path(size, draw), size, draw)


def transposed_long_path(size: int, draw: Draw) -> Matrix:
    return transposed(long_path(size, draw))


def network_and_transposed(size: int, draw: Draw) -> Matrix:
    """A network and a transposed network as diagonal blocks."""
    half = size // 2
    return diagonal([random_tree(half, draw), transposed(random_tree(size - half, draw))])


def many_parts(size: int, draw: Draw) -> Matrix:
    """Matrices of R10 as diagonal blocks, and an identity matrix if the size is not a multiple of five."""
    return shuffled(diagonal([parts(size // 5), *[[[1]]] * (size % 5)]), draw)


def many_cycles(size: int, draw: Draw) -> Matrix:
    """Cycles through four rows and columns as diagonal blocks, and an identity matrix if the size is not a multiple of four."""
    return scrambled(diagonal([*[cycle(4, draw)] * (size // 4), *[[[1]]] * (size % 4)]), draw)


def many_sums(size: int, draw: Draw) -> Matrix:
    """Two-sums of matrices of R10, one after another, and of up to two cycles, so that no line is reducible."""
    cycles = [cycle(lines, draw) for lines in ((), (6,), (4, 4), (4,))[(size - 5) % 4]]
    entries = sums((size - 1 - sum(len(it) - 1 for it in cycles)) // 4)
    for it in cycles:
        entries = two_sum(entries, it)
    return shuffled(entries, draw)


def middle_of_arc(size: int, draw: Draw) -> tuple[Matrix, list[int], list[int]]:
    """A, a and c of a network [A a; c 0; c 1] in one path. The last column ends in the middle of an arc, which is the last two rows."""
    arc = size // 2
    arcs = [other for other in range(size + 1) if other != arc]
    lengths = [draw.randint(1 + size // 10, 1 + 11 * size // 20) for _ in range(size)]
    starts = [draw.randint(0, size + 1 - length) for length in lengths]
    block = [[int(start <= other < start + length) for start, length in zip(starts, lengths)] for other in arcs]
    last = [int(arc // 2 <= other < arc) for other in arcs]
    return block, last, [int(start <= arc < start + length) for start, length in zip(starts, lengths)]


def middle_of_tree_arc(size: int, draw: Draw) -> tuple[Matrix, list[int], list[int]]:
    """The same in a random tree, with paths between random nodes. The arc is in the most paths, and the last column is as long as possible."""
    parents = [0] + [draw.randrange(node) for node in range(1, size + 2)]
    paths = random_paths(parents, size, draw)
    arc = max(range(size + 1), key=lambda it: sum(it in path for path in paths))
    arcs = [other for other in range(size + 1) if other != arc]
    to_arc = [path_between(parents, node, parents[arc + 1]) for node in range(size + 2)]
    last = max((path for path in to_arc if arc not in path), key=len)
    block = [[path.get(other, 0) for path in paths] for other in arcs]
    return block, [last.get(other, 0) for other in arcs], [path.get(arc, 0) for path in paths]


def mixed_sum(middle: Callable[[int, Draw], tuple[Matrix, list[int], list[int]]]) -> Callable[[int, Draw], Matrix]:
    """The mixed sums of networks that are made in this way, and of such networks transposed."""

    def made(size: int, draw: Draw) -> Matrix:
        half = size // 2
        first, column, row = middle(half, draw)
        second, other_row, other_column = middle(size - half, draw)
        upper = [left + [entry * other for other in other_row] for left, entry in zip(first, column)]
        lower = [[entry * other for other in row] + right for right, entry in zip(transposed(second), other_column)]
        return scrambled(upper + lower, draw)

    return made


INPUTS = (
    Input("ones", ones),
    Input("zeros", zeros),
    Input("one row", one_row, rows=1),
    Input("one column", one_column, columns=1),
    Input("dense", dense),
    Input("sparse", sparse),
    Input("all but the diagonal", all_but_diagonal),
    Input("staircase", staircase),
    Input("signs of ten columns", last_ten_signs),
    Input("equal lines", equal_lines),
    Input("ten rows", ten_rows, rows=10),
    Input("cycle", cycle),
    Input("shuffled cycle", shuffled_cycle),
    Input("turned cycle", turned_cycle),
    Input("cycle and a column", cycle_and_column),
    Input("random tree", random_tree),
    Input("random tree, one more", one_more(random_tree)),
    Input("deep tree", deep_tree),
    Input("deep tree, one more", one_more(deep_tree)),
    Input("deep tree, transposed", transposed_deep_tree),
    Input("long path", long_path),
    Input("long path, one more", one_more(long_path)),
    Input("long path, transposed", transposed_long_path),
    Input("network and transposed", network_and_transposed),
    Input("mixed sum", mixed_sum(middle_of_arc)),
    Input("dense mixed sum", mixed_sum(middle_of_tree_arc)),
    Input("many parts", many_parts),
    Input("many cycles", many_cycles),
    Input("many sums", many_sums),
)
