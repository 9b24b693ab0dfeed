"""Matrices that the program leaves undecided without pivots, as models have them in their natural order."""

from __future__ import annotations

import random
from collections.abc import Iterator, Sequence
from itertools import combinations, product

__all__ = ["latin_square", "models", "rectangles", "shared_flows", "sudoku", "timetable", "two_goods"]

Rows = list[list[int]]
Arcs = Sequence[tuple[int, int]]

TRIANGLE = ((0, 1), (0, 2), (2, 1), (1, 0), (2, 0), (1, 2))
RING = ((0, 1), (1, 2), (2, 3), (3, 0), (0, 2), (1, 3), (2, 1), (3, 1))
GIVENS = ("53..7....", "6..195...", ".98....6.", "8...6...3", "4..8.3..1", "7...2...6", ".6....28.", "...419..5", "....8..79")
"""The puzzle of the model sudoku.mod of GLPK."""


def latin_square(order: int) -> Rows:
    """The constraints of a Latin square, with a column for each row, column and symbol: planar three-index assignment."""
    return timetable(order, order, order)


def timetable(teachers: int, classes: int, hours: int) -> Rows:
    """A column for each teacher, class and hour: a teacher and a class meet once, and neither has two lessons in an hour."""
    sizes = (teachers, classes, hours)
    cells = list(product(*map(range, sizes)))
    return [
        [int((cell[first], cell[second]) == pair) for cell in cells]
        for first, second in combinations(range(3), 2)
        for pair in product(range(sizes[first]), range(sizes[second]))
    ]


def sudoku(side: int, givens: Sequence[str] = ()) -> Rows:
    """A column for each row, column and symbol, and rows as sudoku.mod of GLPK has them: the givens, then cells, rows, columns, regions."""
    size = side * side
    cells = list(product(range(size), repeat=3))
    given = [(i, j) for i, line in enumerate(givens) for j, symbol in enumerate(line) if symbol != "."]
    sets = [[(i, j, k)] for i, j in given for k in range(size)]
    sets += [[(i, j, k) for k in range(size)] for i, j in product(range(size), repeat=2)]
    sets += [[(i, j, k) for j in range(size)] for i, k in product(range(size), repeat=2)]
    sets += [[(i, j, k) for i in range(size)] for j, k in product(range(size), repeat=2)]
    sets += [
        [(i, j, k) for i, j in product(range(size), repeat=2) if i // side * side + j // side == region]
        for region in range(size)
        for k in range(size)
    ]
    return [[int(cell in taken) for cell in cells] for taken in (set(cells) for cells in sets)]


def rectangles(side: int) -> Rows:
    """A row for each cell of a square, and a column for each rectangle of cells."""
    spans = list(combinations(range(side + 1), 2))
    return [
        [int(top <= i < bottom and left <= j < right) for top, bottom in spans for left, right in spans]
        for i, j in product(range(side), repeat=2)
    ]


def shared_flows(goods: int, places: int, arcs: Arcs) -> Rows:
    """Goods that share connections: for each good the balance of its places, then for each connection what it carries together."""
    balances = [
        [(head == place) - (tail == place) if good == own else 0 for good in range(goods) for tail, head in arcs]
        for own in range(goods)
        for place in range(places)
    ]
    return [*balances, *([int(arc == other) for _ in range(goods) for other in range(len(arcs))] for arc in range(len(arcs)))]


def two_goods(connections: int) -> Rows:
    """Two goods over connections between three places, with balances of two of these: totally unimodular."""
    return shared_flows(2, 2, [TRIANGLE[number % 6] for number in range(connections)])


def drawn_arcs(places: int, count: int, seed: int) -> Arcs:
    """Arcs between places that are drawn by chance, first one into each place."""
    draw = random.Random(seed)
    into = [(draw.randrange(place), place) for place in range(1, places)]
    others = [(tail, head) for tail in range(places) for head in range(places) if tail != head and (tail, head) not in into]
    return [*into, *draw.sample(others, count - len(into))]


def models() -> Iterator[tuple[str, str, Rows]]:
    """Each with a name and with the answer, which is known of none but the two goods by another way than pivots."""
    for connections in (6, 12, 30, 60):
        yield f"two goods over {connections} connections of three places", "yes", two_goods(connections)
    for order in (3, 4, 5, 6):
        yield f"Latin square of order {order}", "no", latin_square(order)
    for sizes in ((2, 4, 5), (3, 3, 4), (3, 4, 5), (4, 4, 6)):
        yield f"timetable {'x'.join(map(str, sizes))}", "no", timetable(*sizes)
    yield "two commodities, 4 places, 8 arcs", "no", shared_flows(2, 4, RING)
    for places, count in ((5, 10), (6, 13), (7, 17), (8, 20)):
        for seed in (1, 2, 3):
            arcs = drawn_arcs(places, count, seed)
            yield f"two commodities, {places} places, {count} arcs, drawn {seed}", "no", shared_flows(2, places, arcs)
    yield "three commodities, 15 places, 40 arcs", "no", shared_flows(3, 15, drawn_arcs(15, 40, 1))
    for side in (4, 5):
        yield f"all rectangles in {side}x{side} cells", "no", rectangles(side)
    yield "Sudoku of 4x4 cells", "no", sudoku(2)
    yield "Sudoku of 9x9 cells, sudoku.mod of GLPK", "no", sudoku(3, GIVENS)
