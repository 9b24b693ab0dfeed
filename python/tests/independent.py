"""Checks of answers and evidence that do not call the program, and use only the values of the package.

They follow the definitions of docs/DEFINITIONS.md and are slow, so they are for matrices with few lines.
"""

from __future__ import annotations

from collections.abc import Iterable, Sequence
from itertools import combinations, product

from cmr_matrices import Chain, ChainStep, Graph, Line, LineSet, Node, Reductions, Tree

Rows = Sequence[Sequence[int]]


def transposed(rows: Rows) -> list[list[int]]:
    """The columns as rows. There has to be a row."""
    return [list(column) for column in zip(*rows)]


def part(rows: Rows, lines: LineSet) -> list[list[int]]:
    """The submatrix on some lines."""
    return [[rows[row][column] for column in lines.columns] for row in lines.rows]


def is_signed(rows: Rows) -> bool:
    """Whether all rows together have a signing, by trying all signs but those of the first row."""
    return any(
        all(abs(sum(sign * entry for sign, entry in zip((1, *signs), column))) <= 1 for column in zip(*rows))
        for signs in product((1, -1), repeat=len(rows) - 1)
    )


def is_unimodular(rows: Rows) -> bool:
    """Ghouila-Houri's condition: whether every set of rows, or of columns if there are fewer, has a signing."""
    shorter = rows if len(rows) <= len(rows[0]) else transposed(rows)
    sets = (chosen for size in range(1, len(shorter) + 1) for chosen in combinations(shorter, size))
    return all(is_signed(chosen) for chosen in sets)


def is_violator(rows: Rows) -> bool:
    """Whether all rows and columns have even sums and the sum of all entries is 2 modulo 4."""
    lines = [*rows, *zip(*rows)]
    return all(sum(line) % 2 == 0 for line in lines) and sum(sum(row) for row in rows) % 4 == 2


def is_balanced(rows: Rows) -> bool:
    """Whether no submatrix with two nonzeros in each line has a sum of 2 modulo 4, by trying all."""
    for size in range(2, min(len(rows), len(rows[0])) + 1):
        for chosen in combinations(rows, size):
            columns = [column for column in zip(*chosen) if sum(map(abs, column)) == 2]
            for kept in combinations(columns, size):
                if all(sum(map(abs, row)) == 2 for row in zip(*kept)) and sum(sum(row) for row in kept) % 4 == 2:
                    return False
    return True


def reproduced(graph: Graph, lines: LineSet) -> dict[tuple[int, int], int]:
    """The nonzeros, by row and column, of the matrix of a graph's walks on some lines; without signs if the graph is undirected."""
    steps: dict[int, list[tuple[int, Line, int]]] = {node: [] for node in range(len(graph.arcs) + 1)}
    for arc in graph.arcs:
        steps[arc.tail].append((arc.head, arc.line, 1))
        steps[arc.head].append((arc.tail, arc.line, -1))
    assert {edge.line for edge in graph.edges} == set(lines)
    nonzeros = {}
    for walk in graph.walks:
        for line, sign in _path(steps, walk.tail, walk.head):
            row, column = (line, walk.line) if line.kind == "row" else (walk.line, line)
            nonzeros[row.number, column.number] = sign if graph.directed else 1
    return nonzeros


def _path(steps: dict[int, list[tuple[int, Line, int]]], tail: int, head: int) -> list[tuple[Line, int]]:
    pending: list[tuple[int, int, list[tuple[Line, int]]]] = [(tail, -1, [])]
    while pending:
        node, before, path = pending.pop()
        if node == head:
            return path
        pending += ((to, node, [*path, (line, sign)]) for to, line, sign in steps[node] if to != before)
    raise AssertionError("the tree does not join all nodes")


def shows(graph: Graph, rows: Rows, lines: LineSet | None = None) -> bool:
    """Whether a graph reproduces the submatrix on some lines, or the whole matrix."""
    taken = lines or LineSet(tuple(range(len(rows))), tuple(range(len(rows[0]))))
    entries = {(row, column): rows[row][column] for row in taken.rows for column in taken.columns if rows[row][column]}
    return reproduced(graph, taken) == entries


def keeps_reducing(rows: Rows, lines: Sequence[Line], left: LineSet, *, binary: bool = False) -> LineSet | None:
    """What is left of some lines when others are removed one after another, or None if one of these is not reducible at its turn."""
    for line in lines:
        if line not in left or not is_reducible(rows, line, left, binary):
            return None
        if line.kind == "row":
            left = LineSet(tuple(row for row in left.rows if row != line.number), left.columns)
        else:
            left = LineSet(left.rows, tuple(column for column in left.columns if column != line.number))
    return left


def is_reducible(rows: Rows, line: Line, left: LineSet, binary: bool = False) -> bool:
    """Whether a line has at most one nonzero among the lines that are left, or equals another or its negative."""
    vectors = {Line("row", row): tuple(rows[row][column] for column in left.columns) for row in left.rows}
    if line.kind == "column":
        vectors = {Line("column", column): tuple(rows[row][column] for row in left.rows) for column in left.columns}
    vector = vectors[line]
    same = {vector} if binary else {vector, tuple(-entry for entry in vector)}
    return sum(abs(entry) for entry in vector) <= 1 or any(other in same for at, other in vectors.items() if at != line)


def reduces(rows: Rows, reductions: Reductions, rest: LineSet | None, *, binary: bool = False) -> bool:
    """Whether reductions are those of a matrix and leave a rest in which no line is reducible, or nothing."""
    everything = LineSet(tuple(range(len(rows))), tuple(range(len(rows[0]))))
    left = keeps_reducing(rows, [step.line for step in reductions], everything, binary=binary)
    if left is None or left != (rest or LineSet((), ())):
        return False
    return not any(is_reducible(rows, line, left, binary) for line in left)


def chain_holds(rows: Rows, chain: Chain) -> bool:
    """Whether each step of a chain keeps its rule and the violator is one of the signs."""
    signs = signs_of_steps(rows, chain.steps)
    lines = chain.violator
    if signs is None or any(rows[row][at] and (row, at) not in signs for row in lines.rows for at in lines.columns):
        return False
    return is_violator([[signs.get((row, column), 0) for column in lines.columns] for row in lines.rows])


def signs_of_steps(rows: Rows, steps: Iterable[ChainStep]) -> dict[tuple[int, int], int] | None:
    """The signs that the steps of a chain give, or None if a step breaks its rule."""
    signs: dict[tuple[int, int], int] = {}
    for step in steps:
        place = step.row, step.column
        if not rows[step.row][step.column] or place in signs:
            return None
        if step.lines is None:
            if _are_linked(signs, *place):
                return None
            signs[place] = 1
            continue
        ones = [(row, column) for row in step.lines.rows for column in step.lines.columns if rows[row][column]]
        support = part(rows, step.lines)
        if place not in ones or any(sum(line) != 2 for line in [*support, *zip(*support)]):
            return None
        if any(one not in signs for one in ones if one != place):
            return None
        signs[place] = -1 if (sum(signs[one] for one in ones if one != place) + 1) % 4 else 1
    return signs


def _are_linked(signs: Iterable[tuple[int, int]], row: int, column: int) -> bool:
    found = {Line("row", row)}
    while True:
        pairs = [(Line("row", at), Line("column", across)) for at, across in signs]
        more = {line for pair in pairs for line in pair if found.intersection(pair)} - found
        if not more:
            return Line("column", column) in found
        found |= more


def tree_holds(rows: Rows, tree: Tree) -> bool:
    """Whether the walk through a tree finds at each node what it says. Of three-sums only the lines are looked at."""
    whole = LineSet(tuple(range(len(rows))), tuple(range(len(rows[0]))))
    pending = [(tree.root, rows)]
    while pending:
        node, entries = pending.pop()
        if not _node_holds(entries, node):
            return False
        below = pivot_of(entries, node) if node.kind == "pivoted" else entries
        pending += ((child, below) for child in node.children)
    return tree.root.lines == whole


def pivot_of(rows: Rows, node: Node) -> list[list[int]]:
    """The entries after the pivot of a node, which changes only the entries on its lines."""
    r, c = (line.number for line in node.place)
    a = rows[r][c]
    made = [list(row) for row in rows]
    for i in node.rows:
        for j in node.columns:
            if i != r and j != c:
                made[i][j] = rows[i][j] - a * rows[i][c] * rows[r][j]
            elif i != r:
                made[i][c] = -a * rows[i][c]
            elif j != c:
                made[r][j] = a * rows[r][j]
    return made


def _is_pivoted(rows: Rows, node: Node) -> bool:
    row, column = node.place
    if row not in node.lines or column not in node.lines or not rows[row.number][column.number]:
        return False
    is_ternary = all(entry in (-1, 0, 1) for made in part(pivot_of(rows, node), node.lines) for entry in made)
    return is_ternary and [child.lines for child in node.children] == [node.lines]


def _node_holds(rows: Rows, node: Node) -> bool:
    lines = node.lines
    if not all(set(child.lines) <= set(lines) for child in node.children):
        return False
    match node.kind:
        case "empty":
            return not lines
        case "cycle" | "violator":
            return node.fault is not None and set(node.fault) <= set(lines) and is_violator(part(rows, node.fault))
        case "network" | "conetwork":
            return node.graph is not None and shows(node.graph, rows, lines)
        case "r10" | "enumerated":
            return is_unimodular(part(rows, lines))
        case "reduced":
            left = keeps_reducing(rows, node.removed, lines)
            return bool(node.removed) and left == node.children[0].lines
        case "onesum":
            return _is_apart(rows, node)
        case "twosum":
            return _is_two_sum(rows, node)
        case "pivoted":
            return _is_pivoted(rows, node)
    return node.kind != "undecided"


def _is_apart(rows: Rows, node: Node) -> bool:
    own = {line: child for child, below in enumerate(node.children) for line in below.lines}
    return len(own) == len(node.lines) == sum(len(child.lines) for child in node.children) and not any(
        rows[row][column] and own[Line("row", row)] != own[Line("column", column)]
        for row in node.rows
        for column in node.columns
    )


def _is_two_sum(rows: Rows, node: Node) -> bool:
    assert node.side is not None
    i, j = (line.number for line in node.connectors)
    one, first, second = node.side, *(child.lines for child in node.children)
    two = LineSet(
        tuple(row for row in node.rows if row not in one.rows),
        tuple(column for column in node.columns if column not in one.columns),
    )
    if set(first) != {*one, Line("row", i)} or set(second) != {*two, Line("column", j)}:
        return False
    return not any(any(row) for row in part(rows, LineSet(one.rows, two.columns))) and all(
        rows[row][column] == rows[row][j] * rows[i][column] * rows[i][j] for row in two.rows for column in one.columns
    )
