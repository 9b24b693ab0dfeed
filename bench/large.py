"""Times `cmr-large tu` on large sparse matrices, as multiples of the time for reading the same text, in one table.

    python3 bench/large.py --program cmr-large
    python3 bench/large.py --program cmr-large --nonzeros 6000000 --kinds arcs transport

The kinds, each with about the given number of nonzeros:

    arcs       the arcs of a random digraph with a third as many nodes as arcs, in columns
    turned     the same with the sign of one entry turned
    rows       the transposed matrix of arcs
    transport  the constraints of a transportation problem with as many sources as sinks
    pieces     arcs of digraphs with twelve nodes each
    tree       the arcs of a random tree, all of which are removed
    intervals  each column has consecutive ones, three on average

All times are processor times, the least of some runs. Reading is the time of a run on the text with one more word at its end, which ends
with status 3 after the whole text was read. The time grows with the power P if twice the nonzeros take 2^P times as long; the table has P
from half of the nonzeros to all. Memory is the peak of the run, or that of this script (about 16 MB), which makes the texts in other
processes, if that is more: the system counts the memory of the process that begins a run. If scipy is installed, the table has the time of the same test of `arcs` and
`turned`, by the connected components of a graph with two nodes for each row, after numpy has read the text. The status is 1 if a run ends
with an unexpected status.
"""

from __future__ import annotations

import argparse
import importlib.util
import math
import os
import random
import sys
import tempfile
import time
from collections.abc import Callable, Sequence
from concurrent.futures import Executor, ProcessPoolExecutor
from dataclasses import dataclass
from pathlib import Path

Triple = tuple[int, int, int]
Sparse = tuple[int, int, list[Triple]]

# The nodes of a digraph of `pieces`, and its arcs.
PIECE = 12
READ = 3


def arcs(nonzeros: int, draw: random.Random) -> Sparse:
    columns = nonzeros // 2
    rows = max(2, columns // 3)
    ends = [draw.sample(range(rows), 2) for _ in range(columns)]
    return rows, columns, [it for column, (tail, head) in enumerate(ends) for it in ((tail, column, 1), (head, column, -1))]


def turned(nonzeros: int, draw: random.Random) -> Sparse:
    rows, columns, triples = arcs(nonzeros, draw)
    row, column, value = triples[-1]
    return rows, columns, [*triples[:-1], (row, column, -value)]


def transposed(nonzeros: int, draw: random.Random) -> Sparse:
    rows, columns, triples = arcs(nonzeros, draw)
    return columns, rows, [(column, row, value) for row, column, value in triples]


def transport(nonzeros: int, _draw: random.Random) -> Sparse:
    size = max(1, math.isqrt(nonzeros // 2))
    pairs = [(source, sink) for source in range(size) for sink in range(size)]
    return 2 * size, size * size, [it for column, (a, b) in enumerate(pairs) for it in ((a, column, 1), (size + b, column, 1))]


def pieces(nonzeros: int, draw: random.Random) -> Sparse:
    count = max(1, nonzeros // (4 * PIECE))
    found = []
    for piece in range(count):
        for arc in range(2 * PIECE):
            tail, head = draw.sample(range(PIECE), 2)
            column = 2 * PIECE * piece + arc
            found += [(PIECE * piece + tail, column, 1), (PIECE * piece + head, column, -1)]
    return PIECE * count, 2 * PIECE * count, found


def tree(nonzeros: int, draw: random.Random) -> Sparse:
    columns = nonzeros // 2
    return columns + 1, columns, [it for node in range(columns) for it in ((node + 1, node, 1), (draw.randrange(node + 1), node, -1))]


def intervals(nonzeros: int, draw: random.Random) -> Sparse:
    columns = nonzeros // 3
    rows = max(6, columns // 3)
    found = []
    for column in range(columns):
        first = draw.randrange(rows - 5)
        found += [(row, column, 1) for row in range(first, first + draw.randrange(2, 5))]
    return rows, columns, found


@dataclass(frozen=True)
class Kind:
    """Matrices of a kind, and the status of their runs."""

    make: Callable[[int, random.Random], Sparse]
    status: int


KINDS = {
    "arcs": Kind(arcs, 0),
    "turned": Kind(turned, 1),
    "rows": Kind(transposed, 0),
    "transport": Kind(transport, 0),
    "pieces": Kind(pieces, 0),
    "tree": Kind(tree, 0),
    "intervals": Kind(intervals, 0),
}


def sparse_text(matrix: Sparse) -> str:
    rows, columns, triples = matrix
    return f"{rows} {columns} {len(triples)}\n" + "".join(f"{row + 1} {column + 1} {value}\n" for row, column, value in triples)


@dataclass(frozen=True)
class Run:
    """The status of a run, its processor seconds, and its peak memory in bytes."""

    status: int
    seconds: float
    memory: int


def run(words: Sequence[str]) -> Run:
    child = os.posix_spawn(words[0], words, os.environ, file_actions=[(os.POSIX_SPAWN_OPEN, 1, os.devnull, os.O_WRONLY, 0), (os.POSIX_SPAWN_OPEN, 2, os.devnull, os.O_WRONLY, 0)])
    _, status, used = os.wait4(child, 0)
    return Run(os.waitstatus_to_exitcode(status), used.ru_utime + used.ru_stime, used.ru_maxrss * 1024)


def best(words: Sequence[str], runs: int) -> Run:
    return min((run(words) for _ in range(runs)), key=lambda it: it.seconds)


@dataclass(frozen=True)
class Cell:
    """The best runs on a text, and on the text with a further word."""

    decided: Run
    reading: Run
    by_scipy: float | None


def by_scipy(text: Path, has_violator: bool) -> float:
    """The processor seconds of the same test by numpy and scipy, which must have the same result."""
    import numpy
    from scipy.sparse import coo_matrix
    from scipy.sparse.csgraph import connected_components

    began = time.process_time()
    numbers = numpy.fromfile(text, dtype=numpy.int64, sep=" ")
    rows, triples = int(numbers[0]), numbers[3:].reshape(-1, 3)
    order = numpy.argsort(triples[:, 1], kind="stable")
    first, second = triples[order[::2]], triples[order[1::2]]
    a, b, same = first[:, 0] - 1, second[:, 0] - 1, first[:, 2] == second[:, 2]
    # Node r is the row r with the sign 1, and node rows + r is the row with the sign -1.
    to = numpy.where(same, b + rows, b), numpy.where(same, b, b + rows)
    ends = numpy.concatenate([a, a + rows]), numpy.concatenate(to)
    _, labels = connected_components(coo_matrix((numpy.ones(len(ends[0]), dtype=numpy.int32), ends), shape=(2 * rows, 2 * rows)), directed=False)
    found = bool((labels[:rows] == labels[rows:]).any())
    seconds = time.process_time() - began
    if found != has_violator:
        raise AssertionError("scipy has another result")
    return seconds


def write_matrix(text: Path, kind: str, nonzeros: int) -> None:
    text.write_text(sparse_text(KINDS[kind].make(nonzeros, random.Random(f"{kind} {nonzeros}"))), encoding="ascii")


def measured(program: str, kind: str, nonzeros: int, runs: int, text: Path, elsewhere: Executor) -> Cell:
    elsewhere.submit(write_matrix, text, kind, nonzeros).result()
    words = [program, "tu", "-i", "sparse", str(text)]
    decided = best(words, runs)
    seconds = None
    if kind in ("arcs", "turned") and importlib.util.find_spec("scipy") is not None:
        seconds = elsewhere.submit(by_scipy, text, kind == "turned").result()
    with text.open("a", encoding="ascii") as longer:
        longer.write("end\n")
    return Cell(decided, best(words, runs), seconds)


def row(kind: str, cells: Sequence[Cell], nonzeros: int) -> str:
    half, whole = cells
    power = math.log(whole.decided.seconds / half.decided.seconds, 2)
    seconds = "-" if whole.by_scipy is None else f"{whole.by_scipy:.2f} s"
    return (
        f"{kind:10} {whole.decided.seconds:8.2f} s {whole.decided.seconds / whole.reading.seconds:8.1f} {power:6.2f}"
        f" {whole.decided.memory / nonzeros:10.0f} {seconds:>10}"
    )


def main() -> int:
    parser = argparse.ArgumentParser(description=__doc__, formatter_class=argparse.RawDescriptionHelpFormatter)
    parser.add_argument("--program", required=True, help="the program cmr-large")
    parser.add_argument("--nonzeros", type=int, default=1_000_000)
    parser.add_argument("--kinds", nargs="+", choices=KINDS, default=list(KINDS))
    parser.add_argument("--runs", type=int, default=3)
    options = parser.parse_args()
    if options.nonzeros < 100 or options.runs < 1:
        parser.error("there are at least a hundred nonzeros and one run")
    program, bad = os.path.abspath(options.program), False
    print(f"{'kind':10} {'time':>10} {'multiple':>8} {'growth':>6} {'bytes each':>10} {'scipy':>10}")
    with tempfile.TemporaryDirectory() as folder, ProcessPoolExecutor(1) as elsewhere:
        text = Path(folder, "matrix")
        for kind in options.kinds:
            cells = [measured(program, kind, it, options.runs, text, elsewhere) for it in (options.nonzeros // 2, options.nonzeros)]
            print(row(kind, cells, options.nonzeros), flush=True)
            bad |= any((it.decided.status, it.reading.status) != (KINDS[kind].status, READ) for it in cells)
    return int(bad)


if __name__ == "__main__":
    sys.exit(main())
