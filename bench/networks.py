"""Times a command on network matrices and on matrices that are almost network matrices.

The dense texts are generated in a temporary folder, from a seed, and the command runs on each. In the command {file} is
the path of the text:

    python3 bench/networks.py --cmd 'crates/cmr/out/cmr network {file}'
    python3 bench/networks.py --support --cmd 'crates/cmr/out/cmr graphic {file}'

With --support each nonzero is written as 1, so that the matrices are graphic or almost graphic.

The kinds, each with as many columns as rows, which are the arcs of a directed tree:

    recursive  arc r leads from a random node before r to node r, and each column is the path between two random nodes
    path       the arcs are one path, and each column is an interval of it, three tenths of the rows on average

The arcs and the columns are randomly reversed and shuffled. Each matrix is run unchanged; with the sign of one nonzero
changed, which usually gives a support with a tree for which no directions exist; and with a 0 replaced by a nonzero,
which usually gives a support without a tree.

The output for each text: its kind and size, its nonzeros, the shortest time of the runs, and the exit statuses. Without a
command the output has only the nonzeros.
"""

from __future__ import annotations

import argparse
import pathlib
import random
import shlex
import tempfile

from measuring import Matrix, dense_text, measured, run

Path = dict[int, int]


def recursive(size: int, draw: random.Random) -> list[Path]:
    parents = [0] + [draw.randrange(node) for node in range(1, size + 1)]
    return [path_between(parents, *draw.sample(range(size + 1), 2)) for _ in range(size)]


def path_between(parents: list[int], tail: int, head: int) -> Path:
    """The rows of a path with their entries. Each node except 0 has the arc from its parent, whose number is less."""
    path: Path = {}
    while tail != head:
        if tail > head:
            path[tail - 1] = -1
            tail = parents[tail]
        else:
            path[head - 1] = 1
            head = parents[head]
    return path


def one_path(size: int, draw: random.Random) -> list[Path]:
    columns = []
    for _ in range(size):
        length = draw.randint(max(1, size // 10), max(1, size // 2))
        start = draw.randint(0, size - length)
        columns.append({row: 1 for row in range(start, start + length)})
    return columns


KINDS = {"recursive": recursive, "path": one_path}


def mixed(columns: list[Path], size: int, draw: random.Random) -> Matrix:
    """The rows of the matrix, with lines negated and shuffled."""
    places = draw.sample(range(size), size)
    signs = [draw.choice((1, -1)) for _ in range(size)]
    entries = [[0] * len(columns) for _ in range(size)]
    for column, path in enumerate(draw.sample(columns, len(columns))):
        sign = draw.choice((1, -1))
        for row, entry in path.items():
            entries[places[row]][column] = sign * signs[row] * entry
    return entries


def with_entry(entries: Matrix, changes: dict[int, int], draw: random.Random) -> Matrix:
    """The same with one entry changed to a new value, at a random position."""
    changed = [list(row) for row in entries]
    places = [(row, column) for row, line in enumerate(entries) for column, entry in enumerate(line) if entry in changes]
    if places:
        row, column = draw.choice(places)
        changed[row][column] = changes[entries[row][column]]
    return changed


def main() -> None:
    parser = argparse.ArgumentParser(description=__doc__, formatter_class=argparse.RawDescriptionHelpFormatter)
    parser.add_argument("--cmd", help="the command, with {file}")
    parser.add_argument("--kinds", choices=KINDS, nargs="+", default=list(KINDS))
    parser.add_argument("--sizes", type=int, nargs="+", default=[100, 300, 1000])
    parser.add_argument("--runs", type=int, default=3)
    parser.add_argument("--support", action="store_true", help="write each nonzero as 1")
    parser.add_argument("--seed", type=int, default=1)
    options = parser.parse_args()
    if any(not 2 <= size <= 1000 for size in options.sizes) or options.runs < 1:
        parser.error("sizes are 2 to 1000, and there is at least one run")

    with tempfile.TemporaryDirectory() as folder:
        path = pathlib.Path(folder, "matrix")
        for kind in options.kinds:
            for size in options.sizes:
                draw = random.Random(options.seed)
                entries = mixed(KINDS[kind](size, draw), size, draw)
                if options.support:
                    entries = [[abs(entry) for entry in row] for row in entries]
                matrices = {"as it is": entries, "one nonzero more": with_entry(entries, {0: 1}, draw)}
                if not options.support:
                    matrices["one sign turned"] = with_entry(entries, {1: -1, -1: 1}, draw)
                for name, matrix in matrices.items():
                    nonzeros = sum(entry != 0 for row in matrix for entry in row)
                    head = f"{kind} {size} by {size}, {nonzeros} nonzeros, {name}"
                    if options.cmd is None:
                        print(head)
                        continue
                    path.write_text(dense_text(matrix), encoding="ascii")
                    words = [word.format(file=path) for word in shlex.split(options.cmd)]
                    print(f"{head}: {measured(words, options.runs)}", flush=True)


if __name__ == "__main__":
    main()
