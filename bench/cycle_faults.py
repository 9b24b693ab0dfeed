"""Times a command on matrices that a search for cycle faults must visit completely.

The dense texts are generated in a temporary folder, from a seed, and the command runs on each. In the command {file} is
the path of the text:

    python3 bench/cycle_faults.py --cmd 'crates/cmr/out/cmr tu {file}'

The kinds, each with as many rows as columns:

    network    row r is the arc from a random node before r to node r, and each column is the path between two random
               nodes
    rows       each row is one interval of ones, three tenths of the columns on average
    columns    each column is one interval of ones, three tenths of the rows on average
    full       only ones

None of these has a cycle fault. Each is run unchanged, and with the sign of one nonzero changed.

The output for each text: its kind and size, its nonzeros, the shortest time of the runs, and the exit statuses. Without a
command the output has only the nonzeros.
"""

import argparse
import pathlib
import random
import shlex
import tempfile

from measuring import dense_text, measured


def network(size, draw):
    parent = [0] + [draw.randrange(node) for node in range(1, size + 1)]
    entries = [[0] * size for _ in range(size)]
    for column in range(size):
        tail, head = draw.sample(range(size + 1), 2)
        while tail != head:
            # the greater node is the one further from the root, or on another branch
            if tail > head:
                entries[tail - 1][column] = -1
                tail = parent[tail]
            else:
                entries[head - 1][column] = 1
                head = parent[head]
    return entries


def interval_rows(size, draw):
    entries = []
    for _ in range(size):
        length = draw.randint(max(1, size // 10), max(1, size // 2))
        start = draw.randint(0, size - length)
        entries.append([0] * start + [1] * length + [0] * (size - start - length))
    return entries


def interval_columns(size, draw):
    return [list(row) for row in zip(*interval_rows(size, draw))]


def full(size, draw):
    return [[1] * size for _ in range(size)]


KINDS = {"network": network, "rows": interval_rows, "columns": interval_columns, "full": full}

SIZES = {"network": (100, 300, 1000), "rows": (125, 250), "columns": (125, 250), "full": (1000,)}


def with_one_turned(entries, draw):
    turned = [list(row) for row in entries]
    places = [(row, column) for row, line in enumerate(entries) for column, value in enumerate(line) if value]
    row, column = draw.choice(places)
    turned[row][column] = -turned[row][column]
    return turned


def main():
    parser = argparse.ArgumentParser(description=__doc__, formatter_class=argparse.RawDescriptionHelpFormatter)
    parser.add_argument("--cmd", help="the command, with {file}")
    parser.add_argument("--kinds", choices=KINDS, nargs="+", default=list(KINDS))
    parser.add_argument("--sizes", type=int, nargs="+", help="in place of each kind's own")
    parser.add_argument("--runs", type=int, default=3)
    parser.add_argument("--seed", type=int, default=1)
    options = parser.parse_args()
    sizes = options.sizes or []
    if any(not 2 <= size <= 1000 for size in sizes) or options.runs < 1:
        parser.error("sizes are 2 to 1000, and there is at least one run")

    with tempfile.TemporaryDirectory() as folder:
        path = pathlib.Path(folder, "matrix")
        for kind in options.kinds:
            for size in sizes or SIZES[kind]:
                draw = random.Random(options.seed)
                entries = KINDS[kind](size, draw)
                nonzeros = sum(map(bool, (value for row in entries for value in row)))
                for name, matrix in (("as it is", entries), ("one sign turned", with_one_turned(entries, draw))):
                    head = f"{kind} {size} by {size}, {nonzeros} nonzeros, {name}"
                    if options.cmd is None:
                        print(head)
                        continue
                    path.write_text(dense_text(matrix), encoding="ascii")
                    words = [word.format(file=path) for word in shlex.split(options.cmd)]
                    print(f"{head}: {measured(words, options.runs)}", flush=True)


if __name__ == "__main__":
    main()
