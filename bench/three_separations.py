"""Times a command on matrices with and without a three-separation.

The dense texts are generated in a temporary folder, from a seed, and the command runs on each. In the command {file} is
the path of the text, and {workers} for a number of workers:

    python3 bench/three_separations.py --kinds networks --cmd 'crates/cmr/out/cmr tu -w {workers} {file}'

The kinds, each with as many rows as columns:

    random     each entry is not 0 with a probability, and its sign is drawn
    blocks     two such blocks of half the size, with a column times a row in each of the other quarters
    networks   the mixed sum of a network and of a transposed one, each with a tree of a fourth as many arcs: it is not
               a network matrix, and its transpose is not one
    entry      the support of a network with a tree drawn at random, and one nonzero more

The rows and the columns of `blocks` and `networks` are shuffled. `tu` refuses the first two kinds by a cycle fault before it
searches for a three-separation, so they are for a program that calls `three_separation` on the text. The third kind is
totally unimodular, and `tu` decomposes it. The last kind is for `regular`: most of these matrices have no three-separation
of the concentrated form, and the search for one takes the time.

The output for each text: its kind and size, the probability, the number of workers, the shortest time of the runs, and the
exit statuses. Without a command the output has only the nonzeros.
"""

import argparse
import pathlib
import random
import shlex
import tempfile

from measuring import dense_text, measured
from networks import mixed, recursive, with_entry


def drawn(rows, columns, density, draw):
    return [[draw.choice((1, -1)) if draw.random() < density else 0 for _ in range(columns)] for _ in range(rows)]


def product(column, row):
    return [[x * y for y in row] for x in column]


def four_blocks(upper_left, upper_right, lower_left, lower_right):
    upper = [one + two for one, two in zip(upper_left, upper_right)]
    return upper + [one + two for one, two in zip(lower_left, lower_right)]


def random_kind(size, density, draw):
    return drawn(size, size, density, draw)


def blocks_kind(size, density, draw):
    half = size // 2
    rest = size - half
    upper_right = product(*(drawn(1, count, 0.5, draw)[0] for count in (half, rest)))
    lower_left = product(*(drawn(1, count, 0.5, draw)[0] for count in (rest, half)))
    entries = four_blocks(drawn(half, half, density, draw), upper_right, lower_left, drawn(rest, rest, density, draw))
    return shuffled(entries, draw)


def path(parents, first, last):
    """The arcs of a path in a tree, with their signs: arc v leads from node v + 1 to its parent."""
    up, down = {}, {}
    node = first
    while node:
        up[node] = 1
        node = parents[node]
    node = last
    while node:
        down[node] = -1
        node = parents[node]
    return {node - 1: sign for node, sign in {**up, **down}.items() if (node in up) != (node in down)}


def network(rows, columns, draw):
    """[A a; c 0; c e]: the last column's path ends at a node in the middle of an arc, which is the last two rows."""
    parents = [0] + [draw.randrange(node) for node in range(1, rows)]
    entries = [[0] * columns for _ in range(rows)]
    for column in range(columns):
        first, last = rows - 1 if column == columns - 1 else draw.randrange(rows), draw.randrange(rows - 1)
        for row, sign in path(parents, first, last).items():
            entries[row][column] = sign
    entries = entries[: rows - 1]
    corner = entries[-1][-1]
    return entries[:-1] + [entries[-1][:-1] + [0], entries[-1][:-1] + [corner]], corner


def networks_kind(size, _density, draw):
    nodes = size // 4
    first, corner = network(nodes + 2, size - nodes + 1, draw)
    second, other = network(nodes + 2, size - nodes + 1, draw)
    upper_left, column, row = [line[:-1] for line in first[:-2]], [line[-1] for line in first[:-2]], first[-1][:-1]
    lower_right = [list(line) for line in zip(*[line[:-1] for line in second[:-2]])]
    sign = corner * other
    second_row = [sign * line[-1] for line in second[:-2]]
    entries = four_blocks(upper_left, product(column, second_row), product(second[-1][:-1], row), lower_right)
    return shuffled(entries, draw)


def entry_kind(size, _density, draw):
    support = [[abs(entry) for entry in row] for row in mixed(recursive(size, draw), size, draw)]
    return with_entry(support, {0: 1}, draw)


KINDS = {"random": random_kind, "blocks": blocks_kind, "networks": networks_kind, "entry": entry_kind}

SIZES = {
    "random": (20, 40, 80, 160, 320),
    "blocks": (40, 80, 160, 320, 640),
    "networks": (40, 80, 125, 160, 320, 640, 1000),
    "entry": (125, 300, 640, 1000),
}

WITH_DENSITY = ("random", "blocks")


def shuffled(entries, draw):
    columns = draw.sample(range(len(entries[0])), len(entries[0]))
    return [[row[column] for column in columns] for row in draw.sample(entries, len(entries))]


def report(name, words, options, file):
    for workers in options.workers if "{workers}" in options.cmd else options.workers[:1]:
        filled = [word.replace("{file}", str(file)).replace("{workers}", str(workers)) for word in words]
        print(f"{name}, {workers} workers: {measured(filled, options.runs)}", flush=True)


def main():
    parser = argparse.ArgumentParser(description=__doc__, formatter_class=argparse.RawDescriptionHelpFormatter)
    parser.add_argument("--cmd", help="the command, with {file} and {workers}")
    parser.add_argument("--kinds", choices=KINDS, nargs="+", default=list(KINDS))
    parser.add_argument("--sizes", type=int, nargs="+", help="rows, in place of each kind's own sizes")
    parser.add_argument("--densities", type=float, nargs="+", default=[0.2, 0.5])
    parser.add_argument("-w", "--workers", type=int, nargs="+", default=[1, 2, 4])
    parser.add_argument("--runs", type=int, default=3)
    parser.add_argument("--seed", type=int, default=1)
    options = parser.parse_args()
    words = shlex.split(options.cmd or "")
    with tempfile.TemporaryDirectory() as folder:
        for kind in options.kinds:
            for size in options.sizes or SIZES[kind]:
                for density in options.densities if kind in WITH_DENSITY else options.densities[:1]:
                    entries = KINDS[kind](size, density, random.Random(f"{options.seed} {kind} {size} {density}"))
                    file = pathlib.Path(folder) / "matrix"
                    file.write_text(dense_text(entries))
                    name = f"{kind} {size}" + (f" {density}" if kind in WITH_DENSITY else "")
                    print(f"{name}: {sum(map(bool, sum(entries, [])))} nonzeros", flush=True)
                    if words:
                        report(name, words, options, file)


if __name__ == "__main__":
    main()
