"""Times a command on matrices with many connected parts or two-separations.

The dense texts are generated in a temporary folder, from a seed, and the command runs on each. In the command {file} is
the path of the text:

    python3 bench/separations.py --cmd 'crates/cmr/out/cmr tu {file}'

The kinds, each with as many rows as columns:

    parts      circulants of R10, of 5 by 5, as diagonal blocks: one connected part each
    sums       two-sums of such circulants, one after another: each adds four rows and columns

Both are totally unimodular, so there is no cycle fault, and a decomposition visits all parts and all two-separations.
The rows and the columns are shuffled.

The output for each text: its kind and size, its nonzeros, the shortest time of the runs, and the exit statuses. Without a
command the output has only the nonzeros.
"""

from __future__ import annotations

import argparse
import pathlib
import random
import shlex
import tempfile

from measuring import Matrix, dense_text, measured

CIRCULANT = [
    [1, -1, 0, 0, -1],
    [-1, 1, -1, 0, 0],
    [0, -1, 1, -1, 0],
    [0, 0, -1, 1, -1],
    [-1, 0, 0, -1, 1],
]


def parts(count: int) -> Matrix:
    entries: Matrix = []
    for block in range(count):
        before, after = [0] * (5 * block), [0] * (5 * (count - block - 1))
        entries.extend(before + row + after for row in CIRCULANT)
    return entries


def two_sum(first: Matrix, second: Matrix) -> Matrix:
    """The rows [A ab] and [0 B] of [A a] and [b; B]."""
    left = [0] * (len(first[0]) - 1)
    upper = [row[:-1] + [row[-1] * value for value in second[0]] for row in first]
    return upper + [left + row for row in second[1:]]


def sums(count: int) -> Matrix:
    entries = CIRCULANT
    for _ in range(count - 1):
        entries = two_sum(entries, CIRCULANT)
    return entries


KINDS = {"parts": parts, "sums": sums}

COUNTS = {"parts": (20, 60, 200), "sums": (5, 20, 80)}

MOST = {"parts": 200, "sums": 249}


def shuffled(entries: Matrix, draw: random.Random) -> Matrix:
    columns = draw.sample(range(len(entries[0])), len(entries[0]))
    return [[row[column] for column in columns] for row in draw.sample(entries, len(entries))]


def main() -> None:
    parser = argparse.ArgumentParser(description=__doc__, formatter_class=argparse.RawDescriptionHelpFormatter)
    parser.add_argument("--cmd", help="the command, with {file}")
    parser.add_argument("--kinds", choices=KINDS, nargs="+", default=list(KINDS))
    parser.add_argument("--counts", type=int, nargs="+", help="circulants, in place of each kind's own counts")
    parser.add_argument("--runs", type=int, default=3)
    parser.add_argument("--seed", type=int, default=1)
    options = parser.parse_args()
    counts = options.counts or []
    most = min(MOST[kind] for kind in options.kinds)
    if any(not 1 <= count <= most for count in counts) or options.runs < 1:
        parser.error(f"counts are 1 to {most}, and there is at least one run")

    with tempfile.TemporaryDirectory() as folder:
        path = pathlib.Path(folder, "matrix")
        for kind in options.kinds:
            for count in counts or COUNTS[kind]:
                entries = shuffled(KINDS[kind](count), random.Random(options.seed))
                nonzeros = sum(map(bool, (value for row in entries for value in row)))
                head = f"{kind} of {count} circulants, {len(entries)} by {len(entries[0])}, {nonzeros} nonzeros"
                if options.cmd is None:
                    print(head)
                    continue
                path.write_text(dense_text(entries), encoding="ascii")
                words = [word.format(file=path) for word in shlex.split(options.cmd)]
                print(f"{head}: {measured(words, options.runs)}", flush=True)


if __name__ == "__main__":
    main()
