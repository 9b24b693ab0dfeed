"""Times `cmr parts` on trees that `cmr tu -D` writes, and `cmr compose` on the two files of `parts`.

    python3 bench/parts_and_sums.py --program crates/cmr/out/cmr

The matrices are two-sums of circulants of R10, shuffled, whose trees have a two-sum at the root; each circulant adds four rows and
columns. The output for each size: the shortest time of each run in ms, its status, and its multiple of the time for reading a
dense text of the same size, `series-parallel` on the zero matrix. The goal is at most six.
"""

import argparse
import pathlib
import random
import tempfile

from checks import shortest
from networks import dense_text
from separations import shuffled, sums


def written(folder, name, entries):
    path = pathlib.Path(folder, name)
    path.write_text(dense_text(entries), encoding="ascii")
    return path


def told(name, time, statuses, reading):
    return f"{name} {1000 * time:.1f} ms, status {statuses}, {time / reading:.1f} times"


def measure(program, folder, count, draw, runs):
    entries = shuffled(sums(count), draw)
    size = len(entries)
    matrix = written(folder, "matrix", entries)
    zeros = written(folder, "zeros", [[0] * size for _ in range(size)])
    tree, first, second, whole = (pathlib.Path(folder, name) for name in ("tree", "first", "second", "whole"))
    shortest([program, "tu", "-D", tree, matrix], 1)
    reading, _ = shortest([program, "series-parallel", zeros], runs)
    parted = shortest([program, "parts", matrix, tree, "-A", first, "-B", second], runs)
    composed = shortest([program, "compose", "two", first, second, "-M", whole], runs)
    print(
        f"{size} by {size}: reading {1000 * reading:.1f} ms; {told('parts', *parted, reading)}; {told('compose', *composed, reading)}",
        flush=True,
    )


def main():
    parser = argparse.ArgumentParser(description=__doc__, formatter_class=argparse.RawDescriptionHelpFormatter)
    parser.add_argument("--program", required=True)
    parser.add_argument("--counts", type=int, nargs="+", default=[24, 74, 249], help="circulants")
    parser.add_argument("--runs", type=int, default=5)
    parser.add_argument("--seed", type=int, default=1)
    options = parser.parse_args()
    if any(not 2 <= count <= 249 for count in options.counts) or options.runs < 1:
        parser.error("counts are 2 to 249, and there is at least one run")
    with tempfile.TemporaryDirectory() as folder:
        for count in options.counts:
            measure(options.program, folder, count, random.Random(options.seed), options.runs)


if __name__ == "__main__":
    main()
