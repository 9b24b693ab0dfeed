"""Times `cmr check` on the trees that `cmr tu -D` writes, and `cmr tu` itself.

The dense texts are generated in a temporary folder, from a seed:

    python3 bench/checks.py --program crates/cmr/out/cmr

The kinds, each with as many rows as columns, shuffled:

    random     paths between nodes of a random tree
    path       intervals of one path
    sums       two-sums of circulants of R10, each of which adds four rows and columns

The output for each text: its kind and size, the shortest time of `tu -D` and of `check` over the runs, their statuses, and the ratio of
the times. The goal is at most 1.
"""

import argparse
import pathlib
import random
import subprocess
import tempfile
import time

from networks import dense_text, mixed, one_path, recursive
from separations import shuffled, sums


def network(kind):
    def make(size, draw):
        return mixed(kind(size, draw), size, draw)

    return make


def two_sums(size, draw):
    return shuffled(sums(max(1, (size - 1) // 4)), draw)


KINDS = {"random": network(recursive), "path": network(one_path), "sums": two_sums}


def shortest(words, runs):
    times, statuses = [], set()
    for _ in range(runs):
        start = time.perf_counter()
        done = subprocess.run(words, stdout=subprocess.DEVNULL, stderr=subprocess.DEVNULL, check=False)
        times.append(time.perf_counter() - start)
        statuses.add(done.returncode)
    return min(times), " ".join(map(str, sorted(statuses)))


def main():
    parser = argparse.ArgumentParser(description=__doc__, formatter_class=argparse.RawDescriptionHelpFormatter)
    parser.add_argument("--program", required=True)
    parser.add_argument("--kinds", choices=KINDS, nargs="+", default=list(KINDS))
    parser.add_argument("--sizes", type=int, nargs="+", default=[100, 300, 997])
    parser.add_argument("--runs", type=int, default=3)
    parser.add_argument("--seed", type=int, default=1)
    options = parser.parse_args()
    if any(not 5 <= size <= 1000 for size in options.sizes) or options.runs < 1:
        parser.error("sizes are 5 to 1000, and there is at least one run")

    with tempfile.TemporaryDirectory() as folder:
        matrix, tree = pathlib.Path(folder, "matrix"), pathlib.Path(folder, "tree")
        for kind in options.kinds:
            for size in options.sizes:
                entries = KINDS[kind](size, random.Random(options.seed))
                matrix.write_text(dense_text(entries), encoding="ascii")
                made, answers = shortest([options.program, "tu", "-D", tree, matrix], options.runs)
                checked, accepted = shortest([options.program, "check", matrix, tree], options.runs)
                head = f"{kind}, {len(entries)} by {len(entries[0])}"
                print(
                    f"{head}: tu {made:.3f} s, status {answers}; check {checked:.3f} s, status {accepted}; {checked / made:.2f} times",
                    flush=True,
                )


if __name__ == "__main__":
    main()
