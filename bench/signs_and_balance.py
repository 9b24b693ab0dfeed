"""Times `sign` on network matrices and the search of `balanced` through row sets.

    python3 bench/signs_and_balance.py --program crates/cmr/out/cmr

`sign` gets all rows of network matrices of 100, 300 and 1000 lines, in random trees and in one path. Its time is divided by
the time of `sign` on the same matrix with no row in the set, which reads the same text and does little else.

`balanced` gets matrices that are balanced and not totally unimodular, so that only a search decides: a block of four rows,
and a directed graph on the others. The search visits all of their row sets, with 1 and with 4 workers.
"""

import argparse
import pathlib
import random
import tempfile

from networks import KINDS, dense_text, mixed, run
from row_sets import directed_graph

# It is balanced, and a violator.
BLOCK = [[1, 1, 0, 0], [1, 0, 1, 0], [1, 0, 0, 1], [1, 1, 1, 1]]


def shortest(words, runs):
    return min(run(words) for _ in range(runs))


def row_set(rows, columns, count):
    return f"{rows} {columns} {count} 0\n" + " ".join(str(row + 1) for row in range(count)) + "\n\n"


def balanced_matrix(rows, columns, draw):
    block = [line + [0] * (columns - 4) for line in BLOCK]
    return block + [[0] * 4 + line for line in directed_graph(rows - 4, columns - 4, draw)]


def time_signs(options, folder):
    matrix, rows, none = (folder / name for name in ("matrix", "rows", "none"))
    for kind, columns in KINDS.items():
        for size in options.sizes:
            draw = random.Random(options.seed)
            matrix.write_text(dense_text(mixed(columns(size, draw), size, draw)), encoding="ascii")
            rows.write_text(row_set(size, size, size), encoding="ascii")
            none.write_text(row_set(size, size, 0), encoding="ascii")
            seconds, status = shortest([options.program, "sign", matrix, rows], options.runs)
            reading, _ = shortest([options.program, "sign", matrix, none], options.runs)
            print(f"sign, {kind} {size}: {seconds:.3f} s, {seconds / reading:.1f} times reading, status {status}")


def time_balance(options, folder):
    matrix = folder / "matrix"
    for rows in options.leaves:
        entries = balanced_matrix(rows, rows + 6, random.Random(options.seed))
        matrix.write_text(dense_text(entries), encoding="ascii")
        for workers in (1, 4):
            words = [options.program, "balanced", "--lines", str(rows), "-w", str(workers), matrix]
            seconds, status = shortest(words, options.runs)
            per_set = seconds / 2**rows * 1e6
            print(f"balanced, {rows} rows, {workers} workers: {seconds:.3f} s, {per_set:.2f} us a row set, status {status}")


def main():
    parser = argparse.ArgumentParser(description=__doc__, formatter_class=argparse.RawDescriptionHelpFormatter)
    parser.add_argument("--program", required=True, help="the program")
    parser.add_argument("--sizes", type=int, nargs="+", default=[100, 300, 1000])
    parser.add_argument("--leaves", type=int, nargs="+", default=[14, 20])
    parser.add_argument("--runs", type=int, default=3)
    parser.add_argument("--seed", type=int, default=1)
    options = parser.parse_args()

    with tempfile.TemporaryDirectory() as folder:
        time_signs(options, pathlib.Path(folder))
        time_balance(options, pathlib.Path(folder))


if __name__ == "__main__":
    main()
