"""Times the search of `regular` through the row sets of a leaf, with several numbers of workers.

    python3 bench/row_sets.py --program crates/cmr/out/cmr

For each number of rows a 0/1 matrix is generated from a seed: paths of a random tree, with one more row that has four ones. Without its
last row it is a network matrix, so no violator has all its rows among the others, and the search visits all of their sets before it
reaches a set with the last row. Seeds are tried one after another until the decomposition, with a budget below the number of rows, leaves
all rows open after only reductions; so only the search decides.

The output for each number of rows and of workers: the size of the leaf, the time beyond the same run with a budget one smaller (which
searches no set), that time for each row set without the last row, and the exit statuses.
"""

import argparse
import pathlib
import random
import subprocess
import tempfile

from measuring import dense_text, run


def directed_graph(rows, columns, draw):
    entries = [[0] * columns for _ in range(rows)]
    for column in range(columns):
        tail, head = draw.sample(range(rows), 2)
        entries[tail][column], entries[head][column] = -1, 1
    return entries


def to_root(parents, node):
    arcs = set()
    while node:
        arcs.add(node - 1)
        node = parents[node]
    return arcs


def paths_and_a_row(rows, columns, draw):
    parents = [draw.randrange(node) if node else 0 for node in range(rows)]
    paths = []
    while len(paths) < columns:
        first, last = draw.sample(range(rows), 2)
        path = to_root(parents, first) ^ to_root(parents, last)
        if len(path) >= 3:
            paths.append(path)
    chosen = set(draw.sample(range(columns), 4))
    entries = [[int(row in path) for path in paths] for row in range(rows - 1)]
    return entries + [[int(column in chosen) for column in range(columns)]]


def open_leaf(program, path, rows):
    """Writes a matrix whose rows are all in one open leaf, and gives the size of the leaf."""
    for seed in range(1000):
        path.write_text(dense_text(paths_and_a_row(rows, 2 * rows, random.Random(seed))), encoding="ascii")
        words = [program, "regular", "--lines", str(rows - 1), path]
        said = subprocess.run(words, capture_output=True, check=False, text=True).stdout.split("\n")
        outline = said[2:-1]
        if len(outline) == 2 and outline[1].startswith(f"1 undecided {rows}x"):
            return outline[1].split()[2]
    raise SystemExit(f"no leaf of {rows} rows was found")


def main():
    parser = argparse.ArgumentParser(description=__doc__, formatter_class=argparse.RawDescriptionHelpFormatter)
    parser.add_argument("--program", required=True, help="the program")
    parser.add_argument("--rows", type=int, nargs="+", default=[14, 18, 20, 22])
    parser.add_argument("--workers", type=int, nargs="+", default=[1, 2, 4])
    parser.add_argument("--runs", type=int, default=3)
    options = parser.parse_args()

    with tempfile.TemporaryDirectory() as folder:
        path = pathlib.Path(folder, "matrix")
        for rows in options.rows:
            size = open_leaf(options.program, path, rows)
            words = [options.program, "regular", path, "--lines"]
            before = min(run([*words, str(rows - 1)])[0] for _ in range(options.runs))
            for workers in options.workers:
                runs = [run([*words, str(rows), "-w", str(workers)]) for _ in range(options.runs)]
                search = max(min(seconds for seconds, _ in runs) - before, 0)
                per_set = search / 2 ** (rows - 1) * 1e6
                statuses = sorted({status for _, status in runs})
                print(f"{size}, {workers} workers: {search:.3f} s, {per_set:.2f} us a row set, status {statuses}")


if __name__ == "__main__":
    main()
