"""Times a command on large matrices that are series-parallel or almost series-parallel.

Matrices grow line by line from a seed: a zero line, a line with one nonzero, a copy of a line or, if entries may be -1,
the negative of one, with a given share of copies. Each share has three matrices: one that grows from a single entry,
which is series-parallel; one that grows from a cycle through three rows and three columns, which is what the reductions
leave; and the first one with ten entries changed. Two more have two nonzeros in each line: one cycle through all rows
and columns, in which no line is reducible, but all are when one is removed; and the same without one entry, which is
series-parallel. Rows and columns are shuffled. They are written as dense texts into a temporary folder, with entries 0
and 1 and with entries -1, 0 and 1. In the command {binary} is `-b` for the former and nothing for the latter, and {file}
is the path:

    python3 bench/series_parallel.py --cmd 'crates/cmr/out/cmr series-parallel {binary} {file}'

The output for each text: its kind, its nonzeros, the shortest time of the runs and the exit statuses. Without a command
the output has only the kinds and nonzeros; --keep names a permanent folder for the texts.
"""

import argparse
import contextlib
import pathlib
import random
import shlex
import subprocess
import tempfile
import time

SINGLE = [[1]]


def cycle(size):
    return [[1 if column in (row, (row + 1) % size) else 0 for column in range(size)] for row in range(size)]


def new_line(lines, length, binary, copies, draw):
    """A line of this length that is reducible among the others."""
    if draw.random() < copies:
        line = list(draw.choice(lines))
        return [-entry for entry in line] if not binary and draw.random() < 0.5 else line
    line = [0] * length
    if draw.random() < 0.9:
        line[draw.randrange(length)] = 1 if binary else draw.choice((1, -1))
    return line


def grown(start, size, binary, copies, draw):
    rows = [list(row) for row in start]
    while len(rows) < size or len(rows[0]) < size:
        if len(rows[0]) == size or len(rows) < size and draw.random() < 0.5:
            rows.append(new_line(rows, len(rows[0]), binary, copies, draw))
        else:
            column = new_line(Columns(rows), len(rows), binary, copies, draw)
            for row, entry in zip(rows, column):
                row.append(entry)
    return rows


class Columns:
    """The columns of the given rows, as a sequence."""

    def __init__(self, rows):
        self.rows = rows

    def __len__(self):
        return len(self.rows[0])

    def __getitem__(self, column):
        return [row[column] for row in self.rows]


def shuffled(rows, draw):
    draw.shuffle(rows)
    order = list(range(len(rows[0])))
    draw.shuffle(order)
    return [[row[column] for column in order] for row in rows]


def changed(rows, count, draw):
    rows = [list(row) for row in rows]
    for _ in range(count):
        row, column = draw.randrange(len(rows)), draw.randrange(len(rows[0]))
        rows[row][column] = 0 if rows[row][column] else 1
    return rows


def cut(rows):
    return [[0] + rows[0][1:], *rows[1:]]


def matrices(size, binary, shares, draw):
    """Names, and matrices of this size."""
    for copies in shares:
        whole = shuffled(grown(SINGLE, size, binary, copies, draw), draw)
        yield f"{copies:.0%} copies, series-parallel", whole
        yield f"{copies:.0%} copies, grown from a cycle", shuffled(grown(cycle(3), size, binary, copies, draw), draw)
        yield f"{copies:.0%} copies, ten entries changed", changed(whole, 10, draw)
    yield "one cycle", shuffled(cycle(size), draw)
    yield "one cycle, cut", shuffled(cut(cycle(size)), draw)


def dense_text(rows):
    lines = [f"{len(rows)} {len(rows[0])}\n"]
    lines.extend(" ".join(map(str, row)) + "\n" for row in rows)
    return "".join(lines)


def run(words):
    start = time.perf_counter()
    done = subprocess.run(words, stdout=subprocess.DEVNULL, check=False)
    return time.perf_counter() - start, done.returncode


def main():
    parser = argparse.ArgumentParser(description=__doc__, formatter_class=argparse.RawDescriptionHelpFormatter)
    parser.add_argument("--cmd", help="the command, with {binary} and {file}")
    parser.add_argument("--size", type=int, default=1000)
    parser.add_argument("--copies", type=float, nargs="+", default=[0.5, 0.9, 0.99])
    parser.add_argument("--runs", type=int, default=3)
    parser.add_argument("--seed", type=int, default=1)
    parser.add_argument("--keep", type=pathlib.Path, help="a folder for the texts")
    options = parser.parse_args()
    if not (3 <= options.size <= 1000 and options.runs >= 1 and all(0 <= share <= 1 for share in options.copies)):
        parser.error("the size is 3 to 1000, there is at least one run, and a share is 0 to 1")

    with contextlib.ExitStack() as stack:
        folder = options.keep or pathlib.Path(stack.enter_context(tempfile.TemporaryDirectory()))
        folder.mkdir(parents=True, exist_ok=True)
        for binary, entries in ((True, "binary"), (False, "ternary")):
            for name, rows in matrices(options.size, binary, options.copies, random.Random(options.seed)):
                path = folder / f"{entries}, {name}".replace(", ", "-").replace(" ", "-")
                path.write_text(dense_text(rows), encoding="ascii")
                line = f"{entries}, {name}: {sum(len(row) - row.count(0) for row in rows)} nonzeros"
                if options.cmd:
                    words = [word.format(binary="-b" if binary else "", file=path) for word in shlex.split(options.cmd)]
                    runs = [run([word for word in words if word]) for _ in range(options.runs)]
                    statuses = sorted({status for _, status in runs})
                    line += f", {min(seconds for seconds, _ in runs):.3f} s, status {statuses}"
                print(line)


if __name__ == "__main__":
    main()
