"""Times the tools on network matrices, as multiples of the time for reading the same text, in one table.

    python3 bench/multiples.py --program crates/cmr/out/cmr

So that the figures are comparable between machines, each is divided by the time of a tool that reads a dense text of the same
size and does little else: `series-parallel` on the zero matrix. The kinds, each with as many columns as rows, which are the arcs of a
directed tree:

    random  arc r leads from a random node before r to node r
    deep    arc r leads from one of the five nodes before r
    path    the arcs are one path, and each column is an interval of it, three tenths of the rows on average
    legs    from the middle, legs of two arcs

Arcs and columns are randomly reversed and shuffled. `graphic` gets the supports, unchanged and with one more nonzero; `network`,
`camion` (the search for a cycle fault) and `tu` get the matrices, unchanged and with one sign changed, and `tu` also their
transposes. Each row of the table has the multiple at each size, and the exponent with which the time grows from the first size to
the last. The full matrix of ones, and `graphic -N` at 200 lines with one more nonzero, are the last rows. A run that takes longer
than --seconds is written as `-`.
"""

import argparse
import math
import pathlib
import random
import signal
import subprocess
import tempfile
import threading
import time

from networks import dense_text, mixed, one_path, path_between, recursive, with_entry


def deep(size, draw):
    parents = [0] + [draw.randrange(max(0, node - 5), node) for node in range(1, size + 1)]
    return [path_between(parents, *draw.sample(range(size + 1), 2)) for _ in range(size)]


def legs(size, draw):
    parents = [0] + [0 if node % 2 else node - 1 for node in range(1, size + 1)]
    return [path_between(parents, *draw.sample(range(size + 1), 2)) for _ in range(size)]


KINDS = {"random": recursive, "deep": deep, "path": one_path, "legs": legs}


class Timer:
    """Runs the program on matrices in a temporary folder."""

    def __init__(self, program, folder, runs, seconds):
        self.program, self.folder, self.runs, self.seconds = program, pathlib.Path(folder), runs, seconds

    def time(self, words, entries):
        """The shortest time of the runs, or None if one takes too long."""
        text = self.folder / "matrix"
        text.write_text(dense_text(entries), encoding="ascii")
        return min((self.run([*words, text]) for _ in range(self.runs)), key=lambda it: math.inf if it is None else it)

    def run(self, words):
        """The time of one run, or None if it takes too long."""
        start = time.perf_counter()
        command = [self.program, *words]
        process = subprocess.Popen(command, cwd=self.folder, stdout=subprocess.DEVNULL)
        # A wait with a limit tests only from time to time whether the run has ended, so another thread keeps the limit.
        limit = threading.Timer(self.seconds, process.kill)
        limit.start()
        status = process.wait()
        seconds = time.perf_counter() - start
        limit.cancel()
        return None if status == -signal.SIGKILL else seconds


def supports(entries):
    return [[abs(entry) for entry in row] for row in entries]


def transposed(entries):
    return [list(column) for column in zip(*entries)]


def cases(kind, size):
    """The rows of the table for a kind: a name, the arguments of a tool, and a matrix."""
    draw = random.Random(1)
    entries = mixed(KINDS[kind](size, draw), size, draw)
    support = supports(entries)
    return [
        ("graphic, yes", ["graphic"], support),
        ("graphic, one nonzero more", ["graphic"], with_entry(support, {0: 1}, draw)),
        ("network, yes", ["network"], entries),
        ("network, one sign turned", ["network"], with_entry(entries, {1: -1, -1: 1}, draw)),
        ("camion, yes", ["camion"], entries),
        ("camion, one sign turned", ["camion"], with_entry(entries, {1: -1, -1: 1}, draw)),
        ("tu, yes", ["tu"], entries),
        ("tu, one sign turned", ["tu"], with_entry(entries, {1: -1, -1: 1}, draw)),
        ("tu, transposed, yes", ["tu"], transposed(entries)),
        ("tu, transposed, one sign turned", ["tu"], transposed(with_entry(entries, {1: -1, -1: 1}, draw))),
    ]


def exponent(times, sizes):
    first, last = times[0], times[-1]
    if first is None or last is None or len(sizes) < 2:
        return "-"
    return f"{math.log(last / first) / math.log(sizes[-1] / sizes[0]):.1f}"


def row(name, times, reading, sizes):
    multiples = ["-" if it is None else f"{it / read:.1f}" for it, read in zip(times, reading)]
    print(f"| {name} | {' | '.join(multiples)} | {exponent(times, sizes)} |", flush=True)


def measure(timer, sizes, kinds):
    reading = [timer.time(["series-parallel"], [[0] * size] * size) for size in sizes]
    print(f"| Matrix | {' | '.join(map(str, sizes))} | grows with |")
    print("|---" * (len(sizes) + 2) + "|")
    print(f"| reading, in ms | {' | '.join(f'{1000 * it:.1f}' for it in reading)} | {exponent(reading, sizes)} |")
    for kind in kinds:
        for column in zip(*(cases(kind, size) for size in sizes)):
            times = [timer.time(words, entries) for _, words, entries in column]
            row(f"{kind}: {column[0][0]}", times, reading, sizes)
    for tool in ("camion", "tu"):
        times = [timer.time([tool], [[1] * size] * size) for size in sizes]
        row(f"only ones: {tool}", times, reading, sizes)
    draw = random.Random(1)
    entries = with_entry(supports(mixed(recursive(200, draw), 200, draw)), {0: 1}, draw)
    small = timer.time(["series-parallel"], [[0] * 200] * 200)
    found = timer.time(["graphic", "-N", "minimal"], entries)
    print(f"random, 200 lines, one nonzero more: graphic -N: {'-' if found is None else f'{found / small:.1f}'}")


def main():
    parser = argparse.ArgumentParser(description=__doc__, formatter_class=argparse.RawDescriptionHelpFormatter)
    parser.add_argument("--program", type=pathlib.Path, default=pathlib.Path("crates/cmr/out/cmr"))
    parser.add_argument("--sizes", type=int, nargs="+", default=[250, 500, 1000])
    parser.add_argument("--kinds", choices=KINDS, nargs="+", default=list(KINDS))
    parser.add_argument("--runs", type=int, default=3)
    parser.add_argument("--seconds", type=float, default=30)
    options = parser.parse_args()
    if not options.program.is_file():
        parser.error(f"{options.program} does not exist: ./cmr builds it")
    if any(not 10 <= size <= 1000 for size in options.sizes) or options.runs < 1:
        parser.error("sizes are 10 to 1000, and there is at least one run")
    with tempfile.TemporaryDirectory() as folder:
        measure(Timer(options.program.resolve(), folder, options.runs, options.seconds), options.sizes, options.kinds)


if __name__ == "__main__":
    main()
