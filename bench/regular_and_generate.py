"""Times `regular` on the supports of network matrices, and `generate`, as multiples of the time for reading the same matrix.

    python3 bench/regular_and_generate.py --program crates/cmr/out/cmr

Each time is divided by the time of a tool that reads a dense text of the same size and does little else: `series-parallel` on the zero
matrix. `regular` gets supports of networks in random trees and in one path, unchanged and with one entry changed from 1 to 0 or back.
`generate` makes networks, and two-sums of R10 matrices, each of which adds four rows and columns.
"""

import argparse
import pathlib
import random
import tempfile

from multiples import KINDS, Timer, exponent, supports
from networks import mixed


def turned(entries, draw):
    """The matrix with one entry exchanged between 0 and 1."""
    row, column = draw.randrange(len(entries)), draw.randrange(len(entries[0]))
    return [[1 - entry if (i, j) == (row, column) else entry for j, entry in enumerate(line)] for i, line in enumerate(entries)]


def print_row(name, times, reading, sizes):
    multiples = ["-" if it is None else f"{it / read:.1f}" for it, read in zip(times, reading)]
    print(f"| {name} | {' | '.join(multiples)} | {exponent(times, sizes)} |", flush=True)


def print_head(name, sizes):
    print(f"| {name} | {' | '.join(map(str, sizes))} | grows with |")
    print("|---" * (len(sizes) + 2) + "|")


def reading_times(timer, sizes):
    return [timer.time(["series-parallel"], [[0] * size] * size) for size in sizes]


def measure_regular(timer, sizes):
    reading = reading_times(timer, sizes)
    print_head("regular", sizes)
    for kind in ("random", "path"):
        yes, other = [], []
        for size in sizes:
            draw = random.Random(1)
            support = supports(mixed(KINDS[kind](size, draw), size, draw))
            yes.append(timer.time(["regular"], support))
            other.append(timer.time(["regular"], turned(support, draw)))
        print_row(f"{kind}, yes", yes, reading, sizes)
        print_row(f"{kind}, one entry turned", other, reading, sizes)


def measure_generate(timer, kind, sizes, lines):
    reading = reading_times(timer, [lines(size) for size in sizes])
    print_head(f"generate {kind}", sizes)
    print_row(kind, [timer.run(["generate", kind, str(size), "7"]) for size in sizes], reading, sizes)


def main():
    parser = argparse.ArgumentParser(description=__doc__, formatter_class=argparse.RawDescriptionHelpFormatter)
    parser.add_argument("--program", type=pathlib.Path, default=pathlib.Path("crates/cmr/out/cmr"))
    parser.add_argument("--sizes", type=int, nargs="+", default=[250, 500, 1000])
    parser.add_argument("--runs", type=int, default=3)
    parser.add_argument("--seconds", type=float, default=60)
    options = parser.parse_args()
    if not options.program.is_file():
        parser.error(f"{options.program} does not exist: ./cmr builds it")
    with tempfile.TemporaryDirectory() as folder:
        timer = Timer(options.program.resolve(), folder, options.runs, options.seconds)
        measure_regular(timer, options.sizes)
        measure_generate(timer, "network", options.sizes, lambda size: size)
        measure_generate(timer, "twosum", [10, 50, 249], lambda size: 4 * size + 1)


if __name__ == "__main__":
    main()
