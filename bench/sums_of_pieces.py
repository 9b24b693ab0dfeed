"""Times `tu` on random sums of many pieces, as multiples of the time for reading the same text, in one table.

    python3 bench/sums_of_pieces.py --program crates/cmr/out/cmr
    python3 bench/sums_of_pieces.py --sizes 250 500 --bases 'as composed'

A size is the least number of lines of a sum. The pieces are those of `drawn_sums.py`, with larger networks: networks, conetworks, R10 and
R12, in two-sums and in three-sums of the forms delta, Y and mixed. Each size has six sums, and each sum four bases; pivots lead to
separations of the concentrated form. `tu` gets no pivots of its own.

All times are processor times, the least of some runs, and a multiple is of the time of `sign` with no row in the set. A run that needs more
than --seconds is stopped, and its multiple is written with `>`. The time grows with the power P if twice the lines take 2^P times as long;
the table has P for the last two sizes. The status is 1 if a run ends with an unexpected status.
"""

from __future__ import annotations

import argparse
import math
import tempfile
from collections.abc import Sequence
from dataclasses import dataclass
from pathlib import Path

from dear_inputs import Runner, write_texts
from drawn_sums import BASES, Draw, in_basis, piece, summed
from measuring import Matrix

LEAST_SIZE, MOST_SIZE = 20, 1000

# The sums of a size, and the arcs of the largest trees.
SUMS, MOST_ARCS = 6, 80

# Six of seven sums are three-sums.
KINDS = ("line", "flat", "flat", "flat", "tall", "tall", "tall")


def lines_of(entries: Matrix) -> int:
    """The number of rows and columns."""
    return len(entries) + len(entries[0])


def composed(lines: int, draw: Draw) -> Matrix:
    """A sum with at least this number of lines."""
    last = draw.choice(KINDS)
    made = piece(draw, "line", last, MOST_ARCS)
    while lines_of(made) < lines:
        # Each side of a two-sum has one connecting line; the others may differ.
        first = last if last == "line" else draw.choice(("flat", "tall"))
        following = draw.choice(KINDS)
        made, last = summed(made, last, piece(draw, first, following, MOST_ARCS), first), following
    return made


def sum_of_pieces(lines: int, number: int, basis: str) -> Matrix:
    """One of the sums of a size, in one of its bases. It is the same in each run."""
    if not LEAST_SIZE <= lines <= MOST_SIZE:
        raise ValueError(f"a size is {LEAST_SIZE} to {MOST_SIZE}, not {lines}")
    return in_basis(composed(lines, Draw(f"pieces {lines} {number}")), basis, False, Draw(f"{basis} {lines} {number}"))


@dataclass(frozen=True)
class Cell:
    """The runs on the sums of a size, together, and the time for reading the same texts."""

    size: int
    seconds: float
    reading: float
    is_whole: bool

    def __str__(self) -> str:
        return f"{'' if self.is_whole else '> '}{self.seconds / self.reading:.1f}"


def power(cells: Sequence[Cell]) -> str:
    """With which power of the lines the time grows between the last two sizes, if no run was stopped."""
    if len(cells) < 2 or not all(cell.is_whole for cell in cells[-2:]):
        return "-"
    before, last = cells[-2:]
    return f"{math.log(last.seconds / before.seconds) / math.log(last.size / before.size):.1f}"


def measured(runner: Runner, basis: str, size: int) -> Cell:
    """The runs of `tu` on the sums of a size in a basis."""
    reading, runs = 0.0, []
    for number in range(SUMS):
        with tempfile.TemporaryDirectory() as name:
            folder = Path(name)
            write_texts(folder, sum_of_pieces(size, number, basis))
            reading += runner.best(folder, ("sign", "matrix", "none")).seconds
            runs.append(runner.best(folder, ("tu", "--pivots", "0", "matrix")))
    return Cell(size, sum(run.seconds for run in runs), reading, all(run.status is not None for run in runs))


def measure(runner: Runner, bases: Sequence[str], sizes: Sequence[int]) -> None:
    print(f"| Basis | {' | '.join(map(str, sizes))} | grows with |")
    print("|---" * (len(sizes) + 2) + "|")
    for basis in bases:
        cells = [measured(runner, basis, size) for size in sizes]
        print(f"| {basis} | {' | '.join(map(str, cells))} | {power(cells)} |", flush=True)


def read_options(arguments: Sequence[str] | None) -> argparse.Namespace:
    parser = argparse.ArgumentParser(description=__doc__, formatter_class=argparse.RawDescriptionHelpFormatter)
    parser.add_argument("--program", type=Path, default=Path("crates/cmr/out/cmr"))
    parser.add_argument("--sizes", type=int, nargs="+", default=[250, 500, 1000], help="lines, in increasing order")
    parser.add_argument("--bases", choices=BASES, nargs="+", default=list(BASES))
    parser.add_argument("--runs", type=int, default=3)
    parser.add_argument("--seconds", type=int, default=60, help="the most processor time of a run")
    options = parser.parse_args(arguments)
    if not options.program.is_file():
        parser.error(f"{options.program} does not exist: ./cmr builds it")
    sizes = options.sizes
    if any(not LEAST_SIZE <= size <= MOST_SIZE for size in sizes) or sorted(set(sizes)) != sizes:
        parser.error(f"sizes are {LEAST_SIZE} to {MOST_SIZE}, in increasing order")
    if options.runs < 1 or options.seconds < 1:
        parser.error("there is at least one run, and at least one second")
    return options


def main(arguments: Sequence[str] | None = None) -> int:
    options = read_options(arguments)
    runner = Runner(options.program.resolve(), options.runs, options.seconds)
    measure(runner, options.bases, options.sizes)
    print("\n".join(runner.unexpected), end="\n" if runner.unexpected else "")
    return 1 if runner.unexpected else 0


if __name__ == "__main__":
    raise SystemExit(main())
