"""Times the search for excluded minors, and the check of what it finds.

    /usr/bin/python3 bench/minors.py --program crates/cmr/out/cmr

The matrices are random ones, half of whose entries are 1, and those of networks.py with one nonzero more or one sign turned, in random
trees and in one path; for classes of binary matroids each nonzero is 1. Printed for each matrix and class: the minor, its pivots, the runs
of the program, the seconds of the search, the processor seconds of Python and of the program in it, and the seconds of the check.
"""

import argparse
import random
import resource
import sys
import time
from pathlib import Path

sys.path.insert(0, str(Path(__file__).resolve().parents[1] / "python"))

from networks import KINDS, mixed, with_entry  # noqa: E402

from cmr_matrices import CmrError, Matrix, excluded_minor  # noqa: E402
from cmr_matrices.questions import narrowing, reading  # noqa: E402
from cmr_matrices.questions.excluded import minor_class  # noqa: E402


class Counted:
    """The runs of the program, which are counted."""

    def __init__(self):
        self.count, self._run = 0, narrowing.run

    def __enter__(self):
        narrowing.run = reading.run = self
        return self

    def __exit__(self, *_):
        narrowing.run = reading.run = self._run

    def __call__(self, *words, **settings):
        self.count += 1
        return self._run(*words, **settings)


def used():
    """The seconds by the clock, and the processor seconds of this process and of those that it ran."""
    times = [resource.getrusage(who) for who in (resource.RUSAGE_SELF, resource.RUSAGE_CHILDREN)]
    return [time.perf_counter(), *(it.ru_utime + it.ru_stime for it in times)]


def measured(matrix, of, program, limit):
    """A search and a check, in words."""
    start = used()
    try:
        with Counted() as runs:
            minor = excluded_minor(matrix, of, program=program, time_limit=limit)
    except CmrError as fault:
        return f"{type(fault).__name__}, {fault}"
    clock, own, others = (now - before for now, before in zip(used(), start))
    search = f"{runs.count} runs, {clock:.2f} s, of processors {own:.2f} s in Python and {others:.2f} s in runs"
    if minor is None:
        return f"none, {search}"
    start = time.process_time()
    assert minor.verify(matrix)
    return f"{minor.name}, {len(minor.pivots)} pivots, {search}, checked in {time.process_time() - start:.2f} s"


def matrices(kind, size, seed, is_binary):
    """Matrices of a kind, each with what was done to it."""
    draw = random.Random(seed)
    if kind == "random":
        yield "", [[draw.choice((0, 1)) for _ in range(size)] for _ in range(size)]
        return
    entries = mixed(KINDS[kind](size, draw), size, draw)
    turned = with_entry(entries, {1: -1, -1: 1}, draw)
    if is_binary:
        entries = [[abs(entry) for entry in row] for row in entries]
    yield "one nonzero more", with_entry(entries, {0: 1}, draw)
    if not is_binary:
        yield "one sign turned", turned


def main():
    parser = argparse.ArgumentParser(description=__doc__, formatter_class=argparse.RawDescriptionHelpFormatter)
    parser.add_argument("--program", required=True)
    parser.add_argument("--kinds", choices=("random", *KINDS), nargs="+", default=["random", *KINDS])
    parser.add_argument("--sizes", type=int, nargs="+", default=[100, 300, 1000])
    parser.add_argument("--classes", nargs="+", default=["graphic", "cographic", "regular", "network", "tu"])
    parser.add_argument("--time-limit", type=float, default=120)
    parser.add_argument("--seed", type=int, default=1)
    options = parser.parse_args()
    for kind in options.kinds:
        for size in options.sizes:
            for of in options.classes:
                for what, rows in matrices(kind, size, options.seed, minor_class(of).field == 2):
                    said = measured(Matrix.of(rows), of, options.program, options.time_limit)
                    print(f"{of}, {' '.join([kind, f'{size} by {size}', what]).rstrip()}: {said}", flush=True)


if __name__ == "__main__":
    main()
