"""Times many runs of `graphic` on matrices of 10 by 10 in one process of `cmr-batch`, and a call of the package with and without it.

    /usr/bin/python3 bench/many_runs.py --program crates/cmr/out/cmr

`cmr-batch` is beside the program, or the link at the top of its clone. All requests are sent at once, and the processor
seconds of the process are divided by their number. Calls with `cmr-batch` and calls without it take turns, a hundred at a time. Of each
hundred it prints the processor time, of Python and of the program together, and the time by the clock, both for a call. The time by the
clock depends on other work of the machine; the processor time does so less.
"""

import argparse
import os
import random
import resource
import subprocess
import sys
import time
from pathlib import Path

sys.path.insert(0, str(Path(__file__).resolve().parents[1] / "python"))

from cmr_matrices import Matrix, is_network  # noqa: E402
from cmr_matrices.running.batch.frames import Request  # noqa: E402
from cmr_matrices.running.batch.kept import batch_of  # noqa: E402
from cmr_matrices.running.clock import KEPT  # noqa: E402

CALLS = 100


def requests(count):
    draw = random.Random(1)
    for _ in range(count):
        rows = [[draw.choice((0, 1)) for _ in range(10)] for _ in range(10)]
        yield Request.of(["graphic", "-"], {"-": Matrix.of(rows).to_text().encode("ascii")}).frame


def processor_seconds(batch, frames):
    before = resource.getrusage(resource.RUSAGE_CHILDREN)
    subprocess.run([batch], input=frames, stdout=subprocess.DEVNULL, check=True)
    after = resource.getrusage(resource.RUSAGE_CHILDREN)
    return after.ru_utime + after.ru_stime - before.ru_utime - before.ru_stime


def used():
    """The processor seconds of this process, of the programs that have ended, and of those that are kept."""
    ended = resource.getrusage(resource.RUSAGE_CHILDREN)
    # The clock of a process of Linux, in nanoseconds.
    kept = sum(time.clock_gettime(~process << 3 | 2) for process in KEPT)
    return time.process_time() + ended.ru_utime + ended.ru_stime + kept


def timed(program, matrix):
    """The microseconds of a call: of the processors, and by the clock."""
    begun, start = used(), time.perf_counter()
    for _ in range(CALLS):
        is_network(matrix, program=program)
    return (used() - begun) * 1e6 / CALLS, (time.perf_counter() - start) * 1e6 / CALLS


def calls(program, batch, rounds):
    matrix = Matrix.of([[1, 1, 0], [0, 1, 1], [1, 0, 1]])
    found = {"with cmr-batch": [], "a process for each": []}
    for _ in range(rounds):
        for name, value in (("with cmr-batch", str(batch)), ("a process for each", "")):
            os.environ["CMR_BATCH"] = value
            found[name].append(timed(program, matrix))
    for name, times in found.items():
        for what, column in zip(("processor time", "time by the clock"), zip(*times)):
            ordered = sorted(column)
            print(f"a call, {name}, {what}: least {ordered[0]:.0f} us, middle {ordered[len(ordered) // 2]:.0f} us")


def main():
    parser = argparse.ArgumentParser(description=__doc__, formatter_class=argparse.RawDescriptionHelpFormatter)
    parser.add_argument("--program", required=True)
    parser.add_argument("--runs", type=int, default=100_000)
    chosen = parser.parse_args()
    program = Path(os.path.abspath(chosen.program))
    batch = batch_of(program)
    if batch is None:
        parser.error(f"there is no cmr-batch of {program}")
    frames = b"".join(requests(chosen.runs))
    best = min(processor_seconds(batch, frames) for _ in range(3))
    print(f"{chosen.runs} runs of graphic: {best / chosen.runs * 1e6:.1f} us each")
    calls(program, batch, max(chosen.runs // 5000, 3))


if __name__ == "__main__":
    main()
