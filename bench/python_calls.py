"""Times calls of the Python package and runs of the program by itself, and the conversion of a sparse matrix.

    /usr/bin/python3 bench/python_calls.py --program crates/cmr/out/cmr

A call and a run of the program on the same text take turns, so that both see the same machine. The output has the least and the median
time of each, and the additional cost of the call. The sparse matrix has 1000 rows and columns and 10,000 nonzeros; it needs scipy, and
is skipped without it.
"""

import argparse
import os
import random
import sys
import tempfile
import time
from pathlib import Path

sys.path.insert(0, str(Path(__file__).resolve().parents[1] / "python"))

from cmr_matrices import Matrix, is_network, is_totally_unimodular  # noqa: E402


def alone(program, words):
    """A run of the program with its output discarded."""
    nothing = (os.POSIX_SPAWN_OPEN, 1, os.devnull, os.O_WRONLY, 0)
    process = os.posix_spawn(program, [program, *words], os.environ, file_actions=[nothing])
    os.waitpid(process, 0)


def timed(work):
    start = time.perf_counter()
    work()
    return (time.perf_counter() - start) * 1000


def in_turns(first, second, runs):
    times = [(timed(first), timed(second)) for _ in range(runs)]
    return [sorted(column) for column in zip(*times)]


def tell(what, times):
    print(f"{what}: least {times[0]:.2f} ms, middle {times[len(times) // 2]:.2f} ms")


def calls(program, runs):
    draw = random.Random(1)
    rows = [[draw.choice((-1, 0, 1)) for _ in range(10)] for _ in range(10)]
    with tempfile.TemporaryDirectory() as folder:
        text = Path(folder, "matrix")
        text.write_text(Matrix.of(rows).to_text(), encoding="ascii")
        tree = str(Path(folder, "tree"))
        for name, tool, question, files in [
            ("tu", "tu", lambda: is_totally_unimodular(rows, program=program), []),
            ("tu with its tree", "tu", lambda: is_totally_unimodular(rows, program=program, certificate=True), ["-D", tree]),
            ("network", "network", lambda: is_network(rows, program=program), []),
        ]:
            words = [tool, "-i", "sparse", *files, str(text)]
            run, call = in_turns(lambda: alone(program, words), question, runs)
            tell(f"{name}, the program alone", run)
            tell(f"{name}, a call", call)
            print(f"{name}, above the program: {call[len(call) // 2] - run[len(run) // 2]:.2f} ms")


def sparse(runs):
    try:
        from scipy import sparse as matrices
    except ImportError:
        print("scipy is not available: the sparse matrix is skipped")
        return
    matrix = matrices.random(1000, 1000, density=0.01, format="csr", random_state=1)
    matrix.data[:] = 1
    tell("a sparse matrix of scipy to its text", sorted(timed(lambda: Matrix.of(matrix).to_text()) for _ in range(runs)))


def main():
    parser = argparse.ArgumentParser(description=__doc__, formatter_class=argparse.RawDescriptionHelpFormatter)
    parser.add_argument("--program", required=True)
    parser.add_argument("--runs", type=int, default=200)
    chosen = parser.parse_args()
    calls(os.path.abspath(chosen.program), chosen.runs)
    sparse(max(chosen.runs // 10, 3))


if __name__ == "__main__":
    main()
