"""What pivots decide: models that are undecided without them, random sums that are totally unimodular, and nearly regular matrices.

    /usr/bin/python3 bench/pivots.py --program crates/cmr/out/cmr
    /usr/bin/python3 bench/pivots.py --program crates/cmr/out/cmr --sums 2000
    /usr/bin/python3 bench/pivots.py --program crates/cmr/out/cmr --near 500

The models come from python/tests/open_matrices.py. Each has a line with its size, the answers of `tu` without and with pivots, and the
times.

The option --sums N draws N matrices: sums of 2 to 16 networks, conetworks, R10 and R12 with up to 300 lines, each in four bases, as
`drawn_sums.py` describes. `tu --lines 0` runs without pivots and, if the answer is undecided, with them. A no would be a fault.

The option --near N draws N matrices with entries 0 and 1 that are nearly regular: a third each are sums with F7 or its dual in a
three-sum, and sums with one entry changed, and sums with one element (a row or a column) more. `regular --lines 0` runs in the same way.

The output counts the answers by bases or by these thirds. It names the numbers of the sums that are not a yes, and of the nearly regular
matrices that remain undecided; `--text --first N` prints the matrix of number N, with `--near 1` the nearly regular one.
"""

from __future__ import annotations

import argparse
import os
import subprocess
import sys
import tempfile
import time
from collections import Counter
from collections.abc import Iterable
from pathlib import Path

sys.path.insert(0, str(Path(__file__).resolve().parents[1] / "python"))

from cmr_matrices import Matrix  # noqa: E402
from drawn_sums import Drawn, near_regular, sum_in_basis  # noqa: E402
from tests.open_matrices import models  # noqa: E402

ANSWERS = {0: "yes", 1: "no", 6: "undecided"}


class Program:
    def __init__(self, path: str, folder: str) -> None:
        self.path, self.file = path, os.path.join(folder, "matrix")

    def ask(self, matrix: Matrix, tool: str, *words: str) -> tuple[str, float]:
        """The answer and the seconds."""
        with open(self.file, "w", encoding="ascii") as file:
            file.write(matrix.to_text())
        start = time.perf_counter()
        ran = subprocess.run([self.path, tool, "-i", "sparse", *words, self.file], stdout=subprocess.DEVNULL, check=False)
        return ANSWERS[ran.returncode], time.perf_counter() - start


def measure_models(program: Program, pivots: int) -> None:
    print("| Model | Size | `tu` | | with pivots | |")
    print("|---" * 6 + "|")
    for name, says, rows in models():
        matrix = Matrix.of(rows)
        plain, with_pivots = program.ask(matrix, "tu"), program.ask(matrix, "tu", "--pivots", str(pivots))
        size = f"{matrix.shape[0]}x{matrix.shape[1]}"
        told = " | ".join(f"{answer} | {seconds:.2f} s" for answer, seconds in (plain, with_pivots))
        print(f"| {name} | {size} | {told} |{'' if with_pivots[0] == says else ' not as it is known'}", flush=True)


def count_answers(program: Program, tool: str, drawn: Iterable[Drawn], first: int, pivots: int) -> None:
    """Asks a tool without pivots and, if it is undecided, with them. A sum that is no yes is named as well."""
    plain: Counter[tuple[str, str]] = Counter()
    after: Counter[tuple[str, str]] = Counter()
    for number, it in enumerate(drawn, first):
        matrix = Matrix.of(it.entries)
        answer, _ = program.ask(matrix, tool, "--lines", "0")
        plain[it.kind, answer] += 1
        if answer == "undecided":
            answer, _ = program.ask(matrix, tool, "--lines", "0", "--pivots", str(pivots))
        after[it.kind, answer] += 1
        if answer == "undecided" or (tool == "tu" and answer == "no"):
            print(f"{answer}: the matrix of number {number}, {it.kind}, {matrix.shape[0]}x{matrix.shape[1]}", flush=True)
    answers = " | ".join(ANSWERS.values())
    print(f"| Matrices | {answers} | with {pivots} pivots: {answers} |")
    print("|---" * 7 + "|")
    for kind in dict.fromkeys(kind for kind, _ in plain):
        counts = [str(counter[kind, answer]) for counter in (plain, after) for answer in ANSWERS.values()]
        print(f"| {kind} | {' | '.join(counts)} |")


def main() -> None:
    parser = argparse.ArgumentParser(description=__doc__, formatter_class=argparse.RawDescriptionHelpFormatter)
    parser.add_argument("--program", required=True)
    parser.add_argument("--pivots", type=int, default=20)
    chosen = parser.add_mutually_exclusive_group()
    chosen.add_argument("--sums", type=int, help="how many matrices of sums, in place of the models")
    chosen.add_argument("--near", type=int, help="how many nearly regular matrices, in place of the models")
    parser.add_argument("--first", type=int, default=0, help="the number of the first matrix")
    parser.add_argument("--text", action="store_true", help="print the first matrix, and do nothing else")
    options = parser.parse_args()
    tool, draw = ("tu", sum_in_basis) if options.near is None else ("regular", near_regular)
    if options.text:
        print(Matrix.of(draw(options.first).entries).to_text(), end="")
        return
    with tempfile.TemporaryDirectory() as folder:
        program = Program(os.path.abspath(options.program), folder)
        count = options.sums if options.near is None else options.near
        if count is None:
            measure_models(program, options.pivots)
        else:
            drawn = map(draw, range(options.first, options.first + count))
            count_answers(program, tool, drawn, options.first, options.pivots)


if __name__ == "__main__":
    main()
