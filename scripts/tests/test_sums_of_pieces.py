"""Tests of `bench/sums_of_pieces.py`: its sums, its table, and its refusals."""

import subprocess
import sys
import unittest

from building.clone import BUILT, TOP
from tests.support import ScriptTest, needs_program

BENCH = TOP / "bench"
sys.path.append(str(BENCH))

from drawn_sums import BASES  # noqa: E402
from measuring import dense_text  # noqa: E402
from sums_of_pieces import Cell, lines_of, power, sum_of_pieces  # noqa: E402


class SumsTest(unittest.TestCase):
    def test_shapes_and_entries(self) -> None:
        for size in (20, 100, 250):
            sums = [sum_of_pieces(size, 1, basis) for basis in BASES]
            self.assertEqual(len({(len(entries), len(row)) for entries in sums for row in entries}), 1)
            self.assertTrue(size <= lines_of(sums[0]) <= size + 170)
            self.assertLessEqual({entry for entries in sums for row in entries for entry in row}, {-1, 0, 1})
            self.assertEqual(sums[1], sum_of_pieces(size, 1, BASES[1]))

    def test_sizes(self) -> None:
        for size in (19, 1001):
            with self.assertRaises(ValueError):
                sum_of_pieces(size, 0, BASES[0])

    def test_growth(self) -> None:
        ended = [Cell(500, 1.0, 0.5, True), Cell(1000, 8.0, 0.5, True)]
        self.assertEqual((str(ended[1]), power(ended), power(ended[1:])), ("16.0", "3.0", "-"))
        stopped = Cell(1000, 8.0, 0.5, False)
        self.assertEqual((str(stopped), power([ended[0], stopped])), ("> 16.0", "-"))


class SumsOfPiecesTest(ScriptTest):
    def measure(self, program: str, *words: str) -> subprocess.CompletedProcess[str]:
        command = [sys.executable, BENCH / "sums_of_pieces.py", "--program", program, "--runs", "1", *words]
        return subprocess.run(command, cwd=self.folder, capture_output=True, text=True, check=False)

    def stand_in(self, text: str) -> str:
        self.write("program", text)
        (self.folder / "program").chmod(0o755)
        return "program"

    def test_the_table(self) -> None:
        run = self.measure(self.stand_in("#!/bin/sh\n"), "--sizes", "20", "40")
        self.assertEqual((run.returncode, run.stderr), (0, ""))
        rows = [[cell.strip() for cell in line.strip("|").split("|")] for line in run.stdout.splitlines()]
        self.assertEqual([row[0] for row in rows[2:]], list(BASES))
        self.assertEqual({len(row) for row in rows}, {4})

    def test_an_unexpected_status(self) -> None:
        run = self.measure(self.stand_in('#!/bin/sh\nif [ "$1" = tu ]; then exit 3; fi\n'), "--sizes", "20", "--bases", BASES[0])
        self.assertEqual((run.returncode, run.stderr), (1, ""))
        self.assertIn("status 3: tu --pivots 0 matrix\n", run.stdout)

    def test_refusals(self) -> None:
        program = self.stand_in("#!/bin/sh\n")
        for words, told in [
            (["--sizes", "40", "20"], "sizes are 20 to 1000, in increasing order"),
            (["--runs", "0"], "there is at least one run, and at least one second"),
        ]:
            run = self.measure(program, *words)
            self.assertEqual((run.returncode, run.stdout), (2, ""))
            self.assertTrue(run.stderr.endswith(f"{told}\n"), run.stderr)
        self.assertIn("missing does not exist: ./cmr builds it", self.measure("missing").stderr)

    @needs_program
    def test_answers(self) -> None:
        for basis in BASES:
            self.write("matrix", dense_text(sum_of_pieces(100, 0, basis)))
            self.assertEqual(self.run_program("tu", "--pivots", "0", "matrix").returncode, 0)
        self.assertEqual(self.measure(str(BUILT), "--sizes", "20", "30").returncode, 0)


if __name__ == "__main__":
    unittest.main()
