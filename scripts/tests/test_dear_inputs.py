"""Tests of `bench/dear_inputs.py`: its matrices, its table, and its status, which depends on no time."""

import subprocess
import sys
import unittest

from building.clone import BUILT, TOP
from tests.support import ScriptTest, needs_program

BENCH = TOP / "bench"
sys.path.append(str(BENCH))

import dear_inputs  # noqa: E402
from dear_inputs import Cell, Row, Run  # noqa: E402
from dear_matrices import INPUTS  # noqa: E402
from measuring import dense_text  # noqa: E402

NAMED = {source.name: source for source in INPUTS}

# A program that answers yes at once. Its trees are two-sums.
QUICK = """\
#!/bin/sh
if [ "$1" = parts ]; then echo 'parts: twosum'; fi
"""


class MatricesTest(unittest.TestCase):
    def test_shapes_and_entries(self) -> None:
        for source in INPUTS:
            for size in (10, 11, 12, 13, 14, 30):
                with self.subTest(matrix=source.name, size=size):
                    entries = source.entries(size)
                    rows, columns = source.shape(size)
                    self.assertEqual({(len(entries), len(row)) for row in entries}, {(rows, columns)})
                    self.assertLessEqual({entry for row in entries for entry in row}, {-1, 0, 1})
                    self.assertLessEqual({rows, columns}, {size, 1, 10})
                    self.assertEqual(entries, source.entries(size))

    def test_sizes_of_the_tools(self) -> None:
        for size in (9, 1001):
            with self.assertRaises(ValueError):
                NAMED["cycle"].entries(size)

    def test_each_matrix_is_what_its_name_says(self) -> None:
        self.assertEqual(len({tuple(map(abs, row)) for row in NAMED["equal lines"].entries(30)}), 5)
        self.assertEqual(len(set(map(tuple, NAMED["signs of ten columns"].entries(30)))), 30)
        self.assertEqual({sum(map(abs, row)) for row in NAMED["shuffled cycle"].entries(30)}, {2})
        self.assertEqual({entry for row in NAMED["long path, one more"].entries(30) for entry in row}, {0, 1})

    def test_names_differ(self) -> None:
        names = [*NAMED, *dear_inputs.TOOLS]
        self.assertEqual(len(names), len(set(names)))
        self.assertEqual(len(NAMED), len(INPUTS))
        for name, tool in dear_inputs.AIMS:
            self.assertIn(name, NAMED)
            self.assertIn(tool, dear_inputs.TOOLS)


class RowsTest(unittest.TestCase):
    def row(self, name: str, tool: str, *cells: tuple[int, float, float]) -> Row:
        return Row(NAMED[name], tool, [Cell(size, Run(seconds, 0), seconds, of_aim) for size, seconds, of_aim in cells])

    def test_growth(self) -> None:
        row = self.row("cycle", "tu", (500, 1.0, 0), (1000, 8.0, 0))
        self.assertAlmostEqual(row.power() or 0, 3)
        self.assertTrue(row.is_steep())
        self.assertFalse(self.row("cycle", "tu", (500, 1.0, 0), (1000, 5.0, 0)).is_steep())
        self.assertTrue(self.row("mixed sum", "tu", (500, 1.0, 0), (1000, 5.0, 0)).is_steep())
        self.assertIsNone(self.row("cycle", "tu", (1000, 1.0, 0)).power())

    def test_aims(self) -> None:
        self.assertIsNone(self.row("ones", "regular", (1000, 1.0, 6.0)).above_aim())
        self.assertEqual(self.row("ones", "regular", (1000, 1.0, 6.1)).above_aim(), "ones: regular, 6.1 (aim: 6 times reading)")
        self.assertIsNone(self.row("ones", "regular", (500, 1.0, 9.0)).above_aim())
        self.assertIsNone(self.row("ones", "tu", (1000, 1.0, 9.0)).above_aim())
        told = self.row("sparse", "series-parallel -N", (1000, 1.0, 3.0)).above_aim()
        self.assertEqual(told, "sparse: series-parallel -N, 3.0 (aim: 2 times series-parallel)")
        self.assertIn("(aim: 0.3 s)", self.row("cycle", "series-parallel -N", (1000, 1.0, 1.0)).above_aim() or "")


class DearInputsTest(ScriptTest):
    def stand_in(self, text: str) -> str:
        self.write("program", text)
        (self.folder / "program").chmod(0o755)
        return "program"

    def measure(self, program: str, *words: str) -> subprocess.CompletedProcess[str]:
        command = [sys.executable, BENCH / "dear_inputs.py", "--program", program, "--runs", "1", *words]
        return subprocess.run(command, cwd=self.folder, capture_output=True, text=True, check=False)

    def rows(self, program: str, *words: str) -> list[list[str]]:
        """The rows of the table of a run that ends as it should."""
        run = self.measure(program, *words)
        self.assertEqual((run.returncode, run.stderr), (0, ""), run.stdout)
        lines = [line for line in run.stdout.splitlines() if line.startswith("| ")]
        return [[cell.strip() for cell in line.strip("|").split("|")] for line in lines[1:]]

    def test_each_tool_runs_on_each_matrix(self) -> None:
        names = [row[0] for row in self.rows(self.stand_in(QUICK), "--sizes", "10")]
        tools = [tool for tool in dear_inputs.TOOLS if tool != "generate"]
        expected = {f"{name}: {tool}" for name in NAMED for tool in tools}
        expected |= {"random tree: generate", "many sums: generate"}
        self.assertEqual((set(names), len(names)), (expected, len(expected)))

    def test_a_choice(self) -> None:
        program = self.stand_in(QUICK)
        rows = self.rows(program, "--sizes", "10", "12", "--only", "cycle", "ones", "tu")
        self.assertEqual([row[0] for row in rows], ["ones: tu", "cycle: tu"])
        self.assertEqual([len(row) for row in rows], [5, 5])
        rows = self.rows(program, "--sizes", "10", "--aims")
        self.assertEqual({row[0] for row in rows}, {f"{name}: {tool}" for name, tool in dear_inputs.AIMS})
        self.assertEqual({row[-1] for row in rows}, {str(aim) for aim in dear_inputs.AIMS.values()})

    def test_a_run_that_is_stopped(self) -> None:
        program = self.stand_in('#!/bin/sh\nif [ "$1" = tu ]; then while :; do :; done; fi\n')
        words = ["--sizes", "10", "--seconds", "1", "--only", "cycle", "tu", "check"]
        rows = self.rows(program, *words)
        self.assertEqual([row[0] for row in rows], ["cycle: tu"])
        self.assertTrue(rows[0][1].startswith("> "), rows)

    def test_an_unexpected_status(self) -> None:
        run = self.measure(self.stand_in('#!/bin/sh\nif [ "$1" = tu ]; then exit 3; fi\n'), "--sizes", "10", "--only", "cycle", "tu")
        self.assertEqual((run.returncode, run.stderr), (1, ""))
        self.assertIn("status 3: tu matrix\n", run.stdout)

    def test_refusals(self) -> None:
        program = self.stand_in(QUICK)
        for words, told in [
            (["--only", "circle"], "--list has the names, and not circle"),
            (["--sizes", "20", "10"], "sizes are 10 to 1000, in increasing order"),
            (["--sizes", "9"], "sizes are 10 to 1000, in increasing order"),
            (["--runs", "0"], "there is at least one run, and at least one second"),
        ]:
            run = self.measure(program, *words)
            self.assertEqual((run.returncode, run.stdout), (2, ""))
            self.assertTrue(run.stderr.endswith(f"{told}\n"), run.stderr)
        self.assertIn("missing does not exist: ./cmr builds it", self.measure("missing").stderr)

    def test_the_list(self) -> None:
        run = self.measure("missing", "--list")
        self.assertEqual((run.returncode, run.stderr), (0, ""))
        self.assertEqual(run.stdout.splitlines(), [*NAMED, "", *dear_inputs.TOOLS])

    @needs_program
    def test_the_program(self) -> None:
        names = {row[0] for row in self.rows(str(BUILT), "--sizes", "10", "13")}
        self.assertLessEqual({"many sums: compose", "many sums: parts", "mixed sum: check"}, names)

    @needs_program
    def test_answers(self) -> None:
        statuses = {"mixed sum": 0, "many sums": 0, "many parts": 0, "many cycles": 0, "equal lines": 0, "ten rows": 0, "long path": 0}
        statuses |= {"dense mixed sum": 0, "network and transposed": 0, "deep tree, transposed": 0, "cycle": 0, "turned cycle": 1, "all but the diagonal": 1}
        for name, status in statuses.items():
            for size in (10, 30):
                with self.subTest(matrix=name, size=size):
                    self.write("matrix", dense_text(NAMED[name].entries(size)))
                    self.assertEqual(self.run_program("tu", "matrix").returncode, status)


if __name__ == "__main__":
    unittest.main()
