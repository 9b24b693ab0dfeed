"""Tests of `model_to_matrix`."""

from __future__ import annotations

import bz2
import gzip
import os
import unittest

from tests.scripts import ScriptTest, needs_glpsol, needs_python, needs_swiglpk
from tests.support import TOP

EXAMPLES = TOP / "examples"

BLANKS = """\
NAME          BLANKS
ROWS
 N  COST
 L  DAY 1
 G  DAY 2
 N  OTHER
COLUMNS
    ANN B     COST               1.0   DAY 1              1.0
    MARK      'MARKER'                 'INTORG'
    BOB       DAY 1             -1.0   DAY 2              1.0
    BOB       OTHER              7.5
    MARK      'MARKER'                 'INTEND'
    CAT       COST               2.0
RHS
    RHS       DAY 1              4.0   DAY 2              1.0
RANGES
    RANGE     DAY 1              2.0
BOUNDS
 UP BOUND     BOB                3.0
ENDATA
"""

# One model as solvers write it in the LP format.
SOLVERS = {
    "gurobi.lp": """Maximize
  o: x + z + [ x ^2 + 2 x * z ] / 2
Subject To
 a: x - y <= 1
 b: x + z >= 1
Lazy Constraints
 c: y + z <= 3
Bounds
 x free
Generals
 z
End
""",
    "cplex.lp": """\\ENCODING=ISO-8859-1
\\Problem name: p

Maximize
 o: x + z
Subject To
 a: -1 <= x - y <= 1
 b: x + z >= 1
 c: 0 <= y +
 z <= 3
Bounds
 0 <= x <= 4
Binaries
 z
End
""",
    "scip.lp": """\\ SCIP STATISTICS
\\   Problem name     : p
Maximize
 o: +1 x +1 z
Subject to
 a: +1 x -1 y <= +1
 b: +1 x +1 z >= +1
 c: +1 y +1 z <= +3
Bounds
 0 <= x <= 1
End
""",
    "highs.lp": """\\ File written by HiGHS .lp file handler
max
 o: +1 x +1 z +3
st
 a: +1 x -1 y <= +1
 b: +1 x +1 z >= +1
 c: -inf <= +1 y +1 z <= +3
bounds
semi-continuous
 z
end
""",
    "empty.lp": """Minimize
 o:
Subject To
 a: x - y <= 1
 b: x + z >= 1
 c: y + z <= 3
End
""",
    "constant.lp": """Minimize
 5 - 2e+1
Subject To
 a: -2 <= x - y <= 1
 b: x + z >= 1
 c: y + z <= 3
End
""",
}


def free_mps(rows, columns):
    """A model in free MPS with so many rows and columns, and a coefficient 1 for each column."""
    lines = ["NAME large", "ROWS", " N cost", *(f" L row{row}" for row in range(rows)), "COLUMNS"]
    lines += [f" column{column} row{column % rows} 1" for column in range(columns)]
    return "\n".join([*lines, "RHS", "ENDATA", ""])


def small_mps(*coefficients):
    """A model in free MPS with the rows first and second, and with columns for pairs of coefficients."""
    lines = ["NAME small", "ROWS", " N cost", " L first", " L second", "COLUMNS"]
    for number, (first, second) in enumerate(coefficients, 1):
        lines.append(f" x{number} first {first} second {second}")
    return "\n".join([*lines, "RHS", "ENDATA", ""])


def dense_to_sparse(text):
    """The sparse text of a matrix that is given as a dense one."""
    rows, columns, *entries = text.split()
    places = ((index // int(columns) + 1, index % int(columns) + 1, entry) for index, entry in enumerate(entries))
    lines = [f"{row} {column} {entry}\n" for row, column, entry in places if entry != "0"]
    return f"{rows} {columns} {len(lines)}\n" + "".join(lines)


@needs_python
@needs_swiglpk
class Models(ScriptTest):
    def convert(self, model, *words):
        printed = self.output("model_to_matrix", *words, model, "matrix", "names")
        return self.read("matrix"), self.read("names"), printed

    def test_fixed_mps(self) -> None:
        matrix, names, printed = self.convert(EXAMPLES / "assignment.mps")
        self.assertEqual(matrix, dense_to_sparse((EXAMPLES / "assignment.txt").read_text()))
        self.assertTrue(names.startswith("r1 ANN\nr2 BOB\nr3 CAT\nr4 CUT\nr5 SEW\nr6 IRON\nc1 ANN-CUT\n"))
        self.assertEqual(printed, "")

    def test_free_rows_bounds_and_kinds_of_variables_are_left_out(self) -> None:
        matrix, names, _ = self.convert(self.write("blanks.mps", BLANKS))
        self.assertEqual(matrix, "2 3 3\n1 1 1\n1 2 -1\n2 2 1\n")
        self.assertEqual(names, "r1 DAY1\nr2 DAY2\nc1 ANNB\nc2 BOB\nc3 CAT\n")

    def test_rows_takes_rows_and_their_columns(self) -> None:
        matrix, names, _ = self.convert(EXAMPLES / "knapsack.mps", "--rows", "_or_")
        self.assertEqual(matrix, "3 3 6\n1 1 1\n1 2 1\n2 2 1\n2 3 1\n3 1 1\n3 3 1\n")
        self.assertEqual(
            names, "r1 tent_or_tarp\nr2 tarp_or_hammock\nr3 tent_or_hammock\nc1 tent\nc2 tarp\nc3 hammock\n"
        )

    def test_scale_divides_rows_and_then_columns(self) -> None:
        matrix, _, printed = self.convert(self.write("scaled.mps", small_mps((-6, 0), (6, 5), (0, 5))), "--scale")
        self.assertEqual(matrix, "2 3 4\n1 1 -1\n1 2 1\n2 2 1\n2 3 1\n")
        self.assertEqual(printed, "row first divided by 6\nrow second divided by 5\n")
        matrix, _, printed = self.convert(self.write("scaled.mps", small_mps((3, 0), (1, 2))), "--scale")
        self.assertEqual(matrix, "2 2 3\n1 1 1\n1 2 1\n2 2 1\n")
        self.assertEqual(printed, "row second divided by 2\ncolumn x1 divided by 3\n")

    def test_scale_multiplies_and_tells_of_right_hand_sides(self) -> None:
        model = self.write(
            "half.mps", small_mps((0.5, 1), (0.5, 0), (0, -1)).replace("RHS", "RHS\n b first 0.75 second 2")
        )
        matrix, _, printed = self.convert(model, "--scale")
        self.assertEqual(matrix, "2 3 4\n1 1 1\n1 2 1\n2 1 1\n2 3 -1\n")
        self.assertEqual(printed, "row first multiplied by 2, and its right-hand side 0.75 becomes no integer\n")
        model = self.write("two.mps", small_mps((2, 1.5), (2, 1.5)).replace("RHS", "RHS\n b first 5 second 3"))
        printed = self.convert(model, "--scale")[2]
        first = "row first divided by 2, and its right-hand side 5 becomes no integer\n"
        self.assertEqual(printed, f"{first}row second divided by 3/2\n")
        model = self.write("tenth.mps", small_mps((0.1, 0.3), (0.1, -0.3)))
        self.assertEqual(self.convert(model, "--scale")[2], "row first multiplied by 10\nrow second divided by 3/10\n")

    def test_rows_that_are_left_out(self) -> None:
        knapsack = EXAMPLES / "knapsack.mps"
        chosen = self.convert(knapsack, "--rows", "_or_")
        self.assertEqual(self.convert(knapsack, "--without", "^(weight|pockets)$"), chosen)
        self.assertEqual(self.convert(knapsack, "--unit-rows"), chosen)
        self.assertEqual(
            self.convert(knapsack, "--rows", "_or_", "--without", "tarp")[1],
            "r1 tent_or_hammock\nc1 tent\nc2 hammock\n",
        )
        matrix, names, printed = self.convert(knapsack, "--unit-rows", "--scale")
        self.assertEqual((matrix[:4], printed), ("4 4 ", "row pockets divided by 2\n"))
        self.assertNotIn("weight", names)

    def test_reductions(self) -> None:
        shifts = EXAMPLES / "assignment.mps"
        self.assertEqual(self.convert(shifts, "--reduce", "list")[2], "reduced by 0, 6x9 is left\n")
        self.assertEqual(self.read("list"), "")
        model = self.write("small.mps", small_mps((1, 1), (1, 1), (0, -1), (0, 0)))
        matrix, names, printed = self.convert(model, "--reduce", "list")
        self.assertEqual((matrix, names), ("0 0 0\n", ""))
        self.assertEqual(printed, "reduced by 6 (2 zero, 3 unit, 1 copy), 0x0 is left\n")
        self.assertEqual(self.read("list").splitlines()[0], "x2 copy x1")

    @needs_glpsol
    def test_a_model_above_the_limit_and_its_parts(self) -> None:
        words = ("--reduce", "list", "--parts", "parts")
        printed = self.output("model_to_matrix", *words, EXAMPLES / "wards.mod", "matrix", "names")
        lines = ["reduced by 1296 (1296 unit), 672x1296 is left"]
        self.assertEqual(printed.splitlines(), lines + [f"parts/{number}.txt 168x324" for number in range(1, 5)])
        self.assertFalse((self.folder / "matrix").exists())
        self.assertEqual(self.read("list").count("\n"), 1296)
        self.assertTrue(self.read("parts/2.txt").startswith("168 324 "))
        self.assertTrue(self.read("parts/2.names").startswith("r1 staff[south,1]\n"))
        self.write("parts/5.txt", "")
        line = self.refusal("model_to_matrix", *words, EXAMPLES / "wards.mod", "matrix", "names")
        self.assertEqual(line, "the folder parts has more parts of another run")

    def test_parts_below_the_limit(self) -> None:
        model = self.write("parts.mps", small_mps((1, 0), (0, 1), (-1, 0)))
        matrix, _, printed = self.convert(model, "--parts", "parts")
        self.assertEqual(matrix, "2 3 3\n1 1 1\n1 3 -1\n2 2 1\n")
        self.assertEqual(printed, "parts/1.txt 1x2\nparts/2.txt 1x1\n")
        self.assertEqual(self.read("parts/1.txt"), "1 2 2\n1 1 1\n1 2 -1\n")
        self.assertEqual(self.read("parts/1.names"), "r1 first\nc1 x1\nc2 x3\n")

    def test_what_solvers_write_in_mps(self) -> None:
        plain = self.convert(self.write("plain.mps", small_mps((1, 0), (1, -1))))
        for front in (
            "OBJSENSE\n    MAX\n",
            "OBJSENSE MAX\n",
            "OBJSENSE\nMAX\n",
            "OBJSENSE MAXIMIZE\nOBJNAME\n    cost\n",
            "* SCIP STATISTICS\n*   Variables\n",
        ):
            text = small_mps((1, 0), (1, -1)).replace("ROWS", f"{front}ROWS", 1)
            text = text.replace(
                "ENDATA",
                "RANGES\n RNG first 2\nBOUNDS\n BV BND x1\n SC BND x2 4\n FR BND x2\nQUADOBJ\n x1 x1 2\nENDATA",
            )
            for data in (text, text.replace("\n", "\r\n")):
                for mark in ("", "\ufeff"):
                    with self.subTest(front=front, mark=mark):
                        (self.folder / "model.mps").write_bytes((mark + data).encode())
                        self.assertEqual(self.convert("model.mps"), plain)

    def test_packed_models(self) -> None:
        text = small_mps((1, 0), (1, -1))
        plain = self.convert(self.write("plain.mps", text))
        for suffix, pack in ((".gz", gzip.compress), (".bz2", bz2.compress)):
            (self.folder / f"model.mps{suffix}").write_bytes(pack(text.encode()))
            self.assertEqual(self.convert(f"model.mps{suffix}"), plain)
        (self.folder / "bad.mps.bz2").write_bytes(bz2.compress(text.encode())[:-9])
        line = self.refusal("model_to_matrix", "bad.mps.bz2", "matrix", "names")
        self.assertEqual(line, "bad.mps.bz2: no model, it cannot be unpacked by bunzip2")

    def test_lazy_rows_in_mps(self) -> None:
        """They follow the others, and are rows unchanged."""
        text = small_mps((1, 0), (1, -1))
        plain = self.convert(self.write("plain.mps", text))
        for section in ("LAZYCONS", "USERCUTS\nLAZYCONS"):
            lazy = self.write("lazy.mps", text.replace(" L second", f"{section}\n L second"))
            self.assertEqual(self.convert(lazy), plain)

    def test_a_column_with_the_name_of_a_kind_of_bound(self) -> None:
        plain = self.convert(self.write("plain.mps", small_mps((1, 0), (1, -1))))[0]
        self.assertEqual(
            self.convert(self.write("named.mps", small_mps((1, 0), (1, -1)).replace("x1", "SC")))[0], plain
        )

    @needs_glpsol
    def test_what_solvers_write_in_lp(self) -> None:
        self.write("plain.lp", "maximize\n o: x + z\nsubject to\n a: x - y <= 1\n b: x + z >= 1\n c: y + z <= 3\nend\n")
        plain = self.convert("plain.lp")
        for name, text in SOLVERS.items():
            with self.subTest(name=name):
                matrix, names, _ = self.convert(self.write(name, text))
                self.assertEqual(self.entries(matrix, names), self.entries(*plain[:2]))

    @needs_glpsol
    def test_ranges_in_lp(self) -> None:
        """The left side of a range is removed; numbers in names, rows without names and rows that are not ranges remain."""
        rows = "-1<=x2-y<=1\n x2 <= 3\n y >= 1\n 0 <= x2\n + y <= 4\n c4: x2 - y >= -1e3\n -inf < y + z < 2.5\n"
        matrix, names, _ = self.convert(self.write("ranges.lp", f"min\n x2 + z\nst\n {rows}end\n"))
        self.assertEqual(matrix.split("\n", 1)[0], "6 3 10")
        self.assertIn("r5 c4\n", names)

    def entries(self, matrix, names):
        """The entries by names, so that the order of the lines does not count."""
        named = dict(line.split(" ") for line in names.splitlines())
        triples = (line.split() for line in matrix.splitlines()[1:])
        return sorted((named[f"r{row}"], named[f"c{column}"], value) for row, column, value in triples)

    @needs_glpsol
    def test_formats_by_content(self) -> None:
        for source in ("maxflow.mod", "shifts.lp", "assignment.mps"):
            plain = self.convert(EXAMPLES / source)
            for name in ("model.txt", "model", "model.dat"):
                self.assertEqual(self.convert(self.write(name, (EXAMPLES / source).read_text())), plain)
            marked = self.write(source, "\ufeff" + (EXAMPLES / source).read_text())
            self.assertEqual(self.convert(marked), plain)

    def test_names_in_another_encoding(self) -> None:
        (self.folder / "latin.mps").write_bytes(small_mps((1, 1)).replace("x1", "gr\xfcn").encode("latin-1"))
        self.output("model_to_matrix", "latin.mps", "matrix", "names")
        self.assertEqual((self.folder / "names").read_bytes(), b"r1 first\nr2 second\nc1 gr\xfcn\n")

    def test_the_largest_model(self) -> None:
        matrix, names, _ = self.convert(self.write("large.mps", free_mps(1000, 1000)))
        self.assertTrue(matrix.startswith("1000 1000 1000\n1 1 1\n2 2 1\n"))
        self.assertTrue(names.endswith("c1000 column999\n"))

    def test_a_model_without_columns(self) -> None:
        matrix, names, _ = self.convert(self.write("rows.mps", free_mps(2, 0)))
        self.assertEqual((matrix, names), ("2 0 0\n", "r1 row0\nr2 row1\n"))

    @needs_glpsol
    def test_mathprog(self) -> None:
        matrix, names, _ = self.convert(EXAMPLES / "maxflow.mod")
        self.assertTrue(matrix.startswith("5 8 16\n1 1 -1\n1 2 -1\n1 8 1\n"))
        self.assertTrue(names.startswith("r1 balance[spring]\n"))
        self.assertTrue(names.endswith("c7 flow[lake,town]\nc8 total\n"))

    @needs_glpsol
    def test_mathprog_with_its_data_in_a_second_file(self) -> None:
        model = (EXAMPLES / "maxflow.mod").read_text()
        self.write("flow.mod", model.split("data;")[0])
        self.write("flow.dat", f"data;{model.split('data;')[1]}")
        printed = self.convert("flow.mod", "--data", "flow.dat")
        self.assertEqual(printed, self.convert(EXAMPLES / "maxflow.mod"))
        model = self.write("m.mps", small_mps((1, 1)))
        line = self.refusal("model_to_matrix", "--data", "flow.dat", model, "a", "b")
        self.assertEqual(line, "m.mps: --data goes with a model in GNU MathProg, and this is mps")

    @needs_glpsol
    def test_lp_and_a_format_that_is_told(self) -> None:
        matrix, names, _ = self.convert(EXAMPLES / "shifts.lp")
        self.assertTrue(matrix.startswith("10 14 "))
        self.assertIn("c11 inspect_1\n", names)
        other = self.write("shifts.txt", (EXAMPLES / "shifts.lp").read_text())
        self.assertEqual(self.convert(other, "--format", "lp"), (matrix, names, ""))


@needs_python
@needs_swiglpk
class Refusals(ScriptTest):
    def refused(self, model, *words, **settings):
        line = self.refusal("model_to_matrix", *words, model, "matrix", "names", **settings)
        self.assertFalse((self.folder / "matrix").exists() or (self.folder / "names").exists())
        return line

    def test_files_that_are_no_models(self) -> None:
        for text, line in [
            ("", "no model, line 1: unexpected end of file"),
            ("2 2\n1 0\n0 1\n", "no model, line 1: invalid indicator record"),
            (small_mps((1, 1)).replace("x1 first", "x1 third"), "no model, line 7: row 'third' not found"),
            (
                BLANKS.replace("DAY 1             -1.0", "DAY 3             -1.0"),
                "no model, line 10: row 'DAY3' not found",
            ),
        ]:
            with self.subTest(line=line):
                self.assertEqual(self.refused(self.write("bad.mps", text)), f"bad.mps: {line}")

    def test_files_that_cannot_be_read(self) -> None:
        self.assertEqual(self.refused("none.mps"), "cannot read none.mps: No such file or directory")
        self.assertEqual(self.refused("none.lp"), "cannot read none.lp: No such file or directory")
        self.assertEqual(self.refused("."), "cannot read .: Is a directory")

    def test_models_without_rows(self) -> None:
        objective = "NAME none\nROWS\n N cost\nCOLUMNS\n x cost 1\nRHS\nENDATA\n"
        self.assertEqual(self.refused(self.write("bad.mps", objective)), "bad.mps: there are no rows")
        small = self.write("small.mps", small_mps((1, 1)))
        self.assertEqual(self.refused(small, "--rows", "third"), "small.mps: there is no row whose name fits")
        self.assertEqual(self.refused(small, "--without", "."), "small.mps: there is no row whose name fits")
        large = self.write("large.mps", small_mps((2, 3)))
        line = "large.mps: there is no row with only the coefficients -1, 0 and 1"
        self.assertEqual(self.refused(large, "--unit-rows"), line)

    def test_coefficients_that_are_no_whole_numbers(self) -> None:
        model = self.write("bad.mps", small_mps((1, 1), (1, 0.5)))
        line = "bad.mps: row second, column x2: the coefficient 0.5 is no integer"
        families = [("1", "1", "1", "second"), ("1", "0", "0", "first")]
        self.assertEqual(self.refused_with_families("model_to_matrix", model, "a", "b"), (line, families))
        line = "bad.mps: row second, column x1: the divided coefficient 2 is none of -1, 0 and 1"
        self.assertEqual(self.refused_with_families("model_to_matrix", "--scale", model, "a", "b"), (line, families))

    def test_coefficients_other_than_minus_one_zero_and_one(self) -> None:
        model = self.write("bad.mps", small_mps((1, 1), (1, -4), (2, 6)))
        line = "bad.mps: row first, column x3: the coefficient 2 is none of -1, 0 and 1"
        families = [("1", "1", "1", "first"), ("1", "1", "2", "second")]
        self.assertEqual(self.refused_with_families("model_to_matrix", model, "a", "b"), (line, families))
        model = self.write("bad.mps", small_mps((1, 2), (1, 4)))
        line = "bad.mps: row second, column x2: the divided coefficient 2 is none of -1, 0 and 1"
        self.assertEqual(self.refused_with_families("model_to_matrix", "--scale", model, "a", "b")[0], line)

    def test_families_of_rows(self) -> None:
        rows = [f"cap[{number},a]" for number in range(3)] + [f"link_{number}" for number in range(4)] + ["total"]
        lines = ["NAME families", "ROWS", *(f" L {row}" for row in rows), "COLUMNS"]
        lines += [f" x{number} {row} {3 if row[:3] == 'cap' else 1}" for number in range(2) for row in rows]
        model = self.write("families.mps", "\n".join([*lines, "RHS", "ENDATA", ""]))
        _, families = self.refused_with_families("model_to_matrix", model, "a", "b")
        self.assertEqual(families, [("3", "3", "6", "cap[..]"), ("4", "0", "0", "link_#"), ("1", "0", "0", "total")])

    def test_too_many_lines(self) -> None:
        for rows, columns, line in [(1001, 1, "1001 rows"), (1, 1001, "1001 columns")]:
            model = self.write("bad.mps", free_mps(rows, columns))
            said = f"bad.mps: there are {line}, and a matrix may have at most 1000"
            self.assertEqual(self.refused(model), f"{said} (--reduce removes reducible lines; cmr-model looks for rows that can be kept)")

    def test_too_many_lines_after_the_reductions(self) -> None:
        """Rows i and i + 1 share a column, in a cycle of odd length with two cycles that cross it: no line can be removed."""
        lines = ["NAME cycles", "ROWS", *(f" L r{row}" for row in range(1101)), "COLUMNS"]
        lines += [f" c{row}_{step} r{row} 1 r{(row + step) % 1101} 1" for row in range(1101) for step in (1, 7)]
        model = self.write("bad.mps", "\n".join([*lines, "RHS", "ENDATA", ""]))
        said = (
            "bad.mps: there are 1101 rows, and a matrix may have at most 1000 (reduced by 0, 1101x2202 is left; "
            "cmr-model looks for rows that can be kept)"
        )
        self.assertEqual(self.refused(model, "--reduce", "list"), said)
        self.assertFalse((self.folder / "list").exists())

    def test_constraints_that_are_no_rows(self) -> None:
        for section in ("SOS1", "INDICATORS", "QCMATRIX first"):
            text = small_mps((1, 1)).replace("RHS", f"{section}\n x\nRHS")
            line = f"constraints of the section {section.split()[0]} are no rows of a matrix"
            self.assertEqual(self.refused(self.write("bad.mps", text)), f"bad.mps: no linear model, line 8: {line}")
        self.write("bad.lp", "Minimize\n x\nSubject To\n a: x >= 1\nSOS\n s: S1:: x:1\nEnd\n")
        line = "bad.lp: no linear model, line 5: constraints of this section are no rows of a matrix"
        self.assertEqual(self.refused("bad.lp"), line)
        for row, kind in (("r: z = 1 -> x + y >= 2", "an indicator"), ("r: x + [ y ^2 ] <= 1", "a quadratic")):
            self.write("bad.lp", f"Minimize\n x\nSubject To\n a: x >= 1\n {row}\nEnd\n")
            said = f"bad.lp: no linear model, line 5: {kind} constraint is no row of a matrix"
            self.assertEqual(self.refused("bad.lp"), said)
        self.write("solve.lp", "/* lp_solve */\nmax: 3x+2y;\nc1: x+y<=4;\n")
        self.assertIn("LP format of lp_solve", self.refused("solve.lp"))

    @needs_glpsol
    def test_texts_in_other_formats(self) -> None:
        model = self.write("bad.mod", "var x >>= 0;\nend;\n")
        self.assertEqual(self.refused(model), "bad.mod: no model, line 1: syntax error in variable statement")
        model = self.write("bad.lp", "hello\n")
        self.assertEqual(self.refused(model), "bad.lp: no model, line 1: 'minimize' or 'maximize' keyword missing")

    def test_tools_that_are_missing(self) -> None:
        model = self.write("model.lp", "")
        line = self.refused(model, env={"PATH": ""})
        said = "reading model.lp needs the command glpsol: `apt-get install glpk-utils` on Debian; pip has no package of it"
        self.assertEqual(line, said)
        self.write("swiglpk.py", "raise ImportError\n")
        model = self.write("model.mps", small_mps((1, 1)))
        line = self.refused(model, env=os.environ | {"PYTHONPATH": str(self.folder)})
        needed = "`apt-get install python3-swiglpk` on Debian, elsewhere `pip install swiglpk`"
        self.assertEqual(line, f"reading a model needs swiglpk: {needed}")

    def test_files_that_cannot_be_written(self) -> None:
        line = self.refusal("model_to_matrix", EXAMPLES / "assignment.mps", "none/matrix", "names")
        self.assertEqual(line, "cannot write none/matrix: No such file or directory")

    def test_a_pattern_that_is_none(self) -> None:
        run = self.run_script("model_to_matrix", "--rows", "(", "model.mps", "matrix", "names")
        self.assertEqual(run.returncode, 2)
        self.assertIn("is no regular expression", run.stderr)


if __name__ == "__main__":
    unittest.main()
