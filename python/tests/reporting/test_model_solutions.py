"""The kept and the relaxed part of a model in MPS, and what GLPK finds of its linear program."""

from __future__ import annotations

import json
import subprocess
import unittest
from unittest import mock

from cmr_matrices import BadInput, model_report
from cmr_matrices.errors import TimeLimitReached
from cmr_matrices.models.linear_models import Objective, read_model
from tests.reporting.test_model_report import ReportTest, lp_text
from tests.support import EXAMPLES, needs_command, needs_module, needs_program

KNAPSACK = "ROWS" + (EXAMPLES / "knapsack.mps").read_text(encoding="utf-8").partition("\nROWS")[2]
MOST = "NAME\nOBJSENSE\n    MAX\n"


@needs_program
@needs_module("swiglpk")
@needs_command("glpsol")
class Parts(ReportTest):
    def test_kept_and_relaxed_rows_make_the_model(self) -> None:
        report = model_report(EXAMPLES / "crews.mod")
        whole = report.rows.model
        parts = {}
        for rows in ("kept", "relaxed"):
            path = self.write(f"{rows}.mps", report.to_mps(rows))  # type: ignore[arg-type]
            parts[rows] = read_model(str(path), None)
            self.assertEqual(parts[rows].columns, whole.columns)
            self.assertEqual((parts[rows].bounds, parts[rows].whole), (whole.bounds, whole.whole))
            self.assertEqual(parts[rows].objective, whole.objective)
        self.assertEqual(parts["relaxed"].rows, report.relax)
        self.assertEqual({*parts["kept"].rows, *report.relax}, set(whole.rows))
        sides = dict(zip(whole.rows, whole.sides))
        for part in parts.values():
            self.assertEqual({row: sides[row] for row in part.rows}, dict(zip(part.rows, part.sides)))
        count = sum(len(part.coefficients) for part in parts.values())
        self.assertEqual(count, len(whole.coefficients))
        self.assertEqual(model_report(self.folder / "kept.mps").verdict, "yes")
        with self.assertRaises(BadInput):
            report.to_mps("others")  # type: ignore[arg-type]

    def test_the_bound_of_the_kept_model_is_that_of_glpsol(self) -> None:
        report = model_report(EXAMPLES / "crews.mod")
        path = self.write("kept.mps", report.to_mps("kept"))
        words = ["glpsol", "--freemps", str(path), "--nomip", "-o", str(self.folder / "kept.sol")]
        self.assertEqual(subprocess.run(words, capture_output=True, check=False).returncode, 0)
        kept = model_report(path)
        assert kept.solved is not None
        self.assertIn(f"cost = {kept.solved.value:.0f}", (self.folder / "kept.sol").read_text(encoding="utf-8"))

    def test_a_yes_keeps_all_rows(self) -> None:
        report = model_report(EXAMPLES / "assignment.mps")
        self.assertEqual(report.to_mps("kept"), report.to_mps())
        model = read_model(str(self.write("none.mps", report.to_mps("relaxed"))), None)
        self.assertEqual((model.rows, model.columns), ((), report.rows.model.columns))


@needs_program
@needs_module("swiglpk")
@needs_command("glpsol")
class Objectives(ReportTest):
    def test_the_direction_of_an_objective(self) -> None:
        text = "var x >= 0; var y >= 0, integer;\n{} profit: 3*x - 2*y + 7;\na: x + y <= 4;\nend;\n"
        for word, is_maximised in (("maximize", True), ("minimize", False)):
            path = self.write(f"{word}.mod", text.format(word))
            self.assertEqual(read_model(str(path), None).objective, Objective(((0, 3.0), (1, -2.0)), is_maximised))
            lp = self.write(f"{word}.lp", f"{word}\n p: 3 x - 2 y\nSubject To\n a: x + y <= 4\nEnd\n")
            self.assertEqual(read_model(str(lp), None).objective, Objective(((0, 3.0), (1, -2.0)), is_maximised))
        report = model_report(self.folder / "maximize.mod")
        self.assertEqual(report.to_mps().splitlines()[0], "* The objective is negated: the model maximises it.")
        negated = read_model(str(self.write("again.mps", report.to_mps())), None).objective
        self.assertEqual(negated, Objective(((0, -3.0), (1, 2.0))))

    def test_sections_of_mps_on_the_objective(self) -> None:
        texts = {"NAME\n": False, MOST: True, "NAME\nOBJSENSE MAX\n": True, "NAME\nOBJSENSE\n    MIN\n": False}
        texts |= {"NAME\nOBJSENSE\nMAXIMIZE\n* least\n": True, "NAME\n* OBJSENSE MAX\n": False}
        for head, is_maximised in texts.items():
            objective = read_model(str(self.write("k.mps", head + KNAPSACK)), None).objective
            assert objective is not None
            self.assertEqual(objective.is_maximised, is_maximised, head)
        self.assertIsNone(read_model(str(self.write("k.mps", f"NAME\nOBJNAME\n    value\n{KNAPSACK}")), None).objective)

    def test_an_objective_that_is_not_linear(self) -> None:
        text = "Minimize\n x + [ x ^2 ] / 2\nSubject To\n c: x + y <= 3\nEnd\n"
        report = model_report(self.write("curved.lp", text))
        self.assertEqual((report.rows.model.objective, report.solved), (None, None))
        self.assertIn("* Without an objective that is not linear.", report.to_mps())


@needs_program
@needs_module("swiglpk")
@needs_command("glpsol")
class Solutions(ReportTest):
    def test_a_vertex_that_is_not_integral(self) -> None:
        """The example of docs/FROM_A_MODEL.md, in which glpsol prints the same values."""
        path = self.write("most.mps", MOST + KNAPSACK)
        report = model_report(path)
        found = report.solved
        assert found is not None
        self.assertEqual((found.state, found.value, found.best, found.is_best), ("optimal", 20, 17, True))
        said = (
            "For this objective and these right-hand sides only, GLPK's optimal vertex has the value 20 and is not integral: tent = 0.5, "
            "tarp = 0.5 and hammock = 0.5. The best integral value is 17, a gap of 3."
        )
        self.assertIn(said, report.to_text())
        self.assertIn("has the value 20 and is not integral", report.to_html())
        told = json.loads(report.to_json())["solved"]
        self.assertEqual((told["fractional"], told["best"]), ({"tent": 0.5, "tarp": 0.5, "hammock": 0.5}, 17))

    def test_it_does_not_decide_the_verdict(self) -> None:
        report = model_report(EXAMPLES / "crews.mod")
        assert report.solved is not None
        self.assertEqual((report.verdict, report.solved.fractional), ("no", ()))
        without = model_report(EXAMPLES / "crews.mod", solve=False)
        self.assertIsNone(without.solved)
        self.assertNotIn("GLPK's optimal vertex", without.to_text())
        lines = [line for line in report.to_text().splitlines() if "GLPK's optimal vertex" not in line]
        self.assertEqual(lines, without.to_text().splitlines())

    def test_other_states(self) -> None:
        texts = {
            "infeasible": "Minimize\n x\nSubject To\n a: x + y <= 3\n b: x + y >= 4\nEnd\n",
            "unbounded": "Maximize\n x\nSubject To\n a: x - y <= 3\nEnd\n",
        }
        for state, text in texts.items():
            report = model_report(self.write(f"{state}.lp", text))
            assert report.solved is not None
            self.assertEqual((report.solved.state, report.solved.value), (state, None))
            self.assertIn(f"GLPK says that the linear program of this model is {state}.", report.to_text())
        text = "Minimize\n x\nSubject To\n a: 2 x + 2 y = 3\nBounds\n x <= 1\n y <= 1\nGeneral\n x y\nEnd\n"
        self.assertIn("There is no integral solution.", model_report(self.write("none.lp", text)).to_text())

    @needs_module("pulp")
    def test_the_objective_of_pulp(self) -> None:
        import pulp

        problem = pulp.LpProblem("most", pulp.LpMaximize)
        x = [pulp.LpVariable(f"x{at}", 0, 1, cat="Integer") for at in range(3)]
        problem += x[0] + 2 * x[1] + x[2]
        for at in range(3):
            problem += x[at] + x[(at + 1) % 3] <= 1, f"pair{at}"
        report = model_report(problem)
        assert report.solved is not None
        self.assertEqual((report.solved.value, report.solved.fractional), (2, ()))
        self.assertEqual(report.rows.model.objective, Objective(((0, 1.0), (1, 2.0), (2, 1.0)), True))

    def test_only_integer_variables_count(self) -> None:
        text = "Minimize\n x + y\nSubject To\n a: x + y >= 2.5\n b: y <= 1\nGeneral\n y\nEnd\n"
        self.assertIn("is integral in the integer variables.", model_report(self.write("part.lp", text)).to_text())

    def test_a_time_that_is_over_is_said(self) -> None:
        path = self.write("one.lp", lp_text({"a": [1, 1]}))
        with mock.patch("cmr_matrices.reporting.report.solved", side_effect=TimeLimitReached(1.0)):
            report = model_report(path, time_limit=8)
        self.assertEqual((report.solved, report.ended), (None, {"the linear program with its objective": "time"}))


if __name__ == "__main__":
    unittest.main()
