"""The words of a report: families of rows with automatic names, and the plainest reason."""

from __future__ import annotations

import json
import unittest
from html import unescape

from cmr_matrices import model_report
from cmr_matrices.models.linear_models import Coefficient, Ends, Model
from cmr_matrices.reporting.patterns import row_groups
from cmr_matrices.reporting.rows import ModelRows
from tests.reporting.test_model_report import ReportTest
from tests.support import EXAMPLES, needs_command, needs_module, needs_program

PLACES = """Minimize
 cost: x_1_1 + x_1_2 + x_2_1 + x_2_2 + 5 open_1 + 5 open_2
Subject To
 x_1_1 + x_1_2 = 1
 x_2_1 + x_2_2 = 1
 x_1_1 - open_1 <= 0
 x_2_1 - open_1 <= 0
 x_1_2 - open_2 <= 0
 x_2_2 - open_2 <= 0
 x_1_1 + x_2_1 <= 4
 x_1_2 + x_2_2 <= 4
End
"""

CUT = """
set A dimen 2 := {(1,2),(1,3),(2,4),(3,4),(2,5),(3,5),(4,6),(5,6),(3,6)};
var p{1..6} binary; var y{A} >= 0;
minimize c: sum{(i,j) in A} (i+j)*y[i,j];
arc{(i,j) in A}: p[i] - p[j] <= y[i,j];
end;
"""


def model(names: list[str], columns: list[str], rows: list[dict[int, float]], sides: list[Ends]) -> Model:
    found = tuple(Coefficient(row, column, value) for row, line in enumerate(rows) for column, value in line.items())
    return Model(tuple(names), tuple(columns), found, tuple(sides))


class Patterns(unittest.TestCase):
    def groups(self, names: list[str], rows: list[dict[int, float]], sides: list[Ends]) -> dict[str, tuple[int, ...]]:
        given = model(names, ["x[1,a]", "x[1,b]", "x[2,a]", "y3", "y4"], rows, sides)
        return {group.name: group.rows for group in row_groups(given, ModelRows.of(given).entries)}

    def test_signs_senses_and_indexes(self) -> None:
        rows = [{0: 1, 1: 1}, {0: 1, 2: 1}, {0: 1, 3: -1}, {2: 1, 4: -1}, {0: 1, 3: -7}, {3: 1, 4: -1}, {0: 1, 2: 1}]
        sides = [Ends(upper=1), Ends(upper=1), Ends(upper=0), Ends(upper=0), Ends(lower=0), Ends(1, 1), Ends(0, 1)]
        for prefix in ("r.", "c", "C", "_C", "R", "con", "row"):
            names = [f"{prefix}{at}" for at in range(7)]
            self.assertEqual(
                self.groups(names, rows, sides),
                {
                    f"{prefix}#: x[i,..] <=": (0,),
                    f"{prefix}#: x[..,j] <=": (1,),
                    f"{prefix}#: x[..] - y# <=": (2, 3),
                    f"{prefix}#: x[..] - k y# >=": (4,),
                    f"{prefix}#: +- y# =": (5,),
                    f"{prefix}#: x[..,j] in a range": (6,),
                },
            )

    def test_other_names_are_not_divided(self) -> None:
        rows: list[dict[int, float]] = [{0: 1, 1: 1}, {0: 1, 3: -1}]
        sides = [Ends(upper=1), Ends(upper=0)]
        for names in (["limit1", "limit2"], ["a:1", "a:2"], ["cap_1_2", "cap_1_3"]):
            self.assertEqual(len(self.groups(names, rows, sides)), 1)
        # One pattern, and too many.
        self.assertEqual(self.groups(["c1", "c2"], [rows[0]] * 2, [sides[0]] * 2), {"c#": (0, 1)})
        many: list[dict[int, float]] = [{at: 1, other: -1} for at in range(5) for other in range(5) if at != other]
        many_sides = [Ends(at % 2, 1) if at % 3 else Ends(upper=1) for at in range(20)]
        self.assertEqual(set(self.groups([f"c{at}" for at in range(20)], many, many_sides)), {"c#"})


@needs_program
@needs_module("swiglpk")
@needs_command("glpsol")
class Words(ReportTest):
    def test_automatic_names(self) -> None:
        report = model_report(self.write("places.lp", PLACES))
        said = {family.said: family.state for family in report.families}
        self.assertEqual(said["r.6..9 (x_# - open_# <=)"], "kept")
        self.assertEqual(sorted(said.values()), ["kept", "kept", "relaxed"])
        assert report.kept is not None
        self.assertTrue(report.kept.is_largest)
        self.holds(report)
        for text in (report.to_text(), unescape(report.to_html())):
            self.assertIn("r.6..9 (x_# - open_# <=)", text)
            self.assertIn("Automatic names are divided by the pattern of their rows", text)
        for it in json.loads(report.to_json())["commands"]:
            self.assertNotIn("x_#", "".join(it["commands"]))
        self.assertNotIn("Automatic names", model_report(EXAMPLES / "crews.mod").to_html())

    def test_a_name_with_a_colon(self) -> None:
        path = self.write("colon.mps", "NAME\nROWS\n N cost\n L a:1\n L a:b\nCOLUMNS\n x cost 1 a:1 1\n x a:b 2\n y a:b 1\nRHS\nENDATA\n")
        self.assertEqual([family.said for family in model_report(path).families], ["a:1", "a:b"])

    def test_the_plainest_reason(self) -> None:
        """Rows that are differences, apart from unit columns, are named before paths in a tree."""
        difference = "each row is at most a difference of two variables, as in a minimum cut"
        reasons = {
            self.write("cut.mod", CUT): f"apart from variables of one row, {difference}",
            EXAMPLES / "maxflow.mod": "each variable has at most one 1 and one -1, as in a flow",
            EXAMPLES / "assignment.mps": "each variable is in at most two rows, as in a flow, a transport or an assignment",
        }
        for path, said in reasons.items():
            self.assertIn(f": {said}.", model_report(path).to_text())


if __name__ == "__main__":
    unittest.main()
