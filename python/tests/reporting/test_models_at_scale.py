"""Reports of models with more than 1,000 columns, the order of the questions, and which variables have to stay integer."""

from __future__ import annotations

import json
import random
import unittest
from collections.abc import Iterable
from html import unescape
from itertools import combinations
from types import SimpleNamespace
from unittest import mock

from cmr_matrices import Answer, ModelReport, Submatrix, model_report
from cmr_matrices.errors import ProgramFault, TimeLimitReached
from cmr_matrices.matrices.families import family_of
from cmr_matrices.reporting.asking import ModelAsker
from cmr_matrices.reporting.deciding import Decider
from tests.independent import is_unimodular
from tests.reporting.test_model_report import ReportTest, lp_text
from tests.structures.test_structures import tree_paths
from tests.support import needs_command, needs_large, needs_module, needs_program

ASSIGNMENT = """
set W := 1..32; set J := 1..32;
var x{W, J} binary;
minimize c: sum{i in W, j in J} x[i,j];
worker{i in W}: sum{j in J} x[i,j] = 1;
job{j in J}: sum{i in W} x[i,j] = 1;
end;
"""

PLAN = """
set P := 1..3; param T := 5;
var make{P,1..T} >= 0; var stock{P,0..T} >= 0; var late{P,1..T+1} >= 0;
minimize cost: sum{p in P, t in 1..T} (make[p,t] + stock[p,t] + 3*late[p,t]);
balance{p in P, t in 1..T}: stock[p,t-1] + make[p,t] - stock[p,t] + late[p,t+1] - late[p,t] = 5 + (p*t) mod 7;
machine{t in 1..T}: sum{p in P} make[p,t] <= 40;
store{t in 1..T}: sum{p in P} stock[p,t] <= 60;
end;
"""

LOTS = """
set P := 1..2; param T := 4;
var make{P,1..T} >= 0, integer; var stock{P,0..T} >= 0; var setup{P,1..T} binary;
minimize cost: sum{p in P, t in 1..T} (make[p,t] + 30*setup[p,t]);
balance{p in P, t in 1..T}: stock[p,t-1] + make[p,t] - stock[p,t] = DEMAND;
forced{p in P, t in 1..T}: SCALE*make[p,t] <= 100*setup[p,t];
one{t in 1..T}: sum{p in P} setup[p,t] <= 1.5;
end;
"""

PLACES = """
set I := 1..3; set J := 1..4;
var x{I, J} >= 0, integer; var open{I} binary;
minimize c: sum{i in I} open[i];
served{j in J}: sum{i in I} x[i,j] = 1;
from_open{i in I, j in J}: x[i,j] <= open[i];
end;
"""


without_large = mock.patch("cmr_matrices.reporting.asking.large_of", return_value=None)
"""Lets the package find no program `cmr-large`."""


def mps_text(entries: Iterable[tuple[str, str, int]]) -> str:
    """A model in free MPS with these entries, each with its row and its column, one column after another."""
    found = list(entries)
    rows = dict.fromkeys(row for row, _, _ in found)
    lines = ["NAME", "ROWS", " N cost", *(f" L {row}" for row in rows), "COLUMNS"]
    lines += [f" {column} {row} {entry}" for row, column, entry in sorted(found, key=lambda it: it[1])]
    return "\n".join([*lines, "RHS", *(f" RHS {row} 1" for row in rows), "ENDATA", ""])


@needs_program
@needs_module("swiglpk")
@needs_command("glpsol")
class Scale(ReportTest):
    def by_arithmetic(self, report: ModelReport, size: str) -> None:
        self.assertEqual((report.verdict, report.relax), ("yes", ()))
        for text in (report.to_text(), report.to_html()):
            self.assertIn(f"Not proved: the matrix of {size} is decided by arithmetic of this package", text)

    def test_an_assignment_with_1024_columns(self) -> None:
        with without_large:
            report = model_report(self.write("assign.mod", ASSIGNMENT))
        self.by_arithmetic(report, "64x1024")
        self.of_an_assignment(report)

    @needs_large
    def test_the_assignment_is_proved(self) -> None:
        report = model_report(self.write("assign.mod", ASSIGNMENT))
        self.assertEqual((report.verdict, report.asked, report.checked), ("yes", 1, 0))
        self.assertNotIn("Not proved", report.to_text() + report.to_html())
        self.of_an_assignment(report)

    def of_an_assignment(self, report: ModelReport) -> None:
        said = "each variable is in at most one row of worker[..] and one of job[..], as in a transport or an assignment"
        self.assertIn(said, report.to_text())
        self.assertEqual(json.loads(report.to_json())["why"]["class"], "network")

    @needs_large
    def test_parts_of_two_kinds_are_proved(self) -> None:
        """Some parts have two nonzeros in each column and others in each row, so that all together have no structure."""
        pairs = [(f"{kind}{at % count}", at) for at in range(1100) for kind, count in (("a", 3), ("b", 4))]
        entries = [(line, f"x{at}", 1) for line, at in pairs] + [(f"r{at}", line, 1) for line, at in pairs]
        with mock.patch("cmr_matrices.reporting.asking._MANY", 0):
            report = model_report(self.write("kinds.mps", mps_text(entries)), time_limit=100)
        self.assertEqual((report.verdict, report.whole.arithmetic), ("yes", ()))
        self.assertIn("Each connected part of the rest is a network matrix or the transpose of one", report.to_text())
        self.assertNotIn("Not proved", report.to_text())

    def week(self, *, is_turned: bool) -> ModelReport:
        """The report of shifts of consecutive hours, of which each is a variable, or a row."""
        places = [(f"x{at:04}", range(at % 160, at % 160 + 3 + at // 160)) for at in range(1100)]
        intervals = sorted((f"h{hour:04}", column, 1) for column, hours in places for hour in hours)
        entries = [(column, row, entry) for row, column, entry in intervals] if is_turned else intervals
        report = model_report(self.write("week.mps", mps_text(entries)))
        said = "the variables of each row are consecutive" if is_turned else "the rows of each variable are consecutive"
        self.assertIn(said, report.to_text())
        return report

    def test_intervals_in_rows_or_columns(self) -> None:
        with without_large:
            self.by_arithmetic(self.week(is_turned=False), "166x1099")
            self.by_arithmetic(self.week(is_turned=True), "1099x166")

    @needs_large
    def test_intervals_are_proved(self) -> None:
        for is_turned in (False, True):
            report = self.week(is_turned=is_turned)
            self.assertEqual((report.verdict, report.whole.arithmetic), ("yes", ()))
            self.assertNotIn("Not proved", report.to_text())

    def test_an_odd_cycle_of_a_large_model(self) -> None:
        rows = [(f"w{at // 32}", f"x{at}", 1) for at in range(1024)] + [(f"j{at % 32}", f"x{at}", 1) for at in range(1024)]
        rows += [("w0", "y1", 1), ("w1", "y1", 1)]
        report = model_report(self.write("odd.mps", mps_text(rows)))
        assert report.minimal is not None
        self.assertEqual((report.verdict, report.minimal.is_minimal, len(report.minimal.row_names)), ("no", True, 3))
        self.assertEqual(abs(report.minimal.determinant or 0), 2)

    def odd(self, length: int) -> str:
        """A cycle of rows whose entries have the sum 2 modulo 4, beside rows that the program can read."""
        entries = [(f"r{at}", f"x{at}", 1) for at in range(length)] + [(f"r{(at + 1) % length}", f"x{at}", 1) for at in range(length)]
        if length % 2 == 0:
            entries[-1] = (*entries[-1][:2], -1)
        return mps_text([*entries, ("a0", "y0", 1), ("a0", "y1", 1), ("a1", "y0", 1), ("a1", "y1", 1)])

    def test_an_odd_cycle_of_any_length(self) -> None:
        for length in (1203, 1204):
            path = self.write("long.mps", self.odd(length))
            with without_large:
                report = model_report(path, time_limit=100)
            self.of_a_cycle(report, length)
            for text in (report.to_text(), report.to_html()):
                self.assertIn(f"Not proved: an odd cycle of {length} rows, larger than the 1000 rows that the program reads", text)
            told = json.loads(report.to_json())
            self.assertEqual((told["violator"]["entries"], len(told["arithmetic"])), ([], 1))
            self.assertEqual([it for it in told["commands"] if "violator" in it["what"] and it["commands"]], [])

    @needs_large
    def test_an_odd_cycle_of_any_length_is_proved(self) -> None:
        report = model_report(self.write("long.mps", self.odd(1203)), time_limit=100)
        self.of_a_cycle(report, 1203)
        self.assertNotIn("Not proved", report.to_text() + report.to_html())

    def of_a_cycle(self, report: ModelReport, length: int) -> None:
        assert report.minimal is not None
        found = len(report.minimal.row_names), report.minimal.is_minimal, abs(report.minimal.determinant or 0)
        self.assertEqual((report.verdict, found), ("no", (length, True, 2)))

    @needs_large
    def test_arithmetic_has_to_agree_with_the_program(self) -> None:
        """Arithmetic finds a structure, or a long odd cycle, and the program says the opposite."""
        wrong = Answer("totally unimodular", "no", violator=Submatrix((64, 1024), (0,), (0,)))
        with mock.patch.object(Decider, "large", return_value=wrong), self.assertRaises(ProgramFault):
            model_report(self.write("assign.mod", ASSIGNMENT))
        with mock.patch.object(Decider, "large", return_value=Answer("totally unimodular", "yes")), self.assertRaises(ProgramFault):
            model_report(self.write("long.mps", self.odd(1203)), time_limit=100)

    def test_an_odd_cycle_counts_only_after_its_check(self) -> None:
        path = self.write("short.mps", mps_text([(f"r{row}", f"x{row // 2}", 1) for row in range(2100)] + [
            (f"r{row}", f"z{column}", 1) for row, column in ((0, 0), (1, 0), (1, 1), (2, 1), (2, 2), (0, 2))
        ]))
        report = model_report(path)
        self.assertEqual((report.verdict, report.checked > 0), ("no", True))
        self.assertNotIn("Not proved", report.to_text())
        refused = SimpleNamespace(accepted=False, says=None, rule="none")
        with mock.patch("cmr_matrices.reporting.deciding.check", return_value=refused), self.assertRaises(ProgramFault):
            model_report(path)
        with mock.patch("cmr_matrices.reporting.deciding.check", side_effect=TimeLimitReached(1.0)):
            self.assertNotEqual(model_report(path).verdict, "no")

    def test_single_rows_of_a_large_model(self) -> None:
        """Each row of `zone` closes an odd cycle with rows that are kept. Short cycles show it, and no question is large."""
        size = 1200
        entries = [(f"s{at}", f"x{at}a", 1) for at in range(size)] + [(f"s{at}", f"x{at}b", 1) for at in range(size)]
        entries += [(f"d{at}", f"x{at}a", 1) for at in range(size)] + [(f"d{(at + 1) % size}", f"x{at}b", 1) for at in range(size)]
        entries += [(f"zone{at}", f"x{37 * at + shift}a", 1) for at in range(30) for shift in (0, 1, 7)]
        entries += [("free0", "x5a", 1), ("free0", "x5b", 1)]
        report = model_report(self.write("zones.mps", mps_text(entries)), time_limit=100)
        states = {family.name: family.state for family in report.families}
        self.assertEqual(states, {"s#": "kept", "d#": "kept", "zone#": "relaxed", "free#": "kept"})
        self.assertIn("Row by row, none of zone0..29 can be kept.", report.to_text())

    def test_the_whole_matrix_is_asked_again(self) -> None:
        """No question on all rows has time, except after all other steps."""
        cheap, begin = Decider.cheap, ModelAsker.begin
        steps: list[tuple[str, float]] = []

        def noted(self: ModelAsker, what: str, most: int, part: float) -> None:
            steps.append((what, part))
            begin(self, what, most, part)

        for rows, verdict in (([[1, 1, 0], [0, 1, 1]], "yes"), ([[1, 1, 0], [0, 1, 1], [1, 0, 1]], "no")):

            def slow(self: Decider, matrix: object, height: int = len(rows)) -> object:
                if getattr(matrix, "shape")[0] == height and steps[-1] != ("the whole matrix", 1.0):
                    raise TimeLimitReached(1.0)
                return cheap(self, matrix)  # type: ignore[arg-type]

            path = self.write("again.lp", lp_text({f"a{at}b": row for at, row in enumerate(rows)}))
            with mock.patch.object(Decider, "cheap", slow), mock.patch.object(ModelAsker, "begin", noted), mock.patch(
                "cmr_matrices.reporting.asking.structure_of", return_value=None
            ):
                report = model_report(path, time_limit=1000, pivots=0)
            self.assertEqual((report.verdict, report.whole.verdict), (verdict, verdict))
            self.assertNotIn("the whole matrix", report.ended)

    def test_a_tree_of_many_columns(self) -> None:
        """No variable is in two rows only, and none has consecutive rows."""
        chance = random.Random(4)
        entries = tree_paths(chance, 120, 1700)
        named = [(f"r{row}", f"x{column}", entry) for (row, column), entry in sorted(entries.items())]
        report = model_report(self.write("tree.mps", mps_text(named)), time_limit=100)
        self.assertEqual(report.verdict, "yes")
        self.assertIn("each variable is a path in a tree whose arcs are the rows", report.to_text())
        self.assertIn("Not proved: ", report.to_text())

    def test_parts_are_decided_one_by_one(self) -> None:
        """A part of 64x1024, and an example that the program proves."""
        rows = [(f"w{at // 32}", f"x{at:04}", 1) for at in range(1024)] + [(f"j{at % 32}", f"x{at:04}", 1) for at in range(1024)]
        rows += [(f"z{row}", f"y{row}{column}", 1) for row in range(3) for column in range(3)]
        rows += [(f"z{3 + column}", f"y{row}{column}", 1) for row in range(3) for column in range(3)]
        # Three nonzeros in a column, so that the whole matrix has no structure.
        rows += [("z6", "y00", 1), ("z6", "y01", 1), ("z6", "y02", -1), ("z6", "y11", 1), ("z7", "y11", 1), ("z7", "y02", 1)]
        report = model_report(self.write("parts.mps", mps_text(rows)))
        sizes = {piece.constraints.names.shape: piece.structure is not None for piece in report.whole.pieces}
        self.assertTrue(sizes[64, 1024])
        self.assertEqual(sum(sizes.values()), 1)
        self.assertEqual(report.verdict, "no" if report.minimal else "yes")

    def test_undecided_gives_no_advice(self) -> None:
        with mock.patch("cmr_matrices.reporting.asking.structure_of", return_value=None), mock.patch(
            "cmr_matrices.reporting.asking.fitted", return_value=None
        ), without_large:
            report = model_report(self.write("assign.mod", ASSIGNMENT), questions=20)
        self.assertEqual(report.verdict, "undecided")
        self.assertNotIn("Relax ", report.to_text())
        self.assertNotIn('class="relax"', report.to_html())


@needs_program
@needs_module("swiglpk")
@needs_command("glpsol")
class Order(ReportTest):
    def test_a_plan_gets_a_no_and_the_best_relaxation(self) -> None:
        report = model_report(self.write("plan.mod", PLAN), time_limit=100)
        assert report.minimal is not None and report.kept is not None
        self.assertEqual((report.verdict, report.minimal.is_minimal, report.kept.is_largest), ("no", True, True))
        states = {family.name: family.state for family in report.families}
        self.assertEqual((states["balance[..]"], states["machine[..]"]), ("kept", "kept"))
        self.assertNotEqual(states["store[..]"], "kept")

    def test_pivots_come_last(self) -> None:
        """Nothing of the plan needs pivots, so none are made of the whole matrix or of families."""
        with mock.patch.object(Decider, "pivoted", side_effect=TimeLimitReached(1.0)):
            report = model_report(self.write("plan.mod", PLAN))
        self.assertEqual(report.verdict, "no")
        assert report.kept is not None
        self.assertEqual((len(report.kept.blocks), report.kept.is_largest), (2, True))

    def test_a_slow_question_starves_no_other(self) -> None:
        """If the whole matrix takes all of its time, the families are asked all the same."""
        cheap = Decider.cheap

        def slow(self: Decider, matrix: object) -> object:
            if getattr(matrix, "shape")[0] == 25:
                raise TimeLimitReached(1.0)
            return cheap(self, matrix)  # type: ignore[arg-type]

        with mock.patch.object(Decider, "cheap", slow):
            report = model_report(self.write("plan.mod", PLAN), pivots=0)
        self.assertEqual(report.whole.verdict, "undecided")
        self.assertEqual({family.name: family.state for family in report.families}["balance[..]"], "kept")
        self.assertIn("the whole matrix", report.ended)

    def test_a_family_that_is_kept_row_by_row_is_kept(self) -> None:
        """The rows of `b` cannot be asked together, and all can be kept one after another. No line says that this is unknown."""
        rows = {"a(0)": [1, 1, 0, 0], "a(1)": [0, 1, 1, 0], "a(2)": [0, 0, 1, 1], "b(0)": [1, 0, 0, 0], "b(1)": [0, 1, 0, 0]}
        cheap = Decider.cheap
        sizes: list[int] = []

        def left_open(self: Decider, matrix: object) -> object:
            sizes.append(getattr(matrix, "shape")[0])
            if sizes[-1] == 5 and sizes.count(5) < 3:
                raise TimeLimitReached(1.0)
            return cheap(self, matrix)  # type: ignore[arg-type]

        with mock.patch.object(Decider, "cheap", left_open):
            report = model_report(self.write("kept.lp", lp_text(rows)), pivots=0)
        if not report.relaxed:
            self.assertEqual({(family.state, family.is_open) for family in report.families}, {("kept", False)})
        self.assertNotIn("keep     b(0..1): not known", report.to_text())

    def test_a_violator_of_rows_closes_a_set_of_families(self) -> None:
        """The whole matrix is left open, and so is the set of all families. A violator that the search of rows finds excludes it."""
        cheap = Decider.cheap

        def left_open(self: Decider, matrix: object) -> object:
            if getattr(matrix, "shape")[0] == 25:
                raise TimeLimitReached(1.0)
            return cheap(self, matrix)  # type: ignore[arg-type]

        with mock.patch.object(Decider, "cheap", left_open):
            report = model_report(self.write("plan.mod", PLAN), pivots=0, time_limit=1000)
        assert report.kept is not None
        self.assertTrue(report.kept.is_largest)
        self.assertIn("No other choice of families keeps more rows", report.to_text())

    def test_a_limit_by_the_clock(self) -> None:
        report = model_report(self.write("plan.mod", PLAN), clock_limit=0)
        self.assertEqual((report.verdict, set(report.ended.values())), ("undecided", {"time"}))
        self.assertIn("The time limit of 0 seconds by the clock ended these steps", report.to_text())
        self.assertEqual(model_report(self.write("plan.mod", PLAN), clock_limit=1000).verdict, "no")

    def test_reductions_in_plain_words(self) -> None:
        rows = {"a": [1, 1, 0, 1], "b": [0, 1, 1, 0], "c": [1, 0, 1, 0]}
        text = model_report(self.write("one.lp", lp_text(rows))).to_text()
        self.assertIn("  1 of 4 columns is reducible, so it changes no verdict (1 with one nonzero): 3 rows and 3 columns are left.", text)


@needs_program
@needs_module("swiglpk")
@needs_command("glpsol")
class Integers(ReportTest):
    def lots(self, demand: str = "5", scale: str = "1") -> ModelReport:
        text = LOTS.replace("DEMAND", demand).replace("SCALE", scale)
        return model_report(self.write("lots.mod", text), time_limit=100)

    def test_lot_sizing(self) -> None:
        report = self.lots()
        found = report.integers
        assert found is not None
        names = report.rows.model.columns
        self.assertEqual({family_of(names[column]) for column in found.fixed}, {"setup[..]"})
        self.assertEqual({family_of(names[column]) for column in found.free}, {"make[..]"})
        self.assertEqual((found.is_declared, found.is_smallest, found.not_whole), (True, True, ()))
        for text in (report.to_text(), report.to_html()):
            self.assertIn("Declare only setup[..] as integer (8 variables); make[..] can be continuous (8 variables).", text)
            self.assertIn("For each integral value of the 8 variables, all vertices of the linear program in the other variables are", text)
        told = json.loads(report.to_json())["integers"]
        self.assertEqual(told["declare"], [name for name in names if name.startswith("setup")])
        self.assertEqual(told["continuous"], [name for name in names if name.startswith("make")])

    def test_sides_count_only_in_rows_of_other_variables(self) -> None:
        """The side 1.5 of `one` is in rows of fixed variables only. A demand of 5.5 is in rows of the others."""
        report = self.lots("5.5")
        found = report.integers
        assert found is not None
        self.assertIn("make[..] can be continuous (8 variables), if the right-hand sides and bounds are integers.", report.to_text())
        self.assertEqual({it.name.partition("[")[0] for it in found.not_whole}, {"balance"})
        # 3 make <= 100 setup: after the division by 1 the coefficient of `make` is 3, so `make` has to stay integer.
        found = self.lots(scale="3").integers
        assert found is not None
        self.assertEqual((found.suffices, len(found.fixed), found.free), (True, 16, ()))
        # 50 make <= 100 setup is divided by 50, and 2 is an integer.
        found = self.lots(scale="50").integers
        assert found is not None
        self.assertEqual((found.not_whole, len(found.fixed)), ((), 8))

    def test_places_to_open(self) -> None:
        report = model_report(self.write("places.mod", PLACES), time_limit=100)
        found = report.integers
        assert found is not None
        self.assertEqual([report.rows.model.columns[column] for column in found.fixed], ["open[1]", "open[2]", "open[3]"])

    def test_the_declared_variables_suffice(self) -> None:
        """Only `open` is declared, and it cannot be continuous. The columns of the others are unit columns and negatives of them."""
        text = PLACES.replace("var x{I, J} >= 0, integer;", "var x{I, J} >= 0;")
        report = model_report(self.write("places.mod", text), time_limit=100)
        found, names = report.integers, report.rows.model.columns
        assert found is not None and found.answer is not None and found.reason is not None
        self.assertEqual((found.suffices, found.is_smallest, found.free), (True, True, ()))
        self.assertEqual([names[column] for column in found.fixed], ["open[1]", "open[2]", "open[3]"])
        for shown in (report.to_text(), unescape(report.to_html())):
            self.assertIn("Only open[1..3] is declared as integer (3 variables), and that suffices.", shown)
            self.assertIn("For each integral value of the 3 variables, all vertices of the linear program in the other variables", shown)
        told = json.loads(report.to_json())
        self.assertEqual((told["integers"]["suffices"], told["integers"]["continuous"]), (True, []))
        repeated = [it for it in told["commands"] if it["what"] == "the columns of the continuous variables"]
        self.assertEqual([it["says"] for it in repeated], ["accepted: yes"])
        self.assertIn("--without-columns", repeated[0]["commands"][0])

    def test_continuous_variables_with_a_violator(self) -> None:
        rows = {"a": [1, 1, 0, 1], "b": [0, 1, 1, 0], "c": [1, 0, 1, 0]}
        text = lp_text(rows).replace("General\n x0 x1 x2 x3", "General\n x3")
        found = model_report(self.write("odd.lp", text)).integers
        assert found is not None
        self.assertEqual((found.answer, found.suffices, found.is_declared), (None, False, True))

    def test_an_objective_that_is_not_linear_is_said_beside_the_variables(self) -> None:
        """An optimum need not be at a vertex, so the other variables need not be integers there."""
        text = "Minimize\n x + [ x ^2 ] / 2\nSubject To\n a: 3 s + x + y <= 7\n b: y <= 3\nGeneral\n s x y\nEnd\n"
        report = model_report(self.write("curved.lp", text))
        said = report.to_text().partition("Which variables have to stay integer:")[2]
        self.assertIn("Declare only s as integer", said)
        self.assertIn("The model has an objective that is not linear", said)

    def test_a_continuous_variable_with_another_coefficient(self) -> None:
        text = "Minimize\n x + y\nSubject To\n a: 2 x + 3 y <= 7\n b: x + z <= 3\nGeneral\n y z\nEnd\n"
        report = model_report(self.write("blocked.lp", text))
        self.assertIn("No answer by this rule: the continuous variable x has a coefficient other than -1, 0 and 1.", report.to_text())

    def test_random_models(self) -> None:
        """What is said of the variables holds by definition, and no choice of families leaves fewer."""
        chance = random.Random(11)
        said = 0
        for number in range(60):
            columns = [f"{family}({at})" for family in "xyz"[: chance.randint(2, 3)] for at in range(chance.randint(1, 2))]
            entries = [[chance.choice((0, 0, 1, 1, -1, 2)) for _ in columns] for _ in range(chance.randint(2, 5))]
            terms = [" ".join(f"{entry:+d} {name}" for entry, name in zip(row, columns) if entry) for row in entries]
            lines = [f" r{at}: {row} <= 4" for at, row in enumerate(terms) if row]
            if not lines:
                continue
            whole = columns if chance.random() < 0.5 else []
            general = ["General", f" {' '.join(whole)}"] if whole else []
            text = "\n".join(["Minimize", f" cost: {' + '.join(columns)}", "Subject To", *lines, *general, "End", ""])
            report = model_report(self.write(f"m{number}.lp", text))
            if report.integers is None:
                continue
            with self.subTest(number=number):
                said += self.holds_of_variables(report)
        self.assertGreater(said, 10)

    def holds_of_variables(self, report: ModelReport) -> bool:
        found, model = report.integers, report.rows.model
        assert found is not None
        entries = {(row, column): entry for row, line in report.rows.entries.items() for column, entry in line}

        def is_kept(columns: list[int]) -> bool:
            part = [[entries.get((row, column), 0) for column in columns] for row in range(len(model.rows))]
            return all(abs(it) <= 1 for row in part for it in row) and is_unimodular([[int(it) for it in row] for row in part])

        large = {column for (_, column), entry in entries.items() if abs(entry) != 1}
        blocks: dict[str, list[int]] = {}
        for column, name in enumerate(model.columns):
            if column not in large:
                blocks.setdefault(family_of(name), []).append(column)
        sets = [sum(some, []) for size in range(1, len(blocks) + 1) for some in combinations(blocks.values(), size)]
        best = max((len(columns) for columns in sets if is_kept(columns)), default=0)
        free = [] if found.answer is None else list(found.free)
        self.assertEqual(len(free), best)
        if free:
            self.assertTrue(is_kept(free))
            self.assertTrue(all(entry.denominator == 1 for entry in entries.values()))
        return bool(free)


if __name__ == "__main__":
    unittest.main()
