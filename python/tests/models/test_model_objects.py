"""Models in memory: what PuLP, Pyomo, linopy and scipy keep, as models and as reports."""

from __future__ import annotations

import json
import sys
import tempfile
import unittest
from math import inf, nan
from pathlib import Path
from types import ModuleType, SimpleNamespace
from typing import Any
from unittest import mock

from cmr_matrices import BadInput, LibraryMissing, Model, from_pulp, from_pyomo, model_report, scipy_model
from cmr_matrices.models.linear_models import Ends, read_model
from cmr_matrices.models.model_objects import model_of
from cmr_matrices.models.mps import model_text
from tests.support import needs_module, needs_program

FREE = Ends()
TRIANGLE = [[1, 1, 0], [0, 1, 1], [1, 0, 1]]


def triangle() -> Any:
    """A model of PuLP with a violator, an even row, a fractional side and a fractional bound."""
    import pulp

    problem = pulp.LpProblem("crew/plan")
    x = [pulp.LpVariable(f"x({at})", 0, 3.5, cat="Integer") for at in range(3)]
    problem += x[0] + x[1] <= 2.5, "a(1)"
    problem += 2 * x[1] + 2 * x[2] >= 4, "a(2)"
    problem += x[0] + x[2] == 1, "b"
    return problem


class Texts(unittest.TestCase):
    """What is written in MPS is read as it was."""

    def same(self, model: Model) -> None:
        with tempfile.TemporaryDirectory() as folder:
            path = Path(folder, "model.mps")
            path.write_text(model_text(model), encoding="utf-8")
            self.assertEqual(read_model(str(path), None), model)

    @needs_module("swiglpk")
    def test_sides_bounds_and_integers(self) -> None:
        bounds = [(0, 1), (None, None), (-1, None), (None, 2.5), (3, 3)]
        upper, equal = [[1, 1, 0, 0, 0], [0, 1, 1, 0.5, 0]], [[1, 0, 0, -1, 2]]
        self.same(scipy_model(upper, [1, 2.5], equal, [1], bounds, [1, 0, 1, 0, 1]))

    @needs_module("swiglpk")
    def test_ranges_and_a_row_that_is_called_cost(self) -> None:
        rows = SimpleNamespace(A=[[1, 1], [1, 0], [0, 1]], lb=[1, -inf, 2], ub=[3, 4, inf])
        model = model_of(rows)
        self.assertEqual(model.sides, (Ends(1, 3), Ends(upper=4), Ends(lower=2)))
        self.same(model)
        self.same(Model(("cost", "cost_"), model.columns, model.coefficients[:2], (Ends(upper=1),) * 2, model.bounds, model.whole))


class Scipy(unittest.TestCase):
    def test_arguments_of_linprog(self) -> None:
        model = scipy_model([[1, 1]], [4], [[1, -1]], [0], bounds=(0, 9), integrality=1)
        self.assertEqual((model.rows, model.columns), (("ub0", "eq0"), ("x0", "x1")))
        self.assertEqual(model.sides, (Ends(upper=4), Ends(0, 0)))
        self.assertEqual((model.bounds, model.whole), ((Ends(0, 9),) * 2, (True, True)))
        self.assertEqual(scipy_model([[1]]).sides, ())
        self.assertEqual(scipy_model([[1]], [1]).bounds, (Ends(lower=0),))

    @needs_module("scipy")
    def test_constraints_of_milp(self) -> None:
        from scipy.optimize import Bounds, LinearConstraint

        one = LinearConstraint([[1, 1], [0, 1], [1, 0]], [-inf, -inf, 0], [1, inf, 2])
        model = model_of(one)
        self.assertEqual((model.rows, model.sides), (("con[0]", "con[2]"), (Ends(upper=1), Ends(0, 2))))
        self.assertEqual(model_of([one, LinearConstraint([1, -1], 0, 0)]).rows, ("con0[0]", "con0[2]", "con1[0]"))
        self.assertEqual(scipy_model([[1, 1]], [1], bounds=Bounds([0, 1], [2, inf])).bounds, (Ends(0, 2), Ends(1, inf)))

    def test_refusals(self) -> None:
        refused: list[tuple[Any, str]] = [
            (lambda: scipy_model([[1, nan]], [1]), "row ub0, column x1: the coefficient nan is no number"),
            (lambda: scipy_model([[1]], [1, 2]), "b_ub has 2 numbers, and there are 1 lines"),
            (lambda: scipy_model([[1]], [1], [[1]]), "right-hand sides are given for A_ub and for A_eq, or for neither"),
            (lambda: scipy_model([[1, 0]], [1], [[1]], [1]), "A_ub and A_eq have 1 and 2 columns"),
            (lambda: scipy_model([[1, 0]], bounds=[(0, 1)]), "bounds has 1 pairs, and there are 2 columns"),
            (lambda: scipy_model([[1, 0]], integrality=[1]), ""),
        ]
        for call, line in refused:
            with self.subTest(line=line):
                if not line:
                    self.assertEqual(call().whole, (True, True))
                    continue
                with self.assertRaises(BadInput) as fault:
                    call()
                self.assertEqual(str(fault.exception), line)

    def test_what_is_no_model(self) -> None:
        values: list[Any] = [5, None, [], [1], object]
        for value in values:
            with self.subTest(value=value), self.assertRaisesRegex(BadInput, "a model is the path of its file, a pulp.LpProblem"):
                model_of(value)


@needs_module("pulp")
class Pulp(unittest.TestCase):
    def test_a_model(self) -> None:
        model = model_of(triangle())
        self.assertEqual((model.rows, model.columns), (("a(1)", "a(2)", "b"), ("x(0)", "x(1)", "x(2)")))
        self.assertEqual(model.sides, (Ends(upper=2.5), Ends(lower=4), Ends(1, 1)))
        self.assertEqual((model.bounds, model.whole), ((Ends(0, 3.5),) * 3, (True,) * 3))

    def test_special_ordered_sets_are_refused(self) -> None:
        problem = triangle()
        problem.sos1 = {"s": {}}
        with self.assertRaisesRegex(BadInput, "special ordered sets are no rows"):
            from_pulp(problem)

    @needs_program
    def test_a_report(self) -> None:
        report = model_report(triangle())
        self.assertEqual((report.model, report.file, report.verdict), ("crew/plan", "crew_plan.mps", "no"))
        self.assertEqual(report.relax, ("b",))
        self.assertEqual([str(it) for it in report.not_whole][:2], ["right-hand side 2.5 of a(1)", "bound 3.5 of x(0)"])
        found = json.loads(report.to_json())
        self.assertTrue(found["in_memory"])
        self.assertIn("model_to_matrix --scale crew_plan.mps crew_plan.txt", found["commands"][0]["commands"][0])
        self.assertIn("<code>crew_plan.mps</code>", report.to_html())
        with self.assertRaisesRegex(BadInput, "form and data go with a model in a file"):
            model_report(triangle(), form="mps")

    @needs_program
    @needs_module("swiglpk")
    def test_the_report_of_the_file_is_the_same(self) -> None:
        report = model_report(triangle())
        with tempfile.TemporaryDirectory() as folder:
            path = Path(folder, report.file)
            path.write_text(report.to_mps(), encoding="utf-8")
            self.assertEqual(model_report(path).to_text(), report.to_text())


@needs_program
class Reports(unittest.TestCase):
    def test_a_report_of_arrays(self) -> None:
        report = model_report(scipy_model(TRIANGLE, [1, 1, 1]))
        self.assertEqual((report.verdict, report.relax, report.file), ("no", ("ub2",), "model.mps"))
        self.assertIn("The right-hand sides are not known.", model_report(scipy_model([[1, 1]])).to_text())

    def test_blanks_in_names(self) -> None:
        model = Model(("a b", "c"), ("x y",), scipy_model([[1], [1]]).coefficients)
        self.assertEqual(model_report(model).rows.model.rows, ("a_b", "c"))
        with self.assertRaisesRegex(BadInput, "model: two rows have the same name"):
            model_report(Model(("a b", "a_b"), ("x",), model.coefficients))


class Term(SimpleNamespace):
    """A constraint, a variable or an objective of Pyomo, as far as it is read."""


def pyomo_modules() -> dict[str, ModuleType]:
    """The part of Pyomo that is used. An expression is a tuple of its terms, its constant and whether it is linear."""
    environ, repn, top = ModuleType("pyomo.environ"), ModuleType("pyomo.repn"), ModuleType("pyomo")
    environ.__dict__.update(Constraint="Constraint", Var="Var", Objective="Objective", SOSConstraint="SOS", value=lambda it: it)

    def generate_standard_repn(expression: Any) -> Any:
        terms, constant, is_linear = expression
        found = {"linear_vars": [of for of, _ in terms], "linear_coefs": [value for _, value in terms]}
        return SimpleNamespace(**found, constant=constant, is_linear=lambda: is_linear)

    repn.__dict__["generate_standard_repn"] = generate_standard_repn
    return {"pyomo": top, "pyomo.environ": environ, "pyomo.repn": repn}


class Pyomo(unittest.TestCase):
    """The calls that are made of Pyomo, with a stand-in: test_modellers has a model of Pyomo itself."""

    def model(self, **also: Any) -> Any:
        x, y = (Term(name=name, fixed=False, lb=0, ub=None, is_continuous=lambda: False) for name in "xy")
        rows = [
            Term(name="first", body=([(x, 1.0), (y, -1.0)], 1.0, True), lower=None, upper=3.0),
            Term(name="second", body=([(y, 1.0)], 0.0, True), lower=2.0, upper=2.0),
        ]
        kinds = {"Var": [x, y], "Constraint": rows, "Objective": [Term(expr=([], 0.0, True))]} | also
        return SimpleNamespace(name="plan", component_data_objects=lambda kind, active=True: iter(kinds.get(kind, [])))

    def test_a_model(self) -> None:
        with mock.patch.dict(sys.modules, pyomo_modules()):
            model = model_of(self.model())
            self.assertEqual(from_pyomo(self.model()).to_lists(), [[1, -1], [0, 1]])
        self.assertEqual((model.rows, model.columns), (("first", "second"), ("x", "y")))
        self.assertEqual((model.sides, model.bounds), ((Ends(upper=2.0), Ends(2.0, 2.0)), (Ends(lower=0),) * 2))
        self.assertEqual((model.whole, model.left_out), ((True, True), ()))

    def test_what_is_not_linear(self) -> None:
        with mock.patch.dict(sys.modules, pyomo_modules()):
            model = model_of(self.model(Objective=[Term(expr=([], 0.0, False))]))
            self.assertEqual(model.left_out, ("an objective that is not linear",))
            with self.assertRaisesRegex(BadInput, "special ordered sets"):
                model_of(self.model(SOS=[object()]))
            with self.assertRaisesRegex(BadInput, "row bent: the constraint is not linear"):
                model_of(self.model(Constraint=[Term(name="bent", body=([], 0.0, False), lower=None, upper=1.0)]))

    def test_a_library_that_is_missing_is_named(self) -> None:
        with mock.patch.dict(sys.modules, {"pyomo": None, "pyomo.environ": None}), self.assertRaises(LibraryMissing) as fault:
            model_of(self.model())
        self.assertEqual(str(fault.exception), "model_report needs pyomo: `pip install pyomo`")


class Linopy(unittest.TestCase):
    def test_a_model(self) -> None:
        kept = SimpleNamespace(
            A=[[1, 0], [1, -1]], clabels=[0, 3], vlabels=[1, 2], sense=["<", "="], b=[2, 1.5], lb=[0, -inf], ub=[1, inf], vtypes=["B", "C"]
        )
        model = model_of(SimpleNamespace(matrices=kept, is_quadratic=True))
        self.assertEqual((model.rows, model.columns), (("con0", "con3"), ("var1", "var2")))
        self.assertEqual((model.sides, model.bounds), ((Ends(upper=2), Ends(1.5, 1.5)), (Ends(0, 1), FREE)))
        self.assertEqual((model.whole, model.left_out), ((True, False), ("an objective that is not linear",)))


if __name__ == "__main__":
    unittest.main()
