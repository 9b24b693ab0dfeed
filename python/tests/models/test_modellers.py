"""Matrices of models: of files, and of what modelling packages keep in memory."""

from __future__ import annotations

import tempfile
import unittest
from pathlib import Path
from types import SimpleNamespace
from typing import Any

import cmr_matrices as cmr
from cmr_matrices import BadInput, Matrix, Names, Scaling
from tests.support import EXAMPLES, needs_module, needs_program


class Scipy(unittest.TestCase):
    def test_rows_of_both_kinds(self) -> None:
        matrix = cmr.from_scipy([[1, 0], [1, 1.0]], A_eq=[[1, -1]])
        self.assertEqual(matrix.to_lists(), [[1, 0], [1, 1], [1, -1]])
        self.assertEqual(matrix.names, Names(("ub0", "ub1", "eq0"), ("x0", "x1")))
        self.assertEqual(cmr.from_scipy(A_eq=[[1]]).names, Names(("eq0",), ("x0",)))

    def test_refusals(self) -> None:
        refused_arguments: list[tuple[tuple[Any, Any], str]] = [
            (([[1]], [[1, 0]]), "A_ub and A_eq have 1 and 2 columns"),
            (([[1, 0.5]], None), "row ub0, column x1: the coefficient 0.5 is no integer"),
            (([[1, 3]], None), "row ub0, column x1: the coefficient 3 is none of -1, 0 and 1"),
            ((None, None), "there are no rows"),
        ]
        for arguments, line in refused_arguments:
            with self.subTest(line=line), self.assertRaises(BadInput) as refused:
                cmr.from_scipy(*arguments)
            self.assertEqual(str(refused.exception), line)

    def test_rows_that_are_chosen(self) -> None:
        upper, equal = [[1, 0, 2], [1, 1, 0]], [[0, 1, -1]]
        self.assertEqual(cmr.from_scipy(upper, equal, rows="eq").names, Names(("eq0",), ("x1", "x2")))
        self.assertEqual(cmr.from_scipy(upper, equal, without="^ub0$").names, Names(("ub1", "eq0"), ("x0", "x1", "x2")))
        self.assertEqual(cmr.from_scipy(upper, equal, unit_rows=True).to_lists(), [[1, 1, 0], [0, 1, -1]])
        with self.assertRaises(BadInput) as refused:
            cmr.from_scipy(upper, rows="none")
        self.assertEqual(str(refused.exception), "there is no row whose name fits")

    @needs_module("scipy")
    def test_sparse_matrices(self) -> None:
        from scipy import sparse

        self.assertEqual(cmr.from_scipy(sparse.csr_matrix([[1, 0, -1]])).to_lists(), [[1, 0, -1]])


@needs_module("swiglpk")
class Files(unittest.TestCase):
    def test_the_examples(self) -> None:
        matrix = cmr.from_model(EXAMPLES / "assignment.mps")
        text = (EXAMPLES / "assignment.txt").read_text(encoding="ascii")
        self.assertEqual(matrix, Matrix.from_text(text))
        assert matrix.names is not None
        self.assertEqual(matrix.names.rows, ("ANN", "BOB", "CAT", "CUT", "SEW", "IRON"))
        self.assertEqual(cmr.from_model(EXAMPLES / "maxflow.mod").shape, (5, 8))

    @needs_program
    def test_the_schedule(self) -> None:
        answer = cmr.is_network(cmr.from_model(str(EXAMPLES / "shifts.lp")), certificate=True)
        assert answer.minimal is not None
        self.assertEqual(answer.minimal.column_names, ("inspect_1", "inspect_2", "inspect_3", "inspect_4"))

    def test_rows_and_scaling(self) -> None:
        path = EXAMPLES / "knapsack.mps"
        self.assertEqual(cmr.from_model(path, rows="_or_").shape, (3, 3))
        _, divided = cmr.from_model_scaled(path, rows="pockets|_or_")
        self.assertEqual(divided, (Scaling("row", "pockets", 2),))

    def test_refusals_name_the_file(self) -> None:
        path = EXAMPLES / "knapsack.mps"
        with self.assertRaises(BadInput) as refused:
            cmr.from_model(path)
        line = "row weight, column tent: the coefficient 5 is none of -1, 0 and 1, nor are 7 others"
        self.assertEqual(str(refused.exception), f"{path}: {line}")
        with tempfile.TemporaryDirectory() as folder, self.assertRaises(BadInput) as refused:
            cmr.from_model(Path(folder, "none.mps"))
        self.assertIn("No such file or directory", str(refused.exception))


@needs_module("pulp")
class Pulp(unittest.TestCase):
    def test_a_transport(self) -> None:
        import pulp

        problem = pulp.LpProblem("transport", pulp.LpMinimize)
        flow = pulp.LpVariable.dicts("flow", [(1, 1), (1, 2), (2, 2)], lowBound=0)
        problem += 2 * flow[1, 1] + 7 * flow[1, 2]
        problem += flow[1, 1] + flow[1, 2] <= 3, "from_1"
        problem += flow[2, 2] - flow[1, 2] >= 0, "at_2"
        problem += flow[1, 1] == 1, "to_1"
        matrix = cmr.from_pulp(problem)
        self.assertEqual(matrix.names, Names(("from_1", "at_2", "to_1"), ("flow_(1,_1)", "flow_(1,_2)", "flow_(2,_2)")))
        self.assertEqual(matrix.to_lists(), [[1, 1, 0], [0, -1, 1], [1, 0, 0]])
        self.assertEqual(cmr.from_pulp(problem, rows="^from_").to_lists(), [[1, 1]])
        self.assertEqual(cmr.from_pulp(problem, without="at").shape, (2, 2))

    def test_a_coefficient_that_is_refused(self) -> None:
        import pulp

        problem = pulp.LpProblem("large", pulp.LpMinimize)
        problem += 2 * pulp.LpVariable("x") <= 3, "only"
        with self.assertRaises(BadInput) as refused:
            cmr.from_pulp(problem)
        self.assertEqual(str(refused.exception), "row only, column x: the coefficient 2 is none of -1, 0 and 1")
        problem += pulp.LpVariable("y") >= 1, "unit"
        self.assertEqual(cmr.from_pulp(problem, unit_rows=True).names, Names(("unit",), ("y",)))


@needs_module("pyomo")
class Pyomo(unittest.TestCase):
    def test_constraints_and_variables(self) -> None:
        from pyomo.environ import ConcreteModel, Constraint, Var

        model = ConcreteModel()
        model.x = Var([1, 2])
        model.fixed = Var(initialize=1)
        model.fixed.fix()
        model.first = Constraint(expr=model.x[1] - model.x[2] + model.fixed <= 1)
        model.second = Constraint(expr=model.x[2] >= 0)
        matrix = cmr.from_pyomo(model)
        self.assertEqual(matrix.to_lists(), [[1, -1], [0, 1]])
        self.assertEqual(matrix.names, Names(("first", "second"), ("x[1]", "x[2]")))
        self.assertEqual(cmr.from_pyomo(model, rows="second").to_lists(), [[1]])


class Linopy(unittest.TestCase):
    @needs_module("linopy")
    def test_a_model(self) -> None:
        import linopy

        model = linopy.Model()
        x, y = model.add_variables(name="x"), model.add_variables(name="y")
        model.add_constraints(x - y <= 1)
        self.assertEqual(cmr.from_linopy(model).to_lists(), [[1, -1]])

    def test_what_is_asked_of_a_model(self) -> None:
        matrices = SimpleNamespace(A=[[1, 0], [1, -1]], clabels=[0, 3], vlabels=[1, 2])
        matrix = cmr.from_linopy(SimpleNamespace(matrices=matrices))
        self.assertEqual(matrix.names, Names(("con0", "con3"), ("var1", "var2")))
        matrix = cmr.from_linopy(SimpleNamespace(matrices=matrices), without="con3")
        self.assertEqual((matrix.to_lists(), matrix.names), ([[1]], Names(("con0",), ("var1",))))


if __name__ == "__main__":
    unittest.main()
