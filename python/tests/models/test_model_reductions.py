"""The law of the reductions of models: what is left has the verdict of the whole, and so have its parts together."""

from __future__ import annotations

import random
import unittest
from collections.abc import Callable

from cmr_matrices import Answer, Matrix, is_conetwork, is_network, is_series_parallel, is_totally_unimodular
from cmr_matrices.matrices.lines import Line, Names
from cmr_matrices.models.constraints import Choice, Constraints, matrix_of_constraints
from cmr_matrices.models.model_reductions import connected_parts, reduced
from cmr_matrices.models.modellers import constraints_of_file
from tests.support import EXAMPLES, needs_command, needs_module, needs_program

TESTS: tuple[Callable[[Matrix], Answer], ...] = (is_totally_unimodular, is_network, is_conetwork)


def grown(number: random.Random, size: int, more: int) -> Constraints:
    """A random matrix to which lines are added that are zero, have one nonzero, or are copies or negatives of others."""
    rows = [[number.choice((0, 0, 0, 1, -1)) for _ in range(size)] for _ in range(size)]
    for _ in range(more):
        if number.random() < 0.5:
            rows = [list(column) for column in zip(*rows)]
        line = number.choice(rows)
        kind = number.choice(("zero", "unit", "copy", "negative"))
        place, sign = number.randrange(len(line)), number.choice((1, -1))
        new = {
            "zero": [0] * len(line),
            "unit": [sign if at == place else 0 for at in range(len(line))],
            "copy": list(line),
            "negative": [-entry for entry in line],
        }[kind]
        rows.insert(number.randrange(len(rows) + 1), new)
    entries = {(row, column): entry for row, line in enumerate(rows) for column, entry in enumerate(line) if entry}
    return Constraints(Names.numbered(len(rows), len(rows[0])), entries)


def replayed(constraints: Constraints) -> None:
    """Raises `AssertionError` if a step of the list is not a reduction of what the steps before it leave."""
    rest, steps = reduced(constraints)
    lines = {line: dict[Line, int]() for line in _lines(constraints)}
    for (row, column), entry in constraints.entries.items():
        lines[Line("row", row)][Line("column", column)] = entry
        lines[Line("column", column)][Line("row", row)] = entry
    for step in steps:
        near = lines.pop(step.line)
        for other in near:
            del lines[other][step.line]
        if step.reason == "unit":
            assert list(near) == [step.other]
        elif step.reason == "zero":
            assert not near
        else:
            assert step.other is not None and step.other.kind == step.line.kind
            sign = 1 if step.reason == "copy" else -1
            assert lines[step.other] == {crossing: sign * entry for crossing, entry in near.items()}
    assert len(lines) == sum(rest.names.shape)


def _lines(constraints: Constraints) -> list[Line]:
    rows, columns = constraints.names.shape
    return [Line("row", row) for row in range(rows)] + [Line("column", column) for column in range(columns)]


@needs_program
class Law(unittest.TestCase):
    def has_one_verdict(self, constraints: Constraints) -> str:
        """The verdict of total unimodularity. Tests that all verdicts on the rest and on its parts are those on the matrix."""
        replayed(constraints)
        rest, _ = reduced(constraints)
        whole, left = matrix_of_constraints(constraints), matrix_of_constraints(rest)
        parts = [matrix_of_constraints(part) for part in connected_parts(rest)]
        self.assertEqual(sum(part.shape[0] for part in parts), left.shape[0])
        for test in TESTS:
            verdict = test(whole).verdict
            self.assertEqual(test(left).verdict, verdict)
            self.assertEqual(all(test(part) for part in parts), verdict == "yes")
        self.no_more_can_go(whole, left)
        return is_totally_unimodular(whole).verdict

    def no_more_can_go(self, whole: Matrix, left: Matrix) -> None:
        """The program's reductions leave as many lines."""
        answer = is_series_parallel(whole)
        size = (len(answer.rest.rows), len(answer.rest.columns)) if answer.rest else (0, 0)
        self.assertEqual(left.shape, size)

    def test_random_matrices(self) -> None:
        number = random.Random(5)
        found = [self.has_one_verdict(grown(number, number.randint(3, 6), number.randint(0, 12))) for _ in range(150)]
        self.assertGreater(found.count("yes"), 20)
        self.assertGreater(found.count("no"), 20)

    @needs_module("swiglpk")
    @needs_command("glpsol")
    def test_models(self) -> None:
        for name in ("assignment.mps", "maxflow.mod", "shifts.lp", "knapsack.mps"):
            with self.subTest(name=name):
                self.has_one_verdict(constraints_of_file(EXAMPLES / name, None, Choice(unit_rows=True), None))
        wards = constraints_of_file(EXAMPLES / "wards.mod", None, Choice(), None)
        replayed(wards)
        self.assertEqual(reduced(wards)[0].names.shape, (672, 1296))


if __name__ == "__main__":
    unittest.main()
