"""Arguments that are wrong: each is refused in a sentence that says what is taken, by an exception of the package or of Python."""

from __future__ import annotations

import pickle
import unittest
from collections.abc import Callable
from dataclasses import replace
from math import inf, nan
from typing import Any
from unittest import mock

import cmr_matrices as cmr
from cmr_matrices import (
    Answer,
    BadCommandLine,
    BadEntry,
    BadInput,
    CmrError,
    LibraryMissing,
    Matrix,
    ProgramMissing,
    Reductions,
    Submatrix,
    TimeLimitReached,
    check,
    is_graphic,
    is_network,
    is_regular,
    is_series_parallel,
    is_totally_unimodular,
    named,
    sign,
)
from tests.support import EXAMPLES, FANO, R10, TRIANGLE, needs_module, needs_program

Call = Callable[..., Any]


class Refusals(unittest.TestCase):
    def says(self, said: str, call: Call, *arguments: Any, **keywords: Any) -> None:
        with self.subTest(said=said), self.assertRaises(BadInput) as refused:
            call(*arguments, **keywords)
        self.assertIn(said, str(refused.exception))

    @needs_program
    def test_evidence(self) -> None:
        for value in (None, 5, [1], is_graphic(FANO[:2], certificate=True).graph):
            self.says("evidence is a Tree, a Chain, a violator (a Submatrix), an Answer", check, FANO, value)
        self.says("tree is a Tree or the text of one, and here it is None", cmr.parts, FANO, None)
        self.says("graph is a Graph or the text of one, and here it is 5", cmr.matrix_of, 5)

    @needs_program
    def test_words_and_numbers(self) -> None:
        self.says("kind is one of network, twosum, and here it is 'foo'", cmr.generate, "foo", 3, 1)
        self.says("kind is one of one, two, delta, y, mixed, concentrated", cmr.compose, "three", FANO, FANO)
        self.says("size is an integer, and here it is 'a'", cmr.generate, "network", "a", 1)
        with self.assertRaises(BadCommandLine) as refused:
            cmr.generate("twosum", 250, 1)
        self.assertEqual(str(refused.exception), "size is a number from 1 to 249, and here it is 250")
        self.says("a row is an integer, and here it is 'a'", sign, FANO, ["a"])
        self.says("rows is a list of numbers of rows", sign, FANO, 5)
        self.says("rows is a list of numbers of rows", sign, FANO, "12")
        self.says("there is no row 3", sign, FANO, [3])

    def test_limits(self) -> None:
        self.says("seed is an integer, and here it is 'x'", is_totally_unimodular, FANO, seed="x")
        self.says("tries is a number from 0 to 1000", is_totally_unimodular, FANO, tries=-1)
        calls: list[tuple[Call, tuple[Any, ...]]] = [(is_graphic, (FANO,)), (check, (FANO, "")), (cmr.generate, ("network", 1, 1))]
        for call, arguments in calls:
            for limit in ("5", nan, inf, -1, [1], True, b"5"):
                line = f"time_limit is a number of seconds from 0 to 2000000, or None for no limit, and here it is {limit!r}"
                self.says(line, call, *arguments, time_limit=limit)
        self.says("program is the path of the program, and here it is 5", is_graphic, FANO, program=5)

    def test_names_and_models(self) -> None:
        self.says("a matroid is known by its name, such as R10", named, 5)
        self.says("form is one of mps, lp, mathprog, and here it is 'foo'", cmr.from_model, EXAMPLES / "shifts.lp", form="foo")
        self.says("rows: ( is no regular expression: ", cmr.from_model, EXAMPLES / "shifts.lp", rows="(")
        self.says("without is a regular expression, and here it is 5", cmr.from_scipy, [[1]], without=5)
        self.says("a model is the path of its file, and here it is 5", cmr.from_model, 5)
        self.says("a model of PuLP is a pulp.LpProblem, and here it is 5", cmr.from_pulp, 5)
        self.says("a model of Pyomo is a ConcreteModel, and here it is 5", cmr.from_pyomo, 5)
        self.says("a model of linopy is a linopy.Model, and here it is 5", cmr.from_linopy, 5)
        self.says("row ub0, column x0: the coefficient 'a' is no number", cmr.from_scipy, [["a"]])

    def test_texts_and_lists(self) -> None:
        for kind in (cmr.Tree, cmr.Graph, cmr.Chain, cmr.Names, cmr.Reductions, cmr.Signing, Submatrix, Matrix):
            self.says("and here it is None", kind.from_text, None)  # type: ignore[attr-defined]
        matrix = Matrix.of(FANO)
        self.says("a graph of networkx is taken, and here it is 5", cmr.graph_of_networkx, 5)
        self.says("edges is a list of edges", cmr.graph_of_edges, 5)
        self.says("5 is no edge, which has two ends and may have a name", cmr.graph_of_edges, [5])
        self.says("shape is a pair of integers", Matrix.from_triples, [], 5)
        self.says("triples is a list of triples, and here it is 5", Matrix.from_triples, 5, (1, 1))
        self.says("[1] is no triple of a row, a column and a value", Matrix.from_triples, [[1]], (1, 1))
        self.says("rows is a list of numbers of rows, and here it is 5", matrix.submatrix, 5, [0])
        self.says("a column is an integer, and here it is 'a'", matrix.submatrix, [0], ["a"])
        self.says("a place is a pair of integers", matrix.pivoted, "a", 0)
        self.says("row_names is a list of names, and here it is 5", Matrix.of, FANO, row_names=5)
        self.says("data is the path of the file with the data", cmr.from_model, EXAMPLES / "wards.mod", data=5)

    def test_libraries_that_are_missing(self) -> None:

        def installed(package: str) -> str:
            return f"`apt-get install python3-{package}` on Debian, elsewhere `pip install {package}`"

        uses: list[tuple[str, Call, str]] = [
            ("swiglpk", lambda: cmr.from_model(EXAMPLES / "assignment.mps"), installed("swiglpk")),
            ("networkx", lambda: cmr.Graph.from_text("").to_networkx(), installed("networkx")),
            ("scipy.sparse", lambda: Matrix.of(FANO).to_scipy(), installed("scipy")),
            ("numpy", lambda: Matrix.of(FANO).to_numpy(), installed("numpy")),
            ("pyomo.environ", lambda: cmr.from_pyomo(mock.Mock()), "from_pyomo needs pyomo: `pip install pyomo`"),
        ]
        for name, use, said in uses:
            with self.subTest(name=name), mock.patch.dict("sys.modules", {name: None}):
                with self.assertRaises(LibraryMissing) as missing:
                    use()
                self.assertIsInstance(missing.exception, ImportError)
                self.assertIn(said, str(missing.exception))
                self.assertEqual(str(pickle.loads(pickle.dumps(missing.exception))), str(missing.exception))
                with mock.patch("sys.executable", "/opt/env/bin/python3"):
                    package = name.partition(".")[0]
                    self.assertTrue(str(missing.exception).endswith(f" needs {package}: `/opt/env/bin/python3 -m pip install {package}`"))


class Entries(unittest.TestCase):
    def test_the_names_of_the_lines_at_fault(self) -> None:
        with self.assertRaises(BadEntry) as refused:
            Matrix.of([[1, 0], [0, 2]], row_names=iter(["ann", "bob"]))
        self.assertEqual(str(refused.exception), "row bob, column 1 (row 1, column 1): the entry 2 is none of -1, 0 and 1")
        self.assertEqual((refused.exception.row, refused.exception.row_name, refused.exception.column_name), (1, "bob", None))
        self.assertEqual(str(pickle.loads(pickle.dumps(refused.exception))), str(refused.exception))
        with self.assertRaises(BadEntry) as refused:
            Matrix.of([[1, -1]], row_names=["ann"], column_names=["mon", "tue"]).must_be_binary()
        self.assertEqual(str(refused.exception), "row ann, column tue (row 0, column 1): the entry -1 is none of 0 and 1")

    @needs_module("pandas")
    def test_the_labels_of_a_frame(self) -> None:
        import pandas

        frame = pandas.DataFrame([[1, 0], [0, 0.5]], index=["ann", "bob"], columns=["mon", 7])
        with self.assertRaises(BadEntry) as refused:
            Matrix.of(frame)
        self.assertEqual(str(refused.exception), "row bob, column 7 (row 1, column 1): the entry 0.5 is none of -1, 0 and 1")


@needs_program
class Answers(unittest.TestCase):
    def test_an_answer_is_evidence(self) -> None:
        signed = is_regular(R10, certificate=True)
        for matrix, answer, says in [
            (TRIANGLE, is_totally_unimodular(TRIANGLE), "no"),
            (TRIANGLE, is_totally_unimodular(TRIANGLE, certificate=True), "no"),
            (FANO, is_regular(FANO, certificate=True), "not regular"),
            (R10, signed, "yes"),
            (signed.signed, is_totally_unimodular(signed.signed or R10, certificate=True), "yes"),
            (TRIANGLE, is_graphic(TRIANGLE, certificate=True), "yes"),
            ([[1, 1]], is_network([[1, 1]], certificate=True), "yes"),
            (TRIANGLE, sign(TRIANGLE), "no"),
            (TRIANGLE, cmr.is_balanced(TRIANGLE), "no"),
            (FANO, is_graphic(FANO, certificate=True), "no"),
            (R10, cmr.is_conetwork(R10, certificate=True), "no"),
            (R10, is_series_parallel(R10, certificate=True), "no"),
            ([[1, 1], [1, 0]], is_series_parallel([[1, 1], [1, 0]], certificate=True), "yes"),
            (TRIANGLE, is_series_parallel(TRIANGLE, binary=True, certificate=True), "no"),
            ([[1, 1], [1, -1]], sign([[1, 1], [1, -1]], rows=[0]), "yes"),
            ([[1, 1], [0, 1]], sign([[1, 1], [0, 1]]), "yes"),
        ]:
            with self.subTest(answer=answer):
                checked = check(matrix or [], answer)
                self.assertEqual((checked.accepted, checked.says), (True, says))

    def test_an_answer_of_another_matrix_is_refused(self) -> None:
        self.assertFalse(check([[1, 1, 0], [0, 1, 1], [0, 0, 1]], is_graphic(TRIANGLE, certificate=True)))
        self.assertFalse(check([[1, 1], [1, 1]], is_graphic(TRIANGLE, certificate=True)))
        self.assertFalse(check(TRIANGLE, is_regular(R10, certificate=True)))
        # A violator of total unimodularity is not a violator of balance if a line has more than two nonzeros.
        violator = Submatrix((2, 4), (0, 1), (0, 1, 2, 3))
        rows = [[1, 1, 1, 1], [1, 1, 1, -1]]
        self.assertFalse(check(rows, Answer("balanced", "no", violator=violator)))

    def refuses(self, matrix: Any, answer: Answer, rule: str) -> None:
        checked = check(matrix, answer)
        self.assertEqual((checked.accepted, checked.rule), (False, rule))

    def test_evidence_for_another_verdict_is_refused(self) -> None:
        no = is_totally_unimodular(TRIANGLE, certificate=True)
        self.refuses(TRIANGLE, replace(no, verdict="yes"), "the evidence says no, and the answer yes")
        yes = is_graphic(TRIANGLE, certificate=True)
        self.refuses(TRIANGLE, replace(yes, verdict="no"), "the evidence says yes, and the answer no")
        # The odd cycle is graphic and no network matrix, and not cographic by the same graph.
        self.refuses(TRIANGLE, replace(yes, property_name="network"), "the graph has no directions")
        self.refuses(TRIANGLE, replace(yes, property_name="cographic"), "the graph is that of another matrix")

    def test_signings_that_are_refused(self) -> None:
        answer = sign([[1, 1], [0, 1]])
        assert answer.signing is not None
        for signs, rule in [
            (((0, 1), (1, 1)), "a column sum is not -1, 0 or 1"),
            (((0, 1), (2, 1)), "the signs are not signs of rows of the matrix"),
            (((0, 1), (0, -1)), "the signs are not signs of rows of the matrix"),
            (((0, 2),), "a sign is not 1 or -1"),
        ]:
            self.refuses([[1, 1], [0, 1]], replace(answer, signing=replace(answer.signing, signs=signs)), rule)

    def test_reductions_that_are_refused(self) -> None:
        rows = [[1, 1], [-1, -1]]
        answer = is_series_parallel(rows, certificate=True)
        for text, rule in [
            ("", "the reductions leave other lines"),
            ("r1 zero\n", "step 1 of the reductions is no reduction"),
            ("r1 copy r1\n", "step 1 of the reductions is no reduction"),
            ("r1 copy r2\n", "step 1 of the reductions is no reduction"),
            ("r1 negative r2\nr1 zero\n", "step 2 of the reductions is no reduction"),
            ("r1 negative r2\nr2 unit c1\n", "step 2 of the reductions is no reduction"),
        ]:
            self.refuses(rows, replace(answer, reductions=Reductions.from_text(text)), rule)
        left = Submatrix((2, 2), (1,), (0, 1))
        one = replace(answer, verdict="no", rest=left, reductions=Reductions.from_text("r1 negative r2\n"))
        self.refuses(rows, one, "a line that the reductions leave is reducible")
        binary = replace(answer, property_name="binary series-parallel")
        self.refuses([[1, 1], [1, 1]], binary, "step 1 of the reductions is no reduction")

    def test_minimal_submatrices_that_are_refused(self) -> None:
        answer = is_graphic(FANO, certificate=True)
        assert answer.minimal is not None
        graphic = Submatrix((3, 4), (0, 1), (0, 1))
        self.refuses(FANO, replace(answer, minimal=graphic), "the minimal submatrix has the property")
        wide = [[*row, 1] for row in FANO]
        rule = "the minimal submatrix lacks the property without column 3 too"
        self.refuses(wide, replace(answer, minimal=Submatrix((3, 5), (0, 1, 2), (0, 1, 2, 3, 4))), rule)
        self.refuses(wide, answer, "the minimal submatrix belongs to a matrix of another size")

    def test_an_answer_without_evidence(self) -> None:
        for answer in (is_totally_unimodular([[1]]), is_regular(FANO), is_series_parallel(R10)):
            with self.subTest(answer=answer), self.assertRaises(BadInput) as refused:
                check(FANO, answer)
            self.assertIn("`certificate=True` asks for it, if its question has some", str(refused.exception))

    def test_an_answer_is_no_truth_value(self) -> None:
        answer = is_totally_unimodular([[1]])
        for value in (answer, check([[1]], is_totally_unimodular([[1]], certificate=True))):
            self.assertEqual(value, value)
            self.assertNotEqual(value, None)
            for other in (True, False, "yes"):
                with self.assertRaises(TypeError):
                    value == other  # noqa: B015 # pylint: disable=pointless-statement
        self.assertEqual(answer, is_totally_unimodular([[-1]]))
        self.assertEqual(hash(answer), hash(is_totally_unimodular([[1]])))
        self.assertNotEqual(answer, is_totally_unimodular(TRIANGLE))


class Order(unittest.TestCase):
    def test_a_missing_program_comes_before_the_matrix(self) -> None:
        calls: list[tuple[Call, tuple[Any, ...]]] = [
            (is_totally_unimodular, ([[7]],)),
            (is_regular, ([[-1]],)),
            (is_graphic, ("no matrix",)),
            (is_series_parallel, ([[7]],)),
            (sign, ([[7]],)),
            (check, ([[7]], "")),
            (cmr.parts, ([[7]], "")),
            (cmr.compose, ("two", [[7]], [[1]])),
            (cmr.matrix_of, ("no graph",)),
        ]
        for call, arguments in calls:
            with self.subTest(call=call.__name__), self.assertRaises(ProgramMissing):
                call(*arguments, program="/none")

    @needs_program
    def test_the_limit_of_time_covers_the_conversion(self) -> None:
        class Slow:
            """A row that takes its time."""

            def __len__(self) -> int:
                return 1

            def __iter__(self) -> Any:
                import time

                time.sleep(0.3)
                return iter([1])

        calls: tuple[Call, ...] = (is_totally_unimodular, is_graphic, sign)
        for call in calls:
            with self.subTest(call=call.__name__), self.assertRaises(TimeLimitReached) as reached:
                call([Slow()], time_limit=0.2)
            self.assertEqual(reached.exception.seconds, 0.2)

    def test_all_are_of_the_package(self) -> None:
        for kind in (LibraryMissing, BadInput, BadEntry, ProgramMissing):
            self.assertTrue(issubclass(kind, CmrError))


if __name__ == "__main__":
    unittest.main()
