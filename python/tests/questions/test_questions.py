"""The questions and tools on matrices of the literature and on examples of the repository, with names, options and refusals."""

from __future__ import annotations

import unittest

import cmr_matrices as cmr
from cmr_matrices import BadEntry, BadInput, Graph, Line, Matrix, Refused, SigningStep, Submatrix, Undecided
from tests.support import EXAMPLES, FANO, K5, R10, TRIANGLE, asked_once, needs_module, needs_program


def example(name: str) -> Matrix:
    return Matrix.from_text((EXAMPLES / name).read_text(encoding="ascii"))


@needs_program
class Answers(unittest.TestCase):
    def test_truth_values(self) -> None:
        self.assertTrue(cmr.is_totally_unimodular([[1, 1], [0, 1]]))
        self.assertFalse(cmr.is_totally_unimodular(TRIANGLE))

    def test_an_undecided_answer_is_neither_true_nor_false(self) -> None:
        answer = cmr.is_balanced(example("committees.txt"), lines=0, pivots=0)
        self.assertTrue(answer.is_undecided)
        assert answer.open is not None
        self.assertEqual(answer.open.rows, tuple(range(answer.open.shape[0])))
        with self.assertRaises(Undecided):
            bool(answer)
        self.assertTrue(cmr.is_balanced(example("committees.txt"), lines=24, workers=2))

    def test_an_undecided_answer_names_the_open_part(self) -> None:
        rows = [[1, 1, 0, 1], [1, 0, 1, 0], [1, 0, 1, 1], [0, 0, 1, 1]]
        answer = asked_once("regular", rows, lines=0)
        assert answer.signed is not None and answer.tree is not None
        self.assertEqual((answer.verdict, answer.tree.verdict), ("undecided", "undecided"))
        self.assertEqual(answer.open, Submatrix((4, 4), (0, 1, 2, 3), (0, 2, 3)))
        self.assertEqual((answer.violator, answer.chain), (None, None))
        checked = cmr.check(answer.signed, answer.tree)
        self.assertEqual((bool(checked), checked.says, checked.open), (True, "undecided", answer.open))
        self.assertEqual(cmr.is_regular(rows).verdict, "no")

    def test_evidence_is_given_where_it_is_asked_for(self) -> None:
        plain = cmr.is_totally_unimodular(TRIANGLE)
        self.assertIsNone(plain.tree)
        self.assertEqual(plain.violator, Submatrix((3, 3), (0, 1, 2), (0, 1, 2)))
        full = cmr.is_totally_unimodular(TRIANGLE, certificate=True)
        assert full.tree is not None
        self.assertEqual(full.tree.root.kind, "cycle")
        self.assertEqual(str(full), "totally unimodular: no\nviolator rows r0 r1 r2 columns c0 c1 c2\n0 cycle 3x3")

    def test_names_go_through_to_all_evidence(self) -> None:
        matrix = Matrix.of(TRIANGLE, row_names=["ann", "bob", "cat"], column_names=["mon", "tue", "wed"])
        answer = cmr.is_network(matrix, certificate=True)
        self.assertEqual(str(answer.minimal), "rows ann bob cat columns mon tue wed")
        tree = cmr.is_totally_unimodular(matrix.submatrix([0, 1], [0, 1, 2]), certificate=True).tree
        assert tree is not None
        self.assertIn("ann bob", tree.to_dot())
        graph = cmr.is_network(matrix.submatrix([0, 1], [2, 0]), certificate=True).graph
        assert graph is not None and graph.names is not None
        self.assertEqual(graph.names.columns, ("wed", "mon"))
        self.assertEqual(cmr.matrix_of(graph).names, graph.names)
        steps = cmr.is_series_parallel(matrix.submatrix([0], [0]), certificate=True).reductions
        assert steps is not None and steps.names is not None
        self.assertEqual(steps.names.line(steps.steps[0].line), "ann")

    def test_entries_that_a_binary_question_refuses(self) -> None:
        for question in (cmr.is_regular, cmr.is_graphic, cmr.is_cographic):
            with self.subTest(question=question), self.assertRaises(BadEntry) as refused:
                question([[1, 0], [0, -1]])  # type: ignore[operator]
            self.assertEqual(str(refused.exception), "row 1, column 1: the entry -1 is none of 0 and 1")
        with self.assertRaises(BadEntry):
            cmr.is_series_parallel([[-1]], binary=True)
        self.assertTrue(cmr.is_series_parallel([[-1]]))


@needs_program
class Matroids(unittest.TestCase):
    def test_the_fano_plane(self) -> None:
        answer = cmr.is_regular(FANO, certificate=True)
        self.assertFalse(answer)
        assert answer.chain is not None
        checked = cmr.check(FANO, answer.chain)
        self.assertEqual((bool(checked), checked.says), (True, "not regular"))

    def test_r10(self) -> None:
        answer = cmr.is_regular(R10, certificate=True)
        self.assertTrue(answer)
        assert answer.signed is not None and answer.tree is not None
        self.assertEqual(answer.tree.root.kind, "r10")
        self.assertTrue(cmr.is_totally_unimodular(answer.signed))
        self.assertFalse(cmr.is_graphic(R10))
        self.assertFalse(cmr.is_cographic(R10))

    def test_the_complete_graph_and_its_dual(self) -> None:
        graph = cmr.is_graphic(K5, certificate=True).graph
        assert graph is not None
        self.assertEqual((graph.directed, graph.arc_kind, graph.shape), (False, "row", (4, 6)))
        dual = cmr.is_cographic(Matrix.of(K5).T, certificate=True).graph
        assert dual is not None
        self.assertEqual((dual.arc_kind, dual.shape), ("column", (6, 4)))
        self.assertEqual(cmr.matrix_of(dual), Matrix.of(K5).T)
        self.assertFalse(cmr.is_cographic(K5))

    @needs_module("networkx")
    def test_the_graph_is_the_complete_one(self) -> None:
        import networkx

        graph = cmr.is_graphic(K5, certificate=True).graph
        assert graph is not None
        self.assertTrue(networkx.is_isomorphic(networkx.Graph(graph.to_networkx()), networkx.complete_graph(5)))


@needs_program
class Tools(unittest.TestCase):
    def test_sign(self) -> None:
        answer = cmr.sign(example("intervals.txt"))
        assert answer.signing is not None
        self.assertEqual(answer.signing.as_dict(), {0: -1, 1: 1, 2: -1, 3: 1, 4: -1, 5: 1})
        self.assertEqual(answer.signing.steps[:2], (SigningStep(0, 1), SigningStep(1, 2)))
        self.assertEqual(answer.signing.steps[-1], SigningStep(5))
        some = cmr.sign(TRIANGLE, [2, 0, 2]).signing
        assert some is not None
        self.assertEqual(list(some.as_dict()), [0, 2])
        self.assertIsNotNone(cmr.sign(TRIANGLE).violator)
        with self.assertRaises(BadInput):
            cmr.sign(TRIANGLE, [3])

    def test_check_names_what_is_broken(self) -> None:
        tree = cmr.is_totally_unimodular(example("shifts.txt"), certificate=True).tree
        assert tree is not None
        shifts = example("shifts.txt")
        self.assertTrue(cmr.check(shifts, tree))
        spoilt = cmr.check(shifts, tree.to_text().replace("2 c1 r2\n", "2 c1 r5\n"))
        self.assertEqual((spoilt.accepted, spoilt.path, spoilt.rule), (False, (0, 1), "NotReducible"))
        self.assertEqual(cmr.check(TRIANGLE, tree).path, ())
        self.assertFalse(cmr.check(TRIANGLE, Submatrix((3, 3), (0,), (0,))))
        chain = cmr.is_regular(FANO, certificate=True).chain
        assert chain is not None
        broken = cmr.check(FANO, cmr.Chain(chain.shape, chain.steps[:-1], chain.violator))
        self.assertEqual((bool(broken), broken.step), (False, len(chain.steps) - 1))
        with self.assertRaises(BadEntry):
            cmr.check([[-1]], chain)

    def test_sums(self) -> None:
        matrix = cmr.generate("twosum", 2, 7)
        self.assertEqual((matrix.shape, len(matrix.nonzeros)), ((9, 9), 33))
        tree = cmr.is_totally_unimodular(matrix, certificate=True).tree
        assert tree is not None
        parts = cmr.parts(matrix, tree)
        self.assertEqual((parts.kind, parts.first.shape, parts.second.shape), ("two", (5, 5), (5, 5)))
        self.assertEqual(
            cmr.compose(parts.kind, parts.first, parts.second), matrix.submatrix(parts.rows, parts.columns)
        )
        self.assertEqual(cmr.compose("one", [[1]], [[1, -1]]).to_lists(), [[1, 0, 0], [0, 1, -1]])
        with self.assertRaises(Refused) as refused:
            cmr.compose("delta", [[1]], [[1]])
        self.assertEqual(refused.exception.cause, "BadConnector")
        with self.assertRaises(Refused) as refused:
            cmr.parts(TRIANGLE, "cmr-tree 2\n3 3\nundecided 3 3 1 2 3 1 2 3\n")
        self.assertEqual(refused.exception.cause, "root is undecided")

    def test_generated_networks(self) -> None:
        matrix = cmr.generate("network", 20, 1)
        self.assertEqual(matrix.shape, (20, 20))
        self.assertTrue(cmr.is_network(matrix))

    def test_the_matrix_of_a_graph(self) -> None:
        graph = Graph.from_text("0 1 r1\n2 1 r2\n0 2 c1\n")
        self.assertEqual(cmr.matrix_of(graph).to_lists(), [[1], [-1]])
        self.assertEqual(cmr.matrix_of("0 1 r1\n2 1 r2\n0 2 c1\n").to_lists(), [[1], [-1]])
        undirected = Graph(graph.arcs, graph.walks, directed=False)
        self.assertEqual(cmr.matrix_of(undirected).to_lists(), [[1], [1]])
        turned = Graph.from_text("0 1 c1\n2 1 c2\n0 2 r1\n")
        self.assertEqual(cmr.matrix_of(turned).to_lists(), [[1, -1]])
        self.assertEqual(turned.walks[0].line, Line("row", 0))

    def test_matrices_without_lines(self) -> None:
        for shape in ((0, 0), (0, 3), (3, 0)):
            matrix = Matrix(shape, ())
            with self.subTest(shape=shape):
                self.assertTrue(cmr.is_totally_unimodular(matrix, certificate=True))
                for question in (cmr.is_network, cmr.is_conetwork):
                    graph = question(matrix, certificate=True).graph
                    assert graph is not None
                    self.assertEqual(cmr.matrix_of(graph).shape, shape)


if __name__ == "__main__":
    unittest.main()
