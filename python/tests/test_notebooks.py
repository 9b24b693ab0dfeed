"""What notebooks show of values, and that Debian's nbconvert makes a page of it."""

from __future__ import annotations

import re
import unittest
import warnings
from importlib import import_module
from math import hypot
from typing import Any
from unittest import mock

from cmr_matrices import (
    Graph,
    Matrix,
    Matroid,
    Names,
    Submatrix,
    Tree,
    check,
    is_cographic,
    is_graphic,
    is_network,
    is_regular,
    is_totally_unimodular,
    named,
)
from tests.support import FANO, TRIANGLE, needs_command, needs_module, needs_program

K4 = "0 1 r1\n0 2 r2\n0 3 r3\n1 2 c1\n1 3 c2\n2 3 c3\n"
NAMES = Names(("from_a", "from_b", "from_c"), ("ab", "ac", "bc"))
DRAWN: tuple[Graph | Tree, ...] = (Graph.from_text(K4), Tree.from_text("cmr-tree 2\n0 0\nempty 0 0\n"))
STAR = "".join(f"0 {row} r{row}\n" for row in range(1, 4)) + "".join(f"1 2 c{column}\n" for column in range(1, 301))


def edges_of(dot: str) -> list[str]:
    """The edges of a picture, without their looks."""
    return [line.split(" [")[0].strip() for line in dot.splitlines() if " -- " in line or " -> " in line]


class Pictures(unittest.TestCase):
    def test_a_graph_without_directions_has_all_nodes_and_edges(self) -> None:
        ends = ["0 -- 1", "0 -- 2", "0 -- 3", "1 -- 2", "1 -- 3", "2 -- 3"]
        for names in (None, NAMES):
            graph = Graph.from_text(K4, directed=False, names=names)
            self.assertEqual(edges_of(graph.to_dot()), ends)
            self.assertEqual(edges_of(graph.to_dot(names)), ends)
            self.assertEqual(edges_of(graph.to_dot(tree=False)), ["r2 -- r1", "r3 -- r1", "r3 -- r2"])

    def test_the_middle_is_left_out_if_the_caller_says_so(self) -> None:
        """A signed matroid with names and a flow model can have one graph, so neither directions nor names choose."""
        graph = Graph.from_text(K4)
        for dot in (graph.to_dot(), graph.to_dot(NAMES), Graph.from_text(K4, names=NAMES).to_dot()):
            self.assertEqual(len(edges_of(dot)), 6)
        self.assertEqual(len(edges_of(graph.to_dot(tree=False))), 3)
        self.assertEqual(len(edges_of(graph.to_dot(NAMES, tree=False))), 3)

    @needs_program
    def test_graphs_of_matroids(self) -> None:
        for name, nodes, edges in (("W4", 5, 8), ("K4", 4, 6), ("K5", 5, 10), ("K3,3", 6, 9)):
            signed = is_regular(named(name), certificate=True).signed
            assert signed is not None and signed.names is not None
            for answer in (
                is_graphic(named(name), certificate=True),
                is_cographic(named(name).T, certificate=True),
                is_network(signed, certificate=True),
            ):
                assert answer.graph is not None
                drawn = edges_of(answer.graph.to_dot())
                self.assertEqual(len(drawn), edges, name)
                self.assertEqual(len({end for edge in drawn for end in edge.replace("->", "--").split(" -- ")}), nodes, name)

    @needs_program
    def test_known_graphs_are_drawn_on_circles(self) -> None:
        """Each node of the Petersen graph is on one of two circles, and K5, V8 and K3,3 are on one. Names of nodes fit to edges."""
        for name, radii in (("Petersen", {900, 1800}), ("K5", {1800}), ("V8", {1800}), ("K3,3", {1800}), ("W5", {0, 1800})):
            graph = is_graphic(named(name), certificate=True).graph
            assert graph is not None
            dot = graph.to_dot()
            places = [tuple(map(float, pair.split(","))) for pair in re.findall(r'pos="([^"!]+)!"', dot)]
            self.assertEqual({round(1000 * hypot(*place), -1) for place in places}, radii, name)
            labels = dict(re.findall(r'^  (\d+) \[label="([^"]*)"', dot, re.M))
            for tail, head, edge in re.findall(r'(\d+) -- (\d+) \[label="([^"]+)"', dot):
                self.assertEqual({labels.get(tail, tail), labels.get(head, head)}, set(edge.split("-")))
        numbered = is_graphic(named("K4").to_lists(), certificate=True).graph
        assert numbered is not None
        self.assertNotIn('0 [label=""', numbered.to_dot())
        contradicting = Graph.from_text(K4, directed=False, names=Names(("1-2", "2-3", "3-4"), ("1-2", "5-6", "7-8")))
        self.assertIn('0 [label=""', contradicting.to_dot())

    @needs_program
    def test_values_of_matroids(self) -> None:
        plane = Matroid.from_named("F7")
        minor = plane.excluded_minor("regular")
        answer = is_regular(named("F7"), certificate=True)
        assert minor is not None and answer.chain is not None
        tree = is_regular(named("R12"), certificate=True).tree
        assert tree is not None
        for value, piece in [
            (plane, "matroid of rank 3 with 7 elements over GF(2)"),
            (minor, "excluded minor F7 of the class regular"),
            (tree.separations()[0], "3-separation of a concentrated node: rows 2 3 columns 0 1 4 5 | "),
            (check(named("F7"), answer.chain), "accepted: not regular"),
            (answer.chain, "forced ones lead to a violator in rows"),
            (Matroid.from_named("R12").decomposition(), "3-sum, rank 6, 12 elements"),
        ]:
            self.assertIn(piece, value._repr_html_())
        self.assertEqual(repr(plane), "Matroid(rank 3, 7 elements, over GF(2))")
        part = is_cographic(named("K5"), certificate=True).minimal
        assert part is not None
        self.assertIn("It is not cographic, and without any one of its rows and columns it is.", part._repr_html_())
        self.assertIn("<th>1-2</th>", part._repr_html_())

    @needs_command("dot")
    def test_a_picture_is_an_element_alone(self) -> None:
        for value in DRAWN:
            drawn = value._repr_svg_()
            assert drawn is not None
            self.assertTrue(drawn.startswith("<svg ") and drawn.rstrip().endswith("</svg>"), drawn)
            self.assertIn(drawn, value._repr_html_() or "")

    def test_a_reason_where_there_is_no_picture(self) -> None:
        graph = Graph.from_text(STAR, directed=False)
        self.assertEqual(repr(graph), "Graph(undirected, 4 nodes, 3 arcs, 300 walks)")
        self.assertIsNone(graph._repr_svg_())
        self.assertIn("more than 200 edges are not drawn here", graph._repr_html_() or "")
        self.assertTrue(repr(Graph.from_text(K4)).startswith("Graph(arcs=(Edge("))
        with mock.patch("shutil.which", return_value=None):
            for value in DRAWN:
                self.assertIsNone(value._repr_svg_())
                self.assertIn("is drawn if Graphviz is installed", value._repr_html_() or "")


class Tables(unittest.TestCase):
    def test_matrices(self) -> None:
        shown = Matrix.of([[1, -1], [0, 1]], row_names=["a<b", "c"], column_names=["x", "y"])._repr_html_()
        self.assertIn("<tr><th></th><th>x</th><th>y</th></tr>", shown)
        self.assertIn("<tr><th>a&lt;b</th><td>1</td><td>-1</td></tr>", shown)
        shown = Matrix.of([[1] * 1000] * 30)._repr_html_()
        self.assertEqual(shown.count("<tr>"), 21)
        self.assertIn("the first 20 rows and 20 columns of 30x1000", shown)

    def test_submatrices(self) -> None:
        part = Submatrix((3, 3), (0, 2), (1,), NAMES)
        self.assertIn("<tr><th>rows</th><td>2</td><td>from_a, from_c</td></tr>", part._repr_html_())
        self.assertEqual(repr(part), "Submatrix(shape=(3, 3), rows=(0, 2), columns=(1,))")
        large = Submatrix((900, 900), tuple(range(900)), tuple(range(800)))
        self.assertEqual(repr(large), "Submatrix(shape=(900, 900), 900 rows, 800 columns)")
        self.assertLess(len(large._repr_html_()), 500)

    @needs_program
    def test_answers_show_their_verdict(self) -> None:
        pairs = Matrix.of(TRIANGLE, column_names=["tent", "tarp", "hammock"])
        shown = is_totally_unimodular(pairs, certificate=True)._repr_html_()
        for piece in ("totally unimodular: no", "violator, 3x3 of 3x3", "<th>tent</th>", "<td>1</td><td>1</td><td>0</td>"):
            self.assertIn(piece, shown)
        self.assertIn("totally unimodular: yes", is_totally_unimodular([[1]])._repr_html_())
        # Its violator is one of the signed matrix, which is not there without a certificate.
        self.assertIn("<td>-1</td>", is_regular(FANO, certificate=True)._repr_html_())
        self.assertIn("<th>rows</th>", is_regular(FANO)._repr_html_())
        large = is_network([[1] * 300] * 3, certificate=True)
        self.assertIn("network: yes", large._repr_html_())
        self.assertIn("are not drawn here", large._repr_html_())

    @needs_program
    @needs_command("dot")
    def test_answers_show_their_picture(self) -> None:
        self.assertIn("<svg ", is_graphic(named("W4"), certificate=True)._repr_html_())
        self.assertIn("<svg ", is_totally_unimodular(TRIANGLE, certificate=True)._repr_html_())


@needs_program
@needs_module("nbconvert")
@needs_module("IPython")
@needs_command("dot")
class Pages(unittest.TestCase):
    """Each value is the last line of a cell, as in a run by a kernel."""

    def page(self, *values: Any) -> str:
        formats: Any = import_module("nbformat.v4")
        formatter = import_module("IPython.core.formatters").DisplayFormatter()
        formatter.active_types = formatter.format_types
        bundles = [formatter.format(value)[0] for value in values]
        outputs = [formats.new_output("execute_result", data=data, execution_count=1) for data in bundles]
        notebook = formats.new_notebook(cells=[formats.new_code_cell("", outputs=[it]) for it in outputs])
        with warnings.catch_warnings():
            warnings.simplefilter("ignore")
            body, _ = import_module("nbconvert").HTMLExporter().from_notebook_node(notebook)
        return str(body)

    def test_nbconvert_makes_a_page(self) -> None:
        answer = is_graphic(named("W4"), certificate=True)
        no = is_totally_unimodular(TRIANGLE, certificate=True)
        page = self.page(answer, answer.graph, no, no.tree, no.violator, Matrix.of(TRIANGLE))
        self.assertEqual(page.count("<svg "), 4)
        self.assertIn("graphic: yes", page)
        self.assertIn("totally unimodular: no", page)
        self.assertNotIn("<?xml", page)


if __name__ == "__main__":
    unittest.main()
