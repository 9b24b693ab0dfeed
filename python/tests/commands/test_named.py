"""Tests of `named` and `edges_to_graph`."""

from __future__ import annotations

import itertools
import subprocess
import unittest

from tests.matroids.test_matroids import MATROIDS, transposed
from tests.scripts import PYTHON, ScriptTest, needs_python
from tests.support import needs_program

# Which matroids are regular, graphic and cographic, as the literature has them.
FACTS = [
    ("R10", True, False, False),
    ("R12", True, False, False),
    ("F7", False, False, False),
    ("K4", True, True, True),
    ("K5", True, True, False),
    ("K6", True, True, False),
    ("K3,3", True, True, False),
    ("K2,3", True, True, True),
    ("K4,4", True, True, False),
    ("W3", True, True, True),
    ("W7", True, True, True),
    ("AG(3,2)", False, False, False),
    ("S8", False, False, False),
    ("Z4", False, False, False),
    ("V8", True, True, False),
    ("Petersen", True, True, False),
    ("T12", False, False, False),
    ("U3,4", True, True, True),
]


@needs_python
class Named(ScriptTest):
    def test_tables(self) -> None:
        tables = {name: text for name, text, *_ in MATROIDS}
        for name, table in [
            ("F7", "the Fano plane"),
            ("K4", "the complete graph on four nodes"),
            ("K5", "the complete graph on five nodes"),
            ("K3,3", "three nodes joined with three others"),
            ("R10", "R10"),
            ("R12", "R12"),
        ]:
            self.assertEqual(self.output("named", name), tables[table])
            self.assertEqual(self.output("named", f"{name}*"), transposed(tables[table]))
        for other, name in [("k_{3,3}**", "K3,3"), ("M(K5)", "K5"), ("M*(K3,3)", "K3,3*"), ("Fano*", "F7*")]:
            self.assertEqual(self.output("named", other), self.output("named", name))

    def test_sizes_and_names(self) -> None:
        for name, front in [
            ("K1", "0 0"),
            ("K2", "1 0"),
            ("K46", "45 990"),
            ("W1000", "1000 1000"),
            ("K1000,1", "1000 0"),
        ]:
            self.assertEqual(self.output("named", name).split("\n", 1)[0], front)
        self.output("named", "W3", "--names", "names")
        self.assertEqual(self.read("names"), "r1 hub-1\nr2 hub-2\nr3 hub-3\nc1 1-2\nc2 2-3\nc3 3-1\n")

    def test_matrices_over_three_elements(self) -> None:
        self.assertEqual(self.output("named", "--ternary", "U2,4"), "2 2\n1 1\n1 -1\n")
        self.assertEqual(self.output("named", "--ternary", "K3"), self.output("named", "K3"))
        self.assertIn("no matrix represents it over GF(3)", self.refusal("named", "--ternary", "F7"))

    def test_names_that_are_none(self) -> None:
        for name, piece in [
            ("R11", "is no name that is known here"),
            ("W2", "is no wheel"),
            ("W3,3", "is no wheel"),
            ("K0", "is no complete graph"),
            ("K47", "at most 1000 rows and 1000 columns"),
            ("K9999", "at most 1000 rows and 1000 columns"),
            ("W1001", "at most 1000 rows and 1000 columns"),
            ("Z2", "is no binary spike"),
            ("Z1000", "is no binary spike"),
            ("Z4,4", "is no binary spike"),
            ("U2,4", "is not binary, so no 0/1 matrix represents it over GF(2)"),
        ]:
            self.assertIn(piece, self.refusal("named", name))

    @needs_program
    def test_facts(self) -> None:
        for name, regular, graphic, cographic in FACTS:
            for dual in ("", "*"):
                with self.subTest(name=name + dual):
                    self.write("matrix.txt", self.output("named", name + dual))
                    facts = [
                        self.run_program(*words.split(), "matrix.txt") for words in ("regular", "graphic", "graphic -t")
                    ]
                    wanted = [regular, *((cographic, graphic) if dual else (graphic, cographic))]
                    self.assertEqual([run.returncode == 0 for run in facts], wanted)


@needs_python
class Edges(ScriptTest):
    def test_the_tree_comes_first(self) -> None:
        text = "# a square with a diagonal\n\na b\nb c wire of copper\nc a\nc d\nd a\na a\n"
        graph = self.output("edges_to_graph", "--names", "names", text=text)
        lines = graph.splitlines()
        self.assertEqual([line.split()[2] for line in lines], ["r1", "r2", "r3", "c1", "c2", "c3"])
        self.assertEqual(self.read("names"), "r1 a-b\nr2 wire of copper\nr3 c-d\nc1 c-a\nc2 d-a\nc3 a-a\n")
        self.assertEqual(lines[5].split()[0], lines[5].split()[1])

    @needs_program
    def test_graphs_that_are_read(self) -> None:
        """The program takes each graph, be it in one part or in several, and prints a matrix with the graph's property."""
        for text, size in [
            ("", "0 0"),
            ("a a\n", "0 1"),
            ("a b\nc d\ne f\nf e\n", "3 1"),
            ("".join(f"{one} {two}\n" for one, two in itertools.combinations("abcde", 2)), "4 6"),
            ("".join(f"{one} {(one * 7 + 3) % 40}\n{one} {(one * 3 + 1) % 40}\n" for one in range(40)), None),
        ]:
            self.write("graph.txt", self.output("edges_to_graph", text=text))
            for tool in ("graphic", "network"):
                run = self.run_program(tool, "-c", "graph.txt")
                self.assertEqual((run.returncode, run.stderr), (0, ""))
                self.assertEqual(run.stdout.split("\n", 1)[0], size or run.stdout.split("\n", 1)[0])
                self.write("matrix.txt", run.stdout)
                self.assertEqual(self.run_program(tool, "matrix.txt").returncode, 0)

    @needs_program
    def test_complete_graphs_are_the_named_ones(self) -> None:
        for size in (3, 5, 8):
            pairs = itertools.combinations(range(size), 2)
            self.write("graph.txt", self.output("edges_to_graph", text="".join(f"{one} {two}\n" for one, two in pairs)))
            self.assertEqual(self.run_program("graphic", "-c", "graph.txt").stdout, self.output("named", f"K{size}"))

    def test_graphml(self) -> None:
        make = "import networkx as n; g = n.path_graph(3, n.DiGraph); g.add_edge(0, 2, name='short'); n.write_graphml(g, 'g.xml')"
        if subprocess.run([PYTHON, "-c", make], cwd=self.folder, capture_output=True).returncode:
            self.skipTest("networkx is not there")
        graph = self.output("edges_to_graph", "--names", "names", "g.xml")
        self.assertEqual(self.read("names"), "r1 0-1\nr2 short\nc1 1-2\n")
        self.assertEqual(graph.count("\n"), 3)
        self.assertIn("no GraphML", self.refusal("edges_to_graph", self.write("bad.xml", "<graphml><node")))

    def test_texts_that_are_none(self) -> None:
        line = "-: no list of edges, line 2 is not `TAIL HEAD` or `TAIL HEAD NAME`"
        self.assertEqual(self.refusal("edges_to_graph", text="a b\nc\n"), line)
        many = "".join(f"0 {node}\n" for node in range(1, 1002))
        self.assertIn("there are 1001 edges in the tree", self.refusal("edges_to_graph", text=many))
        self.assertEqual(self.refusal("edges_to_graph", "none"), "cannot read none: No such file or directory")


if __name__ == "__main__":
    unittest.main()
