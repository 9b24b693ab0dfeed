"""Tests of `graph_to_dot`."""

from __future__ import annotations

import os
import random
import re
import subprocess

from tests.scripts import ScriptTest, needs_dot, needs_python

GRAPH = "0 1 r1\n2 1 r2\n0 2 c1\n1 2 c2\n0 0 c3\n"
TRANSPOSED = "0 1 c1\n2 1 c2\n0 2 r1\n"


def flow(nodes, arcs):
    """The graph text of the node-arc matrix of a random network, with its names."""
    number = random.Random(1)
    pairs = set()
    while len(pairs) < arcs:
        pairs.add(tuple(number.sample(range(2, nodes + 2), 2)))
    tree = [(node, 1) if node > 1 else (0, 1) for node in (0, *range(2, nodes + 1))]
    ends = [(0 if tail == nodes + 1 else tail, 0 if head == nodes + 1 else head) for tail, head in sorted(pairs)]
    text = [f"{tail} {head} r{row}\n" for row, (tail, head) in enumerate(tree, 1)]
    text += [f"{tail} {head} c{column}\n" for column, (tail, head) in enumerate(ends, 1)]
    names = [f"r{row} node[{tail}]\n" for row, (tail, _) in enumerate(tree, 1)]
    names += [f"c{column} flow[{tail},{head}]\n" for column, (tail, head) in enumerate(ends, 1)]
    return "".join(text), "".join(names)


@needs_python
class GraphPictures(ScriptTest):
    def edges(self, text, *words):
        """The edges of the picture with their labels, and whether they are dashed."""
        lines = self.output("graph_to_dot", *words, text=text).splitlines()
        edges = [line.strip() for line in lines if " -> " in line or " -- " in line]
        return [f"{edge.split(' [')[0]} {edge.split(chr(34))[1]}{' dashed' * ('dashed' in edge)}" for edge in edges]

    def test_arcs_and_walks(self) -> None:
        arcs = ["0 -> 1 r1", "2 -> 1 r2"]
        walks = ["0 -> 2 c1 dashed", "1 -> 2 c2 dashed", "0 -> 0 c3 dashed"]
        self.assertEqual(self.edges(GRAPH, "--tree"), [*arcs, *walks])

    def test_names(self) -> None:
        names = self.write("names", "r1 ann\nr2 bob\nc1 mon\nc2 tue\nc3 wed\n")
        edges = self.edges(GRAPH, "--names", names, "--undirected", "--tree")
        self.assertEqual(
            edges, ["0 -- 1 ann", "2 -- 1 bob", "0 -- 2 mon dashed", "1 -- 2 tue dashed", "0 -- 0 wed dashed"]
        )

    def test_a_graph_of_the_transposed_matrix(self) -> None:
        self.assertEqual(self.edges(TRANSPOSED, "--tree"), ["0 -> 1 c1", "2 -> 1 c2", "0 -> 2 r1 dashed"])
        self.assertEqual(self.edges(TRANSPOSED, "--rows-as-nodes"), ["c1 -> c2 r1"])

    def test_graphs_of_matroids_have_all_nodes_and_edges(self) -> None:
        """No path of K4 in a star takes more than two arcs, and still its hub belongs to the graph."""
        text = "0 1 r1\n0 2 r2\n0 3 r3\n1 2 c1\n1 3 c2\n2 3 c3\n"
        names = self.write("names", "".join(f"{word}{number} {word}-{number}\n" for word in "rc" for number in (1, 2, 3)))
        for words in ([], ["--undirected"], ["--undirected", "--names", names], ["--names", names], ["--tree"]):
            with self.subTest(words=words):
                edges = self.edges(text, *words)
                self.assertEqual([edge.split()[0:3:2] for edge in edges], [line.split()[:2] for line in text.splitlines()])
        self.assertEqual(len(self.edges(text, "--rows-as-nodes", "--names", names)), 3)
        self.assertEqual(len(self.edges(text, "--undirected", "--rows-as-nodes")), 3)

    def test_a_tree_is_drawn_where_a_path_takes_three_arcs(self) -> None:
        text = "0 1 r1\n1 2 r2\n2 3 r3\n0 2 c1\n0 3 c2\n"
        arcs = ["0 -> 1 r1", "1 -> 2 r2", "2 -> 3 r3"]
        self.assertEqual(self.edges(text), [*arcs, "0 -> 2 c1 dashed", "0 -> 3 c2 dashed"])

    def test_rows_are_nodes_where_no_path_takes_more_than_two_arcs(self) -> None:
        lines = self.output("graph_to_dot", "--rows-as-nodes", text=GRAPH)
        for piece in ('r1 -> r2 [label="c1"]', '"c2.end" -> r2 [label="c2"]', '"c3.end" -> "c3.end" [label="c3"]'):
            self.assertIn(piece, lines)
        self.assertNotIn("dashed", lines)

    def test_arrows_as_the_names_tell(self) -> None:
        """All arrows of a matrix can be reversed together, and indices say which direction is meant."""
        for columns in (["flow[a,b]", "flow[b,c]"], ["flow[b,a]", "flow[c,b]"]):
            names = self.write("names", "".join(f"r{i} node[{it}]\n" for i, it in enumerate("abc", 1)))
            names = self.write("names", self.read("names") + "".join(f"c{i} {it}\n" for i, it in enumerate(columns, 1)))
            lines = self.output("graph_to_dot", "--rows-as-nodes", "--names", names, text="0 1 r1\n2 1 r2\n3 1 r3\n0 2 c1\n2 3 c2\n")
            forwards = columns[0] == "flow[a,b]"
            self.assertIn(f"{'r1 -> r2' if forwards else 'r2 -> r1'} [label=\"{columns[0]}\"]", lines)
            self.assertIn(f"{'r2 -> r3' if forwards else 'r3 -> r2'} [label=\"{columns[1]}\"]", lines)

    def test_rows_with_one_sign_are_sources_and_sinks(self) -> None:
        """As in a transport problem: each column has the entry 1 in the row of a supply and in the row of a demand."""
        lines = self.output("graph_to_dot", "--rows-as-nodes", text="0 1 r1\n2 1 r2\n1 3 r3\n0 3 c1\n2 3 c2\n")
        self.assertIn('r1 -> r3 [label="c1"]', lines)
        self.assertIn('r2 -> r3 [label="c2"]', lines)

    def test_layouts_by_size(self) -> None:
        for arcs, pieces in [
            (20, ["nodesep"]),
            (100, ['layout="neato"', 'splines="true"', 'label="c100"']),
            (200, ['layout="sfdp"', 'tooltip="c200"']),
        ]:
            lines = self.output("graph_to_dot", "--rows-as-nodes", text=flow(30, arcs)[0])
            for piece in pieces:
                self.assertIn(piece, lines)
        self.assertIn('rankdir="LR"', self.output("graph_to_dot", "--rows-as-nodes", text="0 1 r1\n2 1 r2\n0 2 c1\n"))
        self.assertNotIn("rankdir", self.output("graph_to_dot", "--rows-as-nodes", text=flow(10, 20)[0]))

    def test_graphs_without_a_tree(self) -> None:
        self.assertEqual(self.edges("0 0 c1\n", "--tree"), ["0 -> 0 c1 dashed"])
        self.assertEqual(self.edges(""), [])

    def test_families_beyond_the_limit(self) -> None:
        text, names = flow(30, 100)
        lines = self.output("graph_to_dot", "--rows-as-nodes", "--limit", "99", "--names", self.write("names", names), text=text)
        self.assertIn('label="30 of node[..]"', lines)
        self.assertIn('label="100 of flow[..]"', lines)
        path = "".join(f"{arc - 1} {arc} r{arc}\n" for arc in range(1, 1001)) + "0 1000 c1\n"
        self.assertIn("a tree of 1000 arcs:\\n1000 of r#\\n1 paths:\\n1 of c#", self.output("graph_to_dot", text=path))

    def test_texts_that_are_no_graphs(self) -> None:
        for text, line in [
            ("0 1\n", "line 1 is not `TAIL HEAD rI` or `TAIL HEAD cJ`"),
            ("0 1 r1\n1 0 x1\n", "line 2 is not `TAIL HEAD rI` or `TAIL HEAD cJ`"),
            ("0 1 r1\n0 1 c1\n0 1 r2\n", "its edges do not represent all rows and columns in their order"),
            ("0 1 r2\n", "its edges do not represent all rows and columns in their order"),
            ("0 2 r1\n", "its first edges are no tree on the nodes 0 to 1"),
            ("0 1 r1\n1 0 r2\n", "its first edges are no tree on the nodes 0 to 2"),
            ("0 1 r1\n0 2 c1\n", "a path ends outside of the tree"),
        ]:
            with self.subTest(text=text):
                self.assertEqual(self.refusal("graph_to_dot", text=text), f"-: no graph, {line}")

    def test_names_of_another_matrix(self) -> None:
        line = self.refusal("graph_to_dot", "--names", self.write("names", "r1 ann\n"), text=GRAPH)
        self.assertEqual(line, "the names are those of a matrix of size 1x0, and here it is 2x3")

    @needs_dot
    def test_graphviz_draws_it(self) -> None:
        for text in (GRAPH, TRANSPOSED, "0 0 c1\n", ""):
            for words, left_out in (([], 0), (["--rows-as-nodes"], 2 if text in (GRAPH, TRANSPOSED) else 0)):
                dot = self.output("graph_to_dot", *words, text=text)
                run = subprocess.run(["dot", "-Tsvg"], input=dot, capture_output=True, text=True)
                self.assertEqual((run.returncode, run.stderr), (0, ""))
                self.assertEqual(run.stdout.count('class="edge"'), text.count("\n") - left_out)

    @needs_dot
    def test_trees_with_many_paths_are_drawn(self) -> None:
        """Graphviz fails if it must bend the edges of such a graph."""
        number = random.Random(7)
        lines = [f"{number.randrange(arc)} {arc} r{arc}\n" for arc in range(1, 101)]
        lines += [f"{number.randrange(101)} {number.randrange(101)} c{path}\n" for path in range(1, 101)]
        dot = self.output("graph_to_dot", text="".join(lines))
        run = subprocess.run(["dot", "-Tsvg"], input=dot, capture_output=True, text=True, timeout=600)
        self.assertEqual((run.returncode, run.stderr, run.stdout.count('class="edge"')), (0, "", 200))

    @needs_dot
    def test_a_hundred_arcs_fit_on_a_screen_and_a_thousand_are_drawn(self) -> None:
        for nodes, arcs, widest, highest in [(30, 100, 1400, 1000), (300, 1000, 3000, 3000)]:
            text, names = flow(nodes, arcs)
            before = os.times().children_user
            dot = self.output("graph_to_dot", "--rows-as-nodes", "--names", self.write("names", names), text=text)
            run = subprocess.run(["dot", "-Tsvg"], input=dot, capture_output=True, text=True, timeout=600)
            self.assertLess(os.times().children_user - before, 10)
            self.assertEqual((run.returncode, run.stderr), (0, ""))
            self.assertEqual(run.stdout.count('class="edge"'), arcs)
            width, height = (int(size) * 96 / 72 for size in re.findall(r'(?:width|height)="([0-9]+)pt"', run.stdout))
            self.assertLess(width, widest)
            self.assertLess(height, highest)
