"""Evidence as values: what it becomes, its texts, and what is refused as one."""

from __future__ import annotations

import copy
import pickle
import unittest
from typing import Any

from cmr_matrices import BadInput, Chain, Graph, Line, LineSet, Names, Reductions, Signing, Submatrix, Tree
from tests.support import needs_module

GRAPH = "0 1 r1\n2 1 r2\n0 2 c1\n1 2 c2\n0 0 c3\n"
TURNED = "0 1 c1\n2 1 c2\n0 2 r1\n"
TREE = """\
cmr-tree 2
4 4
reduced 4 4 1 2 3 4 1 2 3 4
1 c4
twosum 4 3 1 2 3 4 1 2 3
3 2 2 1 1 2 1
network 2 2 1 2 1 2
0 1 1 2 0 1 0 2
violator 3 3 2 3 4 1 2 3
3 3 2 3 4 1 2 3
"""
CHAIN = "cmr-chain 1\n2 2 3\nfree 1 1\nfree 1 2\nforced 2 1 2 2 1 2 1 2\nviolator 2 2 1 2 1 2\n"
STEPS = "r1 zero\nr2 unit c3\nc1 copy c2\nc3 negative c1\n"
SIGNING = "row 1 -\nrow 2 +\npivot 1 2\naside 2\n"
NAMES = Names(("ann", "bob", "cat", "dan"), ("mon", "tue", "wed", "thu"))


def deep_tree(depth: int) -> str:
    return "cmr-tree 2\n1 1\n" + "onesum 1 1 1 1\n1\n" * depth + "empty 0 0\n"


class Texts(unittest.TestCase):
    def test_texts_are_read_and_written(self) -> None:
        readings: list[tuple[Any, str]] = [
            (Tree, TREE),
            (Graph, GRAPH),
            (Graph, TURNED),
            (Graph, ""),
            (Chain, CHAIN),
            (Reductions, STEPS),
            (Reductions, ""),
            (Signing, SIGNING),
            (Submatrix, "3 4 2 1\n1 3\n4\n"),
            (Submatrix, "0 0 0 0\n\n\n"),
        ]
        for kind, text in readings:
            with self.subTest(kind=kind, text=text):
                value = kind.from_text(text)
                self.assertEqual(value.to_text(), text)
                self.assertEqual(kind.from_text(value.to_text()), value)
                self.assertEqual(hash(kind.from_text(text)), hash(value))
                self.assertEqual(pickle.loads(pickle.dumps(value)), value)

    def test_texts_that_are_refused(self) -> None:
        readings: list[tuple[Any, str, str]] = [
            (Submatrix, "3 4 2 1\n1 3\n", "no submatrix: the text ends too early"),
            (Submatrix, "3 4 2 1\n3 1\n4", "no submatrix: the numbers of a list do not rise (at character 10)"),
            (Submatrix, "3 4 2 1\n1 4\n4", "no submatrix: 4 is above 3 (at character 10)"),
            (Submatrix, "0 0 0 0 0", "no submatrix: words follow the last list"),
            (Chain, "cmr-chain 2", "no chain: it does not begin with the words `cmr-chain 1`"),
            (Chain, CHAIN.replace("free", "loose"), "no chain: loose is no step (at character 18)"),
            (Chain, CHAIN.replace("violator", "v"), "no chain: the violator is missing (at character 59)"),
            (Chain, CHAIN + "1", "no chain: words follow the violator"),
            (Reductions, "r1 unit", "no list of reductions: line 1 is no reduction"),
            (Reductions, "r1 zero\nr1 zero c1", "no list of reductions: line 2 is no reduction"),
            (Signing, "row 1 *", "no signing: 'row 1 *' is no line of one"),
            (Tree, "cmr-tree 2", "no decomposition tree: the text ends too early"),
            (Graph, "0 1", "no graph, line 1 is not `TAIL HEAD rI` or `TAIL HEAD cJ`"),
        ]
        for kind, text, line in readings:
            with self.subTest(text=text), self.assertRaises(BadInput) as refused:
                kind.from_text(text)
            self.assertEqual(str(refused.exception), line)


class Trees(unittest.TestCase):
    def test_a_walk_goes_in_preorder(self) -> None:
        tree = Tree.from_text(TREE)
        kinds = [(depth, node.kind) for depth, node in tree.walk()]
        self.assertEqual(kinds, [(0, "reduced"), (1, "twosum"), (2, "network"), (2, "violator")])
        self.assertEqual(str(tree), "0 reduced 4x4\n1 twosum 4x3\n2 network 2x2\n2 violator 3x3")
        self.assertEqual(tree.verdict, "no")

    def test_what_nodes_say(self) -> None:
        root = Tree.from_text(TREE).root
        (split,) = root.children
        network, violator = split.children
        self.assertEqual(root.removed, (Line("column", 3),))
        self.assertEqual(split.connectors, (Line("row", 2), Line("column", 1)))
        self.assertEqual(split.side, LineSet((0, 1), (0,)))
        self.assertEqual((network.rows, network.columns, network.is_leaf), ((0, 1), (0, 1), True))
        assert network.graph is not None
        self.assertEqual([(edge.tail, edge.head) for edge in network.graph.walks], [(0, 1), (0, 2)])
        self.assertEqual(violator.fault, LineSet((1, 2, 3), (0, 1, 2)))

    def test_version_1_is_the_same_tree(self) -> None:
        self.assertEqual(Tree.from_text(TREE.replace("tree 2", "tree 1")), Tree.from_text(TREE))
        self.assertNotEqual(Tree.from_text(TREE), Tree.from_text(deep_tree(1)))

    def test_the_deepest_trees(self) -> None:
        text = deep_tree(2000)
        tree = Tree.from_text(text)
        self.assertEqual(max(depth for depth, _ in tree.walk()), 2000)
        for same in (Tree.from_text(text), pickle.loads(pickle.dumps(tree)), copy.deepcopy(tree)):
            self.assertEqual(same, tree)
        self.assertEqual(repr(tree), "Tree(shape=(1, 1))")
        self.assertTrue(tree.to_dot().startswith("digraph tree {"))

    @needs_module("networkx")
    def test_networkx(self) -> None:
        graph = Tree.from_text(TREE).to_networkx()
        self.assertEqual(sorted(graph.edges), [(0, 1), (1, 2), (1, 3)])
        self.assertEqual(graph.nodes[3]["kind"], "violator")
        self.assertEqual(graph.nodes[2]["rows"], (0, 1))

    def test_dot_shows_names(self) -> None:
        named = Tree.from_text(TREE, NAMES)
        self.assertIn("at cat tue", named.to_dot())
        self.assertIn("at r2 c1", Tree.from_text(TREE).to_dot())
        self.assertEqual(named.to_dot(), Tree.from_text(TREE).to_dot(NAMES))


class Graphs(unittest.TestCase):
    def test_shapes(self) -> None:
        self.assertEqual((Graph.from_text(GRAPH).shape, Graph.from_text(TURNED).shape), ((2, 3), (1, 2)))
        self.assertEqual(Graph.from_text("0 0 c1\n").shape, (0, 1))
        self.assertEqual(Graph.from_text("0 0 r1\n").shape, (1, 0))
        self.assertEqual(Graph.from_text("").shape, (0, 0))

    @needs_module("networkx")
    def test_networkx(self) -> None:
        import networkx

        graph = Graph.from_text(GRAPH, names=Names(("a", "b"), ("x", "y", "z"))).to_networkx()
        self.assertIsInstance(graph, networkx.MultiDiGraph)
        edges = {(tail, head, data["name"], data["in_tree"]) for tail, head, data in graph.edges(data=True)}
        self.assertEqual(
            edges, {(0, 1, "a", True), (2, 1, "b", True), (0, 2, "x", False), (1, 2, "y", False), (0, 0, "z", False)}
        )
        self.assertEqual(graph.edges[0, 1, Line("row", 0)]["line"], Line("row", 0))
        plain = Graph.from_text(GRAPH, directed=False).to_networkx()
        self.assertNotIsInstance(plain, networkx.DiGraph)
        self.assertEqual(sorted(data["name"] for _, _, data in plain.edges(data=True)), ["c0", "c1", "c2", "r0", "r1"])

    def test_dot(self) -> None:
        self.assertIn('0 -> 1 [label="r0", penwidth="2"]', Graph.from_text(GRAPH).to_dot(tree=True))
        self.assertIn("0 -- 2 [", Graph.from_text(GRAPH, directed=False).to_dot(tree=True))


class Pictures(unittest.TestCase):
    def test_notebooks_draw_them(self) -> None:
        drawn_values: tuple[Tree | Graph, ...] = (Tree.from_text(TREE), Graph.from_text(GRAPH))
        for value in drawn_values:
            drawn = value._repr_svg_()
            if drawn is None:
                self.skipTest("dot is not there")
            self.assertIn("<svg", drawn)


class Submatrices(unittest.TestCase):
    def test_names_and_entries(self) -> None:
        rows = [[1, 0, -1, 1], [0, 1, 1, 0], [1, 1, 0, 0]]
        part = Submatrix((3, 4), (0, 2), (1, 3))
        self.assertEqual(part.submatrix(rows).to_lists(), [[0, 1], [1, 0]])
        self.assertEqual((part.row_names, part.column_names), (("r0", "r2"), ("c1", "c3")))
        named = Submatrix((3, 4), (0, 2), (1, 3), Names(("a", "b", "c"), ("w", "x", "y", "z")))
        self.assertEqual(str(named), "rows a c columns x z")
        self.assertEqual(named, part)
        self.assertEqual([line.word for line in part.lines], ["r1", "r3", "c2", "c4"])
        self.assertIn(Line("row", 2), part.lines)
        with self.assertRaises(BadInput):
            part.submatrix([[1]])


if __name__ == "__main__":
    unittest.main()
