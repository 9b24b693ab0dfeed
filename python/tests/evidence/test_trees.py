"""Tests of reading tree texts, of `tree_to_dot`, and of the outlines with names of `name_lines`."""

from __future__ import annotations

import re
import subprocess

from cmr_matrices import BadInput, Tree
from tests.evidence.tree_texts import EACH_KIND, chain, first_lines
from tests.scripts import ScriptTest, needs_dot, needs_python

SHIFTS = """\
cmr-tree 2
4 4
reduced 4 4 1 2 3 4 1 2 3 4
1 c4
twosum 4 3 1 2 3 4 1 2 3
3 2 2 1 1 2 1
network 2 2 1 2 1 2
0 1 1 2 0 1 0 2
violator 3 3 2 3 4 1 2 3
3 3 2 3 4 1 2 3
"""
NAMES = "r1 ann\nr2 bob\nr3 cat\nr4 dan\nc1 mon\nc2 tue\nc3 wed\nc4 thu\n"


class Reading(ScriptTest):
    def test_each_kind_of_node(self) -> None:
        tree = Tree.from_text(EACH_KIND)
        outline = " ".join(f"{depth}{node.kind}" for depth, node in tree.walk())
        self.assertEqual(
            outline,
            "0onesum 1reduced 2empty 1conetwork 1twosum 2network 2enumerated 1delta 2r10 2undecided 1y 2r10 2r10 "
            "1mixed 2r10 2r10 1concentrated 2r10 2r10 1cycle 1violator",
        )
        joints = [tuple(line.word for line in node.connectors) for _, node in tree.walk() if node.connectors]
        self.assertEqual(joints[0], ("r6", "c5"))
        self.assertEqual(
            joints[1:],
            [
                tuple(words.split())
                for words in ("r1 c1 c2 r5 c5 c6", "r1 c1 r2 r5 c5 r6", "r1 c1 c2 r5 c5 r6", "r1 c1 c2 r5 c5 r6")
            ],
        )

    def test_both_versions(self) -> None:
        first = SHIFTS.replace("cmr-tree 2", "cmr-tree 1")
        self.assertEqual(Tree.from_text(first), Tree.from_text(SHIFTS))

    def test_depths_that_the_format_allows(self) -> None:
        tree = Tree.from_text(chain(*["twosum", "reduced"] * 1000))
        self.assertEqual(max(depth for depth, _ in tree.walk()), 2000)

    def test_texts_that_are_no_trees(self) -> None:
        for text, fault in [
            ("", "the text ends too early"),
            ("4 4\n", "it does not begin with the words `cmr-tree 1`, `cmr-tree 2` or `cmr-pivots 1`"),
            ("cmr-tree 3\n", "it does not begin with the words `cmr-tree 1`, `cmr-tree 2` or `cmr-pivots 1`"),
            ("cmr-tree 1 1001 1", "1001 is above 1000 (at character 11)"),
            ("cmr-tree 1 2 -2", "-2 is no number (at character 13)"),
            ("cmr-tree 2 2 2\nforest 0 0", "forest is no kind of node (at character 15)"),
            ("cmr-tree 1 2 2\nconcentrated 0 0", "concentrated is no kind of node (at character 15)"),
            ("cmr-tree 1 2 2\nempty 1 0 0", "rows and columns begin with 1 (at character 25)"),
            ("cmr-tree 1 2 2\nr10 2 0 2 1", "the numbers of a list do not rise (at character 25)"),
            ("cmr-tree 1 2 2\nr10 1 1 1 3", "3 is above 2 (at character 25)"),
            (f"cmr-tree 1 2 2\nr10 1 1 1 {'9' * 5000}", f"{'9' * 20}.. is above 2 (at character 25)"),
            ("cmr-tree 1 2 2\nreduced 1 1 1 1\n1 x1", "x1 is no row or column (at character 33)"),
            ("cmr-tree 1 2 2\nreduced 1 1 1 1\n1 c0", "rows and columns begin with 1 (at character 33)"),
            ("cmr-tree 1 2 2\nreduced 1 1 1 1\n3", "3 is above 2 (at character 31)"),
            ("cmr-tree 1 2 2\nnetwork 1 1 1 1\n0 2 0 1", "2 is above 1 (at character 33)"),
            ("cmr-tree 1 2 2\nonesum 1 1 1 1\n2\nempty 0 0", "the text ends too early"),
            ("cmr-tree 1 2 2\nempty 0 0\nempty", "words follow the last node"),
        ]:
            with self.subTest(text=text[:60]), self.assertRaises(BadInput) as refused:
                Tree.from_text(text)
            self.assertEqual(str(refused.exception), f"no decomposition tree: {fault}")


@needs_python
class Pictures(ScriptTest):
    def labels(self, text, *words):
        dot = self.output("tree_to_dot", *words, text=text)
        return [label.replace("\\n", " / ") for label in re.findall(r'label="(.*?)", fill', dot)]

    def test_nodes_with_names(self) -> None:
        names = self.write("names", NAMES)
        self.assertEqual(
            self.labels(SHIFTS, "--names", names, "--small", "6"),
            [
                "reduced 4x4 / without thu",
                "twosum 4x3 / at cat tue",
                "network 2x2 / rows ann bob / columns mon tue",
                "violator 3x3 / rows bob cat dan / columns mon tue wed",
            ],
        )
        self.assertEqual(self.labels(SHIFTS, "--small", "0")[-2:], ["network 2x2", "violator 3x3"])

    def test_like_leaves_are_counted_together(self) -> None:
        leaves = "".join(f"network {first_lines(size, 1)}\n{'0 0 ' * (size + 1)}\n" for size in range(1, 300))
        text = f"cmr-tree 2\n300 300\nonesum {first_lines(300, 300)}\n300\n{leaves}r10 {first_lines(5, 5)}\n"
        self.assertEqual(self.labels(text, "--small", "0"), ["onesum 300x300", "299 network / 1x1 to 299x1", "r10 5x5"])

    def test_like_sums_are_counted_together_in_large_trees(self) -> None:
        self.assertEqual(len(self.labels(chain(*["twosum"] * 10))), 21)
        leaves = ["300 r10 / 5x5", "network 1x1"]
        labels = self.labels(chain(*["twosum"] * 300), "--small", "0")
        self.assertEqual(labels, ["300 twosum / 5x5", *leaves])
        labels = self.labels(chain(*["twosum", "reduced"] * 299, "twosum"), "--small", "0")
        self.assertEqual(labels, ["300 twosum / 299 reduced / 5x5", *leaves])

    def test_large_trees_keep_to_the_limit(self) -> None:
        labels = self.labels(chain(*["twosum", "y"] * 500), "--small", "0", "--limit", "10")
        self.assertEqual(labels[:4], ["twosum 5x5 / at r1 c1", "r10 5x5", "y 5x5 / at r1 c1 r2 r5 c5 r6", "r10 5x5"])
        pairs = self.labels(chain(*["twosum", "twosum", "y", "y"] * 200), "--small", "0", "--limit", "8")
        self.assertEqual(pairs[:4], ["2 twosum / 5x5", "r10 5x5", "r10 5x5", "2 y / 5x5"])
        self.assertEqual(pairs[-1], "1589 nodes, 5x5 / 794 r10 / 398 y / 396 twosum / 1 network")
        self.assertEqual(labels[10:], ["1991 nodes, 5x5 / 995 r10 / 498 y / 497 twosum / 1 network"])

    def test_names_of_another_matrix(self) -> None:
        names = self.write("names", "r1 ann\nc1 mon\n")
        line = self.refusal("tree_to_dot", "--names", names, text=SHIFTS)
        self.assertEqual(line, "the names are those of a matrix of size 1x1, and here it is 4x4")

    def test_texts_that_are_no_trees(self) -> None:
        line = self.refusal("tree_to_dot", self.write("bad.tree", "cmr-tree 2 2\n"))
        self.assertEqual(line, "bad.tree: no decomposition tree: the text ends too early")
        self.assertEqual(self.refusal("tree_to_dot", "none"), "cannot read none: No such file or directory")

    @needs_dot
    def test_graphviz_draws_it(self) -> None:
        names = self.write("names", NAMES.replace("ann", 'a"n\\n'))
        for text, words in [(EACH_KIND, []), (SHIFTS, ["--names", names]), (chain(*["twosum", "y"] * 300), [])]:
            dot = self.output("tree_to_dot", *words, text=text)
            run = subprocess.run(["dot", "-Tsvg"], input=dot, capture_output=True, text=True)
            self.assertEqual((run.returncode, run.stderr), (0, ""))
            self.assertEqual(run.stdout.count('class="node"'), dot.count("fillcolor"))


@needs_python
class Outlines(ScriptTest):
    OUTLINE = ["0 reduced 4x4", "1 twosum 4x3", "2 network 2x2", "2 violator 3x3"]
    NAMED = [
        "0 reduced 4x4 without thu",
        "1 twosum 4x3 at cat tue",
        "2 network 2x2 rows ann bob columns mon tue",
        "2 violator 3x3 fault rows bob cat dan columns mon tue wed",
    ]

    def test_the_outline_of_a_tree(self) -> None:
        named = self.output("name_lines", self.write("names", NAMES), text=SHIFTS)
        self.assertEqual(named.splitlines(), self.NAMED)

    def test_a_printed_outline_with_its_tree(self) -> None:
        names, tree = self.write("names", NAMES), self.write("tree", SHIFTS)
        printed = "totally unimodular: no\n" + "\n".join(self.OUTLINE) + "\n"
        self.assertEqual(self.output("name_lines", names, text=printed), printed)
        named = self.output("name_lines", names, "--tree", tree, text=printed)
        self.assertEqual(named.splitlines(), ["totally unimodular: no", *self.NAMED])

    def test_the_tree_of_another_outline(self) -> None:
        names, tree = self.write("names", NAMES), self.write("tree", SHIFTS)
        for outline, line in [(["0 twosum 4x3"], "0 twosum 4x3"), ([*self.OUTLINE, "2 r10 5x5"], "2 r10 5x5")]:
            refused = self.refusal("name_lines", names, "--tree", tree, text="\n".join(outline))
            self.assertEqual(refused, f"-: the tree is not that of the outline: it has no node for the line `{line}`")
