"""The rules of `cmr check` on the built program: for each a tree that breaks it at its root, and the same tree deep below another root."""

import unittest
from pathlib import Path

from tests.support import ScriptTest, needs_program

DATA = Path(__file__).with_name("data")

# The number of rows of zeros below the matrix whose tree is put deep, and the path to the root of that tree.
ZEROS = 4
DEEP = [2, 1, 1, 1]


def rows(name):
    """The rows of a table: a matrix, a tree or a node with all lines, and its answer; a slash ends a line."""
    return [
        [field.replace("/", "\n") if place < 2 else field.rstrip("/") for place, field in enumerate(row.split("; "))]
        for row in (DATA / name).read_text(encoding="ascii").splitlines()
    ]


def size(matrix):
    height, width = matrix.split(maxsplit=2)[:2]
    return int(height), int(width)


def node_line(kind, height, width):
    lines = [str(line) for count in (height, width) for line in range(1, count + 1)]
    return " ".join([kind, str(height), str(width), *lines]) + "\n"


def tree_of(matrix, node):
    height, width = size(matrix)
    return f"cmr-tree 2\n{height} {width}\n{node}"


def deep_matrix(matrix):
    height, width = size(matrix)
    head, *entries = matrix.splitlines()
    return "\n".join([f"{height + ZEROS} {width}", *entries, *[" ".join(["0"] * width)] * ZEROS]) + "\n"


def deep_tree(matrix, node):
    """The root has two parts: the last row of zeros, and the rest, from which the other rows of zeros are removed one by one."""
    height, width = size(matrix)
    whole = height + ZEROS
    above = node_line("onesum", whole, width) + f"2\nundecided 1 0 {whole}\n"
    for left in range(whole - 1, height, -1):
        above += node_line("reduced", left, width) + f"1\nr{left}\n"
    return f"cmr-tree 2\n{whole} {width}\n{above}{node}"


@needs_program
class CheckTest(ScriptTest):
    def checked(self, matrix, tree):
        """The status and the line of a run."""
        self.write("matrix.txt", matrix)
        self.write("tree.txt", tree)
        run = self.run_program("check", "matrix.txt", "tree.txt")
        self.assertEqual(run.stderr, "")
        return run.returncode, run.stdout

    def refused(self, path, rule):
        return 7, f"refused: {'.'.join(map(str, path)) or 'root'} {rule}\n"

    def test_rules_of_the_root(self):
        """Only the root is tested for its size and for having all lines."""
        for matrix, tree, rule in rows("broken_roots.txt"):
            with self.subTest(tree=tree):
                self.assertEqual(self.checked(matrix, tree), self.refused([], rule))

    def test_each_rule_at_the_root_and_deep(self):
        for matrix, node, answer in rows("broken_trees.txt"):
            rule, *path = answer.split()
            path = [int(child) + 1 for child in path]
            with self.subTest(matrix=matrix, node=node):
                self.assertEqual(self.checked(matrix, tree_of(matrix, node)), self.refused(path, rule))
                self.assertEqual(self.checked(deep_matrix(matrix), deep_tree(matrix, node)), self.refused(DEEP + path, rule))

    def test_no_row_set_of_a_long_leaf_is_gone_through(self):
        matrix = "25 25\n" + (" ".join(["0"] * 25) + "\n") * 25
        node = node_line("enumerated", 25, 25)
        self.assertEqual(self.checked(matrix, tree_of(matrix, node)), self.refused([], "TooMany"))
        self.assertEqual(self.checked(deep_matrix(matrix), deep_tree(matrix, node)), self.refused(DEEP, "TooMany"))

    def test_sound_trees_that_no_decomposition_has(self):
        for matrix, node in rows("accepted_trees.txt"):
            with self.subTest(matrix=matrix, node=node):
                self.assertRegex(self.checked(matrix, tree_of(matrix, node))[1], r"\Aaccepted: (yes|no|undecided)\n")
                self.assertRegex(self.checked(deep_matrix(matrix), deep_tree(matrix, node))[1], r"\Aaccepted: (no|undecided)\n")


if __name__ == "__main__":
    unittest.main()
