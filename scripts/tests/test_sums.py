"""`cmr parts` and `cmr compose` on the built program: each is the inverse of the other."""

import random
import unittest

from tests.support import ScriptTest, needs_program
from tests.test_check import rows, tree_of

KINDS = ("twosum", "delta", "y", "mixed", "concentrated")


def entries_of(text):
    return [[int(entry) for entry in line.split()] for line in text.splitlines()[1:]]


def dense(entries, width):
    return "\n".join([f"{len(entries)} {width}", *[" ".join(map(str, row)) for row in entries]]) + "\n"


def drawn(draw, height, width):
    return [[draw.choice((-1, 0, 1)) for _ in range(width)] for _ in range(height)]


@needs_program
class SumsTest(ScriptTest):
    def answered(self, *words):
        """The output of the program. The status must be 0."""
        run = self.run_program(*words)
        self.assertEqual((run.returncode, run.stderr), (0, ""), words)
        return run.stdout

    def composed(self, kind, first, second):
        self.write("first.txt", first)
        self.write("second.txt", second)
        self.answered("compose", kind, "first.txt", "second.txt", "-M", "sum.txt")
        return entries_of(self.read("sum.txt"))

    def test_one_sums_and_two_sums(self):
        """Of random matrices: two blocks, and next to them the products of a last column with a first row."""
        draw = random.Random(1)
        for _ in range(20):
            height, width, more, wide = (draw.randint(1, 5) for _ in range(4))
            first, second = drawn(draw, height, width), drawn(draw, more, wide)
            expected = [row + [0] * wide for row in first] + [[0] * width + row for row in second]
            self.assertEqual(self.composed("one", dense(first, width), dense(second, wide)), expected)
            column, row = [line[-1] for line in first], second[0]
            expected = [line[:-1] + [entry * other for other in row] for line, entry in zip(first, column)]
            expected += [[0] * (width - 1) + line for line in second[1:]]
            self.assertEqual(self.composed("two", dense(first, width), dense(second, wide)), expected)

    def test_parts_are_composed_to_the_matrix(self):
        """For each form, with randomly negated lines: the sum of the parts is the matrix in the printed order."""
        draw = random.Random(2)
        for matrix, node in rows("accepted_trees.txt"):
            kind = node.split(maxsplit=1)[0]
            if kind not in KINDS:
                continue
            entries = entries_of(matrix)
            for _ in range(10):
                signs = [draw.choice((-1, 1)) for _ in range(len(entries) + len(entries[0]))]
                turned = [
                    [entry * signs[row] * signs[len(entries) + column] for column, entry in enumerate(line)]
                    for row, line in enumerate(entries)
                ]
                with self.subTest(kind=kind, matrix=turned):
                    self.is_put_together(kind, turned, node)

    def is_put_together(self, kind, entries, node):
        text = dense(entries, len(entries[0]))
        self.write("matrix.txt", text)
        self.write("tree.txt", tree_of(text, node))
        printed = self.answered("parts", "matrix.txt", "tree.txt", "-A", "first.txt", "-B", "second.txt")
        order = printed.splitlines()[1].split()
        between = order.index("columns")
        row_order = [int(line) - 1 for line in order[2:between]]
        column_order = [int(line) - 1 for line in order[between + 1 :]]
        self.assertEqual(sorted(row_order), list(range(len(entries))))
        self.assertEqual(sorted(column_order), list(range(len(entries[0]))))
        found = self.composed("two" if kind == "twosum" else kind, self.read("first.txt"), self.read("second.txt"))
        self.assertEqual(found, [[entries[row][column] for column in column_order] for row in row_order])


if __name__ == "__main__":
    unittest.main()
