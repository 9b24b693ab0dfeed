"""Trees with pivots on the built program: `check` by hand and at random, `upgrade`, and `parts`."""

import random
import unittest

from tests.support import ScriptTest, needs_program

Matrix = list[list[int]]


def dense(matrix: Matrix) -> str:
    return "\n".join([f"{len(matrix)} {len(matrix[0])}", *[" ".join(map(str, row)) for row in matrix]]) + "\n"


def pivot(matrix: Matrix, row: int, column: int) -> Matrix:
    """The pivot at a nonzero; rows and columns are counted from 0."""
    sign = matrix[row][column]
    after = [
        [entry - sign * line[column] * matrix[row][place] for place, entry in enumerate(line)] for line in matrix
    ]
    after[row] = [sign * entry for entry in matrix[row]]
    for place, line in enumerate(matrix):
        after[place][column] = -sign * line[column]
    after[row][column] = sign
    return after


def pivoted_tree(matrix: Matrix, row: int, column: int, child: str) -> str:
    """A text whose root is pivoted at a row and a column, over this child."""
    height, width = len(matrix), len(matrix[0])
    lines = " ".join(str(line) for count in (height, width) for line in range(1, count + 1))
    return f"cmr-pivots 1\n{height} {width}\npivoted {height} {width} {lines}\n{row + 1} {column + 1}\n{child}"


@needs_program
class PivotsTest(ScriptTest):
    def checked(self, matrix: Matrix, tree: str) -> tuple[int, str]:
        self.write("matrix.txt", dense(matrix))
        self.write("tree.txt", tree)
        run = self.run_program("check", "matrix.txt", "tree.txt")
        self.assertEqual(run.stderr, "")
        return run.returncode, run.stdout

    def test_a_pivot_and_what_stands_below_it(self):
        matrix = [[1, 1], [1, 0]]
        clean = "enumerated 2 2 1 2 1 2\n"
        self.assertEqual(self.checked(matrix, pivoted_tree(matrix, 0, 0, clean)), (0, "accepted: yes\n"))
        self.assertEqual(self.checked(matrix, pivoted_tree(matrix, 1, 1, clean)), (7, "refused: root NotPivot\n"))
        two = [[1, 1], [1, -1]]
        self.assertEqual(self.checked(two, pivoted_tree(two, 0, 0, clean)), (7, "refused: root NotPivot\n"))
        part = "enumerated 2 1 1 2 1\n"
        self.assertEqual(self.checked(matrix, pivoted_tree(matrix, 0, 0, part)), (7, "refused: 1 Lines\n"))
        left = "undecided 2 2 1 2 1 2\n"
        self.assertEqual(self.checked(matrix, pivoted_tree(matrix, 0, 0, left)), (7, "refused: 1 BelowPivot\n"))

    def test_no_fault_below_a_pivot(self):
        matrix = [[1, 1, 0], [1, -1, 0], [0, 0, 1]]
        for kind in ("violator", "cycle"):
            fault = f"{kind} 3 3 1 2 3 1 2 3\n2 2 1 2 1 2\n"
            self.assertEqual(self.checked(matrix, pivoted_tree(matrix, 2, 2, fault)), (7, "refused: 1 BelowPivot\n"))
        none = "violator 3 3 1 2 3 1 2 3\n1 1 1 1\n"
        self.assertEqual(self.checked(matrix, pivoted_tree(matrix, 2, 2, none)), (7, "refused: 1 NotViolator\n"))

    def test_the_pivoted_matrix_is_what_counts_below(self):
        """The tree of a pivoted matrix is accepted below the pivot if and only if it says yes, and then the matrix has the same answer."""
        draw = random.Random(5)
        accepted = 0
        for _ in range(150):
            height, width = draw.randint(2, 6), draw.randint(2, 6)
            matrix = [[draw.choice((0, 0, 1, -1)) for _ in range(width)] for _ in range(height)]
            places = [(i, j) for i in range(height) for j in range(width) if matrix[i][j]]
            if not places:
                continue
            row, column = draw.choice(places)
            after = pivot(matrix, row, column)
            if any(abs(entry) > 1 for line in after for entry in line):
                self.assertEqual(
                    self.checked(matrix, pivoted_tree(matrix, row, column, "empty 0 0\n")), (7, "refused: root NotPivot\n")
                )
                continue
            self.write("after.txt", dense(after))
            answer = self.run_program("tu", "-D", "after.tree", "after.txt")
            below = self.read("after.tree").split("\n", 2)[2]
            status, line = self.checked(matrix, pivoted_tree(matrix, row, column, below))
            self.write("matrix.txt", dense(matrix))
            self.assertEqual(self.run_program("tu", "matrix.txt").returncode, answer.returncode)
            if answer.returncode == 0:
                accepted += 1
                self.assertEqual((status, line), (0, "accepted: yes\n"))
            else:
                self.assertEqual(status, 7)
                self.assertRegex(line, r"\Arefused: [0-9.]+ BelowPivot\n\Z")
        self.assertGreater(accepted, 20)

    def test_texts(self):
        matrix = [[1, 1], [1, 0]]
        text = pivoted_tree(matrix, 0, 0, "enumerated 2 2 1 2 1 2\n")
        self.write("tree.txt", text)
        run = self.run_program("upgrade", "tree.txt", "-D", "again.txt")
        self.assertEqual((run.returncode, run.stdout), (0, "upgraded: 2 nodes\n"))
        self.assertEqual(self.read("again.txt"), text)
        for wrong, fault in [
            (text.replace("cmr-pivots 1", "cmr-tree 2"), "UnknownKind at byte 15"),
            (text.replace("cmr-pivots 1", "cmr-pivots 2"), "WrongVersion at byte 11"),
            (text.replace("\n1 1\n", "\n1 3\n"), "OutOfRange at byte 39"),
        ]:
            self.write("tree.txt", wrong)
            run = self.run_program("upgrade", "tree.txt", "-D", "again.txt")
            self.assertEqual((run.returncode, run.stderr), (3, f"cmr: tree.txt: {fault}\n"))

    def test_a_pivoted_root_is_no_sum(self):
        matrix = [[1, 1], [1, 0]]
        self.write("matrix.txt", dense(matrix))
        self.write("tree.txt", pivoted_tree(matrix, 0, 0, "enumerated 2 2 1 2 1 2\n"))
        run = self.run_program("parts", "matrix.txt", "tree.txt", "-A", "a.txt", "-B", "b.txt")
        self.assertEqual((run.returncode, run.stdout), (7, "refused: root is pivoted\n"))

    def test_a_tree_without_pivots_is_written_in_version_two(self):
        self.write("tree.txt", "cmr-pivots 1\n0 0\nempty 0 0\n")
        self.assertEqual(self.run_program("upgrade", "tree.txt", "-D", "again.txt").returncode, 0)
        self.assertEqual(self.read("again.txt"), "cmr-tree 2\n0 0\nempty 0 0\n")


if __name__ == "__main__":
    unittest.main()
