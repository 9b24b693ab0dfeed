"""Runs on larger matrices, each within seconds: a body that tries all trees, all sides or all sets would not end. Several workers
find the same as one worker."""

import subprocess
import unittest

from building.clone import BUILT
from tests.support import ScriptTest, needs_program
from tests.test_check import rows

SECONDS = 60


@needs_program
class LargeRunsTest(ScriptTest):
    def says_yes(self, *words):
        """The output of the program within the time of a test. The status must be 0."""
        command = [BUILT, *words]
        run = subprocess.run(command, capture_output=True, text=True, cwd=self.folder, timeout=SECONDS, check=False)
        self.assertEqual((run.returncode, run.stderr), (0, ""), words)
        return run.stdout.splitlines()

    def test_sum_of_ten(self):
        """Ten matrices R10 in a chain of two-sums: nineteen nodes, each at its level."""
        lines = self.says_yes("generate", "twosum", "10", "7", "-M", "sum.txt")
        self.assertEqual(lines[1], "totally unimodular: yes")
        self.assertEqual([line.split()[1] for line in lines[2:]].count("r10"), 10)
        self.assertEqual(len(lines), 21)
        tree = self.says_yes("tu", "-D", "tree", "sum.txt")
        self.assertEqual(tree[1:], lines[2:])
        self.assertEqual(self.says_yes("check", "sum.txt", "tree"), ["accepted: yes"])

    def test_network_of_three_hundred(self):
        """The tree and the graph of a network matrix do not depend on the number of workers."""
        made = {}
        for workers in ("1", "8"):
            lines = self.says_yes("generate", "network", "300", "7", "-w", workers, "-M", "matrix.txt")
            self.assertEqual(lines[1], "totally unimodular: yes")
            self.says_yes("tu", "-w", workers, "-D", "tree", "matrix.txt")
            self.says_yes("network", "-G", "graph", "matrix.txt")
            made[workers] = [lines, self.read("matrix.txt"), self.read("tree"), self.read("graph")]
        self.assertEqual(made["1"], made["8"])

    def test_kinds_on_several_workers(self):
        """A matrix of each kind of node has one tree, which the checker accepts."""
        for matrix, node in rows("accepted_trees.txt"):
            with self.subTest(node=node):
                self.write("matrix.txt", matrix)
                trees = []
                for workers in ("1", "3", "64"):
                    run = self.run_program("tu", "-w", workers, "-D", "tree", "matrix.txt")
                    self.assertIn(run.returncode, (0, 1, 6))
                    trees.append((run.returncode, run.stdout, self.read("tree")))
                self.assertEqual(trees[1:], [trees[0]] * 2)
                self.assertEqual(self.run_program("check", "matrix.txt", "tree").returncode, trees[0][0])


if __name__ == "__main__":
    unittest.main()
