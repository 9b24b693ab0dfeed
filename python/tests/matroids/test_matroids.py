"""Binary matroids of the literature on the built program, each by the 0/1 matrix next to the identity in a representation
(Oxley, Matroid Theory; Seymour, Decomposition of Regular Matroids), and their duals, which the transposed matrices represent.
"""

from __future__ import annotations

from tests.scripts import ScriptTest
from tests.support import needs_program

# A name, the matrix, and whether the matroid is regular, graphic and cographic.
MATROIDS = [
    ("the Fano plane", "3 4\n1 1 0 1\n1 0 1 1\n0 1 1 1\n", False, False, False),
    ("the complete graph on four nodes", "3 3\n1 1 0\n1 0 1\n0 1 1\n", True, True, True),
    ("the complete graph on five nodes", "4 6\n1 1 1 0 0 0\n1 0 0 1 1 0\n0 1 0 1 0 1\n0 0 1 0 1 1\n", True, True, False),
    ("three nodes joined with three others", "5 4\n1 1 1 1\n1 0 1 0\n0 1 0 1\n1 1 0 0\n0 0 1 1\n", True, True, False),
    ("R10", "5 5\n1 1 0 0 1\n1 1 1 0 0\n0 1 1 1 0\n0 0 1 1 1\n1 0 0 1 1\n", True, False, False),
    ("R10 by its other table", "5 5\n1 1 1 1 1\n1 1 1 0 0\n1 0 1 1 0\n1 0 0 1 1\n1 1 0 0 1\n", True, False, False),
    (
        "R12",
        "6 6\n1 1 1 0 0 0\n1 1 0 1 0 0\n1 0 0 0 1 0\n0 1 0 0 0 1\n0 0 1 0 1 1\n0 0 0 1 1 1\n",
        True,
        False,
        False,
    ),
]


def transposed(text):
    entries = [line.split() for line in text.splitlines()[1:]]
    lines = [" ".join(column) for column in zip(*entries)]
    return "\n".join([f"{len(lines)} {len(entries)}", *lines]) + "\n"


@needs_program
class MatroidsTest(ScriptTest):
    def says_yes(self, *words):
        """Whether a tool says yes to the matrix. Each answer except yes and no is a fault."""
        run = self.run_program(*words, "matrix.txt")
        self.assertIn((run.returncode, run.stderr), ((0, ""), (1, "")), words)
        return run.returncode == 0

    def has_facts(self, text, regular, graphic, cographic):
        self.write("matrix.txt", text)
        self.assertEqual(self.says_yes("regular"), regular)
        self.assertEqual(self.says_yes("graphic"), graphic)
        self.assertEqual(self.says_yes("graphic", "-t"), cographic)

    def test_facts(self) -> None:
        """Which are regular, graphic and cographic. The dual of a graphic matroid is cographic."""
        for name, text, regular, graphic, cographic in MATROIDS:
            with self.subTest(matroid=name):
                self.has_facts(text, regular, graphic, cographic)
            with self.subTest(dual_of=name):
                self.has_facts(transposed(text), regular, cographic, graphic)
