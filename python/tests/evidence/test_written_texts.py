"""The texts of evidence are byte for byte those that the program writes."""

from __future__ import annotations

import unittest
from typing import Any

from cmr_matrices import Chain, Graph, Matrix, Reductions, Submatrix, Tree, check, compose, generate, parts
from cmr_matrices.running.program import run
from tests.support import EXAMPLES, FANO, K5, R10, TOP, TRIANGLE, needs_program

WRITTEN: dict[str, list[tuple[str, Any]]] = {
    "tu": [("-D", Tree), ("-E", Submatrix)],
    "regular": [("-D", Tree), ("-E", Submatrix), ("-C", Chain)],
    "series-parallel": [("-N", Submatrix), ("-S", Reductions), ("-R", Submatrix)],
    "network": [("-N", Submatrix), ("-G", Graph)],
    "network -t": [("-N", Submatrix), ("-G", Graph)],
}


def trees_by_hand() -> list[tuple[str, str]]:
    """The trees of scripts/tests that the checker accepts, each with the text of its matrix."""
    found = []
    for row in (TOP / "scripts" / "tests" / "data" / "accepted_trees.txt").read_text(encoding="ascii").splitlines():
        matrix, node = (field.replace("/", "\n") for field in row.split("; ")[:2])
        height, width = matrix.split(maxsplit=2)[:2]
        found.append((matrix, f"cmr-tree 2\n{height} {width}\n{node}"))
    return found


@needs_program
class WrittenTexts(unittest.TestCase):
    def test_each_file_of_each_tool(self) -> None:
        examples = [Matrix.from_text(path.read_text(encoding="ascii")) for path in EXAMPLES.glob("*.txt")]
        for matrix in (*examples, *map(Matrix.of, (FANO, K5, R10, TRIANGLE)), generate("twosum", 4, 1)):
            for tool, files in WRITTEN.items():
                if tool == "regular" and any(value < 0 for _, _, value in matrix.nonzeros):
                    continue
                options = [word for option, _ in files for word in (option, option[1:])]
                names = [option[1:] for option, _ in files]
                ran = run([*tool.split(), "-i", "sparse", *options], text=matrix.to_text(), outputs=names)
                for option, kind in files:
                    text = ran.files.get(option[1:])
                    if text is not None:
                        with self.subTest(tool=tool, option=option, matrix=matrix.to_lists()):
                            self.assertEqual(kind.from_text(text).to_text(), text)

    def test_trees_by_hand_are_written_as_by_upgrade(self) -> None:
        for _, text in trees_by_hand():
            written = run(["upgrade", "old", "-D", "new"], inputs={"old": text}, outputs=["new"]).files["new"]
            with self.subTest(tree=text):
                self.assertEqual(Tree.from_text(text).to_text(), written)

    def test_parts_of_each_form_are_composed_to_the_matrix(self) -> None:
        for matrix_text, text in trees_by_hand():
            matrix, tree = Matrix.from_text(matrix_text), Tree.from_text(text)
            self.assertTrue(check(matrix, tree))
            if tree.root.connectors:
                with self.subTest(kind=tree.root.kind):
                    found = parts(matrix, tree)
                    whole = matrix.submatrix(found.rows, found.columns)
                    self.assertEqual(compose(found.kind, found.first, found.second), whole)

    def test_the_trees_by_hand_have_each_kind_of_sum(self) -> None:
        kinds = {node.kind for _, text in trees_by_hand() for _, node in Tree.from_text(text).walk()}
        self.assertLessEqual({"onesum", "twosum", "delta", "y", "mixed", "concentrated", "conetwork"}, kinds)


if __name__ == "__main__":
    unittest.main()
