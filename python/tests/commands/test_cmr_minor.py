"""Tests of `cmr-minor`."""

from __future__ import annotations

import os
import unittest
from pathlib import Path

from tests.matroids.test_matroids import MATROIDS
from tests.scripts import ScriptTest, needs_python
from tests.support import TOP, needs_program

FANO = TOP / "examples" / "fano.txt"
TEXTS = {name: text for name, text, *_ in MATROIDS}
MINOR = """\
cmr-minor 1
tu U2,4
3 4
pivots 1 1 1
rows 2 2 3
columns 2 2 3
"""


@needs_python
class Minors(ScriptTest):
    def check(self, *words, text=""):
        run = self.run_script("cmr-minor", *words, text=text)
        return run.returncode, run.stdout.splitlines(), run.stderr

    def test_check(self) -> None:
        self.write("minor", MINOR)
        status, lines, said = self.check("check", FANO, "minor")
        self.assertEqual((status, lines[0], said), (1, "accepted: not totally unimodular", ""))
        self.assertEqual(
            lines[1:],
            [
                "minor U2,4",
                "pivot r1 c1",
                "elements r2=1 r3=2 c2=3 c3=4",
                "deleted rows 1 columns 4",
                "contracted rows columns 1",
            ],
        )
        self.write("other", MINOR.replace("pivots 1 1 1", "pivots 0"))
        self.assertEqual(self.check("check", FANO, "other"), (7, ["refused: what is left is not U2,4"], ""))
        self.write("zero", MINOR.replace("pivots 1 1 1", "pivots 1 1 3"))
        refused = "refused: row 1, column 3: the entry 0 is none of the nonzeros, as it has to be at a pivot"
        self.assertEqual(self.check("check", FANO, "zero"), (7, [refused], ""))

    def test_what_is_refused(self) -> None:
        self.write("minor", MINOR)
        self.write("two", "1 1\n2\n")
        self.write("signed", "1 2\n1 -1\n")
        for words, status, piece in [
            ((), 2, "required: CLASS"),
            (("planar",), 2, "invalid choice"),
            (("check", FANO), 2, "check takes MATRIX and MINOR"),
            (("tu", FANO, FANO), 2, "one MATRIX at most"),
            (("tu", "--lines", "25", FANO), 2, "no number from 0 to 24"),
            (("check", FANO, "minor", "-M", "out"), 2, "-M does not go with check"),
            (("check", FANO, FANO), 3, "no minor: 3 is not `cmr-minor`"),
            (("check", "two", "minor"), 3, "two: row 1, column 1: the entry 2 is none of -1, 0 and 1"),
            (("graphic", "signed"), 3, "signed: row 1, column 2: the entry -1 is none of 0 and 1"),
            (("tu", "none"), 4, "cannot read none: No such file or directory"),
        ]:
            with self.subTest(words=words):
                run = self.run_script("cmr-minor", *words)
                self.assertEqual((run.returncode, run.stdout), (status, ""))
                self.assertIn(piece, run.stderr)

    def test_no_program(self) -> None:
        settings = {**os.environ, "CMR_PROGRAM": "nowhere"}
        run = self.run_script("cmr-minor", "tu", FANO, env=settings)
        self.assertEqual((run.returncode, run.stdout), (70, ""))
        self.assertIn("the program cmr is not there", run.stderr)
        run = self.run_script("cmr-minor", "tu", FANO, "--program", "/bin/false")
        self.assertEqual((run.returncode, run.stdout, run.stderr.count("\n")), (70, "", 1), run.stderr)

    @needs_program
    def test_minors(self) -> None:
        for name, of, minor in [
            ("the Fano plane", "regular", "F7"),
            ("R10", "graphic", "M*(K3,3)"),
            ("R10", "cographic", "M(K3,3)"),
            ("the complete graph on five nodes", "cographic", "M(K5)"),
            ("three nodes joined with three others", "cographic", "M(K3,3)"),
            ("R12", "graphic", "M*(K3,3)"),
        ]:
            with self.subTest(name=name, of=of):
                self.write("matrix", TEXTS[name])
                status, lines, said = self.check(of, "matrix", "-M", "minor")
                self.assertEqual((status, lines[:2], said), (1, [f"{of}: no", f"minor {minor}"], ""))
                status, checked, said = self.check("check", "matrix", "minor")
                self.assertEqual((status, checked[0], checked[1:], said), (1, f"accepted: not {of}", lines[1:], ""))

    @needs_program
    def test_other_answers(self) -> None:
        self.assertEqual(self.check("regular", text=TEXTS["R10"]), (0, ["regular: yes"], ""))
        self.write("dense", "2 2\n1 -1\n1 1\n")
        self.write("sparse", "2 2 4\n1 1 1\n1 2 -1\n2 1 1\n2 2 1\n")
        self.assertEqual(self.check("tu", "dense"), self.check("tu", "-i", "sparse", "sparse"))
        self.assertEqual(self.check("graphic", "dense")[0], 3)
        status, lines, said = self.check("tu", "--lines", "0", "--pivots", "0", TOP / "examples" / "goods.txt")
        self.assertEqual((status, lines), (6, ["totally unimodular: undecided"]))
        self.assertIn("undecided, the open part is larger than the budget", said)
        status, lines, said = self.check("tu", "dense", "-M", Path("none", "minor"))
        self.assertEqual((status, lines), (4, []))

    @needs_program
    def test_names_and_sage(self) -> None:
        self.write("names", "r1 a\nr2 b\nr3 c\nc1 d\nc2 e\nc3 f\nc4 g\n")
        status, lines, _ = self.check("regular", FANO, "--names", "names", "--sage")
        self.assertEqual((status, lines[2]), (1, "elements a=1 b=2 c=3 d=4 e=5 f=6 g=7"))
        front = "Matroid(groundset=['a', 'b', 'c', 'd', 'e', 'f', 'g'], matrix=Matrix(GF(2), [[1, 0, 0, "
        self.assertTrue(lines[-1].startswith(front))


if __name__ == "__main__":
    unittest.main()
