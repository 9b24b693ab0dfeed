"""Tests of `name_lines` on all texts except trees."""

from __future__ import annotations

import subprocess

from tests.scripts import ScriptTest, needs_python
from tests.support import TOP

NAMES = "r1 ann\nr2 bob\nc1 mon\nc2 tue day\nc3 wed\n"


@needs_python
class NameLines(ScriptTest):
    def named(self, text):
        return self.output("name_lines", self.write("names", NAMES), text=text)

    def refused(self, text, names=NAMES):
        return self.refusal("name_lines", self.write("names", names), text=text)

    def test_printed_lines(self) -> None:
        for line, named in [
            ("violator rows 1 2 columns 1 3 sum -2", "violator rows ann bob columns mon wed sum -2"),
            ("minimal rows 2 columns 1 2 3", "minimal rows bob columns mon tue day wed"),
            ("rest rows columns 3", "rest rows columns wed"),
            ("open rows 1 columns", "open rows ann columns"),
            ("totally unimodular: yes", "totally unimodular: yes"),
            ("0 network 2x3", "0 network 2x3"),
            ("refused: 1.2 NotNetwork", "refused: 1.2 NotNetwork"),
        ]:
            with self.subTest(line=line):
                self.assertEqual(self.named(f"{line}\n"), f"{named}\n")

    def test_files_of_options(self) -> None:
        self.assertEqual(self.named("2 3 1 2\n2\n1 3\n"), "rows bob columns mon wed\n")
        self.assertEqual(self.named("2 3 0 0\n\n\n"), "rows columns\n")
        steps = "r1 zero\nr2 unit c3\nc1 copy c2\nc3 negative c1\n"
        self.assertEqual(self.named(steps), "ann zero\nbob unit wed\nmon copy tue day\nwed negative mon\n")
        self.assertEqual(self.named("0 1 r1\n12 1 c3\n"), "0 1 ann\n12 1 wed\n")
        self.assertEqual(self.named(""), "")

    def test_names_in_any_encoding(self) -> None:
        (self.folder / "names").write_bytes(b"r1 \xff\nc1 \xc3\xa4\n")
        command = [TOP / "scripts" / "name_lines", "names"]
        settings = {"cwd": self.folder, "env": {"LC_ALL": "C", "PYTHONCOERCECLOCALE": "0", "PYTHONUTF8": "0"}}
        run = subprocess.run(command, input=b"open rows 1 columns 1\n", capture_output=True, **settings)
        self.assertEqual((run.returncode, run.stdout), (0, b"open rows \xff columns \xc3\xa4\n"))

    def test_a_file_in_place_of_standard_input(self) -> None:
        printed = self.write("printed", "open rows 1 columns 1\n")
        self.assertEqual(self.output("name_lines", self.write("names", NAMES), printed), "open rows ann columns mon\n")

    def test_texts_that_do_not_fit_the_names(self) -> None:
        for text, line in [
            ("violator rows 3 columns 1 sum 2\n", "row 3 has no name: there are 2 names of rows"),
            ("open rows 1 columns 0\n", "column 0 has no name: there are 3 names of columns"),
            ("0 1 r4\n", "row 4 has no name: there are 2 names of rows"),
            ("3 3 0 0\n", "the names are those of a matrix of size 2x3, and here it is 3x3"),
            ("2 3 1 1\n1\n", "only numbers, but no submatrix: the counts and the lists do not fit"),
        ]:
            with self.subTest(text=text):
                self.assertEqual(self.refused(text), f"-: {line}")

    def test_names_that_are_none(self) -> None:
        for names, line in [("r1 ann\nr3 bob\n", 2), ("c1 mon\nr1 ann\n", 2), ("r1\n", 1), ("r1 \n", 1), ("2 2\n", 1)]:
            with self.subTest(names=names):
                self.assertEqual(
                    self.refused("", names), f"names: line {line} is not the name of the next row or column"
                )
