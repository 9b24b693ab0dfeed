"""Tests of the built program under its third name, `cmr-large`: compared with `cmr` on small matrices."""

import os
import random
import subprocess

from building.clone import BUILT, LARGE
from tests.support import TOP, ScriptTest, needs_program

# What `cmr` and `cmr-large` say without arguments.
NO_TOOL = (2, "", "cmr: bad command line\n")

# Options of runs that may be undecided.
OPTIONS = ((), ("-w", "3"), ("--lines", "2"), ("--lines", "0", "--pivots", "2"))


def entries(draw):
    """A random matrix of at most seven rows and columns."""
    rows, columns, share = draw.randrange(8), draw.randrange(8), draw.choice((0.2, 0.3, 0.4))
    return [[draw.choice((1, -1)) if draw.random() < share else 0 for _ in range(columns)] for _ in range(rows)], columns


def words(matrix, columns):
    return [str(len(matrix)), str(columns), *(str(it) for row in matrix for it in row)]


def sparse_words(matrix, columns, draw):
    triples = [(row, column, it) for row, line in enumerate(matrix, 1) for column, it in enumerate(line, 1) if it]
    draw.shuffle(triples)
    return [str(len(matrix)), str(columns), str(len(triples)), *(str(it) for triple in triples for it in triple)]


@needs_program
class LargeTest(ScriptTest):
    def ran(self, name, *arguments, text=""):
        """A run on a text: its status, its output, and its line of standard error."""
        run = subprocess.run([name, *arguments], input=text, capture_output=True, text=True, cwd=self.folder, check=False)
        return run.returncode, run.stdout, run.stderr

    def link(self, name):
        (self.folder / name).symlink_to(BUILT)
        return self.folder / name

    def test_the_name_at_the_top(self):
        self.assertEqual(os.readlink(TOP / LARGE), str(BUILT.relative_to(TOP)))
        self.assertEqual(self.ran(TOP / LARGE), NO_TOOL)
        self.assertEqual(self.ran(TOP / LARGE, "tu", text="1 1\n1\n"), (0, "totally unimodular: yes\n", ""))

    def test_names(self):
        for name in ("cmr-large", "my-large", "-large"):
            self.assertEqual(self.ran(self.link(name), "regular", text="1 1\n1\n"), NO_TOOL, name)
        for name in ("cmr", "large", "cmr-large-2", "cmr-Large"):
            self.assertEqual(self.ran(self.link(name), "regular", text="1 1\n1\n")[0], 0, name)

    def test_answers_agree_with_those_of_cmr(self):
        draw, large = random.Random(1), self.link("cmr-large")
        statuses = set()
        for number in range(200):
            matrix, columns = entries(draw)
            text, options = " ".join(words(matrix, columns)), draw.choice(OPTIONS)
            status, output, error = self.ran(large, "tu", *options, "-E", "lines", text=text)
            statuses.add(status)
            self.assertEqual(error, "")
            with self.subTest(number=number, text=text):
                shuffled = " ".join(sparse_words(matrix, columns, draw))
                self.assertEqual(self.ran(large, "tu", *options, "-i", "sparse", text=shuffled)[0], status)
                if status != 6:
                    self.assertEqual(self.ran(BUILT, "tu", text=text)[0], status)
                if status == 1:
                    self.write("matrix", text)
                    checked = self.ran(BUILT, "check", "matrix", "lines")
                    self.assertEqual(checked, (1, output.replace("totally unimodular", "accepted"), ""))
        self.assertEqual(statuses - {6}, {0, 1})

    def test_options_of_the_decomposition(self):
        large, text = self.link("cmr-large"), "4 4\n1 1 0 0\n1 0 1 0\n1 0 0 1\n1 1 1 1\n"
        undecided = (6, "totally unimodular: undecided\nopen 4x4\n", "")
        for options in (("--lines", "3"), ("--lines=0", "--pivots", "0", "-w", "64")):
            self.assertEqual(self.ran(large, "tu", *options, text=text), undecided, options)
        no = (1, "totally unimodular: no\nviolator rows 1 2 3 4 columns 1 2 3 4 sum 10\n", "")
        self.assertEqual(self.ran(large, "tu", text=text), no)
        for options in (("--lines", "25"), ("--lines", "-1"), ("--pivots", "101"), ("-w", "0"), ("-w", "65"), ("-w", "2", "-w", "2")):
            for name in (large, BUILT):
                self.assertEqual(self.ran(name, "tu", *options, text=text), NO_TOOL, options)

    def test_faults_are_those_of_cmr(self):
        draw, large = random.Random(2), self.link("cmr-large")
        for number in range(200):
            matrix, columns = entries(draw)
            form = draw.choice(("dense", "sparse"))
            found = words(matrix, columns) if form == "dense" else sparse_words(matrix, columns, draw)
            found[draw.randrange(len(found))] = draw.choice(("x", "2", "99999999999", "-", "", "7", "-1", "0"))
            text = " ".join(found)
            with self.subTest(number=number, form=form, text=text):
                one, other = (self.ran(name, "tu", "-i", form, text=text) for name in (large, BUILT))
                if 3 in (one[0], other[0]):
                    self.assertEqual(one, other)

    def test_sizes_beyond_a_thousand(self):
        large, text = self.link("cmr-large"), "2000 100000 4\n1 7 1\n1 99999 1\n2000 7 1\n2000 99999 -1\n"
        line = "violator rows 1 2000 columns 7 99999 sum 2\n"
        self.assertEqual(self.ran(large, "tu", "-i", "sparse", "-E", "e", text=text), (1, f"totally unimodular: no\n{line}", ""))
        self.assertEqual((self.folder / "e").read_text(encoding="ascii"), "2000 100000 2 2\n1 2000\n7 99999\n")
        self.assertEqual(self.ran(BUILT, "tu", "-i", "sparse", text=text), (3, "", "cmr: -: TooManyRows at byte 0\n"))
        self.assertEqual(self.ran(large, "tu", text="16777217 1\n"), (3, "", "cmr: -: TooManyRows at byte 0\n"))
