"""Tests of `explain`: a table of mistakes, with the explanation of each next to the program's own line."""

from __future__ import annotations

import os
import shutil
import unittest
from unittest import mock

from cmr_matrices import find_program
from tests.scripts import ScriptTest, needs_python
from tests.support import TOP, needs_program

TOOLS = ("tu", "regular", "series-parallel", "graphic", "network", "generate", "check", "upgrade")
TOOLS += ("camion", "sign", "balanced", "parts", "compose")

FILES = {
    "m.txt": b"3 3\n1 1 0\n0 1 1\n1 0 1\n",
    "m.sparse": b"3 3 6\n1 1 1\n1 2 1\n2 2 1\n2 3 1\n3 1 1\n3 3 1\n",
    "signed.txt": b"2 2\n1 1\n-1 1\n",
    "bare.txt": b"1 1 0\n0 1 1\n1 0 1\n",
    "two.txt": b"2 3\n1 0 1\n0 1 2\n",
    "half.txt": b"2 2\n1 0.5\n0 1\n",
    "short.txt": b"2 3\n1 0 1\n0 1\n",
    "long.txt": b"2 2\n1 0\n0 1\n1 1\n",
    "large.txt": b"1001 1\n",
    "twice.sparse": b"2 2 2\n1 1 1\n1 1 1\n",
    "out.sparse": b"2 2 1\n3 1 1\n",
    "zero.sparse": b"2 2 1\n0 1 1\n",
    "a.csv": b"1,0,1\n0,1,1\n",
    "semicolon.csv": b'"a";"b"\n1;0\n0;1\n',
    "saved.txt": b"1.000000000000000000e+00 0.000000000000000000e+00\n",
    "a.npy": b"\x93NUMPY\x01\x00v\x00{'descr': '<i8'}",
    "sage.txt": b"[1 0 1]\n[0 1 1]\n",
    "list.txt": b"[[1, 0], [0, 1]]\n",
    "matlab.txt": b"A = [1 0 1; 0 1 1];\n",
    "latex.txt": b"1 & 0 \\\\\n0 & 1 \\\\\n",
    "tail.txt": b"2 2\n1 0\n0 1\n# end\n",
    "two.sparse": b"2 2 1\n1 1 2\n",
    "notes.txt": b"# shifts\n2 2\n1 0\n0 1\n",
    "model.mps": b"NAME A\nROWS\n N cost\n L r\nCOLUMNS\n x r 1\nRHS\nENDATA\n",
    "model.lp": b"Minimize\n x\nSubject To\n a: x >= 1\nEnd\n",
    "model.mod": b"var x >= 0;\ns.t. a: x >= 1;\nend;\n",
    "bom.txt": b"\xef\xbb\xbf2 2\n1 0\n0 1\n",
    "wide.txt": "2 2\n1 0\n0 1\n".encode("utf-16"),
    "minus.txt": "2 2\n1 \N{MINUS SIGN}1\n0 1\n".encode(),
    "empty.txt": b"",
    "blank.txt": b" \n\n",
    "a.tree": b"cmr-tree 2\n2 2\nnetwork 2 2 1 2 1 2\n0 1 1 2 0 1 1 2\n",
    "pivots.tree": b"cmr-pivots 1\n2 2\npivoted 2 2 1 2 1 2\n1 1\nnetwork 2 2 1 2 1 2\n0 1 1 2 0 1 1 2\n",
    "other.tree": b"cmr-tree 2\n1 1\nnetwork 1 1 1 1\n0 1 0 1\n",
    "v3.tree": b"cmr-tree 3\n2 2\n",
    "a.graph": b"0 1 r1\n1 2 r2\n0 2 c1\n",
    "cycle.graph": b"0 1 r1\n1 0 r2\n",
    "minimal.txt": b"3 3 2 2\n1 2\n1 2\n",
    "other.rows": b"4 3 1 0\n1\n\n",
    "a.names": b"r1 ann\nc1 bob\n",
    "market.mtx": b"%%MatrixMarket matrix coordinate integer general\n2 2 1\n1 1 1\n",
    "data.bin": b"1 0\x00\x01",
    "a.dot": b"digraph network {\n}\n",
    "steps.txt": b"r2 unit c2\n",
    "header.csv": b"x,y,z\n1,0,1\n0,1,1\n",
    "names.csv": b";x;y\na;1;0\nb;0;-1\n",
    "glued.txt": b"101\n011\n",
    "glued_sizes.txt": b"2 3\n101\n011\n",
    "by.txt": b"3x3\n1 1 0\n0 1 1\n1 0 1\n",
    "graph.dimacs": b"c a triangle\np edge 3 3\ne 1 2\ne 2 3\ne 1 3\n",
    "a.json": b'{"matrix": [[1, 0], [0, 1]]}\n',
}

# Instead of a piece: no further line.
NOTHING_MORE = "nothing more"

# The arguments, the status, and pieces of the lines on standard error after the program's own line.
WORDS = [
    ("", ["there is no word", "whether a matrix is totally unimodular", "compose"]),
    ("TU m.txt", ["`TU` is no tool: it is spelled `tu`", "the tools are tu, regular"]),
    ("tum m.txt", ["`tum` is no tool: did you mean `tu`?"]),
    ("sp m.txt", ["`sp` is no tool: that is `series-parallel`"]),
    ("series_parallel m.txt", ["it is spelled `series-parallel`"]),
    ("conetwork m.txt", ["that is `network -t`"]),
    ("m.txt", ["`m.txt` is no tool, which comes first: for example `cmr tu m.txt`"]),
    ("-i sparse tu m.txt", ["`-i` comes too early"]),
    ("tu -d t m.txt", ["`-d` is no option of tu: did you mean `-D`?", "usage: cmr tu "]),
    ("tu -b m.txt", ["`-b` is no option of tu, but of series-parallel"]),
    ("tu -i Sparse m.txt", ["`-i Sparse`: the formats are dense and sparse, in small letters"]),
    ("tu -i mps model.mps", ["`-i mps`: the formats are dense and sparse", "scripts/model_to_matrix"]),
    ("tu --lines 25 m.txt", ["`--lines 25`: the number is 0 to 24"]),
    ("tu --lines -1 m.txt", ["`--lines` takes L, and `-1` follows it"]),
    ("tu --line 5 m.txt", ["did you mean `--lines`?"]),
    ("tu --pivots 101 m.txt", ["`--pivots 101`: the number is 0 to 100"]),
    ("regular --pivots -1 m.txt", ["`--pivots` takes K, and `-1` follows it"]),
    ("balanced --pivots", ["`--pivots` is the last word, and needs K after it"]),
    ("balanced --pivots 3 --pivots 4 m.txt", ["`--pivots` occurs twice"]),
    ("generate network 5 1 -p 3", ["`-p` is no option of generate: did you mean `--pivots`?"]),
    ("camion --pivots 3 m.txt", ["`--pivots` is no option of camion, but of tu, regular, generate and balanced"]),
    ("tu -w 0 m.txt", ["`-w 0`: the number is 1 to 64"]),
    ("balanced -w 65 m.txt", ["`-w 65`: the number is 1 to 64"]),
    ("tu -w 2 -w 3 m.txt", ["`-w` occurs twice"]),
    ("tu m.txt two.txt", ["`two.txt` is a word too much: tu takes FILE"]),
    ("tu - m.txt", ["`-` is standard input only as the last word"]),
    ("tu m.txt -", ["`-` is standard input, and `m.txt` is a file beside it"]),
    ("tu -D", ["`-D` is the last word, and needs FILE after it"]),
    ("tu -D - m.txt", ["`-D` takes FILE, and `-` follows it"]),
    ("check m.txt", ["EVIDENCE is missing", "usage: cmr check [-i dense|sparse] MATRIX EVIDENCE"]),
    ("parts m.txt a.tree", ["`-A FILE` is missing, for the first matrix"]),
    ("compose two m.txt m.txt", ["`-M FILE` is missing"]),
    ("compose three m.txt m.txt -M s", ["`three` is no SUM: the sums are one, two, delta, y, mixed and concentrated"]),
    ("generate network 5", ["NUMBER is missing"]),
    ("generate twosum 300 1", ["`300`: the SIZE of twosum is 1 to 249"]),
    ("generate tree 3 1", ["`tree` is no KIND: the kinds are network and twosum"]),
    ("graphic -c -t a.graph", ["`-t` does not go with `-c`", "or: cmr graphic -c [FILE]"]),
    ("upgrade a.tree", ["`-D FILE` is missing"]),
    ("series-parallel -bx m.txt", ["`-x` (in `-bx`) is no option of series-parallel"]),
]

TEXTS = [
    (
        "tu a.csv",
        ["a.csv, line 1, column 1: `1,0,1` is no number", "a table with `,` between its entries, 2 rows of 3"],
    ),
    ("tu semicolon.csv", ["a table with `;` between its entries below a line of names, 2 rows of 2"]),
    ("tu header.csv", ["a table with `,` between its entries below a line of names, 2 rows of 3", "pandas.read_csv(..)"]),
    (
        "tu names.csv",
        [
            "a table with `;` between its entries, and names in the first column, below a line of names, 2 rows of 2",
            "pandas.read_csv(.., sep=';', index_col=0)",
        ],
    ),
    ("tu glued.txt", ["2 rows of 3 digits with no space between them", "sed 's/./& /g'"]),
    ("tu glued_sizes.txt", ["2 rows of 3 digits with no space between them"]),
    ("tu by.txt", ["`3x3` is no number", "the sizes are two numbers with a space between them"]),
    ("tu graph.dimacs", ["a graph or formula in DIMACS", "scripts/edges_to_graph"]),
    ("tu a.json", ["a JSON object"]),
    ("tu saved.txt", ["line 1, column 1: `1.000000000000000000e+00`", "numpy.savetxt"]),
    ("tu a.npy", ["an array that numpy.save wrote"]),
    ("tu sage.txt", ["`[1` is no number", "rows in brackets, as Python, JSON, numpy and Sage have them, 2 rows of 3"]),
    ("tu list.txt", ["rows in brackets"]),
    ("tu matlab.txt", ["rows with `;` between them, as MATLAB has them, 2 rows of 3"]),
    ("tu latex.txt", ["a table with `&` between its entries, 2 rows of 2"]),
    ("tu tail.txt", ["`#` is left", "tail.txt has a comment there"]),
    ("tu -i sparse two.sparse", ["line 2, column 5: `2` is none of -1, 0 and 1", NOTHING_MORE]),
    ("tu notes.txt", ["`#` is no number", "a dense text of size 2x2, with comment lines"]),
    ("tu model.mps", ["a model in MPS: scripts/model_to_matrix reads it"]),
    ("tu model.lp", ["a model in the LP format"]),
    ("tu model.mod", ["a model in GNU MathProg"]),
    ("tu bom.txt", ["a dense text of size 2x2 after a byte order mark", "tail -c +4"]),
    ("tu wide.txt", ["a text in UTF-16"]),
    ("tu minus.txt", ["line 2, column 3", "numbers with a typographic minus"]),
    ("tu market.mtx", ["a Matrix Market file"]),
    ("tu data.bin", ["zero bytes"]),
    ("tu a.dot", ["a picture in DOT"]),
    ("tu a.names", ["the names that model_to_matrix writes"]),
    ("check m.txt steps.txt", ["steps.txt is read as evidence", "a list of reductions"]),
    ("tu empty.txt", ["empty.txt is empty"]),
    ("tu blank.txt", ["blank.txt is empty: it has only white space"]),
    ("tu bare.txt", ["the rows of a matrix without its sizes, which come first: `3 3`"]),
    (
        "tu m.sparse",
        ["m.sparse seems to be a sparse text of size 3x3, and is read as a dense text: `-i sparse` reads it"],
    ),
    ("tu -i sparse m.txt", ["m.txt seems to be a dense text of size 3x3, and is read as a sparse text: `-i dense`"]),
    ("check -i sparse m.txt a.tree", ["m.txt seems to be a dense text"]),
    ("tu two.txt", ["two.txt, line 3, column 5: `2` in row 2, column 3 of the matrix is none of -1, 0 and 1"]),
    ("tu half.txt", ["half.txt, line 2, column 3: `0.5` is no integer, and entries are -1, 0 and 1"]),
    (
        "tu short.txt",
        ["short.txt, at its end: the text ends after 7 words: the sizes 2 3 in front are those of 6 entries"],
    ),
    ("tu long.txt", ["long.txt, line 4, column 1: `1` is left: the sizes 2 2 in front are those of 4 entries"]),
    ("tu large.txt", ["large.txt, line 1, column 1: `1001`: a matrix has at most 1000 rows"]),
    ("tu -i sparse twice.sparse", ["line 3, column 3: `1` is the column of a place that was named before"]),
    ("tu -i sparse out.sparse", ["line 2, column 1: `3`: there are 2 rows"]),
    ("tu -i sparse zero.sparse", ["`0`: rows and columns are counted from 1"]),
    ("graphic signed.txt", ["`-1` in row 2, column 1 of the matrix is none of 0 and 1", "`network` reads -1 too"]),
    (
        "tu a.tree",
        ["a.tree is read as a dense text, and seems to be a decomposition tree: `cmr check MATRIX EVIDENCE`"],
    ),
    ("tu pivots.tree", ["pivots.tree is read as a dense text, and seems to be a decomposition tree"]),
    (
        "check a.tree signed.txt",
        ["seems to be a decomposition tree: are the two swapped? The words are MATRIX EVIDENCE"],
    ),
    ("check m.txt m.txt", ["m.txt is read as evidence", "seems to be a dense text of size 3x3"]),
    ("check m.txt a.graph", ["a graph is no evidence for check"]),
    ("network a.graph", ["seems to be a graph text: `-c` reads it"]),
    ("graphic -c m.txt", ["m.txt is read as a graph text, and seems to be a dense text of size 3x3"]),
    ("graphic -c cycle.graph", ["are no tree on the nodes"]),
    ("check m.txt v3.tree", ["v3.tree, line 1, column 10: `3` is where a tree text has `cmr-tree 2`"]),
    ("check two.txt a.tree", ["two.txt, line 3, column 5: `2` in row 2, column 3"]),
    ("sign m.txt other.rows", ["`4` is a size that is not the matrix's"]),
]

ELSE = [
    ("tu none.txt", 4, ["none.txt: No such file or directory"]),
    ("tu M.txt", 4, ["M.txt: No such file or directory: did you mean m.txt?"]),
    ("tu folder", 4, ["folder: Is a directory"]),
    ("tu -D none/t m.txt", 4, ["none/t: there is no folder none, and none is made"]),
    ("tu -D folder m.txt", 4, ["folder: Is a directory"]),
    ("tu -D /dev/full m.txt", 4, ["/dev/full: the disk is full"]),
    ("tu -E x -D x m.txt", 1, ["`-E` and `-D` name one file, x"]),
    ("check m.txt a.tree", 7, ["of another size", "m.txt has size 3x3", "a.tree is for a matrix of size 2x2"]),
    ("check m.txt pivots.tree", 7, ["of another size", "pivots.tree is for a matrix of size 2x2"]),
    ("check m.txt minimal.txt", 7, ["are no violator", "`-N`", "m.txt has size 3x3", "and m.txt has no signs"]),
    ("check signed.txt a.tree", 7, ["does not fit to the matrix"]),
    ("compose delta m.txt a.one -M s", 7, ["have not the connecting lines of this sum"]),
]


@needs_python
@needs_program
class Mistakes(ScriptTest):
    def setUp(self) -> None:
        super().setUp()
        for name, data in FILES.items():
            (self.folder / name).write_bytes(data)
        (self.folder / "a.one").write_text("1 1\n0\n", encoding="ascii")
        (self.folder / "folder").mkdir()
        self.enterContext(mock.patch.dict(os.environ, {"CMR_PROGRAM": str(find_program())}))

    def said(self, words, status):
        """The explanation; the rest must be the same as from the program."""
        run = self.run_script("explain", *words.split())
        plain = self.run_program(*words.split())
        self.assertEqual((run.returncode, run.stdout), (status, plain.stdout), run.stderr)
        self.assertEqual(plain.returncode, status)
        lines = run.stderr.splitlines()
        own = [line for line in lines if not line.startswith("explain: ")]
        self.assertEqual("".join(f"{line}\n" for line in own), plain.stderr)
        return "\n".join(line.removeprefix("explain: ") for line in lines if line not in own)

    def table(self, table, status=None):
        for words, *given, pieces in table:
            with self.subTest(words=words):
                said = self.said(words, given[0] if given else status)
                for piece in pieces:
                    if piece is NOTHING_MORE:
                        self.assertNotIn("\n", said)
                    else:
                        self.assertIn(piece, said)

    def test_words(self) -> None:
        self.table(WORDS, 2)

    def test_words_in_one(self) -> None:
        run = self.run_script("explain", "tu m.txt")
        self.assertEqual(run.returncode, 2)
        self.assertIn("`tu m.txt` is one word with a space in it: leave the quotes out, `cmr tu m.txt`", run.stderr)

    def test_texts(self) -> None:
        self.table(TEXTS, 3)

    def test_files_and_evidence(self) -> None:
        self.table(ELSE)

    def test_nothing_is_said_of_an_answer(self) -> None:
        for words, status in [("tu m.txt", 1), ("tu signed.txt", 1), ("tu -i sparse m.sparse", 1), ("camion m.txt", 1)]:
            self.assertEqual(self.said(words, status), "")

    def test_the_usages_are_those_of_the_formats(self) -> None:
        formats = (TOP / "docs" / "FORMATS.md").read_text(encoding="utf-8").replace("\\|", "|")
        for tool in TOOLS:
            usage = self.run_script("explain", tool, "--help").stdout.splitlines()[0].split(" ", 3)[3]
            self.assertIn(f"`{usage}`", formats)
            self.assertRegex(formats, rf"(?m)^\| .*`{tool}`.*\| `{usage.split()[0].replace('[', '.')}")

    def test_a_file_that_is_read_is_not_written_over(self) -> None:
        for words, name in [
            ("tu -D m.txt m.txt", "m.txt"),
            ("tu -E ./m.txt m.txt", "m.txt"),
            ("upgrade a.tree -D a.tree", "a.tree"),
        ]:
            run = self.run_script("explain", *words.split())
            self.assertEqual((run.returncode, run.stdout), (2, ""))
            self.assertIn(f"{name} is read and would be written over", run.stderr)
            self.assertIn("nothing was run", run.stderr)
            self.assertEqual((self.folder / name).read_bytes(), FILES[name])
        (self.folder / "link").symlink_to("m.txt")
        self.assertIn("would be written over", self.run_script("explain", "tu", "-D", "link", "m.txt").stderr)
        self.assertEqual(self.said("tu -D /dev/null m.txt", 1), "")
        with open(self.folder / "m.txt", "rb") as data:
            run = self.run_script("explain", "tu", "-E", "m.txt", text=None, stdin=data)
        self.assertEqual((run.returncode, self.read("m.txt")), (2, FILES["m.txt"].decode()))
        self.assertIn("m.txt is read and would be written over", run.stderr)

    def test_standard_input(self) -> None:
        run = self.run_script("explain", "tu", text="2 2\n1 0\n0 7\n")
        self.assertEqual(run.returncode, 3)
        self.assertIn("-, line 3, column 3: `7` in row 2, column 2 of the matrix", run.stderr)
        run = self.run_script("explain", "tu", "-", text="2 2\n1 0\n0 1\n")
        self.assertEqual((run.returncode, run.stdout.splitlines()[0], run.stderr), (0, "totally unimodular: yes", ""))

    def test_undecided(self) -> None:
        self.write("lost.txt", LOST.replace("m", "-1"))
        said = self.said("tu --lines 0 lost.txt", 6)
        for piece in ("the part that is open has size 10x12", "`--lines 10` searches it whole", "`--pivots 20` goes on"):
            self.assertIn(piece, said)
        self.assertEqual(self.said("tu --lines 0 --pivots 20 lost.txt", 0), "")
        self.write("open.txt", OPEN)
        said = self.said("tu --lines 0 --pivots 1 open.txt", 6)
        for piece in ("the part that is open has size 5x5", "`--pivots 20` goes on", "in another order"):
            self.assertIn(piece, said)

    def test_a_program_that_is_missing(self) -> None:
        run = self.run_script("explain", "tu", "m.txt", env={"CMR_PROGRAM": "/none", "PATH": os.environ["PATH"]})
        self.assertEqual((run.returncode, run.stdout), (70, ""))
        self.assertIn("the program cmr is not there", run.stderr)
        self.assertIn("`./try-cmr` compiles it without proofs", run.stderr)

    def test_a_clone_that_has_the_unproved_program_alone(self) -> None:
        for part in ("scripts/explain", "python/cmr_matrices"):
            (self.folder / part).parent.mkdir()
            copied = shutil.copytree if (TOP / part).is_dir() else shutil.copy2
            copied(TOP / part, self.folder / part)
        program = self.folder / "out" / "unproved" / "cmr"
        program.parent.mkdir(parents=True)
        program.write_text("#!/bin/sh\necho network: yes\n", encoding="ascii")
        program.chmod(0o755)
        run = self.run_script(self.folder / "scripts" / "explain", "network", env={"PATH": "/usr/bin:/bin"})
        self.assertEqual((run.returncode, run.stdout), (0, "network: yes\n"))
        self.assertEqual(run.stderr, "explain: nothing is proved of this run; ./cmr proves and builds the program\n")


class Help(ScriptTest):
    """Help and the version are answers, so they need no program."""

    def answer(self, *words):
        run = self.run_script("explain", *words, env={"CMR_PROGRAM": "/none", "PATH": os.environ["PATH"]})
        self.assertEqual((run.returncode, run.stderr), (0, ""))
        return run.stdout

    def test_the_tools(self) -> None:
        for words in (["--help"], ["-h"], ["help"], ["--help", "nothing"]):
            said = self.answer(*words)
            self.assertTrue(said.startswith("usage: cmr-explain TOOL [WORD ..]\n"), said)
            for tool in TOOLS:
                self.assertIn(f"\n  {tool} ", said)

    def test_one_tool(self) -> None:
        usage = "usage: cmr tu [-i dense|sparse] [--lines L] [--pivots K] [-w N] [-D FILE] [-E FILE] [FILE]\n"
        for words in (["tu", "--help"], ["tu", "-i", "sparse", "-h"], ["help", "tu"]):
            self.assertEqual(self.answer(*words), usage)
        self.assertIn("   or: cmr graphic -c [FILE]\n", self.answer("graphic", "--help"))

    def test_the_version(self) -> None:
        for word in ("--version", "-V"):
            self.assertRegex(self.answer(word), r"^cmr-explain [0-9]+\.[0-9]+\.[0-9]+\n$")


# Two goods over six connections between three places, with a joint capacity for each connection.
LOST = """10 12
m m 0 m m 0 0 0 0 0 0 0
1 0 m 1 0 m 0 0 0 0 0 0
0 0 0 0 0 0 m m 0 m m 0
0 0 0 0 0 0 1 0 m 1 0 m
1 0 0 0 0 0 1 0 0 0 0 0
0 1 0 0 0 0 0 1 0 0 0 0
0 0 1 0 0 0 0 0 1 0 0 0
0 0 0 1 0 0 0 0 0 1 0 0
0 0 0 0 1 0 0 0 0 0 1 0
0 0 0 0 0 1 0 0 0 0 0 1
"""

# Neither a pivot nor removing lines decides this matrix if no row sets are searched.
OPEN = """5 5
0 1 1 1 1
0 0 1 0 1
0 0 0 1 1
1 0 0 0 1
1 -1 0 0 0
"""


if __name__ == "__main__":
    unittest.main()
