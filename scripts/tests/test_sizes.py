"""Tests of `scripts/sizes` on small crates."""

import unittest

from tests.support import ScriptTest

# Two clauses, one of which continues over a record, and a body of two lines.
KEPT = """\
impl Block {
    /// The block.
    pub fn new(place: u32) -> Block
        requires place { place < 9 }
        // what it has
        ensures {
            result ≡ record {
              place = place;
              count = 0;
            } }
    {
        let count = 0;
        Block { place, count }
    }

    fn count(&self) -> u32;
}

fn nothing() {}
"""
SHARED = 19
LONG_LINES = 2168
SHORT_NAMES = 3941
TWICE = 218
PROVED_TWICE = 11
PRIVATE = 0
# The limits of the words of each kind of texts: of "where" in a thousand, and of the house words.
WORDINGS = {"documents": (1, 0), "comments of .rt": (1, 3), "comments of .antt": (1, 2), "comments of .py": (1, 0)}
WORDED = "".join(
    f'     0 of at most {wheres:4} "where" in a thousand words of {kind}\n'
    f"     0 of at most {words:4} house words of {kind}\n"
    for kind, (wheres, words) in WORDINGS.items()
)
DOCUMENT_WORDS = 43500
PAGE_WORDS = 26500
WITHIN = f"""\
     1 of at most  120 lines of README.md
     3 of at most {DOCUMENT_WORDS} words of documents
     0 of at most {PAGE_WORDS} words of the pages of crates
    19 of at most  800 lines of a file of code
    36 of at most  100 characters of a line of a clause
     2 of at most   10 clauses of a function
     2 of at most   40 lines of a body
     0 of at most {SHARED:4} names of definitions in two crates
     0 of at most    0 modules of definitions with one name in two crates
     0 of at most {LONG_LINES:4} lines of proofs above 200 characters
     0 of at most {SHORT_NAMES:4} names of one letter in proofs
     0 of at most {TWICE:4} statements that stand more than once
     0 of at most {PROVED_TWICE:4} lemmas that stand more than once
     0 of at most {PRIVATE:4} edits of private functions
{WORDED}"""


def function(name, clauses, body):
    lines = [f"fn {name}()", *clauses, "{", *["    step();"] * body, "}"]
    return "\n".join(lines) + "\n"


def kinds(count, before, after):
    return "".join(f"{before} Kind{number} {after}" for number in range(count))


class SizesTest(ScriptTest):
    def setUp(self):
        super().setUp()
        self.put("README.md", "# A title\n")
        self.put("crates/low/src/block.rt", KEPT)

    def put(self, name, text):
        file = self.folder / name
        file.parent.mkdir(parents=True, exist_ok=True)
        file.write_text(text, encoding="utf-8")

    def lists(self, *lines):
        """The run ends with status 1, and prints these consecutive lines besides the lines of the counts within their limits."""
        run = self.run_script("sizes", self.folder)
        self.assertEqual((run.returncode, run.stderr), (1, ""))
        self.assertIn("\n".join(lines), run.stdout)
        listed = sum(it.startswith("    ") and " of at most " not in it for it in lines)
        self.assertEqual(len(run.stdout.splitlines()), len(WITHIN.splitlines()) + listed)

    def test_counts_that_are_kept(self, words=3):
        run = self.run_script("sizes", self.folder)
        within = WITHIN.replace("     3 of", f"{words:6} of", 1)
        self.assertEqual((run.returncode, run.stdout, run.stderr), (0, within, ""))

    def test_many_words(self):
        """The documents are listed, the longest first. The list of versions is none of them."""
        self.put("CHANGELOG.md", "word " * DOCUMENT_WORDS)
        self.put("crates/low/README.md", "word\n" * PAGE_WORDS)
        self.put("docs/LONG.md", "| `a b` |\n" * (DOCUMENT_WORDS // 4 - 1))
        self.assertEqual(self.run_script("sizes", self.folder).returncode, 0)
        self.put("docs/SHORT.md", "two words")
        above = DOCUMENT_WORDS + 1
        long = f"    docs/LONG.md: {DOCUMENT_WORDS - 4}"
        self.lists(f" {above} of at most {DOCUMENT_WORDS} words of documents", long, "    README.md: 3", "    docs/SHORT.md: 2")

    def test_edits_of_private_functions(self):
        """An edit tests the promises of a crate if it changes an exported function, an exported method or a trait's method."""
        self.put("crates/low/src/lib.rt", "mod block;\n\npub use block::Sum;\n")
        methods = "    pub fn all(&self) {\n        step(1);\n    }\n\n    fn one(&self) {\n        step(2);\n    }\n"
        shown = "impl Show for Part {\n    fn show(&self) {\n        step(3);\n    }\n}\n"
        self.put("crates/low/src/block.rt", f"{KEPT}\nimpl Sum {{\n{methods}}}\n\n{shown}")
        for number in (1, 3):
            self.put(f"crates/low/must-fail/public_{number}.edit", f"file: src/block.rt\nold: step({number});\nnew: step(0);\n")
        self.assertEqual(self.run_script("sizes", self.folder).returncode, 0)
        names = [f"crates/low/must-fail/private_{number:02}.edit" for number in range(PRIVATE + 1)]
        for name in (*names, "crates/low/trials/private.edit"):
            self.put(name, "file: src/block.rt\nold: step(2);\nnew: step(0);\n")
        self.put("crates/low/trials/without_its_text.edit", "file: src/block.rt\nold: step(7);\nnew: step(0);\n")
        names += ["crates/low/trials/private.edit", "crates/low/trials/without_its_text.edit"]
        self.lists(f"{len(names):6} of at most {PRIVATE:4} edits of private functions", *(f"    {name}" for name in names))

    def test_lines_of_proofs(self):
        """If there are too many long lines or short names, the crates are listed, those with most first."""
        long_line = f"first = {'a' * 200}\n"
        self.put("crates/low/proofs/Low.antt", long_line * (LONG_LINES - 1))
        self.put("crates/high/specs/High.antt", f"{long_line}let h = a in let h' = b in let held = c in let α = d in\n")
        within = self.run_script("sizes", self.folder)
        self.assertEqual(within.returncode, 0)
        self.assertIn(f"     3 of at most {SHORT_NAMES} names of one letter in proofs\n", within.stdout)
        self.put("crates/high/proofs/High.antt", long_line)
        above = f"  {LONG_LINES + 1} of at most {LONG_LINES} lines of proofs above 200 characters"
        self.lists(above, f"    low: {LONG_LINES - 1}", "    high: 2")

    def test_statements_that_stand_twice(self):
        """The names of bound variables make no difference. Short types and other words do not count."""
        for number in range(TWICE + 1):
            self.put(f"crates/low/specs/L{number}.antt", f"pub one : (m : M{number}) (k : ℕ)\n    → Is{number} m k\none m k = go m\n")
            self.put(f"crates/high/specs/H{number}.antt", f"other : (n : M{number}) (j : ℕ) → Is{number} n j -- again\nshort : ℕ → ℕ\n")
        self.put("crates/high/specs/H0.antt", "other : (n : M0) (j : ℕ) → Is0 j n\nshort : ℕ → ℕ\n")
        self.assertEqual(self.run_script("sizes", self.folder).returncode, 0)
        self.put("crates/high/specs/High.antt", "abbrev pub third : (n : M0) (j : ℕ) → Is0 n j\n")
        run = self.run_script("sizes", self.folder)
        self.assertEqual(run.returncode, 1)
        self.assertIn("    crates/high/specs/High.antt third, crates/low/specs/L0.antt one\n", run.stdout)

    def test_lemmas_that_stand_twice(self):
        """What has other types than lemmas and the proofs of single functions do not count."""
        for number in range(PROVED_TWICE):
            for crate in ("low", "high"):
                self.put(f"crates/{crate}/proofs/L{number}.antt", f"pub one : (m : M{number}) (k : ℕ) → Is{number} m k\n")
        for crate in ("low", "high"):
            self.put(f"crates/{crate}/proofs/Value.antt", "value : (m : M) → ℕ → List ℕ\n")
            self.put(f"crates/{crate}/proofs/one/Proof.antt", "meets : (m : M) (k : ℕ) → Is m k\n")
        self.put("crates/low/specs/Low.antt", "two : (m : N) (k : ℕ) → Is m k\n")
        self.put("crates/low/proofs/Low.antt", "two : (m : N) (k : ℕ) → Is m k\n")
        self.assertEqual(self.run_script("sizes", self.folder).returncode, 0)
        self.put("crates/high/proofs/High.antt", "three : (n : N) (j : ℕ) → Is n j\n")
        run = self.run_script("sizes", self.folder)
        self.assertEqual(run.returncode, 1)
        self.assertIn(f"    {PROVED_TWICE + 1} of at most   {PROVED_TWICE} lemmas that stand more than once\n", run.stdout)
        self.assertIn("    crates/high/proofs/High.antt three, crates/low/proofs/Low.antt two\n", run.stdout)

    def test_words_of_documents(self):
        """House words count also if they continue on the next line. Code, links and plain English are left."""
        plain = "Neither rows nor columns, in front, leave nothing behind. `but for` [it](nor.md#behind)\n"
        text = f"{plain}\n```\nanew, where it is\n```\n\n[it]: nor.md\n"
        self.put("docs/PLAIN.md", text)
        self.test_counts_that_are_kept(3 + len(text.split()))
        self.put("docs/HOUSE.md", "It is done Anew, but\nfor two whole numbers.\n")
        self.put("crates/low/README.md", "A front of it.\n")
        self.lists(
            "     4 of at most    0 house words of documents",
            "    crates/low/README.md: front (prefix)",
            "    docs/HOUSE.md: anew (again)",
            "    docs/HOUSE.md: but for (except)",
            "    docs/HOUSE.md: whole number (integer)",
        )

    def test_wheres(self):
        """They are counted for a thousand words of all texts of a kind, and those with more are listed."""
        self.put("docs/LONG.md", "if " * 1997)
        self.put("docs/ONE.md", "Where\n")
        self.assertEqual(self.run_script("sizes", self.folder).returncode, 0)
        self.put("docs/TWO.md", "where it is and where it is not\n")
        self.lists('     2 of at most    1 "where" in a thousand words of documents', "    docs/ONE.md: 1000", "    docs/TWO.md: 250")

    def test_words_of_comments(self):
        """Docstrings and comments are read, also of scripts without a suffix, and no other strings."""
        many = "anew " * 500
        self.put("crates/low/src/lib.rt", f"fn nothing() {{}} // {many}\nlet text = \"// {many}\";\n")
        self.put("crates/low/proofs/Lib.antt", f"module _ where -- {many[:150]}\n")
        self.put("python/words.py", f'TEXT = """\n{many}"""\n')
        self.test_counts_that_are_kept()
        for name, kind, text in (
            ("crates/low/src/low.rt", "comments of .rt", f"    /// {many}\n"),
            ("crates/low/specs/Low.antt", "comments of .antt", f"  -- {many}\n"),
            ("scripts/words", "comments of .py", f'#!/usr/bin/env python3\n"""Words.\n\n{many}\n"""\n'),
            ("python/low.py", "comments of .py", f"    # {many}\n"),
        ):
            self.put(name, text)
            self.lists(
                f"   500 of at most {WORDINGS[kind][1]:4} house words of {kind}", *[f"    {name}: anew (again)"] * 500
            )
            self.put(name, "")

    def test_what_was_built_is_no_source(self):
        self.put("crates/low/out/src/block.rt", function("long", [], 60))
        self.test_counts_that_are_kept()

    def test_long_page(self):
        self.put("README.md", "a line\n" * 121)
        self.lists("   121 of at most  120 lines of README.md", "    README.md: 121")

    def test_long_file(self):
        self.put("crates/low/src/long.rt", "// a line\n" * 801)
        self.lists("   801 of at most  800 lines of a file of code", "    crates/low/src/long.rt: 801")

    def test_wide_clauses(self):
        """Comments between them, and other lines, may be wider. Characters count, not bytes."""
        wide = "    ensures { " + "≡" * 85 + " }"
        text = function("wide", ["    // " + "a" * 100, wide + "}", wide, "        " + "a" * 93, "    ensures { 1 }"], 0)
        self.put("crates/low/src/wide.rt", text + "// " + "a" * 100 + "\n")
        self.lists(
            "   102 of at most  100 characters of a line of a clause",
            "    crates/low/src/wide.rt:3: 102",
            "    crates/low/src/wide.rt:4: 101",
            "    crates/low/src/wide.rt:5: 101",
        )

    def test_many_clauses(self):
        few, many = ["    requires { 1 }"] * 10, ["    requires { 1 }", "    ensures more {", "        2 }"] * 6
        self.put("crates/low/src/many.rt", function("kept", few, 1) + function("more", many, 1))
        self.lists("    12 of at most   10 clauses of a function", "    crates/low/src/many.rt:15: more: 12")

    def test_long_bodies(self):
        self.put("crates/low/src/long.rt", function("kept", [], 40) + function("long", ["    ensures { 1 }"], 41))
        self.lists("    41 of at most   40 lines of a body", "    crates/low/src/long.rt:44: long: 41")

    def test_shared_names(self):
        """Each crate may have a root and laws. A name in two files of one crate counts for one crate."""
        for crate in ("high", "low"):
            for module in ("Lib", "Laws", f"Of{crate}"):
                self.put(f"crates/{crate}/specs/{module}.antt", "pub mod Sums\npub use Rattle.low.specs.Sums.{total}\n")
        self.put("crates/low/specs/More.antt", "abbrev pub IsSum : ℕ → Type 0\npub record IsPart (n : ℕ) : Type 0 where\n")
        self.put("crates/low/specs/Sums.antt", "abbrev pub IsSum : ℕ → Type 0\n")
        self.test_counts_that_are_kept()
        self.put("crates/high/specs/Sums.antt", kinds(SHARED + 1, "pub data", ": Type 0 where\n"))
        self.put("crates/top/specs/Kinds.antt", kinds(SHARED, "abbrev pub", ": ℕ\n"))
        self.lists("     1 of at most    0 modules of definitions with one name in two crates", "    Sums: high, low")
        self.put("crates/high/specs/Totals.antt", "pub record IsSum (n : ℕ) : Type 0 where\n")
        self.lists(
            f"{SHARED + 1:6} of at most {SHARED:4} names of definitions in two crates",
            "    IsSum: high, low",
            *(f"    Kind{number}: high, top" for number in sorted(range(SHARED), key=str)),
            "     1 of at most    0 modules of definitions with one name in two crates",
            "    Sums: high, low",
        )

    def test_shared_names_further_in(self):
        """A definition may be within a module or in a mutual block. Fields of records are not definitions."""
        records = kinds(SHARED, "  pub record", "(n : ℕ) : Type 0 where\n    pub count : ℕ\n\n")
        self.put("crates/low/specs/Kinds.antt", f"module _ (m : ℕ) where\n{records}  abbrev pub nodes : ℕ\n")
        self.put("crates/low/specs/Sums.antt", "pub record IsSum (n : ℕ) : Type 0 where\n  pub total : ℕ\n")
        fields = "".join(f"  pub {name} : ℕ\n" for name in ("count", "total", "nodes"))
        self.put("crates/top/specs/Views.antt", f"pub record IsView : Type 0 where\n{fields}")
        self.put("crates/top/specs/Colours.antt", kinds(SHARED, "pub data", ": Type 0 where\n"))
        self.put("crates/top/specs/Counts.antt", "abbrev mutual\n  pub depth : ℕ\n  depth = 0\n")
        self.assertEqual(self.run_script("sizes", self.folder).returncode, 0)
        self.put("crates/top/specs/Trees.antt", "abbrev mutual\n  pub nodes : ℕ\n  nodes = 0\n")
        self.lists(
            f"{SHARED + 1:6} of at most {SHARED:4} names of definitions in two crates",
            *(f"    Kind{number}: low, top" for number in sorted(range(SHARED), key=str)),
            "    nodes: low, top",
        )


if __name__ == "__main__":
    unittest.main()
