"""Reports of models: `model_report`, compared with plain slow checks, and the pages that they make."""

from __future__ import annotations

import json
import random
import re
import subprocess
import tempfile
import unittest
from collections.abc import Iterator, Sequence
from html import unescape
from itertools import combinations
from pathlib import Path
from unittest import mock

from cmr_matrices import Answer, BadInput, Matrix, ModelReport, model_report
from cmr_matrices.matrices.lines import Names
from cmr_matrices.models.constraints import Choice, Constraints
from cmr_matrices.models.model_texts import NONLINEAR_OBJECTIVE, ORDERED_SETS, SEMICONTINUOUS
from cmr_matrices.models.modellers import constraints_of_file
from cmr_matrices.reporting.deciding import Decider
from cmr_matrices.reporting.repeating import row_pattern
from cmr_matrices.reporting.rows import said_rows
from cmr_matrices.reporting.sampling import near_lines
from tests.independent import is_unimodular, is_violator
from tests.support import EXAMPLES, needs_command, needs_module, needs_program

HARD = "<b>&\"'"
"""What would be read as HTML, and may be in a name."""


def lp_text(rows: dict[str, list[int]], sides: Sequence[float] = ()) -> str:
    """A model in the LP format with these coefficients by the names of its rows."""
    lines = ["Minimize", " cost: " + " + ".join(f"x{at}" for at in range(len(next(iter(rows.values()))))), "Subject To"]
    for number, (name, entries) in enumerate(rows.items()):
        terms = " ".join(f"{entry:+d} x{at}" for at, entry in enumerate(entries) if entry)
        lines.append(f" {name}: {terms} <= {sides[number] if sides else 4}")
    return "\n".join([*lines, "General", " " + " ".join(f"x{at}" for at in range(len(entries))), "End", ""])


class ReportTest(unittest.TestCase):
    def setUp(self) -> None:
        folder = tempfile.TemporaryDirectory()
        self.addCleanup(folder.cleanup)
        self.folder = Path(folder.name)

    def write(self, name: str, text: str) -> Path:
        path = self.folder / name
        path.write_text(text, encoding="utf-8")
        return path

    def holds(self, report: ModelReport) -> None:
        """What a report of a small model says holds by definition."""
        entries = {row: dict(found) for row, found in report.rows.entries.items()}
        columns = range(report.shape[1])

        def part(rows: Sequence[int], across: Sequence[int] = columns) -> list[list[int]]:
            return [[int(entries[row].get(column, 0)) for column in across] for row in rows]

        if report.whole.rows and report.whole.verdict != "undecided":
            self.assertEqual(is_unimodular(part(report.whole.rows)), report.whole.verdict == "yes")
        if report.rest is not None and report.rest.rows:
            self.assertTrue(is_unimodular(part(report.rest.rows)))
            kept = set(range(report.shape[0])) - set(report.relaxed)
            self.assertEqual(set(report.rest.rows), kept)
        for family in report.families:
            if family.violator is not None:
                self.assertTrue(is_violator(part(family.violator.rows, family.violator.columns)))
        if report.minimal is not None:
            found = report.minimal
            rows, across = found.cells.rows, found.cells.columns
            self.assertEqual([list(row) for row in found.entries], part(rows, across))
            self.assertFalse(is_unimodular(part(rows, across)))
            self.assertTrue(found.is_minimal)
            self.assertIn(found.determinant, (2, -2))
            for line in rows:
                self.assertTrue(is_unimodular(part([row for row in rows if row != line], across)))
            for line in across:
                self.assertTrue(is_unimodular(part(rows, [column for column in across if column != line])))


@needs_program
@needs_module("swiglpk")
@needs_command("glpsol")
class Reports(ReportTest):
    def test_the_crews(self) -> None:
        report = model_report(EXAMPLES / "crews.mod")
        self.holds(report)
        self.assertEqual(report.verdict, "no")
        assert report.kept is not None
        self.assertTrue(report.kept.is_largest)
        self.assertEqual((report.relax_said, report.relaxed), (("skill[0..3]", "total", "pay"), tuple(range(8, 14))))
        self.assertEqual(report.relax, ("skill[0]", "skill[1]", "skill[2]", "skill[3]", "total", "pay"))

    def test_a_yes_and_its_reasons(self) -> None:
        words = {"assignment.mps": "network", "maxflow.mod": "network", "shifts.lp": "sums", "wards.mod": "network"}
        for name, word in words.items():
            with self.subTest(name=name):
                report = model_report(EXAMPLES / name)
                assert report.reason is not None
                self.assertEqual((report.verdict, report.reason.word, report.relax), ("yes", word, ()))
                self.assertEqual(report.not_whole, ())
        rows = {f"r{at}": [int(at <= column < at + 3) for column in range(6)] for at in range(4)}
        turned = self.write("turned.lp", lp_text(rows))
        report = model_report(turned)
        assert report.reason is not None
        self.assertIn("intervals", report.reason.sentence)

    def test_sides_that_are_not_whole(self) -> None:
        path = self.write("sides.lp", lp_text({"a": [2, 2, 0], "b": [0, 1, 1]}, [3, 2.5]))
        report = model_report(path)
        self.assertEqual(report.verdict, "yes")
        self.assertEqual([str(it) for it in report.not_whole], ["right-hand side 1.5 of a", "right-hand side 2.5 of b"])
        self.assertIn("Not integral: right-hand side 1.5 of a and right-hand side 2.5 of b.", report.to_text())
        bounds = self.write("bounds.lp", "Minimize\n x + y\nSubject To\n c: x + y <= 3\nBounds\n x <= 1.5\nEnd\n")
        self.assertEqual([str(it) for it in model_report(bounds).not_whole], ["bound 1.5 of x"])
        # A bound counts though its column is in no row that is kept.
        rows = {"a": [1, 1, 0, 0], "b": [0, 1, 1, 0], "c": [1, 0, 1, 0], "other": [0, 0, 0, 2]}
        text = lp_text(rows | {"last": [0, 0, 1, 3]}).replace("General", "Bounds\n x3 <= 1.5\nGeneral")
        report = model_report(self.write("apart.lp", text))
        self.assertIn("bound 1.5 of x3", [str(it) for it in report.not_whole])
        self.assertIn("with integral right-hand sides and bounds a linear program solves", report.to_text())

    def test_what_is_no_linear_program_is_said(self) -> None:
        text = "Minimize\n x + [ x ^2 ] / 2\nSubject To\n c: x + y <= 3\nBounds\n x <= 4\nSemi-continuous\n x\nEnd\n"
        report = model_report(self.write("curved.lp", text))
        self.assertEqual((report.verdict, report.rows.model.left_out), ("yes", (NONLINEAR_OBJECTIVE, SEMICONTINUOUS)))
        self.assertIn("The model has an objective that is not linear, so an optimum need not be at a vertex.", report.to_text())
        self.assertIn("The model has semicontinuous variables", report.to_html())
        found = json.loads(report.to_json())
        self.assertEqual((found["left_out"], found["relax"]["solves_as_a_linear_program"]), ([*report.rows.model.left_out], False))

    def test_ordered_sets_are_said(self) -> None:
        lines = ["NAME", "ROWS", " N cost", " L a", "COLUMNS", " x cost 1 a 1", " y cost 1 a 1", "RHS", " RHS a 1"]
        report = model_report(self.write("plain.mps", "\n".join([*lines, "ENDATA", ""])))
        self.assertEqual(report.rows.model.left_out, ())
        lines += ["SETS", " S1 set one", "    set x 1", "    set y 2", "ENDATA", ""]
        report = model_report(self.write("sets.mps", "\n".join(lines)))
        self.assertEqual((report.verdict, report.rows.model.left_out), ("yes", (ORDERED_SETS,)))
        for text in (report.to_text(), report.to_html()):
            self.assertIn("The model has special ordered sets in its section SETS, which a linear program does not have.", text)

    def test_a_no_claims_nothing_of_equations(self) -> None:
        """The equations have the determinant 1, so all their solutions are integral, though the matrix has a violator."""
        rows = {"a": [1, 1, 0], "b": [1, -1, 1], "c": [0, 1, -1]}
        self.assertEqual(Matrix.of([*rows.values()]).determinant(), 1)
        report = model_report(self.write("equations.lp", lp_text(rows).replace("<=", "=")))
        self.assertEqual(report.verdict, "no")
        self.assertIn("The vertices of this model may still be integral.", report.to_text())

    def test_all_rows_have_other_coefficients(self) -> None:
        report = model_report(self.write("large.lp", lp_text({"a": [2, 3, 0], "b": [0, 1, 5]})))
        self.assertEqual((report.verdict, report.relax, report.minimal), ("no", ("a", "b"), None))
        self.assertIn("totally unimodular: no\n", report.to_text())
        self.assertIn("</html>", report.to_html())

    def test_a_largest_set_of_families_of_random_models(self) -> None:
        chance = random.Random(7)
        spoiled = 0
        for number in range(25):
            names = [
                f"{family}({at})" for family in "abcd"[: chance.randint(2, 4)] for at in range(chance.randint(1, 3))
            ]
            entries = {name: [chance.choice((0, 0, 1, 1, -1)) for _ in range(5)] for name in names}
            entries = {name: row if any(row) else [1, 0, 0, 0, 0] for name, row in entries.items()}
            with self.subTest(number=number):
                report = model_report(self.write(f"m{number}.lp", lp_text(entries)))
                self.holds(report)
                if report.verdict == "yes":
                    self.assertEqual(report.relaxed, ())
                    continue
                spoiled += 1
                assert report.kept is not None
                self.assertTrue(report.kept.is_largest)
                kept = report.kept.answer.rows if report.kept.answer else ()
                self.assertEqual(len(kept), self.most_rows(entries))
        self.assertGreater(spoiled, 10)

    def most_rows(self, entries: dict[str, list[int]]) -> int:
        """How many rows whole families can keep, by all sets of them."""
        families = sorted({name[0] for name in entries})
        sets = [chosen for size in range(len(families) + 1) for chosen in combinations(families, size)]
        kept = ([row for name, row in entries.items() if name[0] in chosen] for chosen in sets)
        return max(len(rows) for rows in kept if not rows or is_unimodular(rows))

    def test_many_families_are_searched_greedily(self) -> None:
        letters = "abcdefghijklmnop"
        chance = random.Random(3)
        entries = {letter: [chance.choice((0, 1)) for _ in range(6)] for letter in letters}
        entries = {name: row if any(row) else [1, 0, 0, 0, 0, 0] for name, row in entries.items()}
        report = model_report(self.write("many.lp", lp_text(entries)))
        self.holds(report)
        assert report.kept is not None
        self.assertFalse(report.kept.is_largest)
        self.assertNotIn(None, report.kept.refused.values())
        self.assertIn("The search was greedy: no other family can be added", report.to_text())
        self.assertTrue(report.kept.is_greedy)

    def test_a_limit_ends_the_search(self) -> None:
        report = model_report(EXAMPLES / "goods.mod", questions=1)
        self.assertEqual(report.verdict, "no")
        self.assertTrue(report.within["load[..]"].is_cut)
        self.assertEqual(report.ended["rows of load[..]"], "questions")
        self.assertIn("The limits on questions ended these steps: ", report.to_text())
        self.assertIn("A limit ended the search row by row before it found a row of load[..]", report.to_text())
        with mock.patch("cmr_matrices.reporting.asking.processor_seconds", return_value=1e9):
            hasty = model_report(EXAMPLES / "goods.mod", time_limit=0.01)
        self.assertEqual((hasty.verdict, hasty.whole.why_open), ("undecided", "the time is over"))
        self.assertEqual(set(hasty.ended.values()), {"time"})
        for text in (hasty.to_text(), hasty.to_html()):
            self.assertIn("The time limit of 0.01 seconds ended these steps: the whole matrix; all sets of families of rows;", text)
            self.assertIn("Their results depend on the speed of the machine.", text)
        self.assertEqual({family.state for family in hasty.families}, {"open"})
        self.assertIsNone(hasty.rest)
        self.assertIn("No rows were found that can be kept.", hasty.to_text())
        self.assertEqual(json.loads(hasty.to_json())["ended"], dict(hasty.ended))
        self.assertEqual(model_report(EXAMPLES / "crews.mod").ended, {})

    def test_what_a_limit_has_ended_is_said_of_a_greedy_search(self) -> None:
        """All sets of families cannot be tried, so the search is greedy, and the report says why."""
        report = model_report(EXAMPLES / "crews.mod", questions=1)
        self.assertEqual(report.ended["all sets of families of rows"], "questions")
        assert report.kept is not None
        self.assertEqual((report.kept.is_greedy, report.kept.is_cut, report.kept.is_largest), (True, True, False))
        self.assertIn("A limit ended the search, so another choice may keep more rows.", report.to_text())

    def spoiled_families(self, letters: str) -> Path:
        """The last family is kept. Of each other family one row makes a violator with it."""
        rows: dict[str, list[int]] = {}
        for number, letter in enumerate(letters):
            before = [0] * (3 * number)
            rows[f"{letter}(0)"] = [*before, 1, 0, 1]
            rows |= {f"{letter}({at + 1})": [*before, *[0] * at, 1] for at in range(number + 1)}
        width = 3 * len(letters)
        pairs = [[0] * at + [1, 1] for at in range(width) if at % 3 < 2]
        kept = pairs + [[0] * at + [1] for at in range(width)]
        rows |= {f"p({at})": row for at, row in enumerate(kept)}
        text = lp_text({name: [*row, *[0] * (width - len(row))] for name, row in rows.items()})
        return self.write(f"{letters}.lp", text)

    def test_the_rows_of_several_families_are_tried(self) -> None:
        report = model_report(self.spoiled_families("bc"))
        self.holds(report)
        self.assertEqual(report.relax, ("b(0)", "c(0)"))
        self.assertEqual({name: len(search.blocks) for name, search in report.within.items()}, {"b(..)": 1, "c(..)": 2})
        self.assertIn("Row by row, 1 of 2 of b(0..1) and 2 of 3 of c(0..2) can be kept (the search was greedy, so", report.to_text())
        self.assertEqual([family.state for family in report.families], ["partly", "partly", "kept"])

    def test_families_share_the_questions(self) -> None:
        report = model_report(self.spoiled_families("bc"), questions=2)
        self.holds(report)
        self.assertEqual(report.ended["rows of c(..)"], "questions")
        self.assertIn("A limit ended the search row by row before it found a row of c(0..2) that can be kept.", report.to_text())
        report = model_report(self.spoiled_families("bcd"), questions=2)
        self.holds(report)
        self.assertEqual(list(report.within), ["b(..)"])
        self.assertEqual(report.ended["rows of 2 other families"], "questions")

    def test_a_part_that_is_too_large(self) -> None:
        """Each column has three nonzeros, each row six, and nothing is reducible: no structure decides it."""
        rows: dict[str, list[str]] = {f"r({at})": [] for at in range(1101)}
        for at in range(1101):
            for step in (1, 2):
                for row in (at, (at + step) % 1101, (at + 2 * step + 1) % 1101):
                    rows[f"r({row})"].append(f"c{at}_{step}")
        lines = [f" {name}: {' + '.join(columns)} <= 1" for name, columns in rows.items()]
        path = self.write("large.lp", "\n".join(["Minimize", " cost: c0_1", "Subject To", *lines, "End", ""]))
        report = model_report(path, questions=3)
        self.assertEqual((report.whole.verdict, report.verdict), ("undecided", "no"))
        self.assertEqual(report.whole.why_open, "1101x2202 is larger than a matrix may be, and no structure of it was recognised")
        assert report.minimal is not None
        self.assertEqual(abs(report.minimal.determinant or 0), 2)
        self.assertIn("</html>", report.to_html())

    def test_a_model_that_takes_too_long_to_read(self) -> None:
        text = "set S := 1..2**19; var x{S}; a{s in S}: x[s] <= 1; b: sum{s in S} x[s] <= 1; end;\n"
        for seconds, line in ((1, "GLPK does not generate the model within 1 seconds"), (None, "")):
            path = self.write("huge.mod", text if line else text.replace("2**19", "9"))
            if line:
                with self.assertRaisesRegex(BadInput, f"{line}; take a smaller instance or a larger time limit"):
                    model_report(path, time_limit=seconds)
            else:
                self.assertEqual(model_report(path).verdict, "yes")
        many = self.write("many.lp", lp_text({"a": [1] * 40, "b": [1] * 40}))
        with self.assertRaisesRegex(BadInput, "there are 80 nonzeros, too many for the time limit; take a smaller instance"):
            model_report(many, time_limit=0.001)

    def test_left_open(self) -> None:
        report = self.left_open()
        self.assertEqual(report.verdict, "undecided")
        self.assertIn("is neither recognised nor separated", report.to_text())

    def left_open(self) -> ModelReport:
        """A report of a model that is totally unimodular, which the program does not find without pivots and searches."""
        return model_report(EXAMPLES / "goods.mod", data=EXAMPLES / "three_places.dat", pivots=0, lines=0)

    def test_nothing_is_to_be_relaxed_if_the_question_is_open(self) -> None:
        report = self.left_open()
        self.assertGreater(len(report.relaxed), 0)
        text, page = report.to_text(), report.to_html()
        self.assertNotRegex(text, r"(?m)^  Relax |^What to relax")
        self.assertNotIn('class="relax"', page)
        for said in (text, page):
            self.assertIn("It is not known whether a row of balance[..] has to be relaxed. Without ", said)
            self.assertNotIn("Lagrangian", said)
        self.assertFalse(json.loads(report.to_json())["relax"]["has_reasons"])
        crews = model_report(EXAMPLES / "crews.mod")
        self.assertIn('class="relax"', crews.to_html())
        self.assertTrue(json.loads(crews.to_json())["relax"]["has_reasons"])

    def test_some_rows_decide_what_is_left_open(self) -> None:
        asked: list[Matrix] = []

        def noes(_: Decider, matrix: Matrix, _answer: Answer) -> Iterator[Answer]:
            """Of the first matrix, which is the whole one, nothing is found."""
            asked.append(matrix)
            return iter(()) if len(asked) == 1 else found_noes(_, matrix, _answer)

        found_noes = Decider._noes
        with mock.patch.object(Decider, "_noes", noes):
            report = model_report(EXAMPLES / "goods.mod", pivots=0)
        self.assertEqual((report.whole.verdict, report.verdict), ("undecided", "no"))
        assert report.minimal is not None
        self.assertIn(report.minimal.determinant, (2, -2))
        self.assertNotIn(None, [family.violator for family in report.families if family.relaxed])

    def test_refused(self) -> None:
        with self.assertRaisesRegex(BadInput, "there are no rows"):
            model_report(self.write("none.mps", "NAME\nROWS\n N cost\nCOLUMNS\n x cost 1\nRHS\nENDATA\n"))
        with self.assertRaisesRegex(BadInput, "questions is a number from 1"):
            model_report(EXAMPLES / "crews.mod", questions=0)

    def test_the_matrix_is_that_of_model_to_matrix(self) -> None:
        for name in ("crews.mod", "knapsack.mps", "shifts.lp", "goods.mod"):
            report = model_report(EXAMPLES / name)
            choice = Choice(unit_rows=bool(report.rows.refused), scale=bool(report.rows.divided))
            found = constraints_of_file(EXAMPLES / name, None, choice, None)
            own = report.rows.constraints(report.whole.rows)
            self.assertEqual((own.names, dict(own.entries)), (found.names, dict(found.entries)))


@needs_program
@needs_module("swiglpk")
@needs_command("glpsol")
class Pages(ReportTest):
    def model(self) -> Path:
        """A model in free MPS with names that HTML would read."""
        rows = [f"r{HARD}[{at}]" for at in range(3)]
        lines = ["NAME", "ROWS", " N cost", *(f" L {row}" for row in rows), "COLUMNS"]
        for at in range(3):
            for row in (at, (at + 1) % 3):
                lines.append(f" x{HARD}{at} {rows[row]} 1")
        lines += ["RHS", *(f" RHS {row} 1" for row in rows), "ENDATA", ""]
        return self.write("<i>hard&.mps", "\n".join(lines))

    def test_names_are_escaped(self) -> None:
        page = model_report(self.model()).to_html()
        self.assertNotIn('<b>&"', page)
        self.assertNotIn("<i>hard", page)
        self.assertIn(f"r{HARD}[0]", unescape(page))

    def test_a_page_needs_nothing_else(self) -> None:
        for name in ("crews.mod", "shifts.lp", "wards.mod"):
            page = model_report(EXAMPLES / name).to_html()
            self.assertEqual(re.findall(r"<(?:script|link|img|iframe|object|base)\b|\bsrc=|\bhref=|@import", page), [])
            self.assertEqual(
                set(re.findall(r"url\([^)]*\)|https?:[^\s\"<]*", page)), {"url(#hatch)"} if "hatch)" in page else set()
            )
            self.assertIn("default-src 'none'", page)

    def test_labels_are_not_clipped(self) -> None:
        """Names of 17 wide letters, whose width is 11.3 points each, are within the picture."""
        wide, width = "W" * 17, 17 * 11.3
        rows = [f" {wide}{letter}: x1 + {wide} + x{letter} <= 1" for letter in "AB"]
        text = "\n".join(["Minimize", " cost: x1", "Subject To", *rows, "End", ""])
        page = model_report(self.write("wide.lp", text)).to_html()
        picture = page.partition('<svg class="spy"')[2].partition("</svg>")[0]
        across = float(re.findall(r'viewBox="0 0 (\d+) ', picture)[0])
        turned = re.findall(r'translate\((\S+) (\S+)\) rotate\(-58\)"><text[^>]*>W', picture)
        self.assertEqual(len(turned), 1)
        self.assertLess(float(turned[0][0]) + width * 0.53, across)
        self.assertGreater(float(turned[0][1]) - width * 0.85, 0)
        ends = re.findall(r'<text x="(\S+)" y="\S+" text-anchor="end"[^>]*>W', picture)
        self.assertEqual([float(end) > width for end in ends], [True, True])

    @needs_command("chromium")
    def test_a_browser_shows_it_at_two_sizes(self) -> None:
        for name, path in (("hard", self.model()), ("wards", EXAMPLES / "wards.mod"), ("crew", EXAMPLES / "crews.mod")):
            page = self.write(f"{name}.html", model_report(path).to_html())
            with self.subTest(name=name):
                shown = self.browse("--dump-dom", page)
                self.assertEqual(shown.count("<h1>"), 1)
                self.assertIn("<h2>How to repeat it</h2>", shown)
                self.assertNotIn('<b>&amp;"', shown.replace("<b>network</b>", ""))
                for width, height in ((1400, 1000), (420, 900)):
                    picture = self.folder / f"{name}{width}.png"
                    self.browse(f"--window-size={width},{height}", f"--screenshot={picture}", page)
                    self.assertGreater(picture.stat().st_size, 20_000)
                    self.assertEqual(self.overflow(page, width), "0", "the page is wider than the window")

    def browse(self, *words: str | Path) -> str:
        options = ["--headless", "--no-sandbox", "--disable-gpu", f"--user-data-dir={self.folder / 'profile'}"]
        command = ["chromium", *options, *(it.as_uri() if isinstance(it, Path) else it for it in words)]
        return subprocess.run(command, capture_output=True, text=True, check=True).stdout

    def overflow(self, page: Path, width: int) -> str:
        """By how many points a page is wider than a window, as a frame of this width tells it."""
        read = "const it = frame.contentDocument.documentElement; out.textContent = it.scrollWidth - it.clientWidth"
        frame = f'<iframe id="frame" src="{page.name}" width="{width}" height="900" onload="{read}"></iframe><p id="out"></p>'
        outside = self.write("frame.html", f"<!DOCTYPE html><title>frame</title>{frame}")
        shown = self.browse("--allow-file-access-from-files", "--dump-dom", outside)
        return shown.partition('<p id="out">')[2].partition("<")[0]

    def test_a_large_page_is_small(self) -> None:
        """A model of 1,000 by 1,000 has a page of less than 3 MB."""
        chance = random.Random(5)
        rows = {f"cap({at})": sorted(chance.sample(range(1000), 12)) for at in range(1000)}
        lines = [f" {name}: {' + '.join(f'x{at}' for at in columns)} <= 1" for name, columns in rows.items()]
        path = self.write("large.lp", "\n".join(["Minimize", " cost: x0", "Subject To", *lines, "End", ""]))
        report = model_report(path, questions=1, time_limit=1)
        self.assertEqual(report.shape, (1000, 1000))
        self.assertLess(len(report.to_html()), 3_000_000)


class Words(unittest.TestCase):
    def test_families_in_few_words(self) -> None:
        self.assertEqual(said_rows("skill(..)", ["skill(0)", "skill(2)", "skill(1)"]), "skill(0..2)")
        self.assertEqual(said_rows("cap_#", ["cap_8", "cap_9", "cap_10"]), "cap_8..10")
        self.assertEqual(said_rows("cap_#", ["cap_1", "cap_3"]), "cap_#")
        self.assertEqual(said_rows("flow[..]", ["flow[a,1]", "flow[b,1]"]), "flow[..]")
        self.assertEqual(said_rows("total", ["total"]), "total")

    def test_patterns_of_rows(self) -> None:
        names = ["skill(0)", "skill(1)", "total", "totals", "cap_1_2", "a.b", "axb"]
        for wanted in (["skill(0)", "skill(1)"], ["total"], ["cap_1_2", "total"], ["skill(1)"], ["a.b"], names):
            pattern = row_pattern(wanted, names)
            self.assertEqual(
                [name for name in names if re.search(pattern, name)], [name for name in names if name in wanted]
            )

    def test_near_lines(self) -> None:
        names = Names(tuple("abcd"), tuple("xyz"))
        entries = {(0, 1): 1, (1, 1): 1, (1, 0): -1, (3, 0): 1, (2, 2): 1}
        constraints = Constraints(names, entries)
        self.assertEqual(near_lines(constraints, 9), ((0, 1, 3), (0, 1)))
        self.assertEqual(near_lines(constraints, 2), ((0, 1), (0, 1)))
        self.assertEqual(near_lines(constraints, 1), ((0,), (1,)))
        self.assertEqual(near_lines(Constraints(names, {}), 5), ((), ()))


@needs_program
@needs_module("swiglpk")
@needs_command("glpsol")
class Objects(ReportTest):
    def test_an_object_of_json(self) -> None:
        found = json.loads(model_report(EXAMPLES / "crews.mod").to_json())
        self.assertEqual(found["totally_unimodular"], "no")
        self.assertEqual(found["relax"]["rows"], [*(f"skill[{at}]" for at in range(4)), "total", "pay"])
        self.assertEqual(found["coefficients"], {"refused": ["pay"], "divided": {}})
        self.assertEqual(found["violator"]["determinant"], 2)
        self.assertEqual({it["family"]: it["state"] for it in found["families"]}["period[..]"], "kept")


if __name__ == "__main__":
    unittest.main()
