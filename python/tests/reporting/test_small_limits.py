"""Reports of random models against brute force, also if the program may read only three or four lines, so that arithmetic decides."""

from __future__ import annotations

import random
import unittest
from collections.abc import Iterator, Sequence
from contextlib import ExitStack, contextmanager
from itertools import combinations
from unittest import mock

from cmr_matrices import ModelReport, model_report
from cmr_matrices.matrices.families import family_of
from cmr_matrices.structures.sieve import Sieve
from tests.independent import is_unimodular
from tests.reporting.test_model_report import ReportTest
from tests.support import needs_command, needs_large, needs_module, needs_program

COUNT = 40
"""How many models are drawn for each limit."""

_MODULES = ("reporting.asking", "reporting.keeping", "reporting.pieces", "reporting.repeating", "reporting.sentences", "structures.fitting")


@contextmanager
def limited(limit: int, reduces: bool, has_large: bool) -> Iterator[None]:
    """The package as if the program read at most `limit` rows and columns, and as if all matrices were too large to be reduced.

    Without `has_large` it has no `cmr-large`.
    """
    hopeless = Sieve.is_hopeless
    with ExitStack() as stack:
        for module in _MODULES:
            stack.enter_context(mock.patch(f"cmr_matrices.{module}.LIMIT", limit))
        patch = mock.patch.object(Sieve, "is_hopeless", lambda self, rows, most=limit: hopeless(self, rows, most))
        stack.enter_context(patch)
        stack.enter_context(mock.patch("cmr_matrices.reporting.asking._MANY", 20_000 if reduces else 0))
        if not has_large:
            stack.enter_context(mock.patch("cmr_matrices.reporting.asking.large_of", return_value=None))
        yield


def drawn(chance: random.Random) -> str:
    """A model with names that are automatic or in families, with some coefficients 2, and with some variables declared as integer."""
    columns = [f"{family}({at})" for family in "xyz"[: chance.randint(2, 3)] for at in range(chance.randint(1, 2))]
    many = chance.choice((1, 1, 1, 0)) if chance.random() < 0.6 else 2
    lines = []
    for row in range(chance.randint(2, 7)):
        entries = [chance.choice((0, 0, 0, 1, 1, -1) + (() if many == 1 else (2,))) for _ in columns]
        if many == 0:
            entries = [0] * len(columns)
            for at in chance.sample(range(len(columns)), 2):
                entries[at] = chance.choice((1, -1))
        terms = " ".join(f"{entry:+d} {name}" for entry, name in zip(entries, columns) if entry)
        name = chance.choice((f"c{row}", f"limit({row})", f"flow({row})"))
        lines += [f" {name}: {terms} {chance.choice(('<=', '>=', '='))} {chance.choice((2, 4, 4, 2.5))}"] if terms else []
    whole = [name for name in columns if chance.random() < 0.7]
    general = ["General", f" {' '.join(whole)}"] if whole else []
    return "\n".join(["Minimize", f" cost: {' + '.join(columns)}", "Subject To", *lines, *general, "End", ""]) if lines else ""


@needs_program
@needs_module("swiglpk")
@needs_module("scipy")
@needs_command("glpsol")
class SmallLimits(ReportTest):
    def test_random_models(self) -> None:
        for limit, reduces in ((1000, True), (4, True), (3, False)):
            counts = self.run_models(limit, reduces, COUNT, limit, has_large=False)
            self.assertGreater(counts["arithmetic"], -1 if reduces else COUNT // 2)

    @needs_large
    def test_random_models_of_which_most_are_proved(self) -> None:
        for limit, reduces in ((4, True), (3, False)):
            counts = self.run_models(limit, reduces, COUNT, limit, has_large=True)
            self.assertLess(counts["arithmetic"], COUNT // 4)

    def run_models(self, limit: int, reduces: bool, count: int, seed: int, *, has_large: bool) -> dict[str, int]:
        """The numbers of the verdicts and of the parts that arithmetic has decided. At most a few may be undecided at small limits."""
        chance = random.Random(seed)
        counts = {"yes": 0, "no": 0, "undecided": 0, "arithmetic": 0, "integers": 0, "suffices": 0}
        for number in range(count):
            text = drawn(chance)
            if not text:
                continue
            path = self.write(f"m{number}.lp", text)
            with limited(limit, reduces, has_large), self.subTest(limit=limit, number=number, text=text):
                report = model_report(path)
                counts[report.verdict] += 1
                counts["arithmetic"] += bool(report.whole.arithmetic or (report.rest and report.rest.arithmetic))
                self.is_right(report)
                for written in (report.to_text(), report.to_html(), report.to_json()):
                    self.assertNotIn("Traceback", written)
                if report.integers is not None and report.integers.answer is not None:
                    counts["integers"] += 1
                    counts["suffices"] += report.integers.suffices
        self.assertLess(counts["undecided"], 2 + count // 20)
        return counts

    def is_right(self, report: ModelReport) -> None:
        model = report.rows.model
        entries = {(row, column): entry for row, line in report.rows.entries.items() for column, entry in line}
        rows, columns = range(len(model.rows)), range(len(model.columns))

        def is_kept(some: Sequence[int], across: Sequence[int]) -> bool:
            part = [[entries.get((row, column), 0) for column in across] for row in some]
            has_units = all(abs(it) <= 1 for line in part for it in line)
            return has_units and (not part or not part[0] or is_unimodular([[int(it) for it in line] for line in part]))

        if report.verdict != "undecided":
            self.assertEqual(report.verdict == "yes", is_kept(rows, columns))
        kept = [row for row in rows if row not in report.relaxed]
        if report.rest is not None:
            self.assertEqual(tuple(kept), report.rest.rows)
            self.assertTrue(is_kept(kept, columns))
        if report.minimal is not None:
            self.assertFalse(is_kept(report.minimal.cells.rows, report.minimal.cells.columns))
        for family in report.families:
            if family.violator is not None:
                self.assertFalse(is_kept(family.violator.rows, family.violator.columns))
        if report.kept is not None and report.kept.is_largest:
            blocks = [family.rows for family in report.rows.families if family.rows]
            sets = [tuple(sorted(sum(some, ()))) for size in range(1, len(blocks) + 1) for some in combinations(blocks, size)]
            best = max((len(some) for some in sets if is_kept(some, columns)), default=0)
            self.assertEqual(sum(len(blocks[at]) for at in report.kept.blocks), best)
        if report.integers is not None:
            self.variables(report, is_kept)

    def variables(self, report: ModelReport, is_kept: object) -> None:
        """The columns of the others are totally unimodular, and no other choice of families has fewer integer variables."""
        assert callable(is_kept) and report.integers is not None
        found, model = report.integers, report.rows.model
        rows = range(len(model.rows))
        large = {column for line in report.rows.entries.values() for column, entry in line if abs(entry) != 1}
        base = [column for column, whole in enumerate(model.whole) if not whole] if any(model.whole) else []
        blocks: dict[str, list[int]] = {}
        for column, name in enumerate(model.columns):
            if column not in base and column not in large:
                blocks.setdefault(family_of(name), []).append(column)
        if found.answer is not None:
            self.assertTrue(is_kept(rows, sorted({*base, *found.free})))
            self.assertFalse(set(found.fixed) & set(base))
            self.assertEqual(set(found.fixed) | set(found.free) | set(base), set(range(len(model.columns))))
            self.assertEqual(found.suffices, not found.free)
            sides = {it.name for it in found.not_whole if it.kind == "row"}
            others = {*base, *found.free}
            wanted = {
                model.rows[row]
                for row in rows
                if model.sides[row].finite[0] / (report.rows.divided[row].factor if row in report.rows.divided else 1) % 1
                and others & {column for column, _ in report.rows.entries[row]}
            }
            self.assertEqual(sides, wanted)
        if found.is_smallest:
            sets = [sum(some, []) for size in range(len(blocks) + 1) for some in combinations(blocks.values(), size)]
            best = max((len(some) for some in sets if is_kept(rows, sorted(base + some))), default=0)
            self.assertEqual(len(found.free), best)
            if found.answer is None and any(model.whole) and base:
                self.assertFalse(is_kept(rows, base))


if __name__ == "__main__":
    unittest.main()
