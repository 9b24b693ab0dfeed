"""The inclusions: they hold on random matrices, settle what the program says too, and see what contradicts them."""

from __future__ import annotations

import itertools
import os
import random
import stat
import tempfile
import unittest
from dataclasses import replace
from pathlib import Path

from cmr_matrices import ExcludedMinor, Matrix, check, find_program
from cmr_matrices.classifying.blocks import classify
from cmr_matrices.classifying.classes import CLASS_NAMES, CLASSES, INCLUSIONS, contradictions, settle
from cmr_matrices.classifying.streams import Item
from cmr_matrices.classifying.work import CONTRADICTION, Settings
from cmr_matrices.questions.excluded import CLASSES as MINOR_CLASSES
from tests.open_matrices import latin_square
from tests.questions.test_random import drawn
from tests.support import FANO, R10, TRIANGLE, needs_program


def item(rows: list[list[int]], number: int = 1) -> Item:
    return Item("rows", number, Matrix.of(rows).to_text().encode(), "sparse")


class Inclusions(unittest.TestCase):
    def test_each_is_seen(self) -> None:
        for inclusion in INCLUSIONS:
            verdicts = {**dict.fromkeys(inclusion.within, "yes"), inclusion.holds: "no"}
            self.assertIn(inclusion, list(contradictions(verdicts)))
            for name, other in itertools.product(verdicts, ("undecided", "-", "")):
                self.assertNotIn(inclusion, list(contradictions({**verdicts, name: other})))

    def test_what_settles_what(self) -> None:
        verdicts = {"binary-series-parallel": "yes"}
        settle(verdicts, CLASS_NAMES)
        self.assertEqual(verdicts, dict.fromkeys(CLASS_NAMES, "yes"))
        verdicts = {"camion": "no", "regular": "no"}
        settle(verdicts, CLASS_NAMES)
        self.assertEqual(verdicts, dict.fromkeys(CLASS_NAMES, "no"))
        verdicts = {"network": "yes"}
        settle(verdicts, ["tu", "network"])
        self.assertEqual(verdicts, {"network": "yes", "tu": "yes"})


@needs_program
class Classified(unittest.TestCase):
    def setUp(self) -> None:
        self.settings = Settings(CLASSES, str(find_program()))

    def test_random_matrices(self) -> None:
        draw = random.Random(5)
        for number in range(150):
            matrix = item(drawn(draw), number)
            row = classify(matrix, self.settings)
            self.assertIsNone(row.fault, matrix)
            self.assertEqual(classify(matrix, replace(self.settings, infers=True)).verdicts, row.verdicts, matrix)

    def test_known_matrices(self) -> None:
        row = classify(item(R10), self.settings)
        self.assertEqual({name for name, verdict in row.verdicts.items() if verdict == "yes"}, {"regular"})
        row = classify(item(TRIANGLE), self.settings)
        self.assertEqual(
            {name for name, verdict in row.verdicts.items() if verdict == "yes"}, {"regular", "graphic", "cographic"}
        )

    def test_evidence(self) -> None:
        row = classify(item(TRIANGLE), replace(self.settings, evidence=True))
        self.assertLessEqual({"tu/tree", "tu/violator", "graphic/graph", "network/minimal"}, set(row.evidence))
        self.assertNotIn("regular/chain", row.evidence)

    def test_minors(self) -> None:
        settings = replace(self.settings, evidence=True, minors=True)
        row = classify(item(FANO), settings)
        minors = {name: text for name, text in row.evidence.items() if name.endswith("/minor")}
        for kind in MINOR_CLASSES:
            minor = ExcludedMinor.from_text(minors.pop(f"{kind.word}/minor").decode())
            self.assertEqual((minor.property_name, minor.fault(FANO)), (kind.name, None))
        self.assertEqual(minors, {})
        row = classify(item(TRIANGLE), settings)
        names = {name.removesuffix("/minor") for name in row.evidence if name.endswith("/minor")}
        outside = {name for name, verdict in row.verdicts.items() if verdict == "no"}
        self.assertEqual(names, outside - {"balanced", "camion"})

    def test_undecided(self) -> None:
        rows = [[1, 1, 0, 1], [1, 0, 1, 0], [1, 0, 1, 1], [0, 0, 1, 1]]
        for infers in (False, True):
            row = classify(item(rows), replace(self.settings, lines=0, infers=infers))
            self.assertEqual((row.verdicts["regular"], row.verdicts["graphic"], row.fault), ("undecided", "no", None))

    def test_what_is_asked_again(self) -> None:
        """An undecided matrix is decided by a part of it, with evidence on the whole matrix; without pivots and tries it is left."""
        rows = latin_square(3)
        settings = replace(self.settings, classes=tuple(kind for kind in CLASSES if kind.has_budget), evidence=True)
        self.assertEqual(set(classify(item(rows), settings).verdicts.values()), {"undecided"})
        row = classify(item(rows), replace(settings, tries=5))
        self.assertEqual((set(row.verdicts.values()), row.fault), ({"no"}, None))
        for name, text in row.evidence.items():
            held = Matrix.from_text(row.evidence["regular/signed"].decode())
            matrix = rows if name.split("/")[0] != "regular" or name.endswith("chain") else held
            if not name.endswith("signed"):
                self.assertIn(check(matrix, text.decode()).says, ("no", "not regular"))
        self.assertLessEqual({"tu/tree", "tu/violator", "regular/chain", "balanced/violator"}, set(row.evidence))

    def test_supports(self) -> None:
        """Regularity is asked of the support of a matrix with signs, and the inclusions hold of it."""
        settings = replace(self.settings, supports=True, evidence=True, minors=True)
        row = classify(item([[1, -1], [1, 1]]), settings)
        self.assertEqual([row.verdicts[name] for name in ("tu", "regular", "graphic")], ["no", "yes", "-"])
        signed = [[-entry if at == 0 else entry for at, entry in enumerate(line)] for line in FANO]
        row = classify(item(signed), settings)
        self.assertEqual((row.verdicts["regular"], row.fault), ("no", None))
        self.assertEqual(check(FANO, row.evidence["regular/chain"].decode()).says, "not regular")
        self.assertTrue(ExcludedMinor.from_text(row.evidence["regular/minor"].decode()).verify(FANO))
        draw = random.Random(6)
        for number in range(40):
            row = classify(item(drawn(draw), number), replace(self.settings, supports=True))
            self.assertIsNone(row.fault)
            self.assertNotEqual(row.verdicts["regular"], "-")

    def test_contradictions(self) -> None:
        """A program that says no to only one tool: the row has the fault, with and without signs."""
        for tool, rows in (("tu", [[1, 1], [0, 1]]), ("regular", [[1, -1], [0, 1]])):
            with tempfile.TemporaryDirectory() as folder:
                program = Path(folder, "cmr")
                said = {"tu": "totally unimodular", "regular": "regular"}[tool]
                program.write_text(
                    f'#!/bin/sh\nif [ "$1" = {tool} ]; then echo "{said}: no"; exit 1; fi\nexec {find_program()} "$@"\n',
                    encoding="ascii",
                )
                os.chmod(program, stat.S_IRWXU)
                row = classify(item(rows), replace(self.settings, program=str(program)))
                self.assertEqual(row.fault, CONTRADICTION)
                self.assertIn("in tu" if tool == "tu" else "the support of tu in regular", row.message or "")

    def test_a_limit_of_time(self) -> None:
        with tempfile.TemporaryDirectory() as folder:
            program = Path(folder, "cmr")
            program.write_text(
                f'#!/bin/sh\nif [ "$1" = tu ]; then exec sleep 60; fi\nexec {find_program()} "$@"\n', encoding="ascii"
            )
            os.chmod(program, stat.S_IRWXU)
            row = classify(item(TRIANGLE), replace(self.settings, program=str(program), time_limit=1))
            self.assertEqual((row.verdicts["tu"], row.verdicts["graphic"]), ("undecided", "yes"))
            self.assertEqual(row.fault, "TimeLimitReached")


if __name__ == "__main__":
    unittest.main()
