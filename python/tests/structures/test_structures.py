"""Plain structures of matrices of any size, compared with the definition, and the tree of a matrix with many columns."""

from __future__ import annotations

import random
import unittest
from collections.abc import Sequence
from unittest import mock

from cmr_matrices import Matrix, is_network
from cmr_matrices.errors import LibraryMissing
from cmr_matrices.matrices.determinants import determinant
from cmr_matrices.matrices.lines import Names
from cmr_matrices.models.constraints import Constraints
from cmr_matrices.models.model_reductions import connected_parts, reduced
from cmr_matrices.structures.fitting import fitted
from cmr_matrices.structures.halves import OddCycle, are_halves, cycle_determinant, is_odd_cycle, signs_or_cycle
from cmr_matrices.structures.intervals import are_intervals, interval_signs
from cmr_matrices.structures.paths import Arcs, are_forest, is_path
from cmr_matrices.structures.sieve import Sieve
from cmr_matrices.structures.structure import Structure, paths_structure, structure_of
from tests.independent import is_unimodular
from tests.support import needs_module, needs_program

Entries = dict[tuple[int, int], int]


def constraints_of(entries: Entries, height: int, width: int) -> Constraints:
    names = Names(tuple(f"r{at}" for at in range(height)), tuple(f"c{at}" for at in range(width)))
    return Constraints(names, entries)


def dense(entries: Entries, rows: Sequence[int], columns: Sequence[int]) -> list[list[int]]:
    return [[entries.get((row, column), 0) for column in columns] for row in rows]


def drawn(chance: random.Random) -> tuple[Entries, int, int]:
    """A random matrix with two nonzeros in each column, with intervals, or with neither, which may be transposed."""
    height, width = chance.randint(1, 6), chance.randint(1, 6)
    kind = chance.choice(("two", "intervals", "any"))
    entries: Entries = {}
    for column in range(width):
        start = chance.randrange(height)
        rows = {
            "two": chance.sample(range(height), min(height, chance.randint(0, 2))),
            "intervals": list(range(start, chance.randint(start, height))),
            "any": [row for row in range(height) if chance.random() < 0.4],
        }[kind]
        entries |= {(row, column): chance.choice((1, 1, 1, -1)) for row in rows}
    if chance.random() < 0.5:
        return {(column, row): entry for (row, column), entry in entries.items()}, width, height
    return entries, height, width


class Structures(unittest.TestCase):
    def test_random_matrices(self) -> None:
        chance = random.Random(1)
        kinds: dict[str, int] = {}
        for number in range(1500):
            entries, height, width = drawn(chance)
            found = structure_of(constraints_of(entries, height, width))
            kind = f"{found.kind} {found.is_turned}" if isinstance(found, Structure) else type(found).__name__
            kinds[kind] = kinds.get(kind, 0) + 1
            with self.subTest(number=number, kind=kind):
                if isinstance(found, Structure):
                    self.assertTrue(is_unimodular(dense(entries, range(height), range(width))))
                elif found is not None:
                    self.violates(dense(entries, found.rows, found.columns))
        structures = {f"{kind} {turned}" for kind in ("halves", "intervals") for turned in (True, False)}
        self.assertEqual(set(kinds), structures | {"OddCycle", "NoneType"})
        self.assertGreater(min(kinds.values()), 15)

    def violates(self, entries: list[list[int]]) -> None:
        """It is not totally unimodular, and it is without any one of its rows."""
        self.assertFalse(is_unimodular(entries))
        for row in range(len(entries)):
            rest = entries[:row] + entries[row + 1 :]
            self.assertTrue(not rest or is_unimodular(rest))

    def test_two_nonzeros_in_each_column_are_always_decided(self) -> None:
        """The theorem of Heller and Tompkins gives an answer for each such matrix."""
        chance = random.Random(2)
        answers = {"yes": 0, "no": 0}
        for _ in range(400):
            height, width = chance.randint(2, 6), chance.randint(1, 8)
            columns = [
                sorted((row, chance.choice((1, -1))) for row in chance.sample(range(height), 2)) for _ in range(width)
            ]
            entries = {(row, column): entry for column, found in enumerate(columns) for row, entry in found}
            found = signs_or_cycle(columns, height)
            is_yes = is_unimodular(dense(entries, range(height), range(width)))
            answers["yes" if is_yes else "no"] += 1
            if isinstance(found, OddCycle):
                self.assertFalse(is_yes)
                self.assertTrue(is_odd_cycle(columns, found))
            else:
                self.assertTrue(is_yes)
                self.assertTrue(are_halves(columns, found))
        self.assertGreater(min(answers.values()), 50)

    def test_an_odd_cycle_is_short(self) -> None:
        """A cycle of 3,001 rows with one chord that makes an odd triangle."""
        count = 3001
        columns = [sorted([(row, 1), ((row + 1) % count, 1)]) for row in range(count)] + [[(0, 1), (2, 1)]]
        found = signs_or_cycle(columns, count)
        assert isinstance(found, OddCycle)
        self.assertEqual(found, OddCycle((0, 1, 2), (0, 1, count)))

    def test_the_determinant_of_an_odd_cycle(self) -> None:
        chance = random.Random(5)
        values: dict[int | None, int] = {}
        for _ in range(500):
            height, width = chance.randint(2, 7), chance.randint(2, 10)
            columns = [
                sorted((row, chance.choice((1, -1))) for row in chance.sample(range(height), 2)) for _ in range(width)
            ]
            found = signs_or_cycle(columns, height)
            if isinstance(found, OddCycle):
                entries = [[dict(columns[column]).get(row, 0) for column in found.columns] for row in found.rows]
                value = cycle_determinant(columns, found)
                self.assertEqual(value, determinant(entries))
                values[value] = values.get(value, 0) + 1
        self.assertEqual(set(values), {2, -2})
        two = [[(0, 1), (1, 1)], [(0, 1), (1, -1)], [(2, 1), (3, 1)], [(2, 1), (3, 1)]]
        self.assertIsNone(cycle_determinant(two, OddCycle((0, 1, 2, 3), (0, 1, 2, 3))))
        self.assertFalse(is_odd_cycle(two, OddCycle((0, 0, 1), (0, 1))))
        self.assertFalse(is_odd_cycle(two, OddCycle((0, 1), (0, 0, 1))))

    def test_evidence_that_is_wrong_does_not_hold(self) -> None:
        pairs = [[(0, 1), (1, 1)], [(1, 1), (2, -1)]]
        self.assertTrue(are_halves(pairs, (1, -1, -1)))
        self.assertFalse(are_halves(pairs, (1, 1, -1)))
        self.assertFalse(are_halves([[(0, 1), (1, -1), (2, 1)]], (1, 1, 1)))
        self.assertFalse(is_odd_cycle(pairs, OddCycle((0, 1), (0, 1))))
        self.assertFalse(is_odd_cycle([[(0, 1), (1, 1)], [(0, 1), (1, 1)]], OddCycle((0, 1), (0, 1))))
        self.assertTrue(is_odd_cycle([[(0, 1), (1, 1)], [(0, 1), (1, -1)]], OddCycle((0, 1), (0, 1))))
        intervals = [[(0, 1), (1, -1), (2, 1)]]
        self.assertEqual(interval_signs(intervals, 3), (1, -1, 1))
        self.assertFalse(are_intervals(intervals, (1, 1, 1)))
        self.assertFalse(are_intervals([[(0, 1), (2, 1)]], (1, 1, 1)))
        self.assertIsNone(interval_signs([[(0, 1), (2, 1)]], 3))
        self.assertIsNone(interval_signs([[(0, 1), (1, 1)], [(0, 1), (1, -1)]], 2))

    def test_paths(self) -> None:
        arcs: Arcs = ((0, 1), (1, 2), (3, 1), (4, 5))
        self.assertTrue(are_forest(arcs))
        self.assertFalse(are_forest((*arcs, (2, 3))))
        for column, answer in (
            ([], True),
            ([(0, 1), (1, 1)], True),
            ([(0, 1), (1, -1)], False),
            ([(0, 1), (2, -1)], True),
            ([(0, 1), (2, 1)], False),
            ([(0, 1), (3, 1)], False),
            ([(0, 1), (1, 1), (2, 1)], False),
        ):
            self.assertEqual(is_path(column, arcs), answer, column)


def tree_paths(chance: random.Random, height: int, width: int) -> Entries:
    """Random paths in a random tree whose arcs are the rows, in a random order."""
    parents = [(0, 0), *((chance.randint(max(0, at - 4), at - 1), chance.choice((1, -1))) for at in range(1, height + 1))]
    order = list(range(height))
    chance.shuffle(order)
    entries: Entries = {}
    for column in range(width):
        one, other = chance.randint(0, height), chance.randint(0, height)
        while one != other:
            node, sign = (one, 1) if one > other else (other, -1)
            entries[order[node - 1], column] = sign * parents[node][1]
            one, other = (parents[node][0], other) if one > other else (one, parents[node][0])
    return entries


@needs_module("scipy")
class Sieves(unittest.TestCase):
    def test_what_is_hopeless_stays_open(self) -> None:
        """It says so if and only if a part of what the reductions leave is too large and has no structure, if lines are merely counted."""
        chance = random.Random(8)
        answers = {True: 0, False: 0}
        for number in range(400):
            height, width = chance.randint(1, 9), chance.randint(1, 9)
            entries = {
                (row, column): chance.choice((1, 1, -1)) for row in range(height) for column in range(width) if chance.random() < 0.4
            }
            constraints = constraints_of(entries, height, width)
            parts = connected_parts(reduced(constraints)[0]) if entries else []
            large = [part for part in parts if min(part.names.shape) > 2]
            rows, columns = ([place[axis] for place in entries] for axis in (0, 1))
            sieve = Sieve.of(rows, columns, list(entries.values()))
            assert sieve is not None
            is_hopeless = sieve.is_hopeless(sorted(set(rows)), 2)
            answers[is_hopeless] += 1
            with self.subTest(number=number):
                if is_hopeless:
                    self.assertTrue(any(not isinstance(structure_of(part), Structure) for part in large))
                elif len(large) == 1:
                    found = structure_of(large[0])
                    self.assertTrue(found is not None or _has_consecutive_ones(large[0]))
        self.assertGreater(min(answers.values()), 30)

    def test_without_libraries_nothing_is_hopeless(self) -> None:
        missing = LibraryMissing("examining a large model", "scipy", None)
        with mock.patch("cmr_matrices.structures.sieve.library", side_effect=missing):
            self.assertIsNone(Sieve.of([0], [0], [1]))

    def test_some_rows_only(self) -> None:
        entries = [(row, column) for row in range(5) for column in range(5) if (row, column) != (4, 4)]
        sieve = Sieve.of([row for row, _ in entries], [column for _, column in entries], [1] * 24)
        assert sieve is not None
        self.assertFalse(sieve.is_hopeless([0, 1], 1))
        self.assertFalse(sieve.is_hopeless([], 1))


def _has_consecutive_ones(constraints: Constraints) -> bool:
    """Whether the lines of each line are consecutive, in rows or in columns, if the signs do not count."""
    for axis in (0, 1):
        found: dict[int, list[int]] = {}
        for place in constraints.entries:
            found.setdefault(place[axis], []).append(place[1 - axis])
        if all(max(lines) - min(lines) + 1 == len(lines) for lines in found.values()):
            return True
    return False


@needs_program
class Trees(unittest.TestCase):
    def test_a_tree_for_many_columns(self) -> None:
        entries = tree_paths(random.Random(3), 60, 1500)
        for is_turned in (False, True):
            own = {(column, row): entry for (row, column), entry in entries.items()} if is_turned else entries
            constraints = constraints_of(own, *((1500, 60) if is_turned else (60, 1500)))

            def tree_of(lines: Sequence[int]) -> Arcs | None:
                places = {line: place for place, line in enumerate(lines)}
                nonzeros = sorted((row, places[at], entry) for (row, at), entry in entries.items() if at in places)
                graph = is_network(Matrix((60, len(lines)), tuple(nonzeros)), certificate=True).graph
                return graph and [(edge.tail, edge.head) for edge in graph.arcs]

            with self.subTest(is_turned=is_turned):
                found = fitted(constraints, is_turned, tree_of)
                assert found is not None
                self.assertEqual((found.kind, found.is_turned), ("paths", is_turned))
                wrong, others = paths_structure(constraints, [(0, at + 1) for at in range(60)], is_turned)
                self.assertIsNone(wrong)
                self.assertGreater(len(others), 0)
                self.assertIsNone(fitted(constraints, is_turned, lambda _: None))


if __name__ == "__main__":
    unittest.main()
