"""Isomorphisms and automorphisms: maps are tested on bases, and small matroids by brute force."""

from __future__ import annotations

import itertools
import random
import unittest

from cmr_matrices import Matrix, Matroid, TimeLimitReached
from tests.questions.test_represented import FIELDS, drawn
from tests.support import needs_program

AUTOMORPHISMS = {
    "PG(3,2)": 20160,
    "PG(2,3)": 5616,
    "AG(3,2)": 1344,
    "F7": 168,
    "K5": 120,
    "K6": 720,
    "K3,5": 720,
    "K4,4": 1152,
    "Petersen": 120,
    "W^3": 6,
    "W^6": 12,
    "W8": 16,
    "U2,4": 24,
}
"""The orders of groups that the literature knows: linear groups, symmetric groups of nodes, and dihedral groups."""


def shuffled(draw: random.Random, matroid: Matroid) -> Matroid:
    """The matroid by another basis, with other signs, its lines in another order, and other labels."""
    other = matroid
    for _ in range(12 if other.matrix.nonzeros else 0):
        row, column, _ = draw.choice(other.matrix.nonzeros)
        other = other.pivot(other.basis[row], other.others[column])
    height, width = other.matrix.shape
    rows, columns = draw.sample(range(height), height), draw.sample(range(width), width)
    signs = [draw.choice((1, -1) if other.field == 3 else (1,)) for _ in range(height + width)]
    entries = [[other.matrix[row, column] * signs[row] * signs[height + column] for column in columns] for row in rows]
    labels = draw.sample(range(1000), height + width)
    made = Matrix.of(entries) if entries else Matrix((0, width), ())
    return Matroid.of(made, other.field, row_names=labels[:height], column_names=labels[height:])


class Isomorphisms(unittest.TestCase):
    def maps_bases(self, one: Matroid, two: Matroid) -> None:
        found = one.isomorphism(two, time_limit=60)
        assert found is not None
        self.assertEqual(sorted(map(str, found.values())), sorted(map(str, two.elements)))
        draw = random.Random(1)
        for _ in range(60):
            chosen = draw.sample(one.elements, draw.randint(0, len(one)))
            self.assertEqual(one.rank(chosen), two.rank(found[element] for element in chosen))

    def test_known_matroids(self) -> None:
        draw = random.Random(21)
        for name in (*AUTOMORPHISMS, "V8", "R10", "R12", "K7", "W^8", "R9", "P8", "T8", "Z6", "S8", "PG(3,3)", "K20"):
            with self.subTest(name=name):
                matroid = Matroid.from_named(name)
                self.maps_bases(matroid, shuffled(draw, matroid))
                self.maps_bases(matroid.dual(), shuffled(draw, matroid).dual())

    def test_random_matroids(self) -> None:
        draw = random.Random(22)
        for field, size in ((2, 12), (3, 12), (2, 24), (3, 20), (2, 40)):
            entries = (0, 1) if field == 2 else (0, 1, -1)
            matroid = Matroid.of([[draw.choice(entries) for _ in range(size)] for _ in range(size)], FIELDS[field - 2])
            other = shuffled(draw, matroid)
            self.maps_bases(matroid, other)
            rows = other.matrix.to_lists()
            rows[0][0] = int(not rows[0][0])
            self.assertFalse(matroid.is_isomorphic(Matroid.of(rows, FIELDS[field - 2]), time_limit=60))

    def test_small_matroids_by_brute_force(self) -> None:
        """Two matroids are isomorphic if some map of the elements maps bases to bases."""
        draw, yes = random.Random(23), 0
        for number in range(150):
            field = FIELDS[number % 2]
            shape = draw.randint(1, 3), draw.randint(1, 3)
            entries = (0, 1) if field == 2 else (0, 1, -1)
            pair = [Matroid.of([[draw.choice(entries) for _ in range(shape[1])] for _ in range(shape[0])], field) for _ in "12"]
            bases = [set(matroid.bases()) for matroid in pair]
            maps = (dict(zip(pair[0].elements, image)) for image in itertools.permutations(pair[1].elements))
            wanted = any({frozenset(to[one] for one in basis) for basis in bases[0]} == bases[1] for to in maps)
            self.assertEqual(pair[0].is_isomorphic(pair[1]), wanted, [matroid.matrix.to_lists() for matroid in pair])
            yes += wanted
        self.assertIn(yes, range(20, 130))

    def test_eight_elements_by_brute_force(self) -> None:
        """Over all maps of seven or eight elements. Half of the pairs differ by one entry at most."""
        draw, yes = random.Random(26), 0
        for number in range(100):
            field, height = FIELDS[number % 2], draw.randint(2, 5)
            width = draw.choice((7, 8)) - height
            entries = (0, 1, 1) if field == 2 else (0, 1, -1)
            rows, others = ([[draw.choice(entries) for _ in range(width)] for _ in range(height)] for _ in "12")
            if number % 4 < 2:
                others = [list(row) for row in rows]
                others[draw.randrange(height)][draw.randrange(width)] = draw.choice(entries)
            pair = Matroid.of(rows, field), shuffled(draw, Matroid.of(others, field))
            bases = [set(matroid.bases()) for matroid in pair]
            maps = (dict(zip(pair[0].elements, image)) for image in itertools.permutations(pair[1].elements))
            wanted = len(bases[0]) == len(bases[1]) and any(
                all(frozenset(to[one] for one in basis) in bases[1] for basis in bases[0]) for to in maps
            )
            self.assertEqual(pair[0].is_isomorphic(pair[1]), wanted, [matroid.matrix.to_lists() for matroid in pair])
            yes += wanted
        self.assertIn(yes, range(20, 80))

    @needs_program
    def test_two_fields(self) -> None:
        draw = random.Random(24)
        for name in ("R10", "K5", "W4", "K7*"):
            self.assertTrue(Matroid.from_named(name).is_isomorphic(shuffled(draw, Matroid.from_named(name, 3))))
            self.assertTrue(Matroid.from_named(name, 3).is_isomorphic(shuffled(draw, Matroid.from_named(name))))
        for one, two in (("F7", "F7-"), ("AG(3,2)", "T8"), ("W6", "W^6"), ("W12", "W^12")):
            self.assertFalse(Matroid.from_named(one).is_isomorphic(Matroid.from_named(two)))
            self.assertFalse(Matroid.from_named(two).is_isomorphic(Matroid.from_named(one)))

    def test_time_limit(self) -> None:
        with self.assertRaises(TimeLimitReached):
            Matroid.from_named("K6").isomorphism(Matroid.from_named("K6"), time_limit=0)


class Groups(unittest.TestCase):
    def test_orders(self) -> None:
        for name, order in AUTOMORPHISMS.items():
            with self.subTest(name=name):
                matroid = Matroid.from_named(name)
                group = matroid.automorphisms(time_limit=60)
                self.assertEqual(group.order, order)
                for generator in group.generators:
                    some = [list(matroid.elements)[:size] for size in range(len(matroid))]
                    self.assertTrue(all(matroid.rank(one) == matroid.rank(generator[it] for it in one) for one in some))
        self.assertEqual(len(Matroid.from_named("PG(3,2)").automorphisms().orbits), 1)
        self.assertEqual(sorted(map(len, Matroid.from_named("W5").automorphisms().orbits)), [5, 5])

    def test_brute_force(self) -> None:
        draw = random.Random(25)
        for number in range(40):
            matroid = drawn(draw, FIELDS[number % 2])
            if len(matroid) > 6:
                continue
            bases = set(matroid.bases())
            maps = (dict(zip(matroid.elements, image)) for image in itertools.permutations(matroid.elements))
            wanted = sum({frozenset(to[one] for one in basis) for basis in bases} == bases for to in maps)
            self.assertEqual(matroid.automorphisms().order, wanted, matroid.matrix.to_lists())


if __name__ == "__main__":
    unittest.main()
