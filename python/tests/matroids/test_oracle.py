"""The rank function of matroids and their separations, beside bases that are found by brute force."""

from __future__ import annotations

import itertools
import random
import unittest
from collections.abc import Iterable

from cmr_matrices import BadInput, Matroid
from tests.questions.test_represented import FIELDS, bases, circuits, drawn
from tests.support import FANO, needs_module

Sets = set[frozenset[str]]


def subsets(elements: Iterable[str]) -> list[frozenset[str]]:
    listed = list(elements)
    return [frozenset(chosen) for size in range(len(listed) + 1) for chosen in itertools.combinations(listed, size)]


class Ranks(unittest.TestCase):
    def test_random_matroids(self) -> None:
        draw = random.Random(7)
        for number in range(60):
            matroid = drawn(draw, FIELDS[number % 2])
            with self.subTest(number=number, matrix=matroid.matrix.to_lists(), field=matroid.field):
                self.fits(matroid, bases(matroid))

    def fits(self, matroid: Matroid, found: Sets) -> None:
        whole = frozenset(matroid.elements)
        ranks = {one: max((len(one & basis) for basis in found), default=0) for one in subsets(matroid.elements)}
        self.assertEqual(set(matroid.bases()), found)
        self.assertEqual(len(list(matroid.bases())), len(found))
        dual = {whole - basis for basis in found}
        for one in draw_some(ranks):
            self.assertEqual(matroid.rank(one), ranks[one])
            self.assertEqual(matroid.corank(one), max((len(one & basis) for basis in dual), default=0))
            self.assertEqual(matroid.closure(one), {e for e in whole if ranks[one | {e}] == ranks[one]})
            self.assertEqual(matroid.connectivity(one), ranks[one] + ranks[whole - one] - ranks[whole])
            self.assertEqual(matroid.is_independent(one), ranks[one] == len(one))
            self.assertEqual(matroid.is_basis(one), one in found)
        flats = {one for one in ranks if all(ranks[one | {e}] > ranks[one] for e in whole - one)}
        for rank in range(matroid.rank() + 1):
            self.assertEqual(matroid.flats(rank), {one for one in flats if ranks[one] == rank})
        self.assertEqual(matroid.flats(matroid.rank() + 1), frozenset())
        self.assertEqual(matroid.cocircuits(), circuits(dual, tuple(matroid.elements)))
        self.assertEqual(matroid.hyperplanes(), {one for one in flats if ranks[one] == matroid.rank() - 1})
        self.assertEqual(matroid.loops(), {e for e in whole if not ranks[frozenset((e,))]})
        self.assertEqual(matroid.coloops(), {e for e in whole if all(e in basis for basis in found)})
        for circuit in matroid.circuits():
            self.assertTrue(matroid.is_circuit(circuit))
        self.separates(matroid, ranks)

    def separates(self, matroid: Matroid, ranks: dict[frozenset[str], int]) -> None:
        whole = frozenset(matroid.elements)
        lambdas = {one: ranks[one] + ranks[whole - one] - ranks[whole] for one in ranks}
        ones = {one for one in lambdas if not lambdas[one] and 0 < len(one) < len(whole)}
        twos = {one for one in lambdas if lambdas[one] == 1 and 2 <= len(one) <= len(whole) - 2}
        self.assertEqual(matroid.is_connected(), not ones)
        self.assertEqual(matroid.is_3connected(), not ones and not twos)
        found = matroid.separation()
        if found is not None:
            self.assertIn(found[0], ones or twos)
            self.assertEqual(found[1], whole - found[0])
        for part in matroid.components():
            self.assertFalse(lambdas[part])
            self.assertFalse(any(one < part for one in ones))

    def test_sizes_and_labels(self) -> None:
        """Two-separations of matroids with up to nine elements, most of which are connected."""
        draw, separated = random.Random(9), 0
        for number in range(80):
            field = FIELDS[number % 2]
            rows = [[draw.choice((0, 1, 1, -1 if field == 3 else 1)) for _ in range(4)] for _ in range(4)]
            matroid = Matroid.of(rows, field, row_names=range(4), column_names=range(4, 8))
            whole = frozenset(range(8))
            sets = [frozenset(chosen) for size in (1, 2, 3, 4) for chosen in itertools.combinations(range(8), size)]
            lambdas = {one: matroid.connectivity(one) for one in sets}
            is_separated = any(value < min(2, len(one)) for one, value in lambdas.items())
            self.assertEqual(matroid.is_3connected(), not is_separated, rows)
            found = matroid.separation()
            if found is not None:
                separated += 1
                self.assertLess(matroid.connectivity(found[0]), min(2, *map(len, found)))
                self.assertEqual(found[0] | found[1], whole)
        self.assertIn(separated, range(10, 70))

    def test_known_matroids(self) -> None:
        for name in ("F7", "R10", "R12", "K5", "K3,3*", "W6", "V8", "Petersen", "AG(3,2)", "Z5"):
            self.assertTrue(Matroid.from_named(name).is_3connected(), name)
        self.assertFalse(Matroid.from_named("K2,4").is_3connected())
        large = Matroid.from_named("K12")
        self.assertTrue(large.is_3connected())
        self.assertEqual(large.connectivity([f"1-{node}" for node in range(2, 13)]), 10)

    def test_tutte_polynomials(self) -> None:
        """By the ranks of all sets, of the dual matroid, and as the literature has them."""
        draw = random.Random(10)
        for number in range(40):
            matroid = drawn(draw, FIELDS[number % 2])
            found, terms = bases(matroid), matroid.tutte_polynomial()
            ranks = {one: max(len(one & basis) for basis in found) for one in subsets(matroid.elements)}
            for x, y in ((1, 1), (2, 1), (2, 2), (3, 5), (-2, 7)):
                value = sum(number * x**i * y**j for (i, j), number in terms.items())
                self.assertEqual(value, sum((x - 1) ** (matroid.rank() - at) * (y - 1) ** (len(one) - at) for one, at in ranks.items()))
            self.assertEqual(matroid.dual().tutte_polynomial(), {(j, i): number for (i, j), number in terms.items()})
        for name, wanted in [
            ("U2,4", {(2, 0): 1, (1, 0): 2, (0, 1): 2, (0, 2): 1}),
            ("F7", {(3, 0): 1, (2, 0): 4, (1, 0): 3, (1, 1): 7, (0, 1): 3, (0, 2): 6, (0, 3): 3, (0, 4): 1}),
            ("U0,0", {(0, 0): 1}),
            ("U0,2", {(0, 2): 1}),
            ("U2,2", {(2, 0): 1}),
        ]:
            self.assertEqual(Matroid.from_named(name).tutte_polynomial(), wanted)
        # A complete graph on n nodes has n^(n - 2) spanning trees, and n! acyclic orientations.
        terms = Matroid.from_named("K7").tutte_polynomial()
        self.assertEqual((sum(terms.values()), sum(number * 2**i for (i, j), number in terms.items() if not j)), (7**5, 5040))
        with self.assertRaisesRegex(BadInput, "more than 20000 flats"):
            Matroid.from_named("K12").tutte_polynomial()

    @needs_module("networkx")
    @needs_module("sympy")
    def test_tutte_polynomials_of_graphs(self) -> None:
        import networkx
        import sympy

        for graph in (networkx.complete_graph(5), networkx.circular_ladder_graph(3), networkx.complete_bipartite_graph(3, 3)):
            wanted = sympy.Poly(networkx.tutte_polynomial(graph), *sympy.symbols("x y")).as_dict()
            self.assertEqual(Matroid.from_graph(graph).tutte_polynomial(), wanted)

    def test_what_is_refused(self) -> None:
        matroid = Matroid.of(FANO, row_names=(1, 2, 3), column_names=(4, 5, 6, 7))
        self.assertEqual(matroid.rank([1, 2, 4]), 2)
        for wrong, piece in [
            (lambda: matroid.rank(["1"]), "no element '1'; there is 1 of type int"),
            (lambda: matroid.closure([9]), "no element 9; the elements are 1, 2, 3, 4, 5, 6, 7"),
            (lambda: matroid.rank("12"), "elements is a list of elements"),
            (lambda: Matroid.from_named("K24").flats(4), "more than 20000 flats"),
        ]:
            with self.assertRaisesRegex(BadInput, piece):
                wrong()


def draw_some(ranks: dict[frozenset[str], int]) -> list[frozenset[str]]:
    """Up to 40 of the sets."""
    return random.Random(8).sample(sorted(ranks, key=sorted), min(40, len(ranks)))


if __name__ == "__main__":
    unittest.main()
