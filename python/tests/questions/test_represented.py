"""Matroids over GF(2) and GF(3): their operations, beside bases that are found by brute force."""

from __future__ import annotations

import itertools
import random
import unittest
from collections import Counter
from typing import Literal

from cmr_matrices import BadInput, Matrix, Matroid, named
from tests import matroid_bases
from tests.matroid_bases import Bases, minor_bases
from tests.support import FANO, needs_module

FIELDS: tuple[Literal[2, 3], ...] = (2, 3)


def bases(matroid: Matroid) -> Bases:
    """All bases of a matroid."""
    return minor_bases(matroid.matrix.to_lists(), matroid.field, [], dict(enumerate(matroid.elements)))


def circuits(found: Bases, elements: tuple[str, ...]) -> Bases:
    """The least sets that are in no basis."""
    sets = [frozenset(chosen) for size in range(len(elements) + 1) for chosen in itertools.combinations(elements, size)]
    least: Bases = set()
    for one in sets:
        if not any(one <= basis for basis in found) and not any(other <= one for other in least):
            least.add(one)
    return least


def drawn(draw: random.Random, field: Literal[2, 3]) -> Matroid:
    height, width = draw.randint(0, 4), draw.randint(0, 4)
    rows = [[draw.choice((0, 1, -1 if field == 3 else 1)) for _ in range(width)] for _ in range(height)]
    return Matroid.of(rows, field)


class Operations(unittest.TestCase):
    def test_random_matroids(self) -> None:
        draw = random.Random(3)
        for number in range(200):
            matroid = drawn(draw, FIELDS[number % 2])
            found = bases(matroid)
            with self.subTest(number=number, matrix=matroid.matrix.to_lists(), field=matroid.field):
                self.assertEqual(matroid.circuits(), circuits(found, matroid.elements))
                whole = frozenset(matroid.elements)
                self.assertEqual(bases(matroid.dual()), {whole - basis for basis in found})
                self.assertEqual(matroid.dual().dual(), matroid)
                self.minors(draw, matroid)
                self.pivots(matroid, found)

    def minors(self, draw: random.Random, matroid: Matroid) -> None:
        uses = {element: draw.choice(("keep", "keep", "delete", "contract")) for element in matroid.elements}
        deleted, contracted = ([one for one in uses if uses[one] == use] for use in ("delete", "contract"))
        minor = matroid.minor(delete=deleted, contract=contracted)
        names = {place: one for place, one in enumerate(matroid.elements) if uses[one] == "keep"}
        gone = [matroid.elements.index(one) for one in contracted]
        self.assertEqual(bases(minor), minor_bases(matroid.matrix.to_lists(), matroid.field, gone, names))
        self.assertEqual(set(minor.elements), set(names.values()))
        self.assertTrue(minor.is_isomorphic(matroid.contract(*contracted).delete(*deleted)))
        self.assertTrue(minor.dual().is_isomorphic(matroid.dual().minor(delete=contracted, contract=deleted)))

    def pivots(self, matroid: Matroid, found: Bases) -> None:
        for row, column, _ in matroid.matrix.nonzeros:
            pivoted = matroid.pivot(matroid.basis[row], matroid.elements[matroid.rank() + column])
            self.assertEqual(bases(pivoted), found)
            self.assertEqual(pivoted.basis[row], matroid.elements[matroid.rank() + column])

    def test_simplifying(self) -> None:
        matroid = Matroid.of([[1, 1, 0, 0, 1], [1, 1, 0, 1, 1]], row_names="ab", column_names="cdefg")
        self.assertEqual(matroid.simplify().elements, ("a", "b", "c"))
        self.assertEqual(Matroid.of([[1, -1], [1, -1]], 3).simplify().elements, ("r0", "r1", "c0"))
        self.assertEqual(matroid.dual().cosimplify().elements, ("c", "a", "b"))

    def test_what_is_refused(self) -> None:
        fano = Matroid.of(FANO)
        for wrong, piece in [
            (lambda: fano.delete("x"), "there is no element 'x'; the elements are 'r0', 'r1'"),
            (lambda: fano.minor(delete=["r0"], contract=["r0"]), "deleted and contracted"),
            (lambda: fano.pivot("r0", "c2"), "where the entry is 0"),
            (lambda: fano.pivot("c0", "r0"), "an element of the basis and another"),
            (lambda: Matroid.of([[-1]]), "none of 0 and 1"),
            (lambda: Matroid.of(FANO, row_names="aba"), "two elements have one name"),
            (lambda: Matroid(named("K8")).circuits(), "too many for a list"),
            (lambda: Matroid.from_named("X9"), "no name that is known"),
        ]:
            with self.assertRaisesRegex(BadInput, piece):
                wrong()


class Named(unittest.TestCase):
    """Matroids of the literature, by what it says of them. Their bases are found by brute force."""

    def small_circuits(self, name: str) -> dict[int, int]:
        """How many circuits of each size below the rank there are, and at it."""
        matroid = Matroid.from_named(name)
        sizes = Counter(map(len, circuits(bases(matroid), matroid.elements)))
        return {size: count for size, count in sorted(sizes.items()) if size <= matroid.rank()}

    def test_circuits(self) -> None:
        for name, wanted in [
            ("U2,4", {}),
            ("F7", {3: 7}),
            ("AG(3,2)", {4: 14}),
            ("S8", {3: 3, 4: 7}),
            ("P8", {4: 10}),
            ("T8", {4: 11}),
            ("R9", {3: 15}),
            ("Z4", {3: 4, 4: 14}),
        ]:
            with self.subTest(name=name):
                self.assertEqual(self.small_circuits(name), wanted)
                dual = Matroid.from_named(name).dual()
                self.assertTrue(Matroid.from_named(f"{name}*").is_isomorphic(dual))
                self.assertEqual(Matroid.from_named(name).is_isomorphic(dual), name in ("U2,4", "AG(3,2)", "S8", "P8", "T8"))

    def test_lines_of_the_ternary_reid_geometry(self) -> None:
        """R9 is PG(2,3) without three points of a line and a point beside it: two lines have four points, and seven have three."""
        matroid = Matroid.from_named("R9")
        found = bases(matroid)
        lines = {
            frozenset(pair).union(*({one} for one in matroid.elements if not frozenset((*pair, one)) in found))
            for pair in itertools.combinations(matroid.elements, 2)
        }
        self.assertEqual(Counter(map(len, lines)), {4: 2, 3: 7, 2: 3})

    def test_circuit_hyperplanes(self) -> None:
        """P8 has one pair of disjoint circuits of four elements, and each single-element deletion of AG(3,2) is the dual of F7."""
        matroid = Matroid.from_named("P8")
        fours = [circuit for circuit in circuits(bases(matroid), matroid.elements) if len(circuit) == 4]
        self.assertEqual(sum(not one & two for one, two in itertools.combinations(fours, 2)), 1)
        cube = Matroid.from_named("AG(3,2)")
        for element in cube.elements:
            self.assertTrue(cube.contract(element).is_isomorphic(Matroid.from_named("F7")))
            self.assertTrue(cube.delete(element).is_isomorphic(Matroid.from_named("F7*")))

    def test_spikes(self) -> None:
        """The spike of rank 4 without its tip is AG(3,2), and without another element S8; that of rank 3 is F7."""
        spike = Matroid.from_named("Z4")
        self.assertTrue(spike.delete("t").is_isomorphic(Matroid.from_named("AG(3,2)")))
        for element in spike.elements:
            if element != "t":
                self.assertTrue(spike.delete(element).is_isomorphic(Matroid.from_named("S8")))
        self.assertTrue(Matroid.from_named("Z3").is_isomorphic(Matroid.from_named("F7")))
        self.assertEqual(Matroid.from_named("PG(2,2)"), Matroid.from_named("F7"))

    @needs_module("networkx")
    def test_graphs(self) -> None:
        import networkx

        for name, graph in [("Petersen", networkx.petersen_graph()), ("V8", networkx.circulant_graph(8, [1, 4]))]:
            made = networkx.Graph([element.split("-") for element in Matroid.from_named(name).elements])
            self.assertTrue(networkx.is_isomorphic(made, graph))

    def test_both_fields(self) -> None:
        """A regular matroid has the same bases over both fields, and one that is not binary, or not ternary, has a matrix over one."""
        for name in ("R10", "R12", "K5", "K3,3*", "W4"):
            self.assertEqual(bases(Matroid.from_named(name, 3)), bases(Matroid.from_named(name)))
        self.assertEqual([Matroid.from_named(name).field for name in ("U2,4", "T8", "R9", "P8", "S8")], [3, 3, 3, 3, 2])
        for name, field, piece in [
            ("U2,4", 2, "U2,4 is not binary, so no 0/1 matrix represents it"),
            ("T8*", 2, "T8. is not binary"),
            ("F7", 3, "F7 is binary and not regular"),
            ("Z4", 3, "Z4 is binary and not regular"),
            ("K5", 4, "the field has 2 or 3 elements, and here it is 4"),
        ]:
            with self.assertRaisesRegex(BadInput, piece):
                named(name, field)  # type: ignore[arg-type]

    def test_representations(self) -> None:
        """Any matrix with a column for each element: its bases are the sets of columns that are."""
        draw = random.Random(4)
        for number in range(100):
            field = FIELDS[number % 2]
            height, width = draw.randint(0, 4), draw.randint(0, 6)
            rows = [[draw.choice((0, 1, -1)) for _ in range(width)] for _ in range(height)]
            taken = Matrix.of(rows) if rows else Matrix((0, width), ())
            matroid = Matroid.from_representation(taken, field, elements=range(width))
            rank = matroid_bases.rank(rows, field) if rows else 0
            sets = itertools.combinations(range(width), rank)
            wanted = {
                frozenset(chosen)
                for chosen in sets
                if matroid_bases.rank([[row[at] for at in chosen] for row in rows], field) == rank
            }
            with self.subTest(number=number, rows=rows, field=field):
                self.assertEqual(bases(matroid), wanted)
                self.assertEqual(Matroid.from_sage(matroid.to_sage()), matroid)
        with self.assertRaisesRegex(BadInput, "there are 1 elements, and 2 columns"):
            Matroid.from_representation([[1, 1]], elements="a")


class Isomorphisms(unittest.TestCase):
    def test_the_excluded_minors(self) -> None:
        for name, wanted in matroid_bases.EXCLUDED.items():
            self.assertEqual(bases(Matroid.from_named(name)), wanted)
        for one, two in itertools.product(matroid_bases.EXCLUDED, repeat=2):
            self.assertEqual(Matroid.from_named(one).is_isomorphic(Matroid.from_named(two)), one == two)

    def test_a_map_takes_bases_to_bases(self) -> None:
        draw = random.Random(5)
        for name in ("F7*", "M(K5)", "M*(K3,3)", "R10", "W4", "U2,4"):
            matroid = Matroid.from_named(name)
            other = matroid
            for _ in range(6):
                row, column, _ = draw.choice(other.matrix.nonzeros)
                other = other.pivot(other.basis[row], other.elements[other.rank() + column])
            shuffled = draw.sample(other.elements, len(other.elements))
            names = {element: f"e{place}" for place, element in enumerate(shuffled)}
            renamed = Matroid.of(
                other.matrix,
                other.field,
                row_names=[names[one] for one in other.basis],
                column_names=[names[one] for one in other.elements[other.rank() :]],
            )
            found = matroid.isomorphism(renamed)
            assert found is not None
            self.assertEqual({frozenset(found[one] for one in basis) for basis in bases(matroid)}, bases(renamed))

    def test_matroids_that_differ(self) -> None:
        for one, two in [("R10", "K5"), ("W4", "K2,4"), ("F7", "K4")]:
            self.assertFalse(Matroid.from_named(one).is_isomorphic(Matroid.from_named(two)))
        self.assertTrue(Matroid.from_named("R10").is_isomorphic(Matroid.from_named("R10*")))
        self.assertTrue(Matroid.from_named("K4").is_isomorphic(Matroid.from_named("W3")))
        self.assertTrue(Matroid.from_named("F7").delete("7").is_isomorphic(Matroid.from_named("K4")))
        self.assertTrue(Matroid.of([[1, 1], [1, 1]], 3).is_isomorphic(Matroid.of([[1, 1], [1, 1]])))

    def test_sage(self) -> None:
        self.assertEqual(
            Matroid.from_named("U2,4").to_sage(),
            "Matroid(groundset=['1', '2', '3', '4'], matrix=Matrix(GF(3), [[1, 0, 1, 1], [0, 1, 1, 2]]))",
        )
        self.assertEqual(Matroid.of([]).to_sage(), "Matroid(groundset=[], matrix=Matrix(GF(2), 0, 0))")
        text = "Matroid(groundset=['a', 1, 2], matrix=Matrix(GF(3), [[2, 1, 0], [1, 2, 0]]))"
        self.assertEqual(Matroid.from_sage(text).circuits(), {frozenset(("a", 1)), frozenset((2,))})
        for wrong, piece in [
            ("Matroid([1])", "it is not `Matroid"),
            (text.replace("GF(3)", "GF(4)"), "it is not `Matroid"),
            (text.replace("2, 0", "5, 0"), "the entry 5 is none of"),
            (text.replace("'a', 1, 2", "'a'"), "there are 1 elements, and 3 columns"),
            (text.replace("'a', 1, 2", "1, 1, 2"), "two elements have one name"),
            (text.replace("[2, 1, 0]", "f(1)"), "no matroid: "),
        ]:
            with self.assertRaisesRegex(BadInput, piece):
                Matroid.from_sage(wrong)


if __name__ == "__main__":
    unittest.main()
