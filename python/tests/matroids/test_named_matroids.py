"""Matroids of the literature beside what it says of them: points and lines, signed graphs, a Steiner system, and theorems."""

from __future__ import annotations

import itertools
import unittest
from collections.abc import Iterable

from cmr_matrices import BadInput, Matroid, named
from tests.support import needs_module

Bases = set[frozenset[object]]

TRIANGLES = ("abd", "ace", "bcf", "def")
"""The triangles of the complete graph on four nodes with the edges a to f."""


def bases_without_lines(points: str, lines: Iterable[str]) -> Bases:
    """The triples of points that are on no line."""
    return {frozenset(three) for three in itertools.combinations(points, 3) if not any(set(three) <= set(line) for line in lines)}


def is_copy(matroid: Matroid, wanted: Bases) -> bool:
    """Whether some map of the elements, of all that there are, takes the bases to these."""
    found, points = list(matroid.bases()), sorted(frozenset().union(*wanted), key=str)
    if len(found) != len(wanted):
        return False
    maps = (dict(zip(matroid.elements, image)) for image in itertools.permutations(points))
    return any(all(frozenset(to[one] for one in basis) in wanted for basis in found) for to in maps)


def determinant(rows: list[tuple[int, ...]]) -> int:
    """The determinant of integers, by its expansion."""
    if not rows:
        return 1
    rest = [row[1:] for row in rows]
    return sum((-1) ** at * row[0] * determinant(rest[:at] + rest[at + 1 :]) for at, row in enumerate(rows) if row[0])


def signed_rank(edges: Iterable[tuple[int, int, int]], nodes: int) -> int:
    """The rank in the matroid of a signed graph: the nodes less the balanced components. A half-edge has twice the same end."""
    component = {node: (node, 1) for node in range(nodes)}
    balanced = dict.fromkeys(range(nodes), True)
    for one, two, sign in edges:
        (first, own), (second, other) = component[one], component[two]
        if first == second:
            balanced[first] &= one != two and own * other == sign
            continue
        for node, (root, at) in list(component.items()):
            if root == second:
                component[node] = first, at * other * own * sign
        balanced[first] &= balanced.pop(second)
    return nodes - sum(balanced.values())


class Geometries(unittest.TestCase):
    def test_planes_by_their_lines(self) -> None:
        self.assertTrue(is_copy(Matroid.from_named("R6"), bases_without_lines("abcdef", ["abc", "def"])))
        four_points = ("abdg", *TRIANGLES[1:])
        self.assertTrue(is_copy(Matroid.from_named("O7"), bases_without_lines("abcdefg", four_points)))
        self.assertFalse(is_copy(Matroid.from_named("O7"), bases_without_lines("abcdefg", [*four_points, "gcf"])))

    def test_the_two_sum_of_four_points(self) -> None:
        four = Matroid.from_named("U2,4")
        self.assertTrue(four.two_sum(four.relabelled("abcd"), "1", "a").is_isomorphic(Matroid.from_named("R6")))

    def test_the_real_cube(self) -> None:
        """Four vertices of a cube are a basis of R8 if they are in no plane."""
        corners = list(itertools.product((1,), (1, -1), (1, -1), (1, -1)))
        wanted: Bases = {frozenset(four) for four in itertools.combinations(corners, 4) if determinant(list(four))}
        self.assertEqual(len(wanted), 70 - 12)
        self.assertTrue(is_copy(Matroid.from_named("R8"), wanted))
        self.assertFalse(is_copy(Matroid.from_named("P8"), wanted))
        self.assertTrue(Matroid.from_named("R8").is_isomorphic(Matroid.from_named("R8*")))

    def test_dowling_geometries_by_signed_graphs(self) -> None:
        """e - f is a positive edge, e + f a negative one, and a joint a half-edge."""
        for rank in (2, 3, 4):
            matroid = Matroid.from_named(f"Q_{rank}(GF(3)^\\times)")
            edges = [(node, node, 1) for node in range(rank)]
            edges += [(*pair, sign) for pair in itertools.combinations(range(rank), 2) for sign in (-1, 1)]
            self.assertEqual(len(matroid), len(edges))
            of_element = dict(zip(matroid.elements, edges))
            for chosen in itertools.combinations(matroid.elements, rank):
                self.assertEqual(matroid.is_basis(chosen), signed_rank(map(of_element.__getitem__, chosen), rank) == rank, chosen)
        self.assertTrue(Matroid.from_named("Q2(GF(3)*)").is_isomorphic(Matroid.from_named("U2,4")))

    def test_planes_with_nine_points(self) -> None:
        """PG(2,3) without four points: a line, three points of a line and another, or four points of which no three are on a line."""
        plane, chosen = Matroid.from_named("PG(2,3)"), {}
        for four in itertools.combinations(plane.elements, 4):
            chosen[sum(plane.rank(three) == 2 for three in itertools.combinations(four, 3))] = four
        names = {4: "AG(2,3)", 1: "R9", 0: "Q3(GF(3)*)"}
        self.assertEqual(chosen.keys(), names.keys())
        for collinear, four in chosen.items():
            self.assertTrue(plane.delete(*four).is_isomorphic(Matroid.from_named(names[collinear])))

    def test_ternary_spikes_of_rank_3(self) -> None:
        """The ternary spikes of rank 3 with a tip are the non-Fano matroid and P7 (Oxley, *Matroid Theory*)."""
        kinds = []
        for factors in itertools.product((1, -1), repeat=3):
            rows = [[*((1 if one != two else -1 if factors[two] > 0 else 0) for two in range(3)), 1] for one in range(3)]
            spike = Matroid.of(rows, 3)
            kinds += [name for name in ("F7-", "P7") if spike.is_isomorphic(Matroid.from_named(name))]
        self.assertEqual((len(kinds), set(kinds)), (8, {"F7-", "P7"}))

    def test_lines(self) -> None:
        """The geometries of dimension 1: AG(1,2) has two points, and AG(1,3) three, so it is binary."""
        for name, size in [("AG(1,2)", 2), ("AG(1,3)", 3), ("PG(1,2)", 3), ("PG(1,3)", 4)]:
            line = Matroid.from_named(name)
            self.assertEqual((line.rank(), len(line), line.field), (2, size, 3 if size == 4 else 2))
            self.assertEqual(len(list(line.bases())), size * (size - 1) // 2)


class Codes(unittest.TestCase):
    def test_the_steiner_system(self) -> None:
        """The circuits of S(5,6,12) with six elements are blocks: each five elements are in one of them, and it is unique."""
        matroid = Matroid.from_named("S(5,6,12)")
        blocks = [six for six in itertools.combinations(matroid.elements, 6) if not matroid.is_independent(six)]
        fives = [five for block in blocks for five in itertools.combinations(block, 5)]
        self.assertEqual((len(blocks), len(fives), len(set(fives))), (132, 792, 792))
        self.assertTrue(all(map(matroid.is_circuit, blocks)))
        smaller = matroid.minor(delete=["1", "2"], contract=["11", "12"])
        self.assertTrue(smaller.is_isomorphic(Matroid.from_named("P8")))

    @needs_module("networkx")
    def test_t12_has_the_petersen_graph(self) -> None:
        """The edges of the Petersen graph are the circuits of T12 with four elements, and adjacent if these have two in common."""
        import networkx

        matroid = Matroid.from_named("T_{12}")
        fours = [frozenset(four) for four in itertools.combinations(matroid.elements, 4) if matroid.is_circuit(four)]
        graph = networkx.Graph([pair for pair in itertools.combinations(fours, 2) if len(pair[0] & pair[1]) == 2])
        self.assertTrue(networkx.is_isomorphic(graph, networkx.line_graph(networkx.petersen_graph())))
        self.assertTrue(matroid.is_isomorphic(matroid.dual()))
        self.assertEqual(len(matroid.automorphisms().orbits), 1)

    def test_j_by_the_theorem_on_minors_without_k4(self) -> None:
        """J is the only 3-connected ternary matroid without M(K4) that is neither a whirl nor a minor of S(5,6,12) (Oxley 1987).

        Its rank and corank are at least 3. All minors of S(5,6,12) with rank 4 and eight elements are P8, since its group moves each five
        elements to each other five.
        """
        matroid = Matroid.from_named("J")
        self.assertTrue(matroid.is_3connected())
        for name in ("J", "S(5,6,12)", "W^5"):
            self.assertFalse(Matroid.from_named(name).has_minor(Matroid.from_named("K4")), name)
        self.assertFalse(matroid.is_isomorphic(Matroid.from_named("W^4")))
        self.assertFalse(matroid.is_isomorphic(Matroid.from_named("P8")))
        self.assertTrue(matroid.is_isomorphic(matroid.dual()))
        self.assertEqual(Matroid.from_named("S(5,6,12)").automorphisms().order, 12 * 11 * 10 * 9 * 8)


class Regular(unittest.TestCase):
    def test_r10_by_vectors_with_three_ones(self) -> None:
        vectors = [vector for vector in itertools.product((0, 1), repeat=5) if sum(vector) == 3]
        self.assertTrue(Matroid.from_representation([list(row) for row in zip(*vectors)]).is_isomorphic(Matroid.from_named("R10")))

    def test_r12_is_a_sum(self) -> None:
        """R12 is the 3-sum of M(K5 - e) and M*(K3,3) along the triangle of the nodes that e does not have (Seymour 1980)."""
        triangle = ["1-2", "1-3", "2-3"]
        one, two = Matroid.from_named("K5").delete("4-5"), Matroid.from_named("M*(K3,3)")
        two = two.relabelled(dict(zip(["a1-b1", "a1-b2", "a1-b3"], triangle)))
        self.assertTrue(one.three_sum(two, triangle).is_isomorphic(Matroid.from_named("R12")))

    @needs_module("networkx")
    def test_graphs(self) -> None:
        import networkx

        graphs = {f"W{spokes}": networkx.wheel_graph(spokes + 1) for spokes in (3, 4, 7)}
        graphs |= {f"K{nodes}": networkx.complete_graph(nodes) for nodes in (2, 5, 6)}
        graphs |= {f"K{one},{two}": networkx.complete_bipartite_graph(one, two) for one, two in ((1, 4), (3, 3), (2, 5))}
        for name, graph in graphs.items():
            self.assertTrue(Matroid.from_graph(graph).is_isomorphic(Matroid.from_named(name)), name)


class Uniform(unittest.TestCase):
    def test_bases(self) -> None:
        for rank, size in [(0, 0), (0, 3), (3, 3), (1, 4), (3, 4), (2, 3), (2, 4)]:
            for field in (2, 3)[(rank, size) == (2, 4) :]:
                matroid = Matroid.from_named(f"U_{{{rank},{size}}}", field)  # type: ignore[arg-type]
                self.assertEqual(set(matroid.bases()), set(map(frozenset, itertools.combinations(matroid.elements, rank))))
        for name, piece in [
            ("U2,5", "U2,5 is neither binary nor ternary"),
            ("U4,3", "its rank is at most the number of its elements"),
            ("U0,1001", "at most 1000 rows and 1000 columns"),
            ("Q1(GF(3)*)", "two joints or more"),
            ("Q40(GF(3)*)", "at most 1000 other elements"),
        ]:
            with self.assertRaisesRegex(BadInput, piece):
                named(name)


class Spellings(unittest.TestCase):
    def test_spellings_of_latex_and_sage(self) -> None:
        for name, spellings in {
            "R6": ["R_6", "matroids.catalog.R6()"],
            "S(5,6,12)": ["$S(5, 6, 12)$", "ExtendedTernaryGolayCode"],
            "Q3(GF(3)*)": ["Q_3(GF(3)^*)", "Q_{3}(\\mathrm{GF}(3)^\\times)", "TernaryDowling3"],
            "Q4(GF(3)*)*": ["Q_4(GF(3)^\\times)^*"],
            "F7-*": ["\\left(F_7^-\\right)^*", "NonFanoDual", "matroids.named_matroids.NonFanoDual()"],
            "M*(K3,3)": ["K_{3,3}^{\\ast}", "K33dual"],
            "U2,4": ["matroids.Uniform(2, 4)", "U(2,4)"],
            "U1,3": ["Uniform(1,3)", "U_{1,3}", "U2,3*"],
            "W^4": ["Whirl4", "matroids.Whirl(4)"],
            "W4": ["Wheel4"],
            "AG(2,3)": ["AG23"],
            "PG(2,3)": ["PG23", "matroids.PG(2,3)"],
            "AG(3,2)": ["AG32"],
            "Z5": ["matroids.Z(5)"],
        }.items():
            for spelling in spellings:
                self.assertTrue(Matroid.from_named(spelling).is_isomorphic(Matroid.from_named(name)), spelling)


if __name__ == "__main__":
    unittest.main()
