"""Seymour's decomposition as matroids, minors of small matroids, and evidence that names the matrix to which it belongs."""

from __future__ import annotations

import pickle
import random
import unittest
from dataclasses import replace
from itertools import combinations

from cmr_matrices import BadInput, Matroid, Refused, check, is_regular, named, parts
from cmr_matrices.questions.matroid_trees import Decomposition
from cmr_matrices.questions.minor_values import FoundMinor
from tests.support import needs_module, needs_program


@needs_program
class Decompositions(unittest.TestCase):
    def holds(self, found: Decomposition) -> None:
        """Each leaf is what it says, and each sum has its separation and, of a 2-sum, is the 2-sum of its parts."""
        for _, one in found.walk():
            if one.kind == "2-sum":
                (first,), (second,) = one.shared
                sides = one.parts[0].matroid.relabelled({first: "p"}), one.parts[1].matroid.relabelled({second: "q"})
                made, draw = sides[0].two_sum(sides[1], "p", "q"), random.Random(6)
                for _ in range(100):
                    some = draw.sample(made.elements, draw.randint(0, len(made)))
                    self.assertEqual(made.rank(some), one.matroid.rank(some))
            if one.shared:
                side = set(one.parts[0].matroid.elements) - set(one.shared[0])
                self.assertEqual(one.matroid.connectivity(side), 1 if one.kind == "2-sum" else 2)
                self.assertEqual(side, set(one.matroid.elements) - set(one.parts[1].matroid.elements) | set(one.shared[1]))
            if one.kind in ("direct sum", "2-sum", "3-sum"):
                self.is_sum(one)
            if one.kind == "3-sum":
                for at, part in enumerate(one.parts):
                    is_triad = one.shared_as(at) == "triad"
                    self.assertTrue((part.matroid.dual() if is_triad else part.matroid).is_circuit(one.shared[at]))
            if not one.parts:
                self.assertIn(one.kind, ("graphic", "cographic", "R10", "empty"))
                if one.kind == "R10":
                    self.assertTrue(one.matroid.is_isomorphic(Matroid.from_named("R10")))
                elif one.kind != "empty":
                    self.assertTrue(getattr(one.matroid, f"is_{one.kind}")())
                    assert one.graph is not None and one.graph.names is not None
                    self.assertEqual({*one.graph.names.rows, *one.graph.names.columns}, set(map(str, one.matroid.elements)))
                    self.has_graph(one)

    def is_sum(self, one: Decomposition) -> None:
        """The summands have the ranks of the matroid when they are summed, and are the parts up to the names of shared elements."""
        shared = [("shared", at) for at in range(3)]
        first, *others = one.summands(shared)
        for other in others:
            if one.kind == "3-sum":
                first = first.three_sum(other, shared)
            else:
                first = first.two_sum(other, shared[0], shared[0]) if one.kind == "2-sum" else first.direct_sum(other)
        draw = random.Random(7)
        for _ in range(60):
            some = draw.sample(first.elements, draw.randint(0, len(first)))
            self.assertEqual(first.rank(some), one.matroid.rank(some))
        self.assertEqual(set(first.elements), set(one.matroid.elements))
        for at, summand in enumerate(one.summands(shared)):
            if one.kind == "3-sum" and one.shared_as(at) == "triangle" and len(summand) < 16:
                self.assertTrue(summand.is_isomorphic(one.parts[at].matroid))

    @needs_module("networkx")
    def has_graph(self, leaf: Decomposition) -> None:
        """The edges of the graph have the ranks of the elements, of a cographic leaf in the dual matroid."""
        import networkx

        made = networkx.MultiGraph()
        for element, ends in leaf.edges.items():
            made.add_edge(*ends, name=element)
        matroid = leaf.matroid if leaf.kind == "graphic" else leaf.matroid.dual()
        cycles, draw = Matroid.from_graph(made), random.Random(8)
        for _ in range(60):
            some = draw.sample(matroid.elements, draw.randint(0, len(matroid)))
            self.assertEqual(matroid.rank(some), cycles.rank(some))

    def test_known_matroids(self) -> None:
        for name, kinds in [
            ("R10", ["R10"]),
            ("R12", ["graphic", "graphic"]),
            ("K5", ["graphic"]),
            ("K3,3*", ["cographic"]),
            ("Petersen*", ["cographic"]),
        ]:
            for field in (2, 3):
                found = Matroid.from_named(name, field).decomposition()  # type: ignore[arg-type]
                self.assertEqual([leaf.kind for leaf in found.leaves()], kinds)
                self.assertEqual(found.matroid, Matroid.from_named(name, field))  # type: ignore[arg-type]
                self.holds(found)

    def test_sums(self) -> None:
        k5 = Matroid.from_named("K5").relabelled(range(10))
        dual = Matroid.from_named("K3,3*").relabelled([f"d{at}" for at in range(9)])
        whole = k5.two_sum(Matroid.from_named("R10"), 0, "1").two_sum(dual, 1, "d1")
        whole = whole.direct_sum(Matroid.of([[1, 1, 0]], row_names=["u"], column_names=["v", "w", "x"]))
        found = whole.decomposition()
        self.holds(found)
        self.assertEqual(sorted(leaf.kind for leaf in found.leaves()), ["R10", "cographic", "graphic"])
        self.assertIn("without", str(found))
        self.assertEqual(set(found.matroid.elements), set(whole.elements))

    def test_random_sums_of_known_matroids(self) -> None:
        """2-sums and 3-sums at random, of which none is left without a kind."""
        draw, threes = random.Random(5), 0
        for _ in range(8):
            names = [draw.choice(("K5", "K5*", "K3,3*", "R10", "R12", "W5", "V8", "K6", "Petersen*")) for _ in range(3)]
            made = [Matroid.from_named(name) for name in names]
            whole, *others = (it.relabelled([(at, e) for e in it.elements]) for at, it in enumerate(made))
            for other in others:
                triangles = [[three for three in combinations(it.elements, 3) if it.is_circuit(three)] for it in (whole, other)]
                own, its = (next(iter(draw.sample(found, len(found))), None) for found in triangles)
                try:
                    assert own is not None and its is not None
                    whole = whole.three_sum(other.relabelled(dict(zip(its, own))), own)
                    threes += 1
                except (AssertionError, BadInput):
                    whole = whole.two_sum(other, draw.choice(whole.elements), draw.choice(other.elements))
            self.holds(whole.decomposition())
        self.assertGreater(threes, 4)

    def test_no_leaf_is_enumerated(self) -> None:
        """Without pivots and with a budget, the program searches through row sets, and does not say what the part is."""
        goods = Matroid.from_named("K5").relabelled([f"k{at}" for at in range(10)])
        other = Matroid.from_named("K5*").relabelled([f"d{at}" for at in range(10)])
        three = next(circuit for circuit in other.circuits() if len(circuit) == 4)
        whole = goods.two_sum(other, "k0", sorted(map(str, three))[0])
        self.holds(whole.decomposition())
        with self.assertRaisesRegex(BadInput, "not regular, and only a regular matroid has a decomposition"):
            Matroid.from_named("F7").decomposition()


class Minors(unittest.TestCase):
    def test_minors_of_small_matroids(self) -> None:
        for whole, minor, wanted in [
            ("R10", "M*(K3,3)", True),
            ("R10", "K4", True),
            ("R10", "U2,4", False),
            ("AG(3,2)", "F7", True),
            ("S8", "F7*", True),
            ("W^4", "U2,4", True),
            ("W^4", "W3", False),
            ("V8", "K3,3", True),
            ("K4", "K5", False),
        ]:
            one, two = Matroid.from_named(whole), Matroid.from_named(minor)
            found = one.find_minor(two, time_limit=60)
            self.assertEqual((found is not None, one.has_minor(two)), (wanted, wanted), (whole, minor))
            if found is not None:
                self.shows(one, two, found)

    def shows(self, one: Matroid, two: Matroid, found: FoundMinor) -> None:
        """The evidence has the type of excluded minors: the bases are compared after its pivots, and by the minor with its elements."""
        self.assertTrue(found.verify(one))
        left = one.minor(delete=found.deleted_elements, contract=found.contracted_elements)
        to = found.element_map
        self.assertEqual((set(to), set(to.values())), (set(left.elements), set(two.elements)))
        self.assertEqual({frozenset(to[one] for one in basis) for basis in left.bases()}, set(two.bases()))
        if two.field == one.field == 2:
            self.assertEqual(found.displayed(one), two.matrix)
        self.assertIn("minor of rank", str(found))
        self.assertIn("minor of rank", found._repr_html_())
        self.assertRegex(found.fault(Matroid(one.matrix.support(), 5 - one.field)) or "", "is one of a matroid over GF")  # type: ignore
        self.assertRegex(replace(found, rows=found.rows[1:]).fault(one) or "", "has another rank, or another number of elements")

    def test_a_wrong_minor_is_refused(self) -> None:
        whole, wanted = Matroid.from_named("R10"), Matroid.from_named("M*(K3,3)")
        found = whole.find_minor(wanted)
        assert found is not None
        self.assertEqual((found.deleted_elements, len(found.contracted_elements)), ((), 1))
        for wrong, piece in [
            (replace(found, matroid=Matroid.from_named("M(K3,3)").pivot("a1-b1", "a2-b2").dual()), "what is left is not"),
            (replace(found, matroid=Matroid.from_named("K5")), "has another rank"),
            (replace(found, columns=found.columns[::-1]), "what is left is not"),
            (replace(found, rows=found.rows[:1] * 4), "a row is given twice"),
            (replace(found, shape=(4, 6)), "the minor is one of a matrix of shape .4, 6."),
        ]:
            self.assertRegex(wrong.fault(whole) or "", piece)
            self.assertFalse(wrong.verify(whole))

    def test_brute_force(self) -> None:
        """Over all ways to delete and contract, also for a matroid that is given over the other field."""
        draw, found = random.Random(52), 0
        for number in range(120):
            whole = self.drawn(draw, 2 + number % 2, draw.randint(2, 4), draw.randint(2, 4))
            wanted = self.drawn(draw, draw.choice((2, 3)), draw.randint(1, whole.rank()), draw.randint(1, whole.corank()))
            minor = whole.find_minor(wanted)
            self.assertEqual(minor is not None, self.is_minor(whole, wanted), (whole.matrix.to_lists(), wanted.matrix.to_lists()))
            if minor is not None:
                found += 1
                self.shows(whole, wanted, minor)
        self.assertIn(found, range(30, 100))

    def drawn(self, draw: random.Random, field: int, height: int, width: int) -> Matroid:
        entries = (0, 1, 1) if field == 2 else (0, 1, -1)
        rows = [[draw.choice(entries) for _ in range(width)] for _ in range(height)]
        return Matroid.of(rows, field)  # type: ignore[arg-type]

    def is_minor(self, whole: Matroid, wanted: Matroid) -> bool:
        """Whether some minor with as many elements is isomorphic."""
        for gone in combinations(whole.elements, len(whole) - len(wanted)):
            for contracted in combinations(gone, whole.rank() - wanted.rank()):
                if whole.minor(delete=set(gone) - set(contracted), contract=contracted).is_isomorphic(wanted):
                    return True
        return False

    def test_minors_of_larger_matroids(self) -> None:
        for whole, minor, wanted in [
            ("Petersen", "K5", True),
            ("Petersen", "octahedron", False),
            ("K6", "W4", True),
            ("PG(3,2)", "F7*", True),
            ("PG(3,2)", "R10", False),
            ("T12", "M*(K5)", True),
            ("K4,4", "R10", False),
        ]:
            one, two = Matroid.from_named(whole), Matroid.from_named(minor)
            found = one.find_minor(two, time_limit=60)
            self.assertEqual((found is not None, found is None or found.verify(one)), (wanted, True), (whole, minor))

    def test_random_minors_are_found(self) -> None:
        draw = random.Random(51)
        for field in (2, 3):
            for _ in range(12):
                rows = [[draw.choice((0, 1, 1 if field == 2 else -1)) for _ in range(4)] for _ in range(4)]
                whole = Matroid.of(rows, field)  # type: ignore[arg-type]
                gone = draw.sample(whole.elements, 3)
                smaller = whole.minor(delete=gone[:1], contract=gone[1:]).relabelled([("minor", at) for at in range(5)])
                found = whole.find_minor(smaller)
                assert found is not None
                self.shows(whole, smaller, found)


@needs_program
class SignedEvidence(unittest.TestCase):
    def test_a_tree_of_regular_belongs_to_the_signed_matrix(self) -> None:
        answer = is_regular(named("R12"), certificate=True)
        assert answer.tree is not None and answer.signed is not None
        self.assertEqual(answer.tree.signed, answer.signed)
        self.assertEqual(pickle.loads(pickle.dumps(answer.tree)).signed, answer.signed)
        refused = check(named("R12"), answer.tree)
        self.assertFalse(refused)
        for piece in ("belongs to the signed matrix", "give `tree.signed`"):
            self.assertIn(piece, refused.hint or "")
            self.assertIn(piece, str(refused))
        self.assertTrue(check(answer.tree.signed, answer.tree))
        self.assertIsNone(check(answer.signed, answer.tree).hint)
        self.assertTrue(check(named("R12"), answer))
        with self.assertRaisesRegex(Refused, "belongs to the signed matrix"):
            parts(named("R12"), answer.tree)
        self.assertEqual(parts(answer.signed, answer.tree).kind, "concentrated")
        self.assertEqual(len(list(answer.tree.submatrices())), 3)
        self.assertIn("the tree of the signed matrix", answer.tree._repr_html_())

    def test_a_violator_of_regular_does_too(self) -> None:
        answer = is_regular(named("F7"), certificate=True)
        assert answer.violator is not None and answer.signed is not None
        self.assertIn("the violator belongs to the signed matrix", check(named("F7"), answer.violator).hint or "")
        self.assertEqual(check(answer.signed, answer.violator).says, "no")
        self.assertIn("violator of the signed matrix rows", str(answer))
        self.assertIn("violator of the signed matrix, ", answer._repr_html_())


if __name__ == "__main__":
    unittest.main()
