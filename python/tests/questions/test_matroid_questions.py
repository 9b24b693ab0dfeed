"""Questions about matroids, sums of matroids, their labels and their names."""

from __future__ import annotations

import itertools
import random
import unittest
from collections import Counter

import cmr_matrices as cmr
from cmr_matrices import BadInput, Matrix, Matroid, check, excluded_minor, named
from tests.questions.test_represented import bases
from tests.support import FANO, needs_module, needs_program

TREES = {"regular": cmr.is_regular, "graphic": cmr.is_graphic, "cographic": cmr.is_cographic}
KNOWN = {
    "R10": "yes no no",
    "K5": "yes yes no",
    "K3,3*": "yes no yes",
    "W4": "yes yes yes",
    "R12": "yes no no",
}
NOT_REGULAR = ("F7", "F7*", "AG(3,2)", "T8", "U2,4", "W^4", "F7-", "P7", "R9*", "AG(2,3)")


class Theorem(unittest.TestCase):
    def test_regular_over_three_elements(self) -> None:
        """A matrix is totally unimodular if and only if its matroid over GF(3) has the bases of its support over GF(2).

        The bases are found by brute force. A matroid with a matrix over both fields is regular (Tutte 1958), and then the binary one by the
        same basis is the support. Pivots and signs of lines keep the answer.
        """
        draw, yes = random.Random(32), 0
        for _ in range(300):
            shape = draw.randint(2, 4), draw.randint(2, 4)
            rows = [[draw.choice((0, 1, -1, 1)) for _ in range(shape[1])] for _ in range(shape[0])]
            wanted = is_totally_unimodular(rows)
            yes += wanted
            matroid = Matroid.of(rows, 3)
            self.assertEqual(bases(matroid) == bases(Matroid.of(matroid.matrix.support())), wanted, rows)
            for _ in range(3 if matroid.matrix.nonzeros else 0):
                row, column, _ = draw.choice(matroid.matrix.nonzeros)
                matroid = matroid.pivot(matroid.basis[row], matroid.others[column])
                self.assertEqual(is_totally_unimodular(matroid.matrix.to_lists()), wanted)
                signs = draw.choices((1, -1), k=shape[0])
                signed = [[entry * sign for entry in line] for line, sign in zip(matroid.matrix.to_lists(), signs)]
                self.assertEqual(is_totally_unimodular(signed), wanted)
        self.assertIn(yes, range(60, 240))


def is_totally_unimodular(rows: list[list[int]]) -> bool:
    """Whether each square submatrix has determinant -1, 0 or 1: by all of them."""
    height, width = len(rows), len(rows[0])
    return all(
        Matrix.of([[rows[row][column] for column in columns] for row in chosen]).determinant() in (-1, 0, 1)
        for size in range(1, min(height, width) + 1)
        for chosen in itertools.combinations(range(height), size)
        for columns in itertools.combinations(range(width), size)
    )


@needs_program
class Questions(unittest.TestCase):
    def test_a_matroid_is_asked_over_its_field(self) -> None:
        """T8 over GF(3) and AG(3,2) over GF(2) have one matrix, and the first of a whirl is that of no wheel."""
        for name, said in KNOWN.items():
            for field in (2, 3):
                matroid = Matroid.from_named(name, field)  # type: ignore[arg-type]
                answers = [ask(matroid, certificate=True) for ask in TREES.values()]
                self.assertEqual(" ".join(answer.verdict for answer in answers), said, (name, field))
                self.assertEqual([answer.of_matroid for answer in answers], list(TREES))
                for answer in answers:
                    self.assertTrue(check(matroid, answer))
                    self.assertEqual(answer.property_name in TREES, field == 2)
        for name in NOT_REGULAR:
            matroid = Matroid.from_named(name)
            self.assertFalse(any((matroid.is_regular(), matroid.is_graphic(), matroid.is_cographic(), matroid.is_series_parallel())))
        self.assertTrue(Matroid.of([[1, 1], [1, 0]]).is_series_parallel())
        signed = [[1, 1, 0], [0, 1, 1], [1, 0, 1]]
        self.assertEqual([Matroid.of(signed, field).is_regular().verdict for field in (2, 3)], ["yes", "no"])

    def test_all_names_of_a_question_ask_the_same(self) -> None:
        binary, ternary = Matroid.from_named("K5"), Matroid.from_named("K5", 3)
        for one, two in (("regular", "totally_unimodular"), ("graphic", "network"), ("cographic", "conetwork")):
            for matroid in (binary, ternary):
                answers = [getattr(cmr, f"is_{name}")(matroid, certificate=True) for name in (one, two)]
                self.assertEqual(*answers)
        self.assertIn("graphic (network over GF(3)): yes", str(ternary.is_graphic()))
        self.assertIn("graphic: yes", str(binary.is_graphic()))
        for ask in (cmr.is_balanced, cmr.has_no_cycle_fault):
            with self.assertRaisesRegex(BadInput, "its matroid does not determine; ask about `matroid.matrix`"):
                ask(binary)  # type: ignore[arg-type]

    def test_evidence_on_another_matroid_is_refused(self) -> None:
        """Over GF(2) this matrix represents a graphic matroid, and over GF(3) a whirl, with a violator of the same matrix."""
        rows = [[1, 1, 0], [0, 1, 1], [1, 0, 1]]
        wheel, whirl = Matroid.of(rows), Matroid.of(rows, 3)
        for ask in TREES.values():
            for one, other in ((wheel, whirl), (whirl, wheel)):
                answer = ask(one, certificate=True)
                self.assertTrue(check(one, answer))
                self.assertRegex(check(other, answer).rule or "", "the answer is for the other field: of this matroid .* is asked")
        violator = whirl.is_regular().violator
        assert violator is not None
        for evidence in (violator, violator.to_text()):
            self.assertEqual([check(given, evidence).accepted for given in (whirl, rows, wheel)], [True, True, False])
        self.assertIn("may be regular", check(wheel, violator).rule or "")
        with self.assertRaisesRegex(BadInput, "its matroid does not determine"):
            check(wheel, cmr.is_balanced(rows))

    @needs_module("networkx")
    def test_graphs_have_edges_by_elements(self) -> None:
        """Also if two labels have one text. The graph has the bases of the matroid, or of its dual."""
        import networkx

        for name, ask, is_dual in (("W4", cmr.is_graphic, False), ("K5", cmr.is_graphic, False), ("K3,3*", cmr.is_cographic, True)):
            for field in (2, 3):
                matroid = Matroid.from_named(name, field)  # type: ignore[arg-type]
                half = len(matroid) // 2
                matroid = matroid.relabelled([*range(half), *map(str, range(len(matroid) - half))])
                edges = ask(matroid, certificate=True).edges
                graph = networkx.MultiGraph()
                for element, ends in edges.items():
                    graph.add_edge(*ends, name=element)
                self.assertEqual(set(edges), set(matroid.elements))
                self.assertEqual(set(Matroid.from_graph(graph).bases()), set((matroid.dual() if is_dual else matroid).bases()))
        self.assertEqual(cmr.is_graphic(named("K4"), certificate=True).edges, {})
        self.assertEqual(Matroid.from_named("K4").is_graphic().edges, {})

    def test_evidence_has_the_names_of_elements(self) -> None:
        wheel = Matroid.from_named("W4").relabelled(range(1, 9))
        graph = wheel.is_graphic(certificate=True).graph
        assert graph is not None and graph.names is not None
        self.assertEqual(sorted(graph.names.rows + graph.names.columns), list("12345678"))
        minor = Matroid.from_named("K5").relabelled(range(10)).excluded_minor("cographic")
        assert minor is not None
        self.assertEqual((minor.name, set(minor.element_map)), ("M(K5)", set(range(10))))

    def test_excluded_minors(self) -> None:
        draw = random.Random(31)
        for field in (2, 3):
            for _ in range(25):
                rows = [[draw.choice((0, 1, 1 if field == 2 else -1)) for _ in range(6)] for _ in range(5)]
                matroid = Matroid.of(rows, field, row_names=range(5), column_names=range(5, 11))  # type: ignore[arg-type]
                for of in ("regular", "graphic", "cographic", "series-parallel"):
                    minor = matroid.excluded_minor(of)
                    self.assertEqual(minor, excluded_minor(matroid, {"graphic": "network"}.get(of, of)))
                    if minor is not None:
                        self.assertTrue(minor.verify(matroid))
                        left = matroid.minor(delete=minor.deleted_elements, contract=minor.contracted_elements)
                        self.assertEqual(set(left.elements), set(minor.element_map))
                        self.assertTrue(left.is_isomorphic(minor.matroid))
        minor = Matroid.from_named("T8").excluded_minor("regular")
        assert minor is not None
        self.assertEqual(minor.name, "U2,4")
        self.assertRegex(minor.fault(Matroid.from_named("AG(3,2)")) or "", "over GF.3., and here it is over GF.2.")
        self.assertFalse(minor.verify(Matroid.from_named("AG(3,2)")))


class Labels(unittest.TestCase):
    def test_labels_stay_what_they_are(self) -> None:
        plane = Matroid.of(FANO, row_names=[1, 2, 3], column_names=[4, 5, 6, ("a", 7)])
        self.assertEqual(plane.elements, (1, 2, 3, 4, 5, 6, ("a", 7)))
        self.assertEqual(set(plane.delete(1).contract(("a", 7)).elements), {2, 3, 4, 5, 6})
        for minor in (plane.delete(1), plane.contract(4), plane.dual(), plane.simplify(), plane.pivot(1, 4), plane.cosimplify()):
            self.assertLessEqual(set(minor.elements), set(plane.elements))
        self.assertEqual(Matroid.from_sage(plane.to_sage()), plane)
        self.assertIn("groundset=[1, 2, 3, 4, 5, 6, ('a', 7)]", plane.to_sage())
        self.assertEqual(Matroid.from_representation([[1, 0, 1], [0, 1, 1]], elements=range(3)).circuits(), {frozenset(range(3))})
        self.assertNotEqual(plane, Matroid.of(FANO, row_names="123", column_names="4567"))
        self.assertEqual(plane.relabelled({1: "x"}).elements[:2], ("x", 2))

    @needs_module("numpy")
    def test_numbers_of_numpy(self) -> None:
        import numpy

        matroid = Matroid.from_representation([[1, 1]], elements=numpy.arange(2))
        self.assertEqual(matroid.to_sage(), "Matroid(groundset=[0, 1], matrix=Matrix(GF(2), [[1, 1]]))")

    def test_a_wrong_label_says_which_there_are(self) -> None:
        plane = Matroid.of(FANO, row_names=[1, 2, 3], column_names=[4, 5, 6, 7])
        for wrong, piece in [
            (lambda: plane.delete("1"), "there is no element '1'; there is 1 of type int"),
            (lambda: plane.contract(8), "there is no element 8; the elements are 1, 2, 3, 4, 5, 6, 7"),
            (lambda: plane.pivot(9, 4), "there is no element 9"),
            (lambda: plane.pivot(3, 4), "there is no pivot at 3 and 4"),
            (lambda: Matroid.from_named("K9").delete("x"), "and 16 more"),
            (lambda: Matroid.of([]).delete("x"), "the matroid has no elements"),
            (lambda: plane.relabelled([1]), "there are 1 labels, and 7 elements"),
            (lambda: Matroid(plane.matrix, 2, (1, 2)), "there are 2 labels, and 7 elements"),
            (lambda: Matrix.of(plane), "an object of type Matroid is none; its `matrix` is one"),  # type: ignore[arg-type]
            (lambda: plane.relabelled([[]] * 7), "a label is a text, a number or another value that can be a key"),
        ]:
            with self.assertRaisesRegex(BadInput, piece):
                wrong()


class Sums(unittest.TestCase):
    def pair(self, draw: random.Random, field: int) -> list[Matroid]:
        entries = (0, 1, 1) if field == 2 else (0, 1, -1)
        rows = [[[draw.choice(entries) for _ in range(3)] for _ in range(3)] for _ in "12"]
        return [
            Matroid.of(one, field, row_names=[f"{at}{x}" for x in "abc"], column_names=[f"{at}{x}" for x in "def"])  # type: ignore
            for at, one in enumerate(rows)
        ]

    def test_direct_and_two_sums(self) -> None:
        """By their circuits (Oxley, chapters 4 and 7)."""
        draw, made = random.Random(41), 0
        for number in range(60):
            one, two = self.pair(draw, 2 + number % 2)
            self.assertEqual(one.direct_sum(two).circuits(), one.circuits() | two.circuits())
            at, other = draw.choice(one.elements), draw.choice(two.elements)
            if {at, other} & (one.loops() | two.loops() | one.coloops() | two.coloops()):
                with self.assertRaisesRegex(BadInput, "neither loops nor coloops"):
                    one.two_sum(two, at, other)
                continue
            made += 1
            pairs = ((one, at), (two, other))
            sets = [[{circuit for circuit in it.circuits() if (e in circuit) == inside} for inside in (0, 1)] for it, e in pairs]
            through = {(first - {at}) | (second - {other}) for first, second in itertools.product(sets[0][1], sets[1][1])}
            self.assertEqual(one.two_sum(two, at, other).circuits(), sets[0][0] | sets[1][0] | through)
        self.assertGreater(made, 20)

    def test_three_sums(self) -> None:
        """By their cycles, which are the sums of cycles that agree on the triangle (Seymour 1980)."""
        names = [("K5", {}), ("F7", {"1": "1-2", "2": "1-3", "4": "2-3"}), ("R12*", {}), ("W5", {})]
        made = 0
        for (first, _), (second, _) in itertools.product(names, repeat=2):
            one, two = Matroid.from_named(first), Matroid.from_named(second)
            triangles = [sorted(min((c for c in it.circuits() if len(c) == 3), key=sorted, default=())) for it in (one, two)]
            if not all(triangles):
                continue
            one = one.relabelled({e: ("one", e) for e in one.elements}).relabelled({("one", e): t for e, t in zip(triangles[0], "pqr")})
            two = two.relabelled({e: ("two", e) for e in two.elements}).relabelled({("two", e): t for e, t in zip(triangles[1], "pqr")})
            found = one.three_sum(two, list("pqr"))
            made += 1
            cycles = [self.cycles(it) for it in (one, two)]
            shared = frozenset("pqr")
            sums = {a ^ b for a, b in itertools.product(*cycles) if not (a ^ b) & shared}
            self.assertEqual(self.cycles(found), sums)
            self.assertEqual(found.connectivity([e for e in found.elements if isinstance(e, tuple) and e[0] == "one"]), 2)
        self.assertGreater(made, 3)

    @needs_program
    def test_compose_is_the_matrix_form(self) -> None:
        draw = random.Random(43)

        def drawn(height: int, width: int) -> list[list[int]]:
            return [[draw.randrange(2) for _ in range(width)] for _ in range(height)]

        made = Counter[str]()
        for _ in range(20):
            first, second = drawn(3, 4), drawn(4, 3)
            names = ("abc", "defp"), ("qrst", "uvw")
            one, two = (Matroid.of(rows, row_names=own[0], column_names=own[1]) for rows, own in zip((first, second), names))
            if any(row[-1] for row in first) and any(second[0]):
                made["two"] += 1
                whole = Matroid.of(cmr.compose("two", first, second), row_names="abcrst", column_names="defuvw")
                self.assertEqual(whole.circuits(), one.two_sum(two, "p", "q").circuits())
            # The last row and two columns of the first matrix, and the first ones of the second matrix, as docs/DEFINITIONS.md has them.
            a, b, c, d = drawn(3, 1), drawn(1, 3), drawn(1, 3), drawn(3, 1)
            first = [*([*row, x, x] for row, (x,) in zip(drawn(3, 3), a)), [*c[0], 0, 1]]
            second = [[1, 0, *b[0]], *([x, x, *row] for row, (x,) in zip(drawn(3, 3), d))]
            one = Matroid.of(first, row_names="abcz", column_names="defxy")
            two = Matroid.of(second, row_names="xrst", column_names="yzuvw")
            try:
                found = one.three_sum(two, ["x", "y", "z"])
            except BadInput:
                continue
            made["delta"] += 1
            whole = Matroid.of(cmr.compose("delta", first, second), row_names="abcrst", column_names="defuvw")
            self.assertEqual(whole.circuits(), found.circuits())
        self.assertGreater(min(made["two"], made["delta"]), 8, made)

    def test_summands(self) -> None:
        """Their sum has the bases of the whole, and labels stay, for all separations of random matroids with eight or nine elements."""
        draw, made = random.Random(42), Counter[int]()
        for number in range(24):
            field = 2 + number % 2
            rows = [[draw.choice((0, 0, 1) if field == 2 else (0, 1, -1)) for _ in range(4 + (number % 4 == 0))] for _ in range(4)]
            names = range(4), [("c", column) for column in range(len(rows[0]))]
            whole = Matroid.of(rows, field, row_names=names[0], column_names=names[1])  # type: ignore[arg-type]
            for side in draw.sample([x for size in (2, 4) for x in itertools.combinations(whole.elements, size)], 30):
                between = whole.connectivity(side)
                if between > 2 or between == 2 and (field == 3 or len(side) < 4):
                    with self.assertRaises(BadInput):
                        whole.summands(side)
                    continue
                made[between] += 1
                one, two = whole.summands(side)
                sums = (one.direct_sum, lambda it: one.two_sum(it, "p", "p"), lambda it: one.three_sum(it, list("pqr")))
                self.assertEqual(set(sums[between](two).bases()), set(whole.bases()))
                self.assertEqual(set(one.elements) - set("pqr"), set(side))
        self.assertGreater(min(made[0], made[1], made[2]), 2, made)

    def test_summands_of_known_sums(self) -> None:
        k5, plane = Matroid.from_named("K5"), Matroid.from_named("F7").relabelled({"1": "1-2", "2": "1-3", "4": "2-3"})
        triangle = ["1-2", "1-3", "2-3"]
        one, two = k5.three_sum(plane, triangle).summands([e for e in k5.elements if e not in triangle], triangle)
        self.assertEqual((one.is_isomorphic(k5), two.is_isomorphic(plane)), (True, True))
        self.assertEqual((one.is_circuit(triangle), two.is_circuit(triangle)), (True, True))
        for wrong, piece in [
            (lambda: k5.summands(["1-2", "1-3"]), "each side of a 3-sum has 4 elements or more"),
            (lambda: k5.summands(["1-2"]), "each side of a 2-sum has 2 elements or more"),
            (lambda: k5.summands([]), "each side of a 1-sum has 1 elements or more"),
            (lambda: k5.summands(["1-2", "3-4", "1-5", "2-4"]), "are no separation of order 1, 2, or over GF.2. 3"),
            (lambda: k5.summands(["x"]), "there is no element 'x'"),
            (lambda: one.summands(one.elements[:1]), "each side of a 2-sum"),
            (lambda: Matroid.of([[1, 1, 1]]).summands(["r0", "c0"], ["c1"]), "have the elements {c1}"),
            (lambda: Matroid.of([[1, 1, 1]]).summands(["r0", "c0"], []), "1 elements in common, and here are 0 names"),
        ]:
            with self.assertRaisesRegex(BadInput, piece):
                wrong()

    def cycles(self, matroid: Matroid) -> set[frozenset[object]]:
        """The disjoint unions of circuits of a binary matroid: the sums of fundamental circuits."""
        found: set[frozenset[object]] = {frozenset()}
        rows = matroid.matrix.to_lists()
        for column, other in enumerate(matroid.others):
            circuit = frozenset([other, *(e for e, row in zip(matroid.basis, rows) if row[column])])
            found |= {one ^ circuit for one in found}
        return found

    def test_what_is_refused(self) -> None:
        k5, plane = Matroid.from_named("K5"), Matroid.from_named("F7")
        for wrong, piece in [
            (lambda: k5.direct_sum(k5), "both matroids of a sum have the elements {1-2, 1-3"),
            (lambda: k5.direct_sum(Matroid.from_named("P8")), "over GF.2. and GF.3."),
            (lambda: k5.two_sum(plane, "x", "1"), "there is no element 'x'"),
            (lambda: k5.three_sum(plane, ["1-2", "1-3", "2-3"]), "there is no element '1-2'"),
            (lambda: k5.three_sum(plane.relabelled({"1": "1-2", "2": "1-3", "3": "2-3"}), ["1-2", "1-3", "2-3"]), "is no circuit"),
            (lambda: Matroid.from_named("P8").three_sum(Matroid.from_named("T8"), list("123")), "two binary matroids"),
        ]:
            with self.assertRaisesRegex(BadInput, piece):
                wrong()


@needs_module("networkx")
class Graphs(unittest.TestCase):
    def test_labels_of_edges(self) -> None:
        import networkx

        graphs = {"Petersen": networkx.petersen_graph(), "K5": networkx.complete_graph(5), "cube": networkx.cubical_graph()}
        for name, graph in graphs.items():
            for field in (2, 3):
                matroid = Matroid.from_graph(graph, field)  # type: ignore[arg-type]
                self.assertEqual(set(matroid.elements), set(graph.edges()))
                self.assertTrue(matroid.is_isomorphic(Matroid.from_named(name, field)))  # type: ignore[arg-type]
        graph = networkx.MultiDiGraph([(1, 2, {"name": 5}), (1, 2, {"label": "x"}), (2, 2), (3, 4)])
        matroid = Matroid.from_graph(graph)
        self.assertEqual(set(matroid.elements), {5, "x", (2, 2, 0), (3, 4, 0)})
        self.assertEqual((matroid.loops(), matroid.coloops()), ({(2, 2, 0)}, {(3, 4, 0)}))
        self.assertTrue(matroid.is_circuit([5, "x"]))
        twice = networkx.Graph([(1, 2, {"name": "a"}), (2, 3, {"name": "a"})])
        self.assertEqual(set(Matroid.from_graph(twice).elements), {(1, 2), (2, 3)})
        with self.assertRaisesRegex(BadInput, "a graph of networkx is taken"):
            Matroid.from_graph([(1, 2)])


class Names(unittest.TestCase):
    def test_spellings(self) -> None:
        for name, spellings in {
            "F7*": ["F_7^*", "Fano*", "$F_{7}^{*}$", "PG(2,2)*"],
            "F7-": ["F_7^-", "NonFano", "(F_7^-)"],
            "F7-*": ["(F_7^-)^*"],
            "M*(K3,3)": ["M^*(K_{3,3})", "K33dual", "K3,3*", "M(K_{3,3})^*"],
            "W^3": ["\\mathcal{W}^3", "W^{3}", "Whirl(3)", "$\\mathcal{W}^{3}$"],
            "W4": ["M(W_4)", "M(\\mathcal{W}_4)", "Wheel(4)"],
            "U2,4": ["U_{2,4}", "U24", "W^2", "Uniform(2,4)"],
            "K5": ["CompleteGraphic(5)", "M(K_5)"],
            "Z4": ["Z(4)", "Z_4"],
            "AG(2,3)": ["AG(2, 3)"],
        }.items():
            for spelling in spellings:
                self.assertEqual(Matroid.from_named(spelling), Matroid.from_named(name), spelling)

    def test_geometries(self) -> None:
        """The lines of each geometry: of a projective one each two points are on one line, of an affine one over GF(3) too."""
        for name, rank, points, threes in [
            ("PG(3,2)", 4, 15, 35),
            ("PG(2,3)", 3, 13, 13 * 4),
            ("AG(2,3)", 3, 9, 12),
            ("AG(3,3)", 4, 27, 117),
            ("AG(4,2)", 5, 16, 0),
        ]:
            matroid = Matroid.from_named(name)
            self.assertEqual((matroid.rank(), len(matroid)), (rank, points))
            triples = itertools.combinations(matroid.elements, 3)
            self.assertEqual(sum(matroid.is_circuit(three) for three in triples), threes, name)
        self.assertTrue(Matroid.from_named("PG(2,2)").is_isomorphic(Matroid.from_named("F7")))
        self.assertTrue(Matroid.from_named("AG(2,3)").contract("1").simplify().is_isomorphic(Matroid.from_named("U2,4")))

    def test_whirls(self) -> None:
        """A whirl is the wheel in which the rim is no circuit, but a basis (Oxley, section 8.4)."""
        for rank in (3, 4, 5):
            whirl = Matroid.from_named(f"W^{rank}")
            wheel = Matroid.of(whirl.matrix.support(), row_names=whirl.basis, column_names=whirl.others)
            self.assertTrue(wheel.is_isomorphic(Matroid.from_named(f"W{rank}")))
            rim = frozenset(whirl.others)
            self.assertEqual(set(whirl.bases()) - set(wheel.bases()), {rim})
            self.assertTrue(whirl.is_isomorphic(whirl.dual()))

    def test_non_fano_and_p7(self) -> None:
        plane, other, fano = (Matroid.from_named(name) for name in ("F7-", "P7", "F7"))
        lines = [frozenset(c for c in it.circuits() if len(c) == 3) for it in (plane, other, fano)]
        self.assertEqual(list(map(len, lines)), [6, 5, 7])
        self.assertEqual(len(lines[2] - lines[0]), 1)
        self.assertFalse(plane.is_isomorphic(other))
        spike = Matroid.of([[-1, 1, 1, 1], [1, -1, 1, 1], [1, 1, 0, 1]], 3)
        self.assertTrue(spike.is_isomorphic(other))

    @needs_module("networkx")
    def test_graphs(self) -> None:
        import networkx

        prism = networkx.circular_ladder_graph(3)
        for name, graph in [("prism", prism), ("cube", networkx.cubical_graph()), ("octahedron", networkx.octahedral_graph())]:
            made = networkx.Graph([str(element).split("-") for element in Matroid.from_named(name).elements])
            self.assertTrue(networkx.is_isomorphic(made, graph))
        self.assertEqual(Matrix.of(Matroid.from_named("M(prism)").matrix), Matroid.from_named("prism").matrix)


if __name__ == "__main__":
    unittest.main()
