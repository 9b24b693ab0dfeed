"""The binary matroids of examples/binary_matroids.py: how many there are, and how many have a Fano minor, apart from the program."""

from __future__ import annotations

import importlib.util
import itertools
import sys
import unittest
from collections.abc import Iterator
from typing import Any

from tests.support import TOP

Columns = tuple[tuple[int, ...], ...]

BINARY = (1, 2, 4, 8, 16, 32, 68, 148, 342)
"""Sequence A076766 of the OEIS."""
REGULAR = (1, 2, 4, 8, 16, 32, 68, 146, 332)


def example(name: str) -> Any:
    """An example as a module."""
    path = TOP / "examples" / f"{name}.py"
    spec = importlib.util.spec_from_file_location(name, path)
    assert spec is not None and spec.loader is not None
    module = importlib.util.module_from_spec(spec)
    sys.path.insert(0, str(path.parent))
    try:
        spec.loader.exec_module(module)
    finally:
        sys.path.remove(str(path.parent))
    return module


def circuits_of(columns: Columns, rows: int) -> frozenset[frozenset[int]]:
    """The least sets of elements that sum to zero: elements 0, 1, .. are the rows, and then come the columns."""
    vectors = [tuple(int(row == place) for place in range(rows)) for row in range(rows)] + list(columns)
    sums = [
        frozenset(chosen)
        for size in range(1, len(vectors) + 1)
        for chosen in itertools.combinations(range(len(vectors)), size)
        if not any(sum(vectors[element][row] for element in chosen) % 2 for row in range(rows))
    ]
    return least_of(sums)


def least_of(sets: list[frozenset[int]]) -> frozenset[frozenset[int]]:
    return frozenset(one for one in sets if not any(other < one for other in sets))


def minors(circuits: frozenset[frozenset[int]], elements: int) -> Iterator[frozenset[frozenset[int]]]:
    """The circuits once an element is deleted, and once it is contracted."""
    for element in range(elements):
        yield frozenset(one for one in circuits if element not in one)
        yield least_of([one - {element} for one in circuits if one != {element}])


def is_fano(circuits: frozenset[frozenset[int]]) -> bool:
    """Whether a binary matroid of seven elements is the Fano matroid or its dual, which the sizes of its circuits tell."""
    sizes = sorted(map(len, circuits))
    return sizes in ([3] * 7 + [4] * 7, [4] * 7)


class BinaryMatroids(unittest.TestCase):
    def test_numbers(self) -> None:
        representations = example("binary_matroids").representations
        for elements, (binary, regular) in enumerate(zip(BINARY, REGULAR)):
            found = [
                circuits_of(columns, rows)
                for rows in range(elements + 1)
                for columns in representations(rows, elements - rows)
            ]
            self.assertEqual(len(found), binary)
            without = [circuits for circuits in found if not self.has_fano(circuits, elements)]
            self.assertEqual(len(without), regular)

    def has_fano(self, circuits: frozenset[frozenset[int]], elements: int) -> bool:
        if elements < 7:
            return False
        return is_fano(circuits) if elements == 7 else any(map(is_fano, minors(circuits, elements)))

    def test_matrices_up_to_permuted_lines(self) -> None:
        """Sequence A002623 counts those with two rows, and A002727 those with three."""
        matrices = example("binary_matrices").matrices
        self.assertEqual([len(matrices(2, columns)) for columns in range(1, 7)], [3, 7, 13, 22, 34, 50])
        self.assertEqual([len(matrices(3, columns)) for columns in range(1, 5)], [4, 13, 36, 87])


if __name__ == "__main__":
    unittest.main()
