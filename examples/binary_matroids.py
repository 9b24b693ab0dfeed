#!/usr/bin/python3
"""Writes a standard representation of each binary matroid with ELEMENTS elements, up to isomorphism, one dense text after another.

    examples/binary_matroids.py ELEMENTS

With the identity next to it, a matrix A of R rows and C columns represents a binary matroid of rank R with R + C elements. Two matrices of
one size represent isomorphic matroids if permutations of lines and pivots transform one into the other. The script writes the least matrix
of each class; if R is above C, it is the transpose of the matrix of the dual matroid.
"""

import itertools
import sys

sys.dont_write_bytecode = True

from binary_matrices import dense, least, matrices  # noqa: E402


def canonical(columns):
    """The least increasing list of columns over all permutations of the rows."""
    return min(least(columns, order) for order in itertools.permutations(range(len(columns[0]) if columns else 0)))


def pivots(columns):
    """The results of all pivots at ones, over the field with two elements."""
    for place, pivot in enumerate(columns):
        for row, one in enumerate(pivot):
            if one:
                yield tuple(
                    column
                    if other == place or not column[row]
                    else tuple(entry ^ (pivot[at] if at != row else 0) for at, entry in enumerate(column))
                    for other, column in enumerate(columns)
                )


def representations(rows, columns):
    """The least matrix of each class under permuting lines and pivots."""
    if rows > columns:
        return [tuple(zip(*found)) if columns else () for found in representations(columns, rows)]
    if rows == 0:
        return [((),) * columns]
    found, seen = [], set()
    for matrix in matrices(rows, columns):
        if matrix not in seen:
            found.append(matrix)
            seen.add(matrix)
            waiting = [matrix]
            while waiting:
                for other in map(canonical, pivots(waiting.pop())):
                    if other not in seen:
                        seen.add(other)
                        waiting.append(other)
    return found


def main():
    elements = int(sys.argv[1])
    for rows in range(elements + 1):
        for found in representations(rows, elements - rows):
            sys.stdout.write(dense(rows, found))


if __name__ == "__main__":
    main()
