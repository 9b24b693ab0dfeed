#!/usr/bin/python3
"""Writes the 0/1 matrices of a size up to permuting rows and columns, one dense text after another.

    examples/binary_matrices.py ROWS COLUMNS
"""

import itertools
import sys


def least(columns, order):
    """The columns after a permutation of the rows, each a tuple of its entries, in increasing order."""
    return tuple(sorted(tuple(column[row] for row in order) for column in columns))


def is_least(columns):
    """Whether no permutation of the rows gives a lesser increasing list of columns."""
    return all(
        least(columns, order) >= columns for order in itertools.permutations(range(len(columns[0]) if columns else 0))
    )


def matrices(rows, columns):
    """One matrix of each class, as the increasing list of its columns."""
    words = itertools.product((0, 1), repeat=rows)
    return [found for found in itertools.combinations_with_replacement(words, columns) if is_least(found)]


def dense(rows, columns):
    """The dense text."""
    lines = [" ".join(str(column[row]) for column in columns) for row in range(rows)]
    return "\n".join([f"{rows} {len(columns)}", *lines]) + "\n"


def main():
    rows, columns = map(int, sys.argv[1:])
    sys.stdout.writelines(dense(rows, found) for found in matrices(rows, columns))


if __name__ == "__main__":
    main()
