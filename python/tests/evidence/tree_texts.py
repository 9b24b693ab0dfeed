"""Tree texts for the tests."""

from __future__ import annotations


def line_set(rows, columns):
    """The counts and lists of some rows and columns."""
    return " ".join(str(number) for number in (len(rows), len(columns), *rows, *columns))


def first_lines(rows, columns):
    """The counts and lists of the first rows and columns."""
    return line_set(range(1, rows + 1), range(1, columns + 1))


# This tree has each kind of node. It belongs to no matrix.
EACH_KIND = f"""\
cmr-tree 2
20 20
onesum {first_lines(20, 20)}
9
reduced 2 2 1 2 1 2
4 r1 c1 r2 c2
empty 0 0
conetwork 1 2 3 3 4
0 1 1 2 0 2
twosum 3 3 4 5 6 5 6 7
6 5 1 2 4 5 6
network 2 2 4 6 5 6
0 1 1 2 0 1 0 2
enumerated 2 2 5 6 5 7
delta {first_lines(9, 9)}
1 1 2 5 5 6 2 2 1 2 1 2
r10 {first_lines(5, 5)}
undecided {first_lines(6, 6)}
y {first_lines(9, 9)}
1 1 2 5 5 6 2 2 1 2 1 2
r10 {first_lines(5, 5)}
r10 {first_lines(5, 5)}
mixed {first_lines(9, 9)}
1 1 2 5 5 6 2 2 1 2 1 2
r10 {first_lines(5, 5)}
r10 {first_lines(5, 5)}
concentrated {first_lines(9, 9)}
1 1 2 5 5 6 2 2 1 2 1 2
r10 {first_lines(5, 5)}
r10 {first_lines(5, 5)}
cycle {first_lines(12, 12)}
{line_set([2, 3], [4, 5])}
violator 2 2 7 8 7 8
{line_set([7, 8], [7, 8])}
"""


OWN_PARTS = {
    "reduced": "1 c5",
    "twosum": f"1 1 {first_lines(2, 2)}\nr10 {first_lines(5, 5)}",
    "y": f"1 1 2 5 5 6 {first_lines(2, 2)}\nr10 {first_lines(5, 5)}",
}


def chain(*kinds):
    """A chain of reductions, and of sums with an R10 leaf, that ends with a network."""
    nodes = [f"{kind} {first_lines(5, 5)}\n{OWN_PARTS[kind]}\n" for kind in kinds]
    return f"cmr-tree 2\n1000 1000\n{''.join(nodes)}network 1 1 1 1\n0 1 0 1\n"
