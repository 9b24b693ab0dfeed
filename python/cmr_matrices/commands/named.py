"""Writes the matrix of a matroid of the literature as a dense text for cmr: R10, R12, F7, K5, K3,3, W4, .., and with * their duals.

K with one number is a complete graph, K with two numbers a complete bipartite graph, W with a number of spokes a wheel, Z with a rank a
binary spike with its tip, and U with a rank and a size a uniform matroid. Other names are PG(3,2) and AG(3,2) of any dimension, S8, T12,
V8, Petersen, prism, cube and octahedron. The matrix A represents the matroid by [I A] over GF(2), and the transposed matrix represents the
dual.

With --ternary the representation is over GF(3), with entries -1, 0 and 1. U2,4, R6, O7, P7, F7-, J, P8, R8, T8, R9, S(5,6,12), W^3 and all
whirls, Q3(GF(3)*) and all ternary Dowling geometries, and AG(2,3) and all larger geometries over GF(3) are not binary, so they need
--ternary.
"""

from __future__ import annotations

import argparse

from ..matrices.lines import Names
from ..matroids.named_matroids import named
from .command import command_parser, end, write_text


def arguments() -> argparse.Namespace:
    """The arguments of the command line."""
    parser = command_parser(__doc__)
    parser.add_argument("name", metavar="NAME", help="for example R10, 'F7*', K5 or 'K3,3*'")
    parser.add_argument("--ternary", action="store_true", help="write a matrix over GF(3)")
    parser.add_argument(
        "--names",
        metavar="NAMES",
        help="write the names of rows and columns to this file: the edges of a graph, or 1, 2, ..",
    )
    return parser.parse_args()


def _work(chosen: argparse.Namespace) -> None:
    matrix = named(chosen.name, 3 if chosen.ternary else 2)
    rows = [" ".join(map(str, row)) for row in matrix.to_lists()]
    if chosen.names:
        write_text(chosen.names, (matrix.names or Names.numbered(*matrix.shape)).to_text())
    write_text("-", "\n".join([f"{matrix.shape[0]} {matrix.shape[1]}", *rows, ""]))


def main() -> int:
    """Runs the command, and gives its status."""
    chosen = arguments()
    return end(lambda: _work(chosen))
