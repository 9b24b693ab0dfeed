"""Writes a decomposition tree of cmr as a picture in DOT, for example for `dot -Tsvg`.

A box shows the kind of a node and the number of its rows and columns, and their names if there are few of them. Leaves with a yes are
green, faults red and undecided leaves yellow. In a tree with many nodes, similar nodes are counted in one box.
"""

from __future__ import annotations

import argparse

from ..evidence.trees import Tree
from ..matrices.lines import Names
from .command import command_parser, end, read_as, write_text


def arguments() -> argparse.Namespace:
    """The arguments of the command line."""
    parser = command_parser(__doc__)
    parser.add_argument("tree", metavar="TREE", nargs="?", default="-", help="the tree text (standard input)")
    parser.add_argument(
        "--names", metavar="NAMES", help="the names of model_to_matrix, in place of the numbers of rows and columns"
    )
    parser.add_argument(
        "--small", metavar="N", type=int, default=10, help="list the lines of nodes with at most N lines (10)"
    )
    parser.add_argument("--limit", metavar="N", type=int, default=40, help="draw at most about N boxes (40)")
    return parser.parse_args()


def _work(chosen: argparse.Namespace) -> None:
    tree = read_as(chosen.tree, Tree.from_text)
    names = read_as(chosen.names, Names.from_text) if chosen.names else Names.numbered(*tree.shape, first=1)
    names.must_fit(*tree.shape)
    write_text("-", tree.to_dot(names, small=chosen.small, limit=chosen.limit))


def main() -> int:
    """Runs the command, and gives its status."""
    chosen = arguments()
    return end(lambda: _work(chosen))
