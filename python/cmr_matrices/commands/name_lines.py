"""Puts the names of a model in place of the numbers of rows and columns in what cmr printed or wrote.

It reads what cmr prints, and the files of its options: submatrices, lists of reductions, graphs, and decomposition trees, which
become outlines. With --tree the lines of a printed outline get the names of their nodes.
"""

from __future__ import annotations

import argparse

from ..evidence.named_text import named_text
from ..evidence.trees import Tree
from ..matrices.lines import Names
from .command import command_parser, end, read_as, write_text


def arguments() -> argparse.Namespace:
    """The arguments of the command line."""
    parser = command_parser(__doc__)
    parser.add_argument("names", metavar="NAMES", help="the names that model_to_matrix wrote")
    parser.add_argument(
        "text", metavar="TEXT", nargs="?", default="-", help="what cmr printed or wrote (standard input)"
    )
    parser.add_argument("--tree", metavar="TREE", help="the tree text of the printed outline")
    return parser.parse_args()


def _work(chosen: argparse.Namespace) -> None:
    names = read_as(chosen.names, Names.from_text)
    tree = read_as(chosen.tree, Tree.from_text) if chosen.tree else None
    write_text("-", read_as(chosen.text, lambda text: named_text(text, names, tree)))


def main() -> int:
    """Runs the command, and gives its status."""
    chosen = arguments()
    return end(lambda: _work(chosen))
