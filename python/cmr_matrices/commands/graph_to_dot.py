"""Writes a graph of `cmr graphic -G` or `cmr network -G` as a picture in DOT, for example for `dot -Tsvg`.

All nodes and edges are drawn: the edges of the tree in full, and the edges that join the ends of paths dashed. --rows-as-nodes draws
the network of a flow model, in which no column has more than two nonzeros: its rows are the nodes and its columns the edges. This omits
the nodes of the tree. Each node or edge has the number or the name of its row or column. The number of edges determines the layout: dot
up to 40, neato up to 150 (in trees 250), and sfdp, without names of edges, for more.
"""

from __future__ import annotations

import argparse

from ..evidence.graphs import Graph
from ..evidence.network_picture import DRAWN
from ..matrices.lines import Names
from .command import command_parser, end, read_as, write_text


def arguments() -> argparse.Namespace:
    """The arguments of the command line."""
    parser = command_parser(__doc__)
    parser.add_argument("graph", metavar="GRAPH", nargs="?", default="-", help="the graph text (standard input)")
    parser.add_argument(
        "--names", metavar="NAMES", help="the names of model_to_matrix, in place of the numbers of rows and columns"
    )
    parser.add_argument("--undirected", action="store_true", help="draw no arrows, as in a graph of `cmr graphic`")
    drawn = parser.add_mutually_exclusive_group()
    drawn.add_argument("--tree", action="store_true", help="draw the tree and its paths (the default)")
    drawn.add_argument(
        "--rows-as-nodes",
        action="store_true",
        help="draw rows as nodes and columns as edges, if no column has more than two nonzeros",
    )
    parser.add_argument(
        "--limit",
        metavar="N",
        type=int,
        default=DRAWN,
        help=f"draw up to N edges, and otherwise the families of rows and columns with their counts ({DRAWN})",
    )
    return parser.parse_args()


def _work(chosen: argparse.Namespace) -> None:
    graph = read_as(chosen.graph, Graph.from_text)
    names = read_as(chosen.names, Names.from_text) if chosen.names else Names.numbered(*graph.shape, first=1)
    names.must_fit(*graph.shape)
    tree = not chosen.rows_as_nodes
    write_text("-", graph.to_dot(names, directed=not chosen.undirected, limit=chosen.limit, tree=tree))


def main() -> int:
    """Runs the command, and gives its status."""
    chosen = arguments()
    return end(lambda: _work(chosen))
