"""Writes a list of edges as a graph text for `cmr graphic -c` and `cmr network -c`, which print its matrix.

The list has a line `TAIL HEAD` or `TAIL HEAD NAME` for each edge, with any words for nodes, or it is GraphML, which networkx
reads. The first edges that close no cycle form the spanning tree, whose arcs are the rows; all other edges are the columns.
"""

from __future__ import annotations

import argparse
import io

from ..errors import BadInput
from ..evidence.edge_lists import edges_of_text, graph_of_edges, graph_of_networkx
from ..evidence.graphs import Graph
from ..matrices.lines import Names
from .command import command_parser, end, read_as, write_text


def arguments() -> argparse.Namespace:
    """The arguments of the command line."""
    parser = command_parser(__doc__)
    parser.add_argument("edges", metavar="EDGES", nargs="?", default="-", help="the list of edges (standard input)")
    parser.add_argument("--names", metavar="NAMES", help="write the names of the edges, by rows and columns, to this file")
    return parser.parse_args()


def _graph(text: str) -> Graph:
    if not text.lstrip("\ufeff \t\r\n").startswith("<"):
        return graph_of_edges(edges_of_text(text))
    try:
        import networkx  # pylint: disable=import-outside-toplevel
    except ImportError as fault:
        raise BadInput("reading GraphML needs Debian's python3-networkx") from fault
    data = io.BytesIO(text.lstrip("\ufeff \t\r\n").encode("utf-8", "surrogateescape"))
    try:
        return graph_of_networkx(networkx.read_graphml(data))
    except BadInput:
        raise
    except Exception as fault:  # the parser of XML and networkx raise many kinds
        raise BadInput(f"no GraphML, {' '.join(str(fault).split())}") from fault


def _work(chosen: argparse.Namespace) -> None:
    graph = read_as(chosen.edges, _graph)
    if chosen.names:
        write_text(chosen.names, (graph.names or Names.numbered(*graph.shape)).to_text())
    write_text("-", graph.to_text())


def main() -> int:
    """Runs the command, and gives its status."""
    chosen = arguments()
    return end(lambda: _work(chosen))
