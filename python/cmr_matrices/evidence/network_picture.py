"""Pictures of graphs that show that a matrix is graphic or a network matrix.

The arcs of the tree are drawn in full, and the walks as dashed edges. If each walk takes at most two arcs, the matrix may be the matrix
of a flow model, a network whose nodes are the rows. The caller may then ask for the rows as nodes and the columns as edges between them.
This omits the nodes and the arcs of the tree, so it does not show the graph of a graphic matroid.
"""

from __future__ import annotations

import re
from collections import Counter
from collections.abc import Iterator, Sequence
from dataclasses import dataclass
from typing import TYPE_CHECKING

from ..matrices.families import families_of, family_of
from ..matrices.lines import Line, Names
from .dot import document, statement
from .round_layout import positions
from .walks import Taken, arcs_of_walks

if TYPE_CHECKING:
    from .graphs import Edge, Graph

__all__ = ["DRAWN", "picture"]

DRAWN = 1000
"""The default limit on the edges that are drawn."""

# The most edges with which the layers of dot are readable.
_LAYERED = 40
# The words of a name. The words after the first are its index.
_INDEX = re.compile(r"[^][(){},;_ ]+")
# A name that is made of the ends of its edge.
_PAIR = re.compile(r"([^-]+)-([^-]+)")
# The radius of the circle of a small graph, in inches.
_RADIUS = 1.8
_FONT = {"fontname": "Helvetica"}
_WALK = {"style": "dashed", "color": "#3060a0", "fontcolor": "#3060a0"}
# If edges cross, colours show which name belongs to which edge.
_COLOURS = ("#20639b", "#b03a2e", "#1e8449", "#7d3c98", "#9c640c", "#17202a")
_BOX = {"shape": "box", "style": "rounded,filled", "fillcolor": "#eef3f8", "color": "#708090"}
_CIRCLE = {"shape": "circle", "width": "0.3", "fixedsize": "true", "style": "filled", "fillcolor": "white"}
_OUTSIDE = {"shape": "point", "width": "0.05", "label": ""}


@dataclass(frozen=True)
class _Style:
    """How nodes look, up to how many edges their labels can be read, and whether edges are bent around nodes.

    In trees, and with many edges, Graphviz takes long to bend them, or fails.
    """

    node: dict[str, str]
    labelled: int
    bent: bool


_ROWS = _Style(_BOX, 150, True)
_TREE = _Style(_CIRCLE, 250, False)


@dataclass(frozen=True)
class _Drawn:
    """An edge of the picture between two of its nodes, which are named."""

    tail: str
    head: str
    name: str
    look: dict[str, str]


def picture(graph: Graph, names: Names, *, directed: bool, limit: int = DRAWN, tree: bool = False) -> str:
    """The graph in DOT. With more edges than the limit the families of its lines are drawn, with their counts.

    With `tree` the tree is always drawn; otherwise the rows are nodes if no walk takes more than two arcs. The layout depends on the number
    of edges, and all programs of Graphviz use it.
    """
    taken = None if tree else arcs_of_walks(graph, 2)
    count = len(graph.edges) if taken is None else len(graph.walks)
    if count > limit:
        return _summary(graph, names, taken, directed=directed)
    if taken is None:
        return _tree(graph, names, directed=directed)
    return _rows_as_nodes(graph, names, taken, directed=directed)


def _signs(graph: Graph, taken: Taken, names: Names) -> dict[Line, int]:
    """A sign for each arc, such that walks with two arcs have one 1 and one -1 if the arcs have these signs.

    All signs of a connected part can be reversed together. The names decide: `flow[a,b]` leads from `node[a]` to `node[b]`. If they give no
    direction, the first arc of the part has the sign 1.
    """
    near: dict[Line, list[tuple[Line, int, int]]] = {arc.line: [] for arc in graph.arcs}
    for walk, arcs in taken.items():
        if len(arcs) == 2:
            (first, entry), (second, other) = arcs
            order = entry * _order(names.line(walk), names.line(first), names.line(second))
            near[first].append((second, -entry * other, order))
            near[second].append((first, -entry * other, 0))
    signs: dict[Line, int] = {}
    for line in near:
        if line not in signs:
            part = {line: 1}
            queue = [line]
            told = 0
            for place in queue:
                for other_line, same, order in near[place]:
                    if other_line not in part:
                        part[other_line] = part[place] * same
                        queue.append(other_line)
                    told += part[place] * order
            turn = -1 if told < 0 else 1
            signs.update({place: sign * turn for place, sign in part.items()})
    return signs


def _order(edge: str, first: str, second: str) -> int:
    """1 if the name of an edge contains the index of the first end before the index of the second, -1 if after, and otherwise 0."""
    words, *ends = (_INDEX.findall(name)[1:] for name in (edge, first, second))
    places = [_place(words, end) for end in ends]
    match places:
        case [int(tail), int(head)] if tail != head:
            return 1 if tail < head else -1
    return 0


def _place(words: list[str], part: list[str]) -> int | None:
    found = (place for place in range(len(words)) if part and words[place : place + len(part)] == part)
    return next(found, None)


def _rows_as_nodes(graph: Graph, names: Names, taken: Taken, *, directed: bool) -> str:
    lines = [arc.line for arc in graph.arcs]
    signs = _signs(graph, taken, names)
    nodes = {line.word: names.line(line) for line in lines}
    outside: list[str] = []
    edges = []
    for walk in graph.walks:
        ends = {sign * signs[line]: line.word for line, sign in taken[walk.line]}
        if len(ends) < 2:
            outside.append(f"{walk.line.word}.end")
        tail, head = (ends.get(sign, outside[-1] if outside else "") for sign in (1, -1))
        edges.append(_Drawn(tail, head, names.line(walk.line), {}))
    return _document(nodes, outside, edges, directed=directed, style=_ROWS)


def _tree(graph: Graph, names: Names, *, directed: bool) -> str:
    labels = _node_labels(graph, names)
    nodes = {str(node): labels[node] for node in range(len(graph.arcs) + 1)}
    edges = [_of_edge(arc, names, {"penwidth": "2"}) for arc in graph.arcs]
    edges += (_of_edge(walk, names, _WALK) for walk in graph.walks)
    ends = [(edge.tail, edge.head) for edge in graph.edges]
    places = None if directed or len(edges) > _LAYERED else positions(len(nodes), ends)
    return _document(nodes, [], edges, directed=directed, style=_TREE, places=places)


def _node_labels(graph: Graph, names: Names) -> list[str]:
    """The names of the ends if all edges are named after them, as `1-2` is, and otherwise the numbers of the nodes.

    If edges are named by such pairs and these are not the ends, or by numbers, nodes have no labels, since their numbers would contradict
    the names.
    """
    numbers = [str(node) for node in range(len(graph.arcs) + 1)]
    pairs = [(edge, _PAIR.fullmatch(names.line(edge.line))) for edge in graph.edges]
    found = [(edge, {pair[1], pair[2]}) for edge, pair in pairs if pair]
    if len(found) < len(pairs) or not pairs:
        is_confused = found or any(names.line(edge.line).isdecimal() for edge in graph.edges)
        return ["" for _ in numbers] if is_confused else numbers
    near: list[list[set[str]]] = [[] for _ in numbers]
    for edge, ends in found:
        for node in {edge.tail, edge.head}:
            near[node].append(ends)
    common = [set.intersection(*sets) if sets else set() for sets in near]
    for edge, ends in found:
        # The other end of a node with one edge is known from its neighbour.
        for one, two in ((edge.tail, edge.head), (edge.head, edge.tail)):
            if len(common[one]) > 1 and len(common[two]) == 1:
                common[one] = common[one] - common[two]
    labels = [next(iter(names_of), "") if len(names_of) == 1 else "" for names_of in common]
    fits = all({labels[edge.tail], labels[edge.head]} == ends for edge, ends in found)
    return labels if fits and len(set(labels)) == len(labels) else ["" for _ in numbers]


def _of_edge(edge: Edge, names: Names, look: dict[str, str]) -> _Drawn:
    return _Drawn(str(edge.tail), str(edge.head), names.line(edge.line), look)


def _document(
    nodes: dict[str, str],
    outside: Sequence[str],
    edges: Sequence[_Drawn],
    *,
    directed: bool,
    style: _Style,
    places: dict[int, tuple[float, float]] | None = None,
) -> str:
    kind, join = ("digraph", "->") if directed else ("graph", "--")
    labelled = len(edges) <= style.labelled
    statements = list(_defaults(edges, style) if places is None else _round_defaults(style))
    for place, (node, name) in enumerate(nodes.items()):
        label = {"label": name} if node != name else {}
        at = {} if places is None else {"pos": "{:.3f},{:.3f}!".format(*(_RADIUS * value for value in places[place]))}
        statements.append(statement(_id(node), label | at))
    statements += (statement(_id(node), _OUTSIDE) for node in outside)
    coloured = labelled and len(edges) > _LAYERED
    for place, edge in enumerate(edges):
        said = {"label" if labelled else "tooltip": edge.name}
        if coloured and not edge.look:
            said |= {"color": _COLOURS[place % len(_COLOURS)], "fontcolor": _COLOURS[place % len(_COLOURS)]}
        statements.append(statement(f"{_id(edge.tail)} {join} {_id(edge.head)}", said | edge.look))
    return document(kind, "network", statements)


def _id(node: str) -> str:
    return node if node.isalnum() else f'"{node}"'


def _defaults(edges: Sequence[_Drawn], style: _Style) -> Iterator[str]:
    """The layout for a number of edges, and the sizes of what is drawn."""
    length, thin = {}, {}
    if len(edges) <= _LAYERED:
        sides = {"rankdir": "LR", "nodesep": "0.1", "ranksep": "1.5"}
        yield statement("graph", sides if _has_two_sides(edges) else {"nodesep": "0.4", "ranksep": "0.5"})
        sizes = "11", "10", "0.6"
    elif len(edges) <= style.labelled:
        length = {"len": "2.2"}
        room = {"overlap": "false", "splines": "true" if style.bent else "line", "sep": "+16", "size": "14.5,10.3"}
        yield statement("graph", {"layout": "neato", "start": "1"} | room)
        sizes = "11", "8", "0.5"
    else:
        thin = {"color": "#00000060", "penwidth": "0.7"}
        yield statement("graph", {"layout": "sfdp", "overlap": "prism", "start": "1", "outputorder": "edgesfirst"})
        sizes = "8", "8", "0.4"
    node_size, edge_size, arrow = sizes
    small = {"margin": "0.04,0.02", "height": "0.2", "width": "0.2"} if style.node["shape"] == "box" else {}
    yield statement("node", style.node | small | _FONT | {"fontsize": node_size})
    yield statement("edge", _FONT | {"fontsize": edge_size, "arrowsize": arrow} | length | thin)


def _round_defaults(style: _Style) -> Iterator[str]:
    """The layout of a small graph whose nodes have positions, in inches."""
    yield statement("graph", {"layout": "neato", "splines": "line"})
    yield statement("node", style.node | _FONT | {"fontsize": "11"})
    yield statement("edge", _FONT | {"fontsize": "9"})


def _has_two_sides(edges: Sequence[_Drawn]) -> bool:
    """Whether all edges lead from some nodes to others, as in a transport: then two columns are drawn, and not two wide rows."""
    return not {edge.tail for edge in edges} & {edge.head for edge in edges}


def _summary(graph: Graph, names: Names, taken: Taken | None, *, directed: bool) -> str:
    """The families of the lines: as a graph if rows are nodes, and otherwise as a list."""
    if taken is None:
        arcs = families_of(names.line(arc.line) for arc in graph.arcs)
        walks = families_of(names.line(walk.line) for walk in graph.walks)
        lines = [f"a tree of {len(graph.arcs)} arcs:", *(f"{len(found)} of {family}" for family, found in arcs.items())]
        lines += [f"{len(graph.walks)} paths:", *(f"{len(found)} of {family}" for family, found in walks.items())]
        return document("graph", "network", [statement("summary", {"shape": "box", "label": "\n".join(lines)} | _FONT)])
    signs = _signs(graph, taken, names)
    families = families_of(names.line(arc.line) for arc in graph.arcs)
    counted: Counter[tuple[str, str, str]] = Counter()
    for walk in graph.walks:
        ends = {sign * signs[line]: family_of(names.line(line)) for line, sign in taken[walk.line]}
        counted[ends.get(1, ""), ends.get(-1, ""), family_of(names.line(walk.line))] += 1
    nodes = {_key(family): f"{len(found)} of {family}" for family, found in families.items()}
    outside = ["outside"] if any("" in ends[:2] for ends in counted) else []
    edges = [
        _Drawn(_key(tail), _key(head), f"{count} of {family}", {}) for (tail, head, family), count in counted.items()
    ]
    return _document(nodes, outside, edges, directed=directed, style=_ROWS)


def _key(family: str) -> str:
    return f"family {family}".replace("\\", "/").replace('"', "'") if family else "outside"
