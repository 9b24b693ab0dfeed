"""The picture of a decomposition tree as boxes, few enough to be read.

A box represents one node, or several nodes of one kind that are counted together: more than three leaves below one node, and in a large
tree also sums below sums of the same kind, with the reductions between them. If there are still too many boxes, a box represents a
whole part of the tree.
"""

from __future__ import annotations

import textwrap
from collections import Counter, deque
from collections.abc import Iterable, Iterator, Sequence
from dataclasses import dataclass, field

from ..matrices.lines import LineSet, Names
from .dot import document, statement
from .nodes import CONNECTORS, LEAVES, Node, NodeKind

__all__ = ["Box", "Style", "label_of", "look_of", "tree_boxes", "tree_picture"]

ALIKE = 3
WIDE = 12
WIDTH = 34

NO = {"cycle", "violator"}
COLOURS = {"inner": "white", "yes": "#dcefdc", "no": "#f6cccc", "open": "#fdf0c4"}


@dataclass
class Box:
    """Nodes that are drawn as one box. A whole box also represents all nodes below them."""

    nodes: list[Node]
    whole: bool = False
    children: list[Box] = field(default_factory=list)


@dataclass(frozen=True)
class Style:
    """The names of the lines, and the number of lines up to which they are listed in a node."""

    names: Names
    small: int


def tree_picture(root_node: Node, style: Style, limit: int) -> str:
    """The tree in DOT, with about as many boxes as the limit says."""
    root = tree_boxes(root_node, limit)
    numbers = {id(box): f"n{number}" for number, box in enumerate(_all_boxes(root))}
    defaults = [
        statement("graph", {"rankdir": "TB", "nodesep": "0.25", "ranksep": "0.35"}),
        statement("node", {"shape": "box", "style": "rounded,filled", "fontname": "Helvetica", "fontsize": "11"}),
        statement("edge", {"arrowsize": "0.6"}),
    ]
    nodes = [statement(numbers[id(box)], _attributes(box, style)) for box in _all_boxes(root)]
    edges = [
        statement(f"{numbers[id(box)]} -> {numbers[id(child)]}", {})
        for box in _all_boxes(root)
        for child in box.children
    ]
    return document("digraph", "tree", defaults + nodes + edges)


def tree_boxes(root_node: Node, limit: int) -> Box:
    """The boxes of a tree, about as many as the limit says."""
    root = _boxes(root_node, gather=False, limit=None)
    return root if sum(1 for _ in _all_boxes(root)) <= limit else _boxes(root_node, gather=True, limit=limit)


def _boxes(root: Node, gather: bool, limit: int | None) -> Box:
    """The boxes of a tree, made breadth first. Beyond the limit a box represents all nodes below it."""
    first = _gathered(root) if gather else Box([root])
    pending = deque([first])
    made = 1
    while pending:
        box = pending.popleft()
        if limit is not None and made >= limit and any(node.children for node in box.nodes):
            box.nodes, box.whole = box.nodes[:1], True
            continue
        box.children = _children(box, gather)
        made += len(box.children)
        pending.extend(child for child in box.children if not child.whole)
    return first


def _children(box: Box, gather: bool) -> list[Box]:
    """The boxes of what is below a box, with one box for a kind that comes too often."""
    shown = {id(node) for node in box.nodes}
    below = [child for node in box.nodes for child in node.children if id(child) not in shown]
    counts = Counter(node.kind for node in below)
    boxes: dict[NodeKind | int, Box] = {}
    for node in below:
        if counts[node.kind] > (ALIKE if node.kind in LEAVES else WIDE):
            boxes.setdefault(node.kind, Box([], whole=node.kind not in LEAVES)).nodes.append(node)
        else:
            boxes[id(node)] = _gathered(node) if gather else Box([node])
    return list(boxes.values())


def _gathered(node: Node) -> Box:
    """A node, and for a sum all sums of its kind that hang together with it, with the reductions between them."""
    nodes = [node]
    for one in nodes:
        if one.kind in CONNECTORS:
            nodes.extend(_joined(one))
    return Box(nodes)


def _joined(node: Node) -> Iterator[Node]:
    for child in node.children:
        below = child.children[0] if child.kind == "reduced" else child
        if below.kind == node.kind:
            yield from [child] if child is below else [child, below]


def _all_boxes(root: Box) -> Iterator[Box]:
    pending = deque([root])
    while pending:
        box = pending.popleft()
        yield box
        pending.extend(box.children)


def _attributes(box: Box, style: Style) -> dict[str, str]:
    attributes = {"label": "\n".join(label_of(box, style)), "fillcolor": COLOURS[look_of(box)]}
    return attributes | ({"peripheries": "2"} if len(_nodes(box)) > 1 else {})


def _nodes(box: Box) -> list[Node]:
    return list(_below(box.nodes)) if box.whole else box.nodes


def look_of(box: Box) -> str:
    """What a box looks like, one of `COLOURS`."""
    kinds = {node.kind for node in _nodes(box)}
    if kinds & NO:
        return "no"
    if "undecided" in kinds:
        return "open"
    return "yes" if kinds <= LEAVES else "inner"


def label_of(box: Box, style: Style) -> list[str]:
    """The lines of what is said in a box."""
    nodes = _nodes(box)
    if len(nodes) == 1:
        return _node_label(nodes[0], style)
    counts = [f"{count} {kind}" for kind, count in Counter(node.kind for node in nodes).most_common()]
    return [f"{len(nodes)} nodes, {_sizes(box.nodes)}", *counts] if box.whole else [*counts, _sizes(nodes)]


def _node_label(node: Node, style: Style) -> list[str]:
    label = [node.outline]
    if node.connectors or node.place:
        label += _wrapped("at", style.names.line_list(node.connectors or node.place))
    if node.removed:
        few = len(node.removed) <= style.small
        label += _wrapped("without", style.names.line_list(node.removed) if few else f"{len(node.removed)} lines")
    if node.fault is not None and node.fault != node.lines:
        return label + _listed(node.fault, style)
    return label + _listed(node.lines, style)


def _listed(lines: LineSet, style: Style) -> list[str]:
    if len(lines) > style.small:
        return []
    return _wrapped("rows", style.names.row_list(lines.rows)) + _wrapped(
        "columns", style.names.column_list(lines.columns)
    )


def _wrapped(what: str, names: str) -> list[str]:
    return textwrap.wrap(f"{what} {names}", WIDTH, break_long_words=False, break_on_hyphens=False) if names else []


def _sizes(nodes: Sequence[Node]) -> str:
    ordered = sorted((node.lines for node in nodes), key=len)
    least, greatest = ordered[0].size, ordered[-1].size
    return least if least == greatest else f"{least} to {greatest}"


def _below(nodes: Iterable[Node]) -> Iterator[Node]:
    pending = deque(nodes)
    while pending:
        node = pending.popleft()
        yield node
        pending.extend(node.children)
