"""A decomposition tree drawn in SVG, from the root down."""

from __future__ import annotations

from collections.abc import Iterator
from dataclasses import dataclass, field
from html import escape

from ..evidence.tree_picture import COLOURS, Box, Style, label_of, look_of, tree_boxes
from ..evidence.trees import Tree
from ..matrices.lines import Names

__all__ = ["drawn_tree"]

_CHARACTER, _LINE, _GAP, _LEVEL = 6.9, 14.0, 14.0, 30.0
_MOST_LINES = 7


@dataclass
class _Placed:
    """A box with its text, what is below it, and the place of its middle, first beside that of its parent."""

    lines: list[str]
    colour: str
    is_many: bool
    children: list[_Placed] = field(default_factory=list)
    x: float = 0.0
    y: float = 0.0

    @property
    def width(self) -> float:
        return 24 + max(1.12 * _CHARACTER * len(self.lines[0]), *(_CHARACTER * len(line) for line in self.lines))

    @property
    def height(self) -> float:
        return 12 + _LINE * len(self.lines)


def drawn_tree(tree: Tree, limit: int = 40) -> str:
    """The picture of a tree with about `limit` boxes at most."""
    style = Style(tree.names or Names.numbered(*tree.shape, first=1), 12)
    root = _placed(tree_boxes(tree.root, limit), style)
    sides = _sides(root)
    _place(root, 4.0 - min(left for left, _ in sides), 4.0, _heights(root))
    boxes = list(_walk(root))
    width = max(box.x + box.width / 2 for box in boxes) + 6
    height = max(box.y + box.height for box in boxes) + 6
    head = f'<svg class="tree" viewBox="0 0 {width:.0f} {height:.0f}" width="{width:.0f}" height="{height:.0f}" role="img" '
    lines = [f'{head}aria-label="the decomposition tree">']
    lines += (_edge(box, child) for box in boxes for child in box.children)
    lines += (_box(box) for box in boxes)
    return "\n".join([*lines, "</svg>"])


def _placed(box: Box, style: Style) -> _Placed:
    lines = label_of(box, style)
    if len(lines) > _MOST_LINES:
        lines = [*lines[: _MOST_LINES - 1], ".."]
    placed = _Placed(lines, COLOURS[look_of(box)], box.whole or len(box.nodes) > 1)
    placed.children = [_placed(child, style) for child in box.children]
    return placed


def _heights(root: _Placed) -> list[float]:
    """The height of the highest box of each level."""
    heights: list[float] = []
    level = [root]
    while level:
        heights.append(max(box.height for box in level))
        level = [child for box in level for child in box.children]
    return heights


def _sides(box: _Placed) -> list[tuple[float, float]]:
    """Sets what is below a box side by side, as near as the boxes of each level allow. Gives the two sides of each level."""
    levels: list[tuple[float, float]] = []
    for child in box.children:
        own = _sides(child)
        child.x = max((at[1] - other[0] + _GAP for at, other in zip(levels, own)), default=0.0)
        moved = [(left + child.x, right + child.x) for left, right in own]
        both = [(at[0], other[1]) for at, other in zip(levels, moved)]
        levels = [*both, *levels[len(both) :], *moved[len(both) :]]
    middle = (box.children[0].x + box.children[-1].x) / 2 if box.children else 0.0
    for child in box.children:
        child.x -= middle
    return [(-box.width / 2, box.width / 2), *((left - middle, right - middle) for left, right in levels)]


def _place(box: _Placed, x: float, y: float, heights: list[float]) -> None:
    box.x, box.y = x, y
    for child in box.children:
        _place(child, x + child.x, y + heights[0] + _LEVEL, heights[1:])


def _walk(box: _Placed) -> Iterator[_Placed]:
    yield box
    for child in box.children:
        yield from _walk(child)


def _edge(box: _Placed, child: _Placed) -> str:
    x, y, to, down = box.x, box.y + box.height, child.x, child.y
    middle = (y + down) / 2
    bend = f"M{x:.1f} {y:.1f}C{x:.1f} {middle:.1f} {to:.1f} {middle:.1f} {to:.1f} {down:.1f}"
    return f'<path d="{bend}" fill="none" stroke="#8793a0" stroke-width="1.3"/>'


def _box(box: _Placed) -> str:
    behind = _frame(box, 3.0, "#8793a0") if box.is_many else ""
    text = "".join(_text(box, number, line) for number, line in enumerate(box.lines))
    return f"<g>{behind}{_frame(box, 0.0, '#5f6b78')}{text}</g>"


def _frame(box: _Placed, shift: float, stroke: str) -> str:
    colour = "#ffffff" if box.colour == "white" else box.colour
    place = f'x="{box.x - box.width / 2 + shift:.1f}" y="{box.y + shift:.1f}" width="{box.width:.1f}" height="{box.height:.1f}"'
    return f'<rect {place} rx="7" fill="{colour}" stroke="{stroke}"/>'


def _text(box: _Placed, number: int, line: str) -> str:
    look = "" if number else ' class="kind"'
    place = f'x="{box.x:.1f}" y="{box.y + 17 + _LINE * number:.1f}"'
    return f'<text {place} text-anchor="middle"{look}>{escape(line)}</text>'
