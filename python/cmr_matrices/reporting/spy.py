"""The matrix of a model as a picture in SVG: rows in bands of their families, and the smallest violator marked."""

from __future__ import annotations

from collections.abc import Iterable, Iterator, Mapping, Sequence
from dataclasses import dataclass
from html import escape

from ..matrices.families import families_of
from .report import ModelReport

__all__ = ["COLOURS", "is_titled", "spy"]

COLOURS = (
    "#4e79a7", "#f28e2b", "#59a14f", "#b07aa1", "#76b7b2", "#edc948", "#9c755f", "#ff9da7", "#86bcb6", "#d37295",
    "#6b8fb5", "#a0cbe8",
)  # fmt: skip
"""The colours of families, one after another, and again from the first."""

_WIDTH, _HEIGHT = 860.0, 520.0
_NAMED = 45
_LARGEST, _LEAST = 24.0, 1.5
_TITLED = 1500
_SHORT = 26
# The widths of a bold character, of a wide one, and of a name that is turned: to the right, and upwards.
_WIDE, _WIDEST, _TURNED_WIDE, _TURNED_HIGH = 7.7, 12.2, 0.53, 0.85


@dataclass(frozen=True)
class _Band:
    """A family of rows or columns with its positions: the first one, and the one after the last."""

    name: str
    begin: int
    end: int


class _Layout:
    """The positions of rows and columns, in the order of their families."""

    def __init__(self, report: ModelReport) -> None:
        model = report.rows.model
        rows = {family.name: sorted((*family.rows, *family.refused)) for family in report.rows.families}
        self.rows, self.row_bands = _ordered(rows)
        self.columns, self.column_bands = _ordered(families_of(model.columns))
        self.height, self.width = len(model.rows), len(model.columns)
        self.has_row_names = self.height <= _NAMED
        self.has_column_names = self.width <= _NAMED
        fit = min(_WIDTH / max(self.width, 1), _HEIGHT / max(self.height, 1), _LARGEST)
        # Several entries share a point if there are too many.
        self.step = max(1, -int(-_LEAST // fit)) if fit < _LEAST else 1
        self.cell = fit
        names = model.rows if self.has_row_names else [band.name for band in self.row_bands]
        self.left = 16.0 + max(map(_width, names), default=0.0)
        longest = max(map(_width, model.columns), default=0.0)
        self.top = 16.0 + _TURNED_HIGH * longest if self.has_column_names else 30.0
        self.right = 14.0 + (_TURNED_WIDE * longest if self.has_column_names else 0.0)

    def x(self, place: float) -> float:
        return round(self.left + self.cell * place, 2)

    def y(self, place: float) -> float:
        return round(self.top + self.cell * place, 2)


def _width(name: str) -> float:
    """The width of a name that is shown, at most."""
    return sum(_WIDEST if character in "WMmw@%" else _WIDE for character in name[:_SHORT])


def _ordered(families: Mapping[str, Sequence[int]]) -> tuple[dict[int, int], list[_Band]]:
    """The place of each line, and the bands of the families, in their order."""
    places: dict[int, int] = {}
    bands = []
    for family, lines in families.items():
        bands.append(_Band(family, len(places), len(places) + len(lines)))
        for line in lines:
            places[line] = len(places)
    return places, bands


def is_titled(report: ModelReport) -> bool:
    """Whether each nonzero is drawn by itself, with its name under the pointer."""
    return sum(map(len, report.rows.entries.values())) <= _TITLED


def spy(report: ModelReport) -> str:
    """The picture of the matrix."""
    at = _Layout(report)
    width, height = at.x(at.width) + at.right, at.y(at.height) + 10
    parts = [
        f'<svg class="spy" viewBox="0 0 {width:.0f} {height:.0f}" width="{width:.0f}" height="{height:.0f}" role="img" '
        f'aria-label="the matrix, {at.height} rows and {at.width} columns">',
        '<defs><pattern id="hatch" width="7" height="7" patternUnits="userSpaceOnUse" patternTransform="rotate(45)">'
        '<rect width="2" height="7" fill="#b3261e" fill-opacity="0.16"/></pattern></defs>',
        *_bands(report, at),
        *_relaxed(report, at),
        *_columns(at),
        *_names(report, at),
        *_entries(report, at),
        *_violator(report, at),
        "</svg>",
    ]
    return "\n".join(parts)


def _bands(report: ModelReport, at: _Layout) -> Iterator[str]:
    families = {family.name: family for family in report.families}
    for number, band in enumerate(at.row_bands):
        colour = COLOURS[number % len(COLOURS)]
        family = families[band.name]
        top, size = at.y(band.begin), at.cell * (band.end - band.begin)
        yield (
            f"<g><title>{escape(family.said)}: {family.rows} rows, {len(family.relaxed)} relaxed</title>"
            f'<rect x="{at.left:.1f}" y="{top}" width="{at.cell * at.width:.1f}" height="{size:.2f}" fill="{colour}" '
            f'fill-opacity="0.13"/><rect x="{at.left - 6:.1f}" y="{top}" width="4" height="{max(size - 0.4, 0.6):.2f}" '
            f'fill="{colour}"/></g>'
        )
        if not at.has_row_names and size >= 11:
            yield _text(at.left - 10, top + size / 2 + 3.5, band.name, "end")


def _relaxed(report: ModelReport, at: _Layout) -> Iterator[str]:
    """Hatching over the rows that are relaxed, those that follow one another together."""
    places = sorted(at.rows[row] for row in report.relaxed)
    start = 0
    for number in range(1, len(places) + 1):
        if number == len(places) or places[number] != places[number - 1] + 1:
            top, count = at.y(places[start]), number - start
            yield (
                f'<rect x="{at.left:.1f}" y="{top}" width="{at.cell * at.width:.1f}" height="{at.cell * count:.2f}" '
                'fill="url(#hatch)"><title>relaxed</title></rect>'
            )
            start = number


def _columns(at: _Layout) -> Iterator[str]:
    """The families of columns, between thin lines."""
    for band in at.column_bands:
        left, size = at.x(band.begin), at.cell * (band.end - band.begin)
        if band.begin and len(at.column_bands) <= 60:
            yield f'<path d="M{left} {at.top:.1f}V{at.y(at.height)}" stroke="#fff" stroke-width="1.4"/>'
        if not at.has_column_names and size >= 6.5 * len(band.name):
            yield _text(left + size / 2, at.top - 8, band.name, "middle")
            yield f'<path d="M{left + 1:.2f} {at.top - 3:.1f}H{left + size - 1:.2f}" stroke="#9aa4b0"/>'


def _names(report: ModelReport, at: _Layout) -> Iterator[str]:
    model = report.rows.model
    marked = report.minimal.cells if report.minimal else None
    if at.has_row_names:
        for row, name in enumerate(model.rows):
            bold = marked is not None and row in marked.rows
            yield _text(at.left - 10, at.y(at.rows[row] + 0.5) + 3.5, name, "end", is_bold=bold)
    if at.has_column_names:
        for column, name in enumerate(model.columns):
            x, y = at.x(at.columns[column] + 0.5) + 3, at.top - 5
            bold = marked is not None and column in marked.columns
            yield f'<g transform="translate({x:.1f} {y:.1f}) rotate(-58)">{_text(0, 0, name, "start", is_bold=bold)}</g>'


def _text(x: float, y: float, words: str, anchor: str, *, is_bold: bool = False) -> str:
    shown = words if len(words) <= _SHORT else f"{words[: _SHORT - 2]}.."
    title = "" if shown == words else f"<title>{escape(words)}</title>"
    look = ' class="hit"' if is_bold else ""
    return f'<text x="{x:.1f}" y="{y:.1f}" text-anchor="{anchor}"{look}>{escape(shown)}{title}</text>'


def _entries(report: ModelReport, at: _Layout) -> Iterator[str]:
    kinds: dict[str, dict[tuple[int, int], str]] = {"one": {}, "minus": {}, "other": {}}
    model, entries = report.rows.model, report.rows.entries
    has_titles = is_titled(report)
    for row, found in entries.items():
        for column, entry in found:
            kind = "one" if entry == 1 else "minus" if entry == -1 else "other"
            place = at.rows[row] // at.step, at.columns[column] // at.step
            title = f"{model.rows[row]}, {model.columns[column]}: {float(entry):.12g}" if has_titles else ""
            kinds[kind][place] = title
    for kind, places in kinds.items():
        if not places:
            continue
        if has_titles:
            yield f'<g class="{kind}">'
            yield from (_square(at, place, title) for place, title in places.items())
            yield "</g>"
        else:
            yield f'<path class="{kind}" d="{"".join(_strokes(at, places))}"/>'


def _square(at: _Layout, place: tuple[int, int], title: str) -> str:
    size = at.cell * 0.68
    gap = (at.cell - size) / 2
    return (
        f'<rect x="{at.x(place[1]) + gap:.2f}" y="{at.y(place[0]) + gap:.2f}" width="{size:.2f}" height="{size:.2f}" '
        f'rx="{size / 6:.2f}"><title>{escape(title)}</title></rect>'
    )


def _strokes(at: _Layout, places: Iterable[tuple[int, int]]) -> Iterator[str]:
    size = at.cell * at.step
    side = max(round(size * (0.8 if size > 3 else 1.0), 2), 1.0)
    for row, column in places:
        yield f"M{at.x(column * at.step)} {at.y(row * at.step)}h{side}v{side}h-{side}z"


def _violator(report: ModelReport, at: _Layout) -> Iterator[str]:
    """The lines of the smallest violator as thin beams, and its nonzeros in rings."""
    if report.minimal is None:
        return
    cells = report.minimal.cells
    beam = max(at.cell, 1.2)
    for row in cells.rows:
        yield f'<rect class="beam" x="{at.left:.1f}" y="{at.y(at.rows[row])}" width="{at.cell * at.width:.1f}" height="{beam:.2f}"/>'
    for column in cells.columns:
        yield f'<rect class="beam" x="{at.x(at.columns[column])}" y="{at.top:.1f}" width="{beam:.2f}" height="{at.cell * at.height:.1f}"/>'
    entries: Mapping[int, Sequence[tuple[int, object]]] = report.rows.entries
    for row in cells.rows:
        for column, _ in entries[row]:
            if column in cells.columns:
                size = max(at.cell, 5.0)
                x, y = at.x(at.columns[column] + 0.5) - size / 2, at.y(at.rows[row] + 0.5) - size / 2
                yield f'<rect class="ring" x="{x:.2f}" y="{y:.2f}" width="{size:.2f}" height="{size:.2f}" rx="1.5"/>'
