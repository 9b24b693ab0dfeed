"""How many matrices of a table are in which classes, and a picture of it."""

from __future__ import annotations

from collections import Counter
from collections.abc import Mapping, Sequence
from html import escape
from typing import Any

from .classes import contradictions
from .work import CONTRADICTION

__all__ = ["Summary"]

_SIGNS = {"yes": "yes", "no": "no", "undecided": "?", "-": "-", "": ""}
_CELL, _BAR = 22, 120


class Summary:
    """Counts the combinations of verdicts that occur, and the rows at fault by their kind. It does not grow with the rows."""

    def __init__(self, classes: Sequence[str]) -> None:
        self.classes = tuple(classes)
        self.combinations: Counter[tuple[str, ...]] = Counter()
        self.faults: Counter[str] = Counter()
        self.contradictions = 0

    @property
    def rows(self) -> int:
        """How many rows there are."""
        return sum(self.combinations.values()) + self.faults.total()

    def add(self, verdicts: Mapping[str, Any], fault: str | None) -> list[str]:
        """Takes a row in, and gives the inclusions that it breaks."""
        broken = [str(inclusion) for inclusion in contradictions(verdicts)]
        self.contradictions += bool(broken) or fault == CONTRADICTION
        if fault is not None:
            self.faults[fault] += 1
        else:
            self.combinations[tuple(verdicts[name] for name in self.classes)] += 1
        return broken

    def ordered(self) -> list[tuple[tuple[str, ...], int]]:
        """The combinations with their counts, the most frequent first."""
        return sorted(self.combinations.items(), key=lambda pair: (-pair[1], pair[0]))

    def to_text(self) -> str:
        """A table of the combinations, the totals, and the faults."""
        head = ["matrices", *self.classes]
        lines = [[str(count), *(_SIGNS[word] for word in words)] for words, count in self.ordered()]
        totals = [str(self._total(place)) for place in range(len(self.classes))]
        lines.append([str(self.combinations.total()), *totals])
        widths = [max(len(line[place]) for line in [head, *lines]) for place in range(len(head))]
        table = ["  ".join(word.rjust(width) for word, width in zip(line, widths)).rstrip() for line in [head, *lines]]
        table[-1] += "  (yes)"
        faults = [f"{count} {kind}" for kind, count in sorted(self.faults.items())]
        return "\n".join([*table, *(["at fault: " + ", ".join(faults)] if faults else [])]) + "\n"

    def to_svg(self) -> str:
        """An UpSet plot: a column for each combination, with its count above, and a row for each class, with its total beside."""
        combinations = self.ordered()
        most = max((count for _, count in combinations), default=1)
        step = max(_CELL, 7 * len(str(most)) + 8)
        left, top = 234 + 7 * len(str(self.combinations.total())) + step // 2, _BAR + 40
        width, height = left + step * len(combinations) + 20, top + _CELL * len(self.classes) + 20
        totals = [self._total(place) for place in range(len(self.classes))]
        parts = [_svg_head(width, height)]
        for place, (name, total) in enumerate(zip(self.classes, totals)):
            middle = top + _CELL * place + _CELL // 2
            if place % 2 == 0:
                parts.append(_box(0, middle - _CELL // 2, width, _CELL, "#f2f2f2"))
            length = round(70 * total / max(*totals, 1))
            parts.append(_box(210 - length, middle - 6, length, 12, "#557799"))
            parts.append(_text(214, middle + 4, str(total), "start"))
            parts.append(_text(4, middle + 4, name, "start"))
        for place, (words, count) in enumerate(combinations):
            parts += self._column(left + step * place + step // 2, top, words, count, most)
        return "\n".join([*parts, "</svg>"]) + "\n"

    def _column(self, middle: int, top: int, words: tuple[str, ...], count: int, most: int) -> list[str]:
        length = max(round(_BAR * count / most), 1)
        places = [top + _CELL * place + _CELL // 2 for place in range(len(words))]
        within = [place for place, word in zip(places, words) if word == "yes"]
        parts = [
            _box(middle - 7, top - 10 - length, 14, length, "#334455"),
            _text(middle, top - 14 - length, str(count)),
        ]
        if len(within) > 1:
            parts.append(
                f'<line x1="{middle}" y1="{within[0]}" x2="{middle}" y2="{within[-1]}" stroke="#334455" stroke-width="2"/>'
            )
        return [*parts, *(_mark(middle, place, word) for place, word in zip(places, words))]

    def _total(self, place: int) -> int:
        return sum(count for words, count in self.combinations.items() if words[place] == "yes")


def _svg_head(width: int, height: int) -> str:
    return (
        f'<svg xmlns="http://www.w3.org/2000/svg" width="{width}" height="{height}" viewBox="0 0 {width} {height}"'
        ' font-family="sans-serif" font-size="11">\n' + _box(0, 0, width, height, "#ffffff")
    )


def _box(x: int, y: int, width: int, height: int, colour: str) -> str:
    return f'<rect x="{x}" y="{y}" width="{width}" height="{height}" fill="{colour}"/>'


def _text(x: int, y: int, words: str, anchor: str = "middle") -> str:
    return f'<text x="{x}" y="{y}" text-anchor="{anchor}">{escape(words, quote=False)}</text>'


def _mark(x: int, y: int, word: str) -> str:
    """A full dot for a yes, a ring for what is undecided, a dash if the class is not defined, a pale dot for a no."""
    if word == "-":
        return _box(x - 4, y - 1, 8, 2, "#999999")
    if word == "undecided":
        return f'<circle cx="{x}" cy="{y}" r="5" fill="#ffffff" stroke="#334455" stroke-width="2"/>'
    return f'<circle cx="{x}" cy="{y}" r="5" fill="{"#334455" if word == "yes" else "#d5d9dd"}"/>'
