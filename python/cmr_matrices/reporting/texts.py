"""A report as text, and as JSON."""

from __future__ import annotations

import json
from collections.abc import Iterable, Iterator
from typing import Any

from . import sentences
from .integers import ColumnFamily, Integers
from .minimal import Minimal
from .pieces import Asked, Cells
from .repeating import repeated
from .report import FamilyLine, ModelReport
from .rows import NotWhole
from .solving import Solved

__all__ = ["report_json", "report_text"]

_MOST = 20
"""The most families that are listed, and the most lines of a tree and of a violator."""

_STATES = {"kept": "keep", "relaxed": "relax", "partly": "in part", "open": "open"}


def report_text(report: ModelReport) -> str:
    """The report in lines, of which the first is the verdict as `cmr tu` prints it."""
    return "".join(f"{line}\n" for line in _lines(report))


def _lines(report: ModelReport) -> Iterator[str]:
    yield f"totally unimodular: {report.verdict}"
    yield from sentences.of_verdict(report)
    if report.verdict == "yes":
        yield sentences.of_sides(report)
    yield from sentences.of_solution(report)
    yield from _titled("Limits", sentences.of_limits(report))
    yield from _titled("Coefficients", sentences.of_coefficients(report))
    if report.minimal is not None:
        yield ""
        yield f"The smallest violator that was found has {sentences.of_violator(report)}."
        yield from _table(report)
    if report.verdict != "yes":
        yield ""
        yield from _families(report)
        title = "What to relax" if sentences.is_advice(report) else "What is known to fit together"
        yield from _titled(title, [*sentences.of_relaxation(report), *_sides_of_rest(report)])
        yield from _titled("Which variables have to stay integer", sentences.of_integers(report))
    yield from _titled("Reductions", [sentences.of_reductions(report)])
    yield from _tree(report)
    yield ""
    yield from sentences.of_arithmetic(report)
    checked = sentences.counted(report.checked, "piece of evidence", "pieces of evidence")
    yield f"{sentences.counted(report.asked, 'question')} to cmr; cmr check accepted {checked}."


def _titled(title: str, lines: list[str]) -> Iterator[str]:
    if lines:
        yield ""
        yield f"{title}:"
        yield from (f"  {line}" for line in lines)


def _sides_of_rest(report: ModelReport) -> list[str]:
    return [sentences.of_sides(report)] if report.rest is not None else []


def _table(report: ModelReport) -> Iterator[str]:
    found = report.minimal
    assert found is not None
    if max(len(found.row_names), len(found.column_names)) > _MOST:
        yield f"  rows {sentences.listed(found.row_names, 10)}"
        yield f"  columns {sentences.listed(found.column_names, 10)}"
        return
    width = max(map(len, found.row_names))
    widths = [max(len(name), 2) for name in found.column_names]
    yield f"  {'':{width}}  {'  '.join(name.rjust(size) for name, size in zip(found.column_names, widths))}"
    for name, entries in zip(found.row_names, found.entries):
        shown = "  ".join(("." if not entry else str(entry)).rjust(size) for entry, size in zip(entries, widths))
        yield f"  {name:{width}}  {shown}"


def _families(report: ModelReport) -> Iterator[str]:
    yield "  rows  relaxed  what     family"
    ordered = sorted(report.families, key=lambda family: family.state == "kept")
    for family in ordered[:_MOST]:
        why = sentences.why_relaxed(report, family)
        said = f"{family.said}: {why}" if why else family.said
        yield f"{family.rows:6}  {len(family.relaxed):7}  {_STATES[family.state]:7}  {said}"
    if len(ordered) > _MOST:
        yield f"and {len(ordered) - _MOST} other families"
    if any(family.pattern for family in report.families):
        yield sentences.of_families(report)


def _tree(report: ModelReport) -> Iterator[str]:
    asked = report.rest if report.rest is not None else report.whole
    lines = [line for piece in asked.pieces if piece.tree is not None for line in piece.tree.outline().splitlines()]
    if lines:
        yield ""
        yield f"The decomposition of {'the remaining rows' if report.relaxed else 'the matrix'}:"
        yield from (f"  {line if len(line) <= 200 else line[:200] + ' ..'}" for line in lines[:_MOST])
        if len(lines) > _MOST:
            yield f"  and {len(lines) - _MOST} other nodes"


def report_json(report: ModelReport) -> str:
    """One object, whose keys do not depend on the model."""
    return json.dumps(_object(report), indent=1, ensure_ascii=False) + "\n"


def _object(report: ModelReport) -> dict[str, Any]:
    model = report.rows.model
    return {
        "model": report.model,
        "file": report.file,
        "in_memory": report.is_in_memory,
        "totally_unimodular": report.verdict,
        "rows": len(model.rows),
        "columns": len(model.columns),
        "whole_variables": sum(model.whole),
        "pivots": report.pivots,
        "why": None if report.reason is None else {"class": report.reason.word, "sentence": report.reason.sentence},
        "not_whole": [_not_whole(it) for it in report.not_whole],
        "left_out": model.left_out,
        "coefficients": {
            "refused": [model.rows[row] for row in sorted(report.rows.refused)],
            "divided": {scaling.name: str(scaling.factor) for scaling in report.rows.divided.values()},
        },
        "violator": _minimal(report.minimal),
        "families": [_family(report, family) for family in report.families],
        "relax": _relaxation(report),
        "integers": _integers(report, report.integers),
        "solved": _solved(report, report.solved),
        "arithmetic": sentences.of_arithmetic(report),
        "open": None if report.verdict != "undecided" else {"why": report.whole.why_open} | _open(report),
        "ended": dict(report.ended),
        "reduced": _reduced(report),
        "tree": _outline(report.rest if report.rest is not None else report.whole),
        "asked": report.asked,
        "checked": report.checked,
        "commands": [{"what": it.what, "commands": it.commands, "says": it.says} for it in repeated(report)],
    }


def _minimal(found: Minimal | None) -> dict[str, Any] | None:
    return None if found is None else {
        "rows": found.row_names,
        "columns": found.column_names,
        "entries": found.entries,
        "minimal": found.is_minimal,
        "determinant": found.determinant,
    }


def _family(report: ModelReport, family: FamilyLine) -> dict[str, Any]:
    return {
        "family": family.name,
        "said": family.said,
        "rows": family.rows,
        "state": family.state,
        "relaxed": [report.rows.model.rows[row] for row in family.relaxed],
        "why": sentences.why_relaxed(report, family),
        "violator": _cells(report, family.violator),
    }


def _relaxation(report: ModelReport) -> dict[str, Any]:
    model = report.rows.model
    return {
        "said": report.relax_said,
        "has_reasons": sentences.is_advice(report),
        "rows": [model.rows[row] for row in report.relaxed],
        "largest": report.kept is not None and report.kept.is_largest,
        "rest_is_totally_unimodular": report.rest is not None,
        "solves_as_a_linear_program": report.rest is not None and not report.not_whole and not model.left_out,
    }


def _integers(report: ModelReport, found: Integers | None) -> dict[str, Any] | None:
    if found is None:
        return None
    names = report.rows.model.columns
    return {
        "declare": [names[column] for column in found.fixed] if found.answer is not None else None,
        "continuous": [names[column] for column in found.free] if found.answer is not None else None,
        "suffices": found.suffices,
        "smallest": found.is_smallest,
        "declared_in_model": found.is_declared,
        "not_whole": [_not_whole(it) for it in found.not_whole],
        "class": None if found.reason is None else found.reason.word,
        "families": [_column_family(report, family) for family in found.families],
        "tree": [] if found.answer is None else _outline(found.answer),
    }


def _solved(report: ModelReport, found: Solved | None) -> dict[str, Any] | None:
    names = report.rows.model.columns
    return None if found is None else {
        "state": found.state,
        "value": found.value,
        "fractional": {names[column]: value for column, value in found.fractional},
        "best": found.best,
        "is_best": found.is_best,
    }


def _column_family(report: ModelReport, family: ColumnFamily) -> dict[str, Any]:
    names = report.rows.model.columns
    return {
        "family": family.name,
        "said": family.said,
        "columns": len(family.columns),
        "declare": [names[column] for column in family.fixed],
        "coefficients": [names[column] for column in family.coefficients],
        "violator": _cells(report, family.violator),
    }


def _reduced(report: ModelReport) -> dict[str, Any]:
    found = report.reduced
    return {"rows": found.rows, "columns": found.columns, **found.counts, "left": found.left, "parts": found.parts}


def _open(report: ModelReport) -> dict[str, Any]:
    return _cells(report, report.whole.open) or {}


def _cells(report: ModelReport, cells: Cells | None) -> dict[str, Iterable[str]] | None:
    return None if cells is None else dict(zip(("rows", "columns"), report.names_of(cells)))


def _not_whole(it: NotWhole) -> dict[str, Any]:
    return {"kind": it.kind, "name": it.name, "value": it.value, "rounded": it.rounded}


def _outline(asked: Asked) -> list[str]:
    return [line for piece in asked.pieces if piece.tree is not None for line in piece.tree.outline().splitlines()]
