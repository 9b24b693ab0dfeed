"""A report as one page of HTML that contains its pictures. It loads no other file and runs no script."""

from __future__ import annotations

from collections.abc import Iterable, Iterator
from html import escape
from pathlib import Path

from . import sentences
from .repeating import repeated
from .report import FamilyLine, ModelReport
from .spy import COLOURS, is_titled, spy
from .tree_drawing import drawn_tree

__all__ = ["report_page"]

_TREES = 4
_MOST = 60
_STATES = {
    "kept": ("keep", "kept"),
    "relaxed": ("relax", "relaxed"),
    "partly": ("relax in part", "partly"),
    "open": ("open", "partly"),
}
_VERDICTS = {"yes": "totally unimodular", "no": "not totally unimodular", "undecided": "undecided"}
_KINDS = {
    "network": "a network matrix, with the graph as its evidence",
    "conetwork": "its transpose is a network matrix",
    "r10": "the matrix R10, which is neither",
    "enumerated": "a small matrix of which every set of lines on the shorter side was tried",
    "empty": "nothing is left",
    "reduced": "lines are removed that change no verdict: zero, one nonzero, copies",
    "onesum": "connected parts",
    "twosum": "a two-sum of two parts, joined at a row of one and a column of the other",
    "delta": "a three-sum of two parts",
    "y": "a three-sum of two parts",
    "mixed": "a three-sum of two parts",
    "concentrated": "a three-sum of two parts",
    "pivoted": "the same matrix after a pivot",
    "cycle": "a violator: a cycle with a sum of 2 modulo 4",
    "violator": "a violator",
    "undecided": "left open",
}
"""What the kinds of nodes are."""

_STYLE = """
:root { --ink: #1d2733; --soft: #5b6775; --line: #dde3ea; --paper: #f5f7f9; --yes: #1b7f4b; --no: #b3261e; --open: #9a6700; }
* { box-sizing: border-box; }
body { margin: 0; background: var(--paper); color: var(--ink); font: 15px/1.5 system-ui, "Segoe UI", "DejaVu Sans", Arial, sans-serif; }
main { max-width: 1180px; margin: 0 auto; padding: 28px 28px 60px; }
header { display: flex; gap: 24px; align-items: flex-start; justify-content: space-between; flex-wrap: wrap; margin-bottom: 18px; }
h1 { font-size: 27px; line-height: 1.2; margin: 0 0 4px; overflow-wrap: anywhere; }
h2 { font-size: 18px; margin: 0 0 10px; }
h3 { font-size: 15px; margin: 18px 0 6px; }
p { margin: 6px 0; max-width: 112ch; }
.soft { color: var(--soft); }
.badge { color: #fff; border-radius: 10px; padding: 12px 20px; font-size: 20px; font-weight: 650; white-space: nowrap; }
.badge.yes { background: var(--yes); } .badge.no { background: var(--no); } .badge.undecided { background: var(--open); }
.tiles { display: grid; grid-template-columns: repeat(auto-fit, minmax(150px, 1fr)); gap: 12px; margin: 0 0 18px; }
.tile { background: #fff; border: 1px solid var(--line); border-radius: 10px; padding: 10px 14px; }
.tile b { display: block; font-size: 20px; } .tile span { color: var(--soft); font-size: 13px; }
section { background: #fff; border: 1px solid var(--line); border-radius: 12px; padding: 18px 22px; margin: 0 0 18px; }
.answer { border-left: 6px solid var(--open); } .answer.yes { border-left-color: var(--yes); } .answer.no { border-left-color: var(--no); }
.relax { font-size: 18px; font-weight: 600; }
.warn { color: var(--open); font-weight: 600; }
.scroll { overflow-x: auto; max-width: 100%; }
.beside { display: flex; gap: 20px 48px; flex-wrap: wrap; align-items: flex-start; }
.beside > div { max-width: 100%; } .beside > div.grows { flex: 1 1 380px; }
table { border-collapse: collapse; font-size: 14px; }
th, td { text-align: left; padding: 6px 12px 6px 0; border-bottom: 1px solid var(--line); vertical-align: top; overflow-wrap: anywhere; }
th { color: var(--soft); font-weight: 600; font-size: 13px; white-space: nowrap; } td.number, th.number { text-align: right; }
table.families th.why { width: 60%; }
td.name { min-width: 150px; max-width: 420px; } td.state, td.number { white-space: nowrap; } td.name { overflow-wrap: break-word; }
.pill { border-radius: 99px; padding: 1px 10px; font-size: 13px; font-weight: 600; }
.pill.kept { background: #dcefdc; color: #14532d; } .pill.relaxed { background: #f6cccc; color: #7a1410; }
.pill.partly { background: #fdf0c4; color: #6b4700; }
.chip { display: inline-block; width: 11px; height: 11px; border-radius: 3px; margin-right: 8px; }
table.violator { font-family: ui-monospace, "DejaVu Sans Mono", monospace; font-size: 13px; }
table.violator td, table.violator th { border: 1px solid var(--line); padding: 4px 10px; text-align: center; }
table.violator th { color: var(--ink); } table.violator tbody th { text-align: right; }
table.violator td.one { background: #cfdcec; } table.violator td.minus { background: #e3e8ee; } table.violator td.zero { color: #b5bfca; }
svg text { font: 11px "DejaVu Sans", system-ui, Arial, sans-serif; fill: #33404d; }
svg text.kind { font-weight: 700; } svg text.hit { font-weight: 700; fill: var(--no); }
svg .one { fill: #24384f; } svg g.minus { fill: #fff; stroke: #24384f; stroke-width: 1.5; }
svg path.minus { fill: #7f9bb8; } svg .other { fill: #b3261e; }
svg .beam { fill: #b3261e; fill-opacity: 0.1; } svg .ring { fill: none; stroke: #b3261e; stroke-width: 1.6; }
.legend { display: flex; gap: 6px 20px; flex-wrap: wrap; font-size: 13px; color: var(--soft); margin: 10px 0 0; }
.legend i { display: inline-block; width: 12px; height: 12px; border-radius: 3px; margin-right: 6px; vertical-align: -1px; }
pre { background: #f1f4f7; border: 1px solid var(--line); border-radius: 8px; padding: 10px 14px; overflow-x: auto;
  font-size: 12.5px; line-height: 1.5; margin: 4px 0 2px; }
code, pre { font-family: ui-monospace, "DejaVu Sans Mono", Menlo, monospace; }
details summary { cursor: pointer; color: var(--soft); }
footer { color: var(--soft); font-size: 13px; }
@media (max-width: 720px) {
  main { padding: 16px 12px 40px; } section { padding: 14px 16px; }
  table.families thead { display: none; }
  table.families tr { display: block; padding: 8px 0; border-bottom: 1px solid var(--line); }
  table.families td { display: inline-block; border: 0; padding: 2px 12px 2px 0; } table.families td.why { display: block; }
  td.name { min-width: 0; } td.rows::before { content: "rows "; } td.relaxed:not(:empty)::before { content: "relaxed "; }
}
@media print { body { background: #fff; } main { max-width: none; } section { break-inside: avoid; } }
"""


def report_page(report: ModelReport) -> str:
    """The page."""
    name = escape(Path(report.model).name)
    return "\n".join(
        [
            '<!DOCTYPE html>\n<html lang="en">\n<head>\n<meta charset="utf-8">',
            "<meta http-equiv=\"Content-Security-Policy\" content=\"default-src 'none'; style-src 'unsafe-inline'\">",
            '<meta name="viewport" content="width=device-width, initial-scale=1">',
            f"<title>{name}: {_VERDICTS[report.verdict]}</title>",
            f"<style>{_STYLE}</style>\n</head>\n<body>\n<main>",
            *_head(report, name),
            *_answer(report),
            *_pictures(report),
            *_families(report),
            *_integers(report),
            *_trees(report),
            *_before(report),
            *_commands(report),
            *_foot(report),
            "</main>\n</body>\n</html>\n",
        ]
    )


def _head(report: ModelReport, name: str) -> Iterator[str]:
    rows, columns = report.shape
    nonzeros = sum(map(len, report.rows.entries.values()))
    whole = sum(report.rows.model.whole)
    left = report.reduced.left
    size = f"{left[0]} &times; {left[1]}"
    yield f'<header><div><h1>{name}</h1><div class="soft">Is its linear program integral?</div></div>'
    yield f'<div class="badge {report.verdict}">{_VERDICTS[report.verdict]}</div></header>'
    tiles = [
        (f"{rows} &times; {columns}", "rows (constraints) and columns (variables)"),
        (str(nonzeros), f"nonzeros in {sentences.counted(len(report.families), 'family', 'families')} of rows"),
        (f"{whole} of {columns}", "variables are declared as integers"),
        (size if all(left) else "nothing", "is left by the reductions"),
        (str(len(report.relaxed)) if _has_advice(report) else "-", f"rows to relax of {rows}"),
    ]
    yield '<div class="tiles">'
    yield from (f'<div class="tile"><b>{number}</b><span>{words}</span></div>' for number, words in tiles)
    yield "</div>"


def _has_advice(report: ModelReport) -> bool:
    return report.rest is not None and sentences.is_advice(report)


def _answer(report: ModelReport) -> Iterator[str]:
    yield f'<section class="answer {report.verdict}"><h2>The answer</h2>'
    yield from (f"<p>{escape(sentence)}</p>" for sentence in [*sentences.of_verdict(report), *sentences.of_solution(report)])
    yield from (f'<p class="warn">{escape(sentence)}</p>' for sentence in sentences.of_limits(report))
    relaxation = sentences.of_relaxation(report) if report.verdict != "yes" else []
    for number, sentence in enumerate(relaxation):
        look = ' class="relax"' if not number and _has_advice(report) else ""
        yield f"<p{look}>{escape(sentence)}</p>"
    if report.verdict == "yes" or report.rest is not None:
        look = ' class="warn"' if report.not_whole else ""
        yield f"<p{look}>{escape(sentences.of_sides(report))}</p>"
    coefficients = sentences.of_coefficients(report)
    if coefficients:
        yield "<h3>Coefficients</h3>"
        yield from (f"<p>{escape(sentence)}.</p>" for sentence in coefficients)
    yield "</section>"


def _pictures(report: ModelReport) -> Iterator[str]:
    """The matrix, and beside it the violator if both have room."""
    yield '<section><div class="beside"><div>'
    yield f'<h2>The matrix</h2><div class="scroll">{spy(report)}</div></div>'
    if report.minimal is not None:
        yield '<div class="grows">'
        yield from _violator(report)
        yield "</div>"
    yield "</div>"
    yield from _legend(report)
    yield "</section>"


def _legend(report: ModelReport) -> Iterator[str]:
    minus = "#fff;border:2px solid #24384f" if is_titled(report) else "#7f9bb8"
    yield '<div class="legend">'
    yield f'<span><i style="background:#24384f"></i>1</span><span><i style="background:{minus}"></i>-1</span>'
    if report.rows.refused:
        yield '<span><i style="background:#b3261e"></i>another coefficient</span>'
    if report.relaxed:
        yield '<span><i style="background:repeating-linear-gradient(45deg,#eecdcb 0 3px,#fff 3px 6px)"></i>relaxed</span>'
    if report.minimal:
        yield '<span><i style="border:2px solid #b3261e"></i>the smallest violator</span>'
    if len(report.families) <= 2 * len(COLOURS):
        for number, family in enumerate(report.families):
            yield f'<span><i style="background:{COLOURS[number % len(COLOURS)]}"></i>{escape(family.said)}</span>'
    yield "</div>"


def _violator(report: ModelReport) -> Iterator[str]:
    found = report.minimal
    if found is None:
        return
    said = sentences.of_violator(report)
    yield f"<h2>The smallest violator that was found</h2><p>It has {escape(said)}.</p>"
    if max(len(found.row_names), len(found.column_names)) > 24:
        yield f"<p>rows {escape(', '.join(found.row_names))}</p><p>columns {escape(', '.join(found.column_names))}</p>"
    else:
        yield '<div class="scroll"><table class="violator"><thead><tr><th></th>'
        yield from (f"<th>{escape(name)}</th>" for name in found.column_names)
        yield "</tr></thead><tbody>"
        for name, entries in zip(found.row_names, found.entries):
            yield f"<tr><th>{escape(name)}</th>{''.join(map(_cell, entries))}</tr>"
        yield "</tbody></table></div>"
    if found.determinant in (2, -2):
        yield (
            f'<p class="soft">By Cramer&#x27;s rule with the determinant {found.determinant}, inequalities in these rows and variables '
            "only have a vertex with a half for some integral right-hand sides.</p>"
        )


def _cell(entry: int) -> str:
    kind = {0: "zero", 1: "one", -1: "minus"}[entry]
    return f'<td class="{kind}">{entry}</td>'


def _families(report: ModelReport) -> Iterator[str]:
    yield '<section><h2>The families of rows</h2><table class="families"><thead><tr><th>family</th><th class="number">rows</th>'
    more = '<th class="number">relaxed</th><th class="why">why</th>' if report.relaxed else ""
    yield f"<th>what</th>{more}</tr></thead><tbody>"
    ordered = sorted(enumerate(report.families), key=lambda pair: pair[1].state == "kept")
    for number, family in ordered[:_MOST]:
        yield _family(report, number, family)
    yield "</tbody></table>"
    if len(ordered) > _MOST:
        yield f'<p class="soft">and {len(ordered) - _MOST} other families</p>'
    yield f'<p class="soft">{escape(sentences.of_families(report))}</p></section>'


def _family(report: ModelReport, number: int, family: FamilyLine) -> str:
    words, look = _STATES[family.state]
    why = sentences.why_relaxed(report, family)
    if family.state == "partly":
        names = [report.rows.model.rows[row] for row in family.relaxed]
        why = f"{why}; relaxed: {sentences.listed(names, 12)}"
    chip = f'<span class="chip" style="background:{COLOURS[number % len(COLOURS)]}"></span>'
    count = len(family.relaxed) or ""
    more = f'<td class="number relaxed">{count}</td><td class="why">{escape(why)}</td>' if report.relaxed else ""
    return (
        f'<tr><td class="name">{chip}{escape(family.said)}</td><td class="number rows">{family.rows}</td>'
        f'<td class="state"><span class="pill {look}">{words}</span></td>{more}</tr>'
    )


def _integers(report: ModelReport) -> Iterator[str]:
    said = sentences.of_integers(report)
    if said:
        yield "<section><h2>Which variables have to stay integer</h2>"
        yield from (f"<p>{escape(sentence)}</p>" for sentence in said)
        yield "</section>"


def _trees(report: ModelReport) -> Iterator[str]:
    asked = report.rest if report.rest is not None else report.whole
    trees = [piece.tree for piece in asked.pieces if piece.tree is not None]
    if not trees:
        return
    title = "Why the remaining rows are totally unimodular" if report.relaxed and report.rest is not None else "The decomposition"
    yield f"<section><h2>{title}</h2>"
    if report.reason and asked.verdict == "yes":
        yield f"<p>{escape(report.reason.sentence)}</p>"
    yield '<div class="beside">'
    yield from (f'<div class="scroll">{drawn_tree(tree)}</div>' for tree in trees[:_TREES])
    yield "</div>"
    if len(trees) > _TREES:
        yield f'<p class="soft">and {len(trees) - _TREES} other connected parts</p>'
    kinds = dict.fromkeys(node.kind for tree in trees[:_TREES] for _, node in tree.walk())
    yield f'<p class="soft">{"; ".join(f"<b>{kind}</b>: {escape(_KINDS[kind])}" for kind in kinds)}.</p>'
    yield from _outline(line for tree in trees[:_TREES] for line in tree.outline().splitlines())
    yield "</section>"


def _outline(lines: Iterable[str]) -> Iterator[str]:
    shown = list(lines)
    yield "<details><summary>the same as an outline by names</summary><pre>"
    yield "\n".join(escape(line) for line in shown[:400])
    yield "</pre></details>"


def _before(report: ModelReport) -> Iterator[str]:
    yield f"<section><h2>Reductions</h2><p>{escape(sentences.of_reductions(report))}</p></section>"


def _commands(report: ModelReport) -> Iterator[str]:
    yield "<section><h2>How to repeat it</h2>"
    yield (
        '<p class="soft">These commands repeat each answer. Run them in this order in one folder. In a clone '
        "<code>model_to_matrix</code> and <code>name_lines</code> are in <code>scripts/</code>, and <code>./cmr</code> "
        "is the program. Where the program is installed, they are <code>cmr-from-model</code> and <code>cmr-names</code>.</p>"
    )
    if report.is_in_memory:
        yield f"<p>The commands read the file <code>{escape(report.file)}</code>, whose text <code>ModelReport.to_mps()</code> gives.</p>"
    for it in repeated(report):
        if it.commands:
            says = f' <span class="soft">prints <code>{escape(it.says)}</code></span>' if it.says else ""
            yield f"<h3>{escape(it.what[:1].upper() + it.what[1:])}{says}</h3>"
            yield f"<pre>{escape(chr(10).join(it.commands))}</pre>"
    yield "</section>"


def _foot(report: ModelReport) -> Iterator[str]:
    asked = sentences.counted(report.asked, "question", "questions")
    checked = sentences.counted(report.checked, "piece of evidence", "pieces of evidence")
    unproved = "" if report.is_proved else " The program was compiled by <code>./try-cmr</code> without proofs."
    arithmetic = "".join(f"<p>{escape(it)}</p>" for it in sentences.of_arithmetic(report))
    yield (
        f"<footer>{arithmetic}<p>The program <code>cmr</code> answered {asked}, and <code>cmr check</code> accepted {checked}.{unproved} "
        "The Python package computed graphs, reductions and determinants again.</p></footer>"
    )
