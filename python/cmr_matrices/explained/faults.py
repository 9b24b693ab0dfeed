"""Faults of texts, by line, column and word, with what the text seems to be."""

from __future__ import annotations

import re
from collections.abc import Iterator, Mapping

from ..errors import TextPlace
from ..matrices.words import LIMIT
from .command_line import Order
from .guesses import Guess, guess, has_size

__all__ = ["text_fault"]

_MATRIX = ("dense", "sparse")
_EVIDENCE = ("tree", "chain", "submatrix")
_WANTED = {
    "dense": "a dense text",
    "sparse": "a sparse text",
    "evidence": "evidence: a tree, a chain or a submatrix text",
    "tree": "a decomposition tree",
    "rows": "a submatrix text, which names the rows",
    "graph": "a graph text",
}
# What the tools read by their words other than a matrix.
_OTHERS = {"EVIDENCE": "evidence", "TREE": "tree", "ROWS": "rows"}
_BINARY = {
    "graphic": "; `network` reads -1 too",
    "regular": ", and signs the ones itself; `tu` reads -1 too",
    "series-parallel": " with `-b`, and -1 too without it",
    "check": " if the evidence is a chain of signs",
}


def text_fault(order: Order, name: str, texts: Mapping[str, bytes], kind: str, byte: int | None) -> list[str]:
    """What there is to say of a fault in the text of a file. `texts` has the bytes of all files that are read."""
    data = texts[name]
    wanted = _wanted(order, name, data)
    if byte is None:
        limit = "256 MiB" if wanted in ("evidence", "tree") else "16 MiB"
        return [f"{name} has {len(data)} bytes, and {_WANTED[wanted]} may have {limit}"]
    seems = guess(data)
    place = TextPlace.at(data, byte)
    said = []
    if data.strip():
        where = f"line {place.line}, column {place.column}" if place.word else "at its end"
        said.append(f"{name}, {where}: {_why(order, wanted, data, kind, byte)}")
    if place.word.startswith(("#", "%", "//")) and seems.kind not in ("notes", "market"):
        said.append(f"{name} has a comment there, and a text for cmr has none")
    if seems.kind == "submatrix" and wanted in _MATRIX and has_size(data, wanted):
        seems = Guess(wanted, _WANTED[wanted])
    others = [guess(text) for file, text in texts.items() if file != name]
    return said + [f"{name} {line}" for line in _guessed(order, wanted, kind, seems, others[0] if others else None)]


def _wanted(order: Order, name: str, data: bytes) -> str:
    """The kind of text that a file was read as. If it was read as two kinds, the first that it cannot be."""
    if "-c" in order.flags:
        return "graph"
    matrix = "sparse" if order.sparse else "dense"
    found = [_OTHERS.get(kind, matrix) for kind, file in order.inputs.items() if file == name]
    if order.tool.name == "upgrade":
        return "tree"
    return next((kind for kind in found if kind != guess(data).kind), found[0]) if found else matrix


def _why(order: Order, wanted: str, data: bytes, kind: str, byte: int) -> str:
    place, before = TextPlace.at(data, byte), len(data[:byte].split())
    word = f"`{place.shown}`"
    head = [int(found) for found in re.findall(rb"[^\t-\r ]+", data[:200])[:4] if found.isdigit() and len(found) < 6]
    match kind:
        case "NotNumber":
            return _not_number(place.shown)
        case "TooBig":
            return f"{word} is above 2147483647"
        case "TooManyRows" | "TooManyColumns":
            return f"{word}: a matrix has at most {LIMIT} {'rows' if kind == 'TooManyRows' else 'columns'}"
        case "Short" | "Extra":
            return _counts(wanted, head, kind, place, before)
        case "BadEntry" | "NotBinary":
            allowed = (
                "-1, 0 and 1"
                if kind == "BadEntry"
                else f"0 and 1, as {order.tool.name} reads{_BINARY.get(order.tool.name, '')}"
            )
            return f"{word}{_entry(wanted, head, before)} is none of {allowed}"
        case "RowOutOfRange" | "ColumnOutOfRange" | "OutOfRange":
            return _out_of_range(wanted, head, kind, place)
    return f"{word} {_KINDS[kind]}" if kind in _KINDS and place.word else _KINDS.get(kind, kind)


_KINDS = {
    "TwiceNamed": "is the column of a place that was named before",
    "OtherSize": "is a size that is not the matrix's",
    "NotRising": "is not above the number before it in its list",
    "WrongVersion": "is where a tree text has `cmr-tree 2`, `cmr-tree 1` or `cmr-pivots 1`, and a chain text `cmr-chain 1`",
    "TooDeep": "begins a node that is deeper than 2,000",
    "UnknownKind": "is no kind of a node (`concentrated` is one only in version 2)",
    "UnknownStep": "is where `free`, `forced` or `violator` is expected",
    "NotPart": "is no line of the node to which it belongs",
    "BadElement": "is where the next row or the next column is expected: r1, r2, .. and then c1, c2, ..",
    "NotTree": "the edges of the rows, which come first, are no tree on the nodes 0 to their number",
}


def _not_number(word: str) -> str:
    shown = f"`{word}`" if word.isprintable() else "the word"
    if re.fullmatch(r"[+-]?[0-9]*\.[0-9]*([eE][+-]?[0-9]+)?|[+-]?[0-9]+[eE][+-]?[0-9]+", word):
        return f"{shown} is no integer, and entries are -1, 0 and 1 without a point"
    if word.startswith("-"):
        return f"{shown} is no count, which has no minus" if word[1:].isdigit() else f"{shown} is no number"
    return f"{shown} is no number"


def _counts(wanted: str, head: list[int], kind: str, place: TextPlace, before: int) -> str:
    left = f"`{place.shown}` is left" if kind == "Extra" else f"the text ends after {before} words"
    if wanted == "dense" and len(head) > 1:
        return f"{left}: the sizes {head[0]} {head[1]} in front are those of {head[0] * head[1]} entries"
    if wanted == "sparse" and len(head) > 2:
        return f"{left}: the third number in front is the number of triples, {head[2]}, of three words each"
    return f"{left} where {_WANTED[wanted]} {'has ended' if kind == 'Extra' else 'goes on'}"


def _entry(wanted: str, head: list[int], before: int) -> str:
    """Which entry of a dense text the word is."""
    if wanted != "dense" or len(head) < 2 or not head[1]:
        return ""
    return f" in row {(before - 2) // head[1] + 1}, column {(before - 2) % head[1] + 1} of the matrix"


def _out_of_range(wanted: str, head: list[int], kind: str, place: TextPlace) -> str:
    if place.word.lstrip("+0") == "" and wanted != "graph":
        return f"`{place.shown}`: rows and columns are counted from 1"
    side = {"RowOutOfRange": 0, "ColumnOutOfRange": 1}.get(kind)
    if side is None or len(head) < 2:
        return f"`{place.shown}` is above the number of what there is"
    return f"`{place.shown}`: there are {head[side]} {('rows', 'columns')[side]}"


def _guessed(order: Order, wanted: str, kind: str, seems: Guess, other: Guess | None) -> Iterator[str]:
    """What the text seems to be, if it is not what was expected. `other` is the other text that is read."""
    what = seems.what
    if seems.kind == "empty":
        yield f"is {what}"
    elif seems.kind == wanted or seems.kind in ("unknown", "numbers") or (wanted, seems.kind) in _FITS:
        if kind == "OtherSize":
            yield "belongs to a matrix of another size"
    elif seems.kind in _MATRIX and wanted in _MATRIX:
        yield f"seems to be {what}, and is read as {_WANTED[wanted]}: `-i {seems.kind}` reads it{_default(seems.kind)}"
    else:
        hint = _hint(order, wanted, seems, other)
        yield f"is read as {_WANTED[wanted]}, and seems to be {seems.what}{f': {hint}' if hint else ''}"


_FITS = (("evidence", "tree"), ("evidence", "chain"), ("evidence", "submatrix"), ("rows", "submatrix"))


def _default(form: str) -> str:
    return " (the same as without `-i`)" if form == "dense" else ""


def _hint(order: Order, wanted: str, seems: Guess, other: Guess | None) -> str:
    """What can be done with a text of another kind than the expected one."""
    words = " ".join(order.tool.operands)
    if other is not None and order.tool.name != "compose":
        if {seems.kind, other.kind} & {*_MATRIX} and {seems.kind, other.kind} & {*_EVIDENCE} and seems.kind != wanted:
            return f"are the two swapped? The words are {words}"
    if seems.kind == "graph" and order.tool.name == "check":
        return "a graph is no evidence for check; `graphic -c` or `network -c` gives the matrix that it shows"
    if seems.kind == "graph" and "-c" in order.tool.flags:
        return "`-c` reads it"
    if seems.kind in ("tree", "chain") and wanted in _MATRIX:
        return "`cmr check MATRIX EVIDENCE` reads it"
    return seems.help
