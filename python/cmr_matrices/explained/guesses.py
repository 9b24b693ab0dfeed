"""What a text seems to be, whatever it was read as."""

from __future__ import annotations

import re
from dataclasses import dataclass

__all__ = ["Guess", "guess", "has_size"]

_SPACE = b"\t\n\x0b\x0c\r "
_WHOLE = re.compile(r"[+-]?[0-9]+")
_DECIMAL = re.compile(r"[+-]?([0-9]+\.?[0-9]*|\.[0-9]+)([eE][+-]?[0-9]+)?")
_PACKAGE = "the Python package in python/ takes it"
_MAGIC = [
    (b"\x93NUMPY", "npy", "an array that numpy.save wrote", _PACKAGE + ": `Matrix.of(numpy.load(..)).to_text()`"),
    (b"PK\x03\x04", "zip", "a zip file, as .npz, .xlsx and .ods are", "cmr reads plain text"),
    (b"\x1f\x8b", "gzip", "a gzip file", "`gunzip -c FILE | cmr TOOL -` reads it"),
    (b"\xff\xfe", "utf16", "a text in UTF-16", "`iconv -f utf-16 -t utf-8` turns it into plain text"),
    (b"\xfe\xff", "utf16", "a text in UTF-16", "`iconv -f utf-16 -t utf-8` turns it into plain text"),
]
_BY_FRONT = [
    ("tree", r"cmr-(?:tree|pivots)\b", "a decomposition tree", ""),
    ("chain", r"cmr-chain\b", "a chain of signs", ""),
    ("market", r"%%MatrixMarket", "a Matrix Market file", f"{_PACKAGE}: `Matrix.of(scipy.io.mmread(..)).to_text()`"),
    ("graph", r"\s*[0-9]+\s+[0-9]+\s+[rc][0-9]+\s", "a graph text", "`graphic -c` and `network -c` read it"),
    ("steps", r"[rc][0-9]+ (zero|unit|copy|negative)\b", "a list of reductions", "no tool reads it"),
    ("names", r"[rc]1 \S", "the names that model_to_matrix writes", "its matrix is in the other file"),
    (
        "answer",
        r"(totally unimodular|regular|graphic|cographic|network|conetwork|balanced|signed|camion): ",
        "what cmr printed",
        "",
    ),
    ("xml", r"<", "XML or HTML", ""),
    (
        "dimacs",
        r"(c .*\n|c\n)*p\s+(edge|col|cnf|sp|max|min|asn)\b",
        "a graph or formula in DIMACS",
        "scripts/edges_to_graph reads edges, each as two nodes: `sed -n 's/^[ea] //p' FILE`",
    ),
    ("json", r"\s*\{", "a JSON object", f"{_PACKAGE}: `Matrix.of(rows).to_text()`"),
    ("dot", r"\s*(strict\s+)?(di)?graph\b", "a picture in DOT", "that is for Graphviz"),
    (
        "lp",
        r"(\\.*\n|\s)*(max|min)(imi[sz]e|imum)?\b[^;]*\n",
        "a model in the LP format",
        "scripts/model_to_matrix reads it",
    ),
    (
        "mathprog",
        r"(#.*\n|/\*(.|\n)*?\*/|\s)*(set|param|var)\s+\w+",
        "a model in GNU MathProg",
        "scripts/model_to_matrix reads it",
    ),
]
_NOTE = re.compile(r"[ \t]*(#|%|//|;)")


@dataclass(frozen=True)
class Guess:
    """A kind of text by a short name, what to call it, and what can be done with it."""

    kind: str
    what: str
    help: str = ""


def guess(data: bytes) -> Guess:
    """What the bytes seem to be. The kinds `dense`, `sparse`, `submatrix` and `rows` contain only numbers."""
    if not data.strip(_SPACE):
        return Guess("empty", "empty" if not data else "empty: it has only white space")
    for magic, kind, what, aid in _MAGIC:
        if data.startswith(magic):
            return Guess(kind, what, aid)
    if data.startswith(b"\xef\xbb\xbf"):
        inner = guess(data[3:])
        return Guess(
            "bom",
            f"{inner.what} after a byte order mark, which editors of Windows write first",
            "`tail -c +4 FILE` leaves it out",
        )
    if b"\0" in data[:4096]:
        return Guess("binary", "no text: it has zero bytes", "cmr reads plain text")
    text = data.decode("utf-8", "replace")
    for kind, front, what, aid in _BY_FRONT:
        if re.match(front, text[:4096], re.IGNORECASE):
            return Guess(kind, what, aid)
    if re.search(r"^ROWS\s*$", text, re.M) and re.search(r"^COLUMNS\s*$", text, re.M):
        return Guess("mps", "a model in MPS", "scripts/model_to_matrix reads it")
    return _of_numbers(text)


def has_size(data: bytes, kind: str) -> bool:
    """Whether a text contains only integers, and as many as a `dense`, `sparse` or `submatrix` text with these counts."""
    words = data.decode("utf-8", "replace").split()
    return all(_WHOLE.fullmatch(word) for word in words) and _has_counts([int(word[:12]) for word in words], kind)


def _of_numbers(text: str) -> Guess:
    if named := _below_names(text):
        return named
    if _NOTE.match(text):
        inner = _of_numbers(
            "".join(f"{line}\n" for line in text.splitlines() if line.strip() and not _NOTE.match(line)) or "?"
        )
        return Guess(
            "notes",
            f"{inner.what}, with comment lines",
            "a text for cmr has no comments: `grep -v '^[#%]'` leaves them out",
        )
    if rows := _matlab(text):
        return Guess(
            "matlab",
            f"rows with `;` between them, as MATLAB has them, {rows[0]} rows of {rows[1]}",
            "only white space may stand between numbers, " + _HEAD,
        )
    if re.match(r"\s*(\w+\()?[\[({]", text):
        return Guess(
            "brackets",
            f"rows in brackets, as Python, JSON, numpy and Sage have them{_sized(text, '[^0-9+.eE-]+')}",
            "only white space may stand between numbers, " + _HEAD,
        )
    if "\N{MINUS SIGN}" in text or "\N{EN DASH}" in text:
        return Guess("minus", "numbers with a typographic minus", "`-` is the minus of a text for cmr")
    if found := re.match(r"[^\n]*?[0-9\"] *([,;|&])", text):
        sized = _sized(text, rf"[{found[1]}\\ ]+")
        return Guess(
            "csv",
            f"a table with `{found[1]}` between its entries{sized}",
            "only white space may stand between numbers, " + _HEAD,
        )
    if re.match(r"\s*[0-9]+ *[xX*] *[0-9]+\s", text):
        return Guess("sizes", "a matrix with a sign between its sizes", "the sizes are two numbers with a space between them")
    if glued := _glued(text):
        return glued
    words = text.split()
    if all(_WHOLE.fullmatch(word) for word in words):
        return _whole(text, words)
    if all(_DECIMAL.fullmatch(word) for word in words):
        return Guess(
            "decimals",
            f"rows of decimal numbers, as numpy.savetxt writes them{_sized(text)}",
            "entries are -1, 0 and 1 (`fmt='%d'` with numpy.savetxt), " + _HEAD,
        )
    return Guess("unknown", "no text that is known here")


_HEAD = "and the numbers of rows and columns come first"


def _whole(text: str, words: list[str]) -> Guess:
    """A text of integers only. Their number and their sizes determine what it can be."""
    numbers = [int(word[:12]) for word in words]
    found = [kind for kind, fits in _FITS.items() if _has_counts(numbers, kind) and fits(numbers)]
    found += ["rows"] if _table(text) and all(abs(number) < 2 for number in numbers) else []
    found += [kind for kind in _FITS if _has_counts(numbers, kind)]
    rows = _table(text) or (0, 0)
    match found[:1]:
        case ["rows"]:
            return Guess("rows", f"the rows of a matrix without its sizes, which come first: `{rows[0]} {rows[1]}`")
        case ["submatrix"]:
            return Guess("submatrix", f"a submatrix text for a matrix of size {numbers[0]}x{numbers[1]}")
        case [kind]:
            return Guess(kind, f"a {kind} text of size {numbers[0]}x{numbers[1]}")
    return Guess("numbers", f"{len(words)} integers, which are neither a dense nor a sparse text")


def _has_counts(numbers: list[int], kind: str) -> bool:
    """Whether there are as many numbers as the first ones say."""
    match kind, numbers:
        case "dense", [rows, columns, *rest]:
            return min(rows, columns) >= 0 and len(rest) == rows * columns
        case "sparse", [rows, columns, triples, *rest]:
            return min(rows, columns, triples) >= 0 and len(rest) == 3 * triples
        case "submatrix", [rows, columns, some_rows, some_columns, *rest]:
            return min(rows, columns, some_rows, some_columns) >= 0 and len(rest) == some_rows + some_columns
    return False


def _is_dense(numbers: list[int]) -> bool:
    return all(abs(number) < 2 for number in numbers[2:])


def _is_sparse(numbers: list[int]) -> bool:
    rows, columns, _, *rest = numbers
    return (
        all(0 < row <= rows for row in rest[0::3])
        and all(0 < column <= columns for column in rest[1::3])
        and all(abs(value) < 2 for value in rest[2::3])
    )


def _is_submatrix(numbers: list[int]) -> bool:
    rows, columns, some, _, *rest = numbers
    return all(0 < row <= rows for row in rest[:some]) and all(0 < column <= columns for column in rest[some:])


_FITS = {"dense": _is_dense, "sparse": _is_sparse, "submatrix": _is_submatrix}


def _below_names(text: str) -> Guess | None:
    """A table of numbers whose first line, and maybe first column, has names."""
    head, _, below = text.lstrip("\n").partition("\n")
    for between in ",;\t| ":
        columns = [word.strip(' "') for word in head.split(between)]
        lines = [[word.strip(' "') for word in line.split(between)] for line in below.splitlines() if line.strip()]
        if len(columns) < 2 or not lines or any(len(line) != len(columns) for line in lines):
            continue
        first = 0 if all(_DECIMAL.fullmatch(line[0]) for line in lines) else 1
        are_numbers = all(_DECIMAL.fullmatch(word) for line in lines for word in line[first:])
        if are_numbers and all(re.match(r"[^\W\d]", word) for word in columns[first:]):
            shown = {"\t": "tabs", " ": "spaces"}.get(between, f"`{between}`")
            size = f"{len(lines)} rows of {len(columns) - first}"
            options = ("" if between == "," else f", sep={between!r}") + (", index_col=0" if first else "")
            beside = ", and names in the first column," if first else ""
            return Guess(
                "csv",
                f"a table with {shown} between its entries{beside} below a line of names, {size}",
                f"a text for cmr has no names; {_PACKAGE}: `Matrix.of(pandas.read_csv(..{options})).to_text()`",
            )
    return None


def _glued(text: str) -> Guess | None:
    """Rows of digits 0 and 1 with nothing between them, maybe below the sizes."""
    head, *rows = text.split("\n")
    has_sizes = re.fullmatch(r"\s*[0-9]+ +[0-9]+\s*", head) is not None
    rows = [row.strip() for row in (rows if has_sizes else [head, *rows]) if row.strip()]
    are_digits = all(re.fullmatch(r"[01]+", row) and len(row) == len(rows[0]) for row in rows)
    if not are_digits or len(rows) < (1 if has_sizes else 2) or len(rows[0]) < 2:
        return None
    aid = "`sed '2,$ s/./& /g'`" if has_sizes else "`sed 's/./& /g'`"
    what = f"{len(rows)} rows of {len(rows[0])} digits with no space between them"
    return Guess("glued", what, f"{aid} writes spaces between the digits{'' if has_sizes else ', ' + _HEAD}")


def _sized(text: str, between: str = r"\s+") -> str:
    rows = _table(text, between)
    return f", {rows[0]} rows of {rows[1]}" if rows and rows[0] > 1 else ""


def _matlab(text: str) -> tuple[int, int] | None:
    """The numbers of rows and of columns, if rows of several numbers are separated by `;` and not only by line ends."""
    plain = re.sub(r"^\s*(\w+\s*=)?\s*\[|\]\s*;?\s*$", "", text)
    if ";" not in plain or not re.fullmatch(r"[0-9;,.+\s-]*", plain):
        return None
    rows = _table(plain.replace(";", "\n"), r"[,\s]+")
    return rows if rows and min(rows) > 1 else None


def _table(text: str, between: str = r"\s+") -> tuple[int, int] | None:
    """The number of lines and of words in each line, if all lines have the same number of words."""
    lines = [[word for word in re.split(between, line) if word] for line in text.splitlines()]
    lengths = [len(line) for line in lines if line]
    return (len(lengths), lengths[0]) if lengths and len(set(lengths)) == 1 else None
