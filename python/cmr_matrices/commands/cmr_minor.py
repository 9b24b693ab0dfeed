"""Names an excluded minor of a matrix that is outside of a class, or checks such a minor.

    cmr-minor CLASS [MATRIX]       asks cmr, and prints a minor if the answer is no; MATRIX may be standard input
    cmr-minor check MATRIX MINOR   checks the minor that -M wrote, by plain arithmetic, without cmr

CLASS is one of tu, regular, graphic, cographic, network, conetwork, series-parallel and binary-series-parallel.

Status: 0 for a yes, 1 for a no and for a minor that is accepted, 2 if the arguments are refused, 3 if a text is refused, 4 if a file
cannot be read or written, 5 if there is not enough memory, 6 for an undecided answer, 7 for a minor that check refuses, 70 if the
program is missing or fails.
"""

from __future__ import annotations

import argparse
import os
import sys
from collections.abc import Callable, Iterator
from dataclasses import replace

from ..errors import CmrError, TimeLimitReached, Undecided, Unreadable
from ..matrices.lines import Line, LineSet, Names
from ..matrices.matrix import Matrix
from ..questions.excluded import CLASSES, ExcludedMinor, minor_class
from ..questions.minors import excluded_minor
from ..questions.represented import Matroid
from ..running.program import NO, REFUSED, UNDECIDED, YES
from .command import command_parser, integer_between, named_faults, numbers_of, read_as, status_of, write_text

__all__ = ["main"]


def arguments() -> argparse.Namespace:
    """What the words of the command line say."""
    parser = command_parser(__doc__)
    add = parser.add_argument
    add("of", metavar="CLASS", choices=[*(kind.word for kind in CLASSES), "check"], help="the class, or check")
    add("files", metavar="FILE", nargs="*", help="MATRIX, and with check MATRIX and MINOR; - is standard input")
    add("-i", dest="format", choices=("dense", "sparse"), default="dense", help="the format of MATRIX (dense)")
    add("-M", metavar="MINOR", dest="minor", help="write the minor to this file, to be checked")
    add("--names", metavar="NAMES", help="print the names in this file, which model_to_matrix or named wrote")
    add("--sage", action="store_true", help="print a last line with the minor, which Sage reads")
    add("--lines", metavar="L", type=numbers_of("--lines"), help="the budget of the searches (14)")
    add(
        "--pivots",
        metavar="K",
        type=numbers_of("--pivots"),
        default=20,
        help="make up to K pivots of an open part (20)",
    )
    add("--time-limit", metavar="S", type=integer_between(1, 10**8), help="end the runs of cmr after S seconds")
    add("--program", metavar="PATH", help="the path of the program cmr")
    chosen = parser.parse_intermixed_args()
    if len(chosen.files) > 1 + (chosen.of == "check") or (chosen.of == "check" and len(chosen.files) < 2):
        parser.error("check takes MATRIX and MINOR" if chosen.of == "check" else "there is one MATRIX at most")
    if chosen.of == "check" and chosen.minor:
        parser.error("-M does not go with check, which writes nothing")
    return chosen


def _asked(chosen: argparse.Namespace) -> int:
    """Asks whether a matrix is in a class, and prints the minor of a no."""
    kind = minor_class(chosen.of)
    name = chosen.files[0] if chosen.files else "-"
    matrix = _matrix(chosen, name)
    if kind.field == 2:
        with named_faults(name):
            matrix.must_be_binary()
    try:
        minor = excluded_minor(
            matrix,
            kind.name,
            lines=chosen.lines,
            pivots=chosen.pivots,
            time_limit=chosen.time_limit,
            program=chosen.program,
        )
    except (Undecided, TimeLimitReached) as fault:
        _say(str(fault))
        _print([f"{kind.name}: undecided"])
        return UNDECIDED
    if minor is None:
        _print([f"{kind.name}: yes"])
        return YES
    if chosen.minor:
        write_text(chosen.minor, minor.to_text())
    _print([f"{kind.name}: no", *_lines(minor, matrix, chosen.sage)])
    return NO


def _checked(chosen: argparse.Namespace) -> int:
    """Checks a minor on a matrix."""
    matrix = _matrix(chosen, chosen.files[0])
    minor = replace(read_as(chosen.files[1], ExcludedMinor.from_text), names=matrix.names)
    fault = minor.fault(matrix, first=1)
    if fault is not None:
        _print([f"refused: {fault}"])
        return REFUSED
    _print([f"accepted: not {minor.property_name}", *_lines(minor, matrix, chosen.sage)])
    return NO


def _matrix(chosen: argparse.Namespace, name: str) -> Matrix:
    matrix = read_as(name, lambda text: Matrix.from_text(text, sparse=chosen.format == "sparse"))
    if not chosen.names:
        return matrix
    names = read_as(chosen.names, Names.from_text)
    return Matrix.of(matrix, row_names=names.rows, column_names=names.columns)


def _lines(minor: ExcludedMinor, matrix: Matrix, with_sage: bool) -> Iterator[str]:
    """The printed lines, with the names of the matrix or with numbers counted from 1."""
    names = minor.names
    name: Callable[[Line], str] = (lambda line: line.word) if names is None else names.line
    yield f"minor {minor.name}"
    for row, column in minor.pivots:
        yield f"pivot {name(Line('row', row))} {name(Line('column', column))}"
    yield " ".join(["elements", *(f"{name(line)}={element}" for line, element in minor.elements.items())])
    for what, lines in (("deleted", minor.deleted), ("contracted", minor.contracted)):
        yield f"{what} {_numbers(lines) if names is None else names.line_set(lines)}"
    if with_sage:
        shown = minor.displayed(matrix)
        labels, rank = [name(line) for line in minor.elements], shown.shape[0]
        yield Matroid.of(shown, minor.field, row_names=labels[:rank], column_names=labels[rank:]).to_sage()


def _numbers(lines: LineSet) -> str:
    rows, columns = ([str(number + 1) for number in numbers] for numbers in (lines.rows, lines.columns))
    return " ".join(["rows", *rows, "columns", *columns])


def _print(lines: list[str]) -> None:
    try:
        write_text("-", "".join(f"{line}\n" for line in lines))
        sys.stdout.flush()
    except (Unreadable, OSError) as fault:
        os.dup2(os.open(os.devnull, os.O_WRONLY), sys.stdout.fileno())
        raise Unreadable("cannot write -") from fault


def _say(line: str) -> None:
    print(f"cmr-minor: {line}", file=sys.stderr)


def main() -> int:
    """Runs the command, and gives its status."""
    chosen = arguments()
    try:
        return _checked(chosen) if chosen.of == "check" else _asked(chosen)
    except CmrError as fault:
        _say(str(fault))
        return status_of(fault)
    except KeyboardInterrupt:
        return 130
