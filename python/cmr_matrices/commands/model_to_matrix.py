"""Writes the constraint matrix of a linear model as a sparse text for cmr, with the names of its rows and columns.

Free rows, such as the objective, and bounds are omitted. If the matrix has an entry other than -1, 0 and 1, nothing is written: the
matrix is not totally unimodular, and the error names the position of the first such entry and the families of the rows. The names of a
family are the same up to digits and bracketed text.
"""

from __future__ import annotations

import argparse
import re
from collections.abc import Callable, Iterator
from pathlib import Path

from ..errors import BadCoefficients, BadInput, Family
from ..matrices.lines import Names
from ..matrices.matrix import Matrix
from ..matrices.words import LIMIT
from ..models.constraints import Choice, Constraints
from ..models.model_reductions import connected_parts, counted, reduced
from ..models.modellers import constraints_of_file, matrix_of_part
from .command import command_parser, end, read_text, write_text

FAMILIES = 20
"""The most families of rows that are listed."""


def pattern(text: str) -> re.Pattern[str]:
    try:
        return re.compile(text)
    except re.error as fault:
        raise argparse.ArgumentTypeError(f"{text} is no regular expression: {fault}") from fault


def arguments() -> argparse.Namespace:
    """The arguments of the command line."""
    parser = command_parser(__doc__)
    parser.add_argument(
        "model", metavar="MODEL", help="the model: free or fixed MPS, GNU MathProg, or the LP format of CPLEX"
    )
    parser.add_argument("matrix", metavar="MATRIX", help="the file that gets the matrix, as a sparse text")
    parser.add_argument(
        "names", metavar="NAMES", help="the file that gets the names: a line `r1 NAME` or `c1 NAME` for each line"
    )
    parser.add_argument(
        "--format",
        choices=("mps", "mathprog", "lp"),
        help="the model's format (by default .mod is mathprog, .lp is lp, .mps is mps, and otherwise the content decides)",
    )
    _add_choices(parser)
    parser.add_argument(
        "--reduce",
        metavar="LIST",
        help="remove lines that are zero, have one nonzero, or are copies or negatives, and list them in this file",
    )
    parser.add_argument(
        "--parts",
        metavar="DIR",
        help="a folder that gets a matrix and names for each connected part of what is left; then MATRIX and NAMES "
        "are written only if they have no more lines than a matrix may have",
    )
    parser.add_argument("--data", metavar="DATA", help="the file with the data of a MathProg model, if it has one")
    return parser.parse_args()


def _add_choices(parser: argparse.ArgumentParser) -> None:
    """The options that choose rows and scale them."""
    parser.add_argument(
        "--rows",
        metavar="REGEX",
        type=pattern,
        help="take only the rows whose names have a match, and the columns that occur in them",
    )
    parser.add_argument(
        "--without",
        metavar="REGEX",
        type=pattern,
        help="omit the rows whose names have a match, and the columns that occur in no other row",
    )
    parser.add_argument(
        "--without-names",
        metavar="FILE",
        help="omit the rows whose names are the lines of this file, as cmr-model --relaxed writes it",
    )
    parser.add_argument(
        "--without-columns",
        metavar="REGEX",
        type=pattern,
        help="omit the columns whose names have a match, with --scale after the division of rows",
    )
    parser.add_argument(
        "--unit-rows",
        action="store_true",
        help="take only the rows whose coefficients are -1, 0 and 1, with --scale after the division",
    )
    parser.add_argument(
        "--scale",
        action="store_true",
        help="divide each row, then each column, by the common factor of its coefficients, and print the factors",
    )


def _work(chosen: argparse.Namespace) -> None:
    omitted = frozenset(read_text(chosen.without_names).splitlines()) if chosen.without_names else frozenset()
    choice = Choice(chosen.rows, chosen.without, chosen.unit_rows, chosen.scale, omitted, chosen.without_columns)
    constraints = constraints_of_file(chosen.model, chosen.format, choice, chosen.data)
    said = [f"{scaling}\n" for scaling in constraints.scalings]
    steps = None
    if chosen.reduce:
        constraints, steps = reduced(constraints)
        said.append(f"reduced by {counted(steps)}, {_size(constraints)} is left\n")
    try:
        parts = [matrix_of_part(chosen.model, part) for part in connected_parts(constraints)] if chosen.parts else []
        is_large = max(constraints.names.shape) > LIMIT
        whole = None if chosen.parts and is_large else matrix_of_part(chosen.model, constraints)
    except BadInput as fault:
        hint = " (--reduce removes reducible lines" if steps is None else f" ({said[-1].rstrip()}"
        raise BadInput(f"{fault}{hint}; cmr-model looks for rows that can be kept)") from fault
    if steps is not None:
        write_text(chosen.reduce, f"{steps}\n" if len(steps) else "")
    if chosen.parts:
        _write_parts(chosen.parts, parts)
        said += (f"{chosen.parts}/{number}.txt {_of_size(part)}\n" for number, part in enumerate(parts, 1))
    if whole is not None:
        _write(whole, chosen.matrix, chosen.names)
    write_text("-", "".join(said))


def _of_size(matrix: Matrix) -> str:
    rows, columns = matrix.shape
    return f"{rows}x{columns}"


def _size(constraints: Constraints) -> str:
    rows, columns = constraints.names.shape
    return f"{rows}x{columns}"


def _write(matrix: Matrix, text: str, names: str) -> None:
    write_text(text, matrix.to_text())
    write_text(names, (matrix.names or Names.numbered(*matrix.shape)).to_text())


def _write_parts(folder: str, parts: list[Matrix]) -> None:
    """Files 1.txt, 1.names, 2.txt, .., in a folder, which is made. Parts of another run in it are refused, if there were more."""
    try:
        Path(folder).mkdir(exist_ok=True)
    except OSError as fault:
        raise BadInput(f"cannot make the folder {folder}: {fault.strerror}") from fault
    if Path(folder, f"{len(parts) + 1}.txt").exists():
        raise BadInput(f"the folder {folder} has more parts of another run")
    for number, part in enumerate(parts, 1):
        _write(part, f"{folder}/{number}.txt", f"{folder}/{number}.names")


def _table(families: tuple[Family, ...]) -> Iterator[str]:
    """The families of rows, those that are refused first."""
    yield f"{'rows':>6} {'refused':>8} {'entries':>8}  family"
    ordered = sorted(families, key=lambda family: not family.refused)
    for family in ordered[:FAMILIES]:
        yield f"{family.rows:6} {family.refused:8} {family.entries:8}  {family.name}"
    if len(ordered) > FAMILIES:
        yield f"and {len(ordered) - FAMILIES} other families"


def _with_table(work: Callable[[], None]) -> None:
    try:
        work()
    except BadCoefficients as fault:
        raise BadInput("\n".join([fault.place, *_table(fault.families)])) from fault


def main() -> int:
    """Runs the command, and gives its status."""
    chosen = arguments()
    return end(lambda: _with_table(lambda: _work(chosen)))
