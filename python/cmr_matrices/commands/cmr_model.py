"""Reads a model in integer programming, and says whether its linear program is integral, and if not which rows to relax.

The answer is the answer of `cmr tu` on the constraint matrix, whose rows are divided by their common factors. For a no the report has
the smallest violator that was found, the families of rows that can be kept, and the rows to relax. The names of a family are the same up
to digits and bracketed text. `cmr check` accepts the evidence of each answer.

Status: 0 yes, 1 no, 6 undecided, as of `cmr tu`; 2 if the arguments are refused, 3 if the model is refused, 4 if a file cannot be read
or written, 5 if there is not enough memory, 70 if the program cmr or a library is missing or fails.
"""

from __future__ import annotations

import argparse
import os
import sys
from itertools import combinations
from pathlib import Path
from typing import Any

from ..errors import BadInput, CmrError
from ..reporting.report import PIVOTS, QUESTIONS, ModelReport, model_report
from ..running.program import NO, UNDECIDED, YES
from .command import (
    BAD_FILE,
    NO_MEMORY,
    command_parser,
    end,
    integer_between,
    numbers_of,
    status_of,
    write_text,
    write_whole,
)
from .signals import end_if_told, end_on_signals

__all__ = ["main"]

_STATUSES = {"yes": YES, "no": NO, "undecided": UNDECIDED}


def arguments() -> argparse.Namespace:
    """What the words of the command line say."""
    parser = command_parser(__doc__)
    add = parser.add_argument
    add("model", metavar="MODEL", help="the model: free or fixed MPS, GNU MathProg, or the LP format of CPLEX")
    add("--html", metavar="REPORT", help="write the report to this file as one page of HTML")
    add("--relaxed", metavar="FILE", help="write the names of the rows to relax to this file, a line for each")
    add("--write-kept", metavar="FILE", help="write the model without the rows to relax to this file, in free MPS")
    add("--write-relaxed", metavar="FILE", help="write the model with only the rows to relax to this file, in free MPS")
    add("--json", action="store_true", help="print one object of JSON in place of the text")
    add(
        "--format",
        choices=("mps", "mathprog", "lp"),
        help="the model's format (by default .mod is mathprog, .lp is lp, .mps is mps, and otherwise the content decides)",
    )
    add("--data", metavar="DATA", help="the file with the data of a MathProg model, if it has one")
    add("--lines", metavar="L", type=numbers_of("--lines"), help="the budget of the searches, 0 to 24 (14)")
    add(
        "--pivots",
        metavar="K",
        type=numbers_of("--pivots"),
        default=PIVOTS,
        help="make up to K pivots of an open part, 0 to 100 (20)",
    )
    add(
        "--questions",
        metavar="N",
        type=integer_between(1, 100_000),
        default=QUESTIONS,
        help=f"the most questions of each search for rows to keep ({QUESTIONS})",
    )
    add(
        "--time-limit",
        metavar="S",
        type=integer_between(1, 2_000_000),
        default=8,
        help="end the search after S seconds of processor time, and say which steps it ended (8)",
    )
    add(
        "--clock-limit",
        metavar="S",
        type=integer_between(1, 2_000_000),
        help="end the search also after S seconds by the clock (no such limit)",
    )
    add("--no-solve", action="store_true", help="do not solve the linear program of the model with its objective by GLPK")
    add("--program", metavar="PATH", help="the path of the program cmr")
    chosen = parser.parse_args()
    written = {"--html": chosen.html, "--relaxed": chosen.relaxed}
    written |= {"--write-kept": chosen.write_kept, "--write-relaxed": chosen.write_relaxed}
    for option, name in written.items():
        if name is not None and (name in ("", "-") or _is_one_file(name, chosen.model, chosen.data)):
            parser.error(f"{option} needs a file, and not that of the model")
    for one, other in combinations(written, 2):
        if written[one] is not None and _is_one_file(written[one], written[other]):
            parser.error(f"{one} and {other} need two files")
    return chosen


def _is_one_file(name: str, *others: str | None) -> bool:
    return any(other is not None and os.path.realpath(name) == os.path.realpath(other) for other in others)


class _Progress:
    """A bar of tqdm on a terminal, or a line that is written over, and nothing elsewhere."""

    def __init__(self) -> None:
        self._is_shown = sys.stderr.isatty()
        self._bar: Any = None
        self._what = ""

    def __call__(self, what: str, done: int, most: int) -> None:
        end_if_told()
        if not self._is_shown:
            return
        if what != self._what:
            self.close()
            self._what, self._bar = what, _bar(what, most) if most else None
        if self._bar is not None:
            self._bar.update()
        else:
            said = f": {done} of at most {most} questions" if most else ""
            print(f"\r\x1b[Kcmr-model: {what}{said}", end="", file=sys.stderr, flush=True)

    def close(self) -> None:
        """Leaves the terminal as it was."""
        if self._bar is not None:
            self._bar.close()
        elif self._is_shown and self._what:
            print("\r\x1b[K", end="", file=sys.stderr, flush=True)
        self._what, self._bar = "", None


def _bar(what: str, most: int) -> Any:
    try:
        from tqdm import tqdm  # pylint: disable=import-outside-toplevel
    except ImportError:
        return None
    tqdm.monitor_interval = 0
    return tqdm(desc=what, total=most, unit=" questions", file=sys.stderr, dynamic_ncols=True, leave=False)


def _work(chosen: argparse.Namespace, found: list[ModelReport]) -> None:
    progress = _Progress()
    try:
        report = model_report(
            chosen.model,
            form=chosen.format,
            data=chosen.data,
            lines=chosen.lines,
            pivots=chosen.pivots,
            questions=chosen.questions,
            time_limit=chosen.time_limit,
            clock_limit=chosen.clock_limit,
            program=chosen.program,
            tell=progress,
            solve=not chosen.no_solve,
        )
    finally:
        progress.close()
    text = report.to_json() if chosen.json else report.to_text()
    if chosen.html is not None:
        write_whole(chosen.html, report.to_html())
    if chosen.relaxed is not None:
        write_whole(chosen.relaxed, "".join(f"{name}\n" for name in report.relax))
    if chosen.write_kept is not None:
        write_whole(chosen.write_kept, report.to_mps("kept"))
    if chosen.write_relaxed is not None:
        write_whole(chosen.write_relaxed, report.to_mps("relaxed"))
    write_text("-", text)
    found.append(report)


def main() -> int:
    """Runs the command, and gives its status."""
    end_on_signals()
    if _is_closed():
        print(f"{Path(sys.argv[0]).name}: cannot write -: standard output is closed", file=sys.stderr)
        return BAD_FILE
    chosen = arguments()
    found: list[ModelReport] = []
    faults: list[int] = []

    def work() -> None:
        try:
            _work(chosen, found)
        except CmrError as fault:
            faults.append(status_of(fault))
            raise BadInput(str(fault)) from fault
        except MemoryError:
            faults.append(NO_MEMORY)
            raise BadInput("there is not enough memory") from None

    status = end(work)
    end_if_told()
    if faults:
        return faults[0]
    # Otherwise the reader of standard output has closed it.
    return BAD_FILE if status else _STATUSES[found[0].verdict]


def _is_closed() -> bool:
    """Whether there is no standard output."""
    try:
        os.fstat(1)
    except OSError:
        return True
    return sys.stdout is None
