"""Writes a table of the classes of many matrices: a row for each, with a verdict for each class.

INPUT is a file or `-` with texts of matrices one after another, or a model (.mps, .lp, .mod), or a folder of such files. The verdicts
are `yes`, `no`, `undecided`, and `-` if the class requires a 0/1 matrix and the matrix has an entry -1. A matrix with more than 1,000 rows
or columns has a verdict only on `tu`, by `cmr-large`.

Status: 0 if all matrices have their verdicts, 1 if an input is refused, 3 if some rows have a fault, 8 if verdicts contradict each
other, which would be a defect of cmr.
"""

from __future__ import annotations

import argparse
import os
import re
import signal
import sys
from collections.abc import Callable, Iterator, Sequence
from contextlib import closing
from pathlib import Path
from typing import TYPE_CHECKING, Any

from ..classifying.classes import CLASS_NAMES, MatrixClass, chosen_classes
from ..classifying.pools import Processes, blocks_of
from ..classifying.progress import Progress
from ..classifying.streams import Item, items_of, part_of, sources_of
from ..classifying.summary import Summary
from ..classifying.tables import Done, Table, files_of, open_table, read_table
from ..classifying.work import CONTRADICTION, Row, Settings
from ..errors import BadInput, ProgramMissing
from ..running.program import find_program
from .command import command_parser, end, integer_between, numbers_of, write_text

if TYPE_CHECKING:
    from ..classifying.cluster import Cluster

FAULTS, CONTRADICTIONS, INTERRUPTED = 3, 8, 130

_WORDS = {"/": "%2F", "..": "%2E%2E"}
"""The replacement of a part of a path that would lead out of the folder of evidence."""


def part(text: str) -> tuple[int, int]:
    found = re.fullmatch("([1-9][0-9]{0,8})/([1-9][0-9]{0,8})", text)
    if not found or int(found[1]) > int(found[2]):
        raise argparse.ArgumentTypeError(f"{text} is not K/N with K from 1 to N")
    return int(found[1]), int(found[2])


def classes(text: str) -> tuple[MatrixClass, ...]:
    try:
        return chosen_classes(text)
    except BadInput as fault:
        raise argparse.ArgumentTypeError(str(fault)) from fault


def arguments() -> argparse.Namespace:
    """What the words of the command line say."""
    parser = command_parser(__doc__)
    add = parser.add_argument
    add("inputs", metavar="INPUT", nargs="+", help="a file, a folder, or - for standard input")
    add(
        "--classes",
        metavar="LIST",
        type=classes,
        default=",".join(CLASS_NAMES),
        help="some of %(default)s (default: all)",
    )
    add("--format", choices=("dense", "sparse"), default="dense", help="the format of texts (dense)")
    add(
        "--jobs",
        metavar="N",
        type=integer_between(1, 1024),
        default=os.cpu_count() or 1,
        help="the number of processes (one for each processor)",
    )
    add(
        "--output",
        metavar="TABLE",
        default="-",
        help="the table: CSV, or the format of the ending .jsonl or .parquet (standard output)",
    )
    add("--resume", action="store_true", help="continue a table: skip the matrices that have a row in it")
    add("--part", metavar="K/N", type=part, default=(1, 1), help="take every N-th matrix, starting with the K-th")
    add("--evidence", metavar="DIR", help="keep evidence in DIR/CLASS/FILE/NUMBER.KIND")
    add("--minors", action="store_true", help="also keep an excluded minor for each no, if the class has any")
    add("--lines", metavar="L", type=numbers_of("--lines"), help="the budget of the searches (14)")
    add(
        "--pivots",
        metavar="K",
        type=numbers_of("--pivots"),
        default=20,
        help="make up to K pivots of an open part (20)",
    )
    add(
        "--tries",
        metavar="N",
        type=integer_between(0, 1000),
        default=0,
        help="ask again in N other orders of the lines (0)",
    )
    add("--support", action="store_true", help="ask regular of the support of a matrix with an entry -1")
    add(
        "--time-limit",
        metavar="S",
        type=integer_between(1, 10**8),
        help="leave a class undecided after S seconds",
    )
    add(
        "--infer",
        action="store_true",
        help="skip what the known inclusions settle; consistency is then not checked",
    )
    add("--picture", metavar="SVG", help="draw the number of matrices in each combination of classes")
    add("--tables", action="store_true", help="INPUT are tables, for example of parts: only summarise them")
    add("--dask", metavar="ADDRESS", help="send blocks of matrices to a Dask cluster, with the package and program")
    add("--worker-program", metavar="PATH", help="with --dask: the path of the program on each worker")
    add(
        "--block",
        metavar="N",
        type=integer_between(1, 10**6),
        default=16,
        help="the number of matrices sent at once (16)",
    )
    add("--program", metavar="PATH", help="the path of the program cmr")
    add("--no-batch", action="store_true", help="start a process for each question, also if there is cmr-batch")
    chosen = parser.parse_args()
    if chosen.resume and chosen.output == "-":
        parser.error("--resume needs --output")
    if chosen.minors and not chosen.evidence:
        parser.error("--minors needs --evidence")
    if chosen.worker_program and not chosen.dask:
        parser.error("--worker-program goes with --dask")
    return chosen


class _Run:
    """A run: what it writes to, and what it counts."""

    def __init__(self, chosen: argparse.Namespace) -> None:
        self.chosen = chosen
        self.names = [kind.name for kind in chosen.classes]
        self.summary = Summary(self.names)
        self.done = Done()

    def work(self) -> None:
        """Classifies what has no row yet, and sums all rows up."""
        chosen = self.chosen
        pool = self._pool()
        with closing(pool):
            table, standing = open_table(chosen.output, self.names, resumes=chosen.resume)
            for values in standing:
                self.done.add(values["file"], values["number"])
                self._count(values["file"], values["number"], values, values["fault"], print_lines)
            sources = sources_of(
                chosen.inputs, [*files_of(chosen.output), *([chosen.evidence] if chosen.evidence else [])]
            )
            progress = Progress(sources, chosen.part[1])
            with closing(progress):
                items = self._left(part_of(items_of(sources, chosen.format, pool.settings.limits), *chosen.part), progress)
                for rows in pool.rows(blocks_of(items, chosen.block)):
                    self._write(table, rows, progress)
            table.finish()
        self.tell()

    def sum_up(self) -> None:
        """Sums up the rows of tables."""
        for name in self.chosen.inputs:
            for values in read_table(name):
                missing = [column for column in self.names if column not in values]
                if missing:
                    raise BadInput(f"{name} has no class {missing[0]}: --classes names those to sum up")
                self.done.add(values["file"], values["number"])
                self._count(values["file"], values["number"], values, values["fault"], print_lines)
        self.tell()

    def tell(self) -> None:
        """Prints the summary, and draws it."""
        stream = sys.stderr if self.chosen.output == "-" and not self.chosen.tables else sys.stdout
        print(self.summary.to_text(), end="", file=stream)
        if self.chosen.picture:
            write_text(self.chosen.picture, self.summary.to_svg())

    def status(self) -> int:
        """What the rows say of the run."""
        if self.summary.contradictions:
            return CONTRADICTIONS
        return FAULTS if self.summary.faults else 0

    def _pool(self) -> Processes | Cluster:
        chosen = self.chosen
        if chosen.no_batch:
            # Also for questions that are asked again, here and in the processes that are started.
            os.environ["CMR_BATCH"] = ""
        try:
            program = chosen.worker_program or str(find_program(chosen.program))
        except ProgramMissing as fault:
            raise BadInput(str(fault)) from fault
        settings = Settings(
            chosen.classes,
            program,
            chosen.lines,
            chosen.time_limit,
            chosen.evidence is not None,
            chosen.infer,
            chosen.pivots,
            chosen.minors,
            chosen.tries,
            chosen.support,
            not chosen.no_batch,
        )
        if chosen.dask:
            # What it needs of Python's library takes a while to load.
            from ..classifying.cluster import Cluster

            return Cluster(chosen.dask, settings, chosen.worker_program)
        return Processes(chosen.jobs, settings)

    def _left(self, items: Iterator[Item], progress: Progress) -> Iterator[Item]:
        for item in items:
            if (item.file, item.number) in self.done:
                progress.skip(item.size)
            else:
                yield item

    def _write(self, table: Table, rows: Sequence[Row], progress: Progress) -> None:
        """Keeps the evidence of rows and then the rows, so that one that stands in the table has its evidence."""
        for row in rows:
            for name, text in row.evidence.items():
                _keep(Path(self.chosen.evidence), row, name, text)
        table.write(rows)
        for row in rows:
            self._count(row.file, row.number, row.verdicts, row.fault, progress.say, row.message)
        progress.step(rows)

    def _count(
        self,
        file: str,
        place: int,
        verdicts: Any,
        fault: str | None,
        say: Callable[[str], None],
        message: str | None = None,
    ) -> None:
        broken = self.summary.add(verdicts, fault)
        if broken or fault == CONTRADICTION:
            say(f"cmr-classify: CONTRADICTION: {file} {place}: {message or '; '.join(broken)}. This is a defect of cmr")


def print_lines(text: str) -> None:
    print(text, file=sys.stderr)


def _keep(folder: Path, row: Row, name: str, text: bytes) -> None:
    """Writes a text of evidence to a place that the names of the class and of the file tell."""
    kind, ending = name.split("/")
    words = [_WORDS.get(word, word.replace("%", "%25")) for word in Path(row.file).parts]
    path = folder.joinpath(kind, *words, f"{row.number}.{ending}")
    try:
        path.parent.mkdir(parents=True, exist_ok=True)
        path.write_bytes(text)
    except OSError as fault:
        raise BadInput(f"cannot write {path}: {fault.strerror}") from fault


def main() -> int:
    """Runs the command, and gives its status."""
    chosen = arguments()
    signal.signal(signal.SIGTERM, _interrupt)
    run = _Run(chosen)
    try:
        status = end(run.sum_up if chosen.tables else run.work)
    except KeyboardInterrupt:
        print("cmr-classify: interrupted; --resume goes on with the table", file=sys.stderr)
        return INTERRUPTED
    return status or run.status()


def _interrupt(_number: int, _frame: Any) -> None:
    raise KeyboardInterrupt
