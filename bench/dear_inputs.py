"""Times each tool on matrices of extreme shapes, as multiples of the time for reading the same text, in one table.

    python3 bench/dear_inputs.py --program crates/cmr/out/cmr
    python3 bench/dear_inputs.py --aims --sizes 250 500
    python3 bench/dear_inputs.py --only cycle series-parallel 'series-parallel -N'

`dear_matrices.py` describes the matrices. `regular` and `graphic` get their supports. `sign` gets all rows; `check` and `upgrade` get the
tree that `tu -D` writes; `parts` gets this tree if its root is a sum, and `compose` gets the two matrices that `parts` writes. `generate`
makes networks and two-sums of the same sizes as the matrices `random tree` and `many sums`.

All times are processor times, the least of some runs. Each is divided by the time for reading the same text, which is a run of `sign` with
no row in the set. A run that needs more than --seconds is stopped, and its multiple is written with `>`; `-` is a run that is not possible,
such as the check of a tree that `tu` did not write in that time. The time grows with the power P if twice the lines take 2^P times as long;
the table has P for the last two sizes.

The aims are for 1000 lines. The last lines of the output name the runs that are above their aims, and those that grow with a power above
2.5, or above their own aim. The status is 0 even then. It is 1 if a run ends with an unexpected status.
"""

from __future__ import annotations

import argparse
import math
import os
import pathlib
import resource
import signal
import subprocess
import sys
import tempfile
from collections.abc import Iterator, Sequence
from dataclasses import dataclass, field
from pathlib import Path

from dear_matrices import INPUTS, LEAST_SIZE, MOST_SIZE, Input, support
from measuring import Matrix, dense_text

READING = "reading"
SECONDS = "s"
POWER = 2.5
SIZE_OF_AIMS = 1000

# A run that takes longer is not repeated.
LONG = 1.0

YES, NO, UNDECIDED, REFUSED = 0, 1, 6, 7

TOOLS = {
    "tu": ("tu", "matrix"),
    "regular": ("regular", "support"),
    "graphic": ("graphic", "support"),
    "graphic -N": ("graphic", "-N", "minimal", "support"),
    "network": ("network", "matrix"),
    "network -N": ("network", "-N", "minimal", "matrix"),
    "series-parallel": ("series-parallel", "matrix"),
    "series-parallel -N": ("series-parallel", "-N", "minimal", "matrix"),
    "camion": ("camion", "matrix"),
    "balanced": ("balanced", "matrix"),
    "sign": ("sign", "matrix", "rows"),
    "check": ("check", "matrix", "tree"),
    "upgrade": ("upgrade", "tree", "-D", "upgraded"),
    "parts": ("parts", "matrix", "tree", "-A", "first", "-B", "second"),
    "compose": ("compose", "{sum}", "first", "second", "-M", "whole"),
    "generate": ("generate", "{kind}", "{count}", "7"),
}
NEED_TREE = ("check", "upgrade", "parts", "compose")
NEED_SUM = ("parts", "compose")


@dataclass(frozen=True)
class Aim:
    """The most that a run should take at 1000 lines: seconds, or a multiple of another run on the same text."""

    most: float
    unit: str = READING
    power: float = POWER

    def __str__(self) -> str:
        return f"{self.most:g} s" if self.unit == SECONDS else f"{self.most:g} times {self.unit}"


AIMS = {
    ("ones", "regular"): Aim(6),
    ("one row", "regular"): Aim(6),
    ("long path", "regular"): Aim(6),
    ("long path, one more", "regular"): Aim(20),
    ("deep tree, one more", "regular"): Aim(20),
    ("random tree, one more", "regular"): Aim(20),
    ("cycle", "series-parallel -N"): Aim(0.3, SECONDS),
    ("signs of ten columns", "series-parallel"): Aim(4),
    ("network and transposed", "camion"): Aim(6),
    ("mixed sum", "tu"): Aim(1.5, SECONDS, 2.3),
}
AIM_OF_MINIMAL = Aim(2, "series-parallel")


def aim_of(source: Input, tool: str) -> Aim | None:
    return AIMS.get((source.name, tool)) or (AIM_OF_MINIMAL if tool == "series-parallel -N" else None)


@dataclass(frozen=True)
class Run:
    """The processor time of a run and its status, which is `None` if the run was stopped."""

    seconds: float
    status: int | None


@dataclass
class Runner:
    """Runs the program, and keeps the runs that end with an unexpected status."""

    program: Path
    runs: int
    seconds: int
    unexpected: list[str] = field(default_factory=list)

    def best(self, folder: Path, words: Sequence[str]) -> Run:
        """The shortest of some runs. A long run is not repeated."""
        best = self.once(folder, words)
        for _ in range(self.runs - 1):
            if best.seconds > LONG:
                break
            best = min(best, self.once(folder, words), key=lambda it: it.seconds)
        if best.status not in (YES, NO, UNDECIDED, None):
            self.unexpected.append(f"status {best.status}: {' '.join(words)}")
        return best

    def once(self, folder: Path, words: Sequence[str], output: Path = Path(os.devnull)) -> Run:
        """A run whose standard output goes to a file."""
        with output.open("wb") as lines:
            process = subprocess.Popen([self.program, *words], cwd=folder, stdout=lines, preexec_fn=self.set_limit)
            _, status, usage = os.wait4(process.pid, 0)
        process.returncode = os.waitstatus_to_exitcode(status)
        is_stopped = process.returncode in (-signal.SIGXCPU, -signal.SIGKILL)
        return Run(usage.ru_utime + usage.ru_stime, None if is_stopped else process.returncode)

    def set_limit(self) -> None:
        resource.setrlimit(resource.RLIMIT_CPU, (self.seconds, self.seconds))


def row_set(shape: tuple[int, int], count: int) -> str:
    """The text of a submatrix of the first rows, without columns."""
    rows, columns = shape
    return f"{rows} {columns} {count} 0\n{' '.join(str(row + 1) for row in range(count))}\n\n"


def write_texts(folder: Path, entries: Matrix) -> None:
    shape = len(entries), len(entries[0])
    texts = {
        "matrix": dense_text(entries),
        "support": dense_text(support(entries)),
        "rows": row_set(shape, shape[0]),
        "none": row_set(shape, 0),
    }
    for name, text in texts.items():
        (folder / name).write_text(text, encoding="ascii")


def kind_of_sum(runner: Runner, folder: Path) -> str | None:
    """Writes the two matrices of the sum at the root of the tree, and gives the argument of `compose` for it, if there is one."""
    output = folder / "kind"
    if runner.once(folder, TOOLS["parts"], output).status != YES:
        return None
    kind = output.read_text(encoding="ascii").splitlines()[0].removeprefix("parts: ")
    return "two" if kind == "twosum" else kind


class Texts:
    """The texts of a matrix in a folder, and the runs of the tools on them."""

    def __init__(self, runner: Runner, folder: Path, source: Input, size: int, tools: Sequence[str]) -> None:
        self.runner, self.folder = runner, folder
        write_texts(folder, source.entries(size))
        self.blanks = {"random tree": {"kind": "network", "count": str(size)}}.get(source.name, {})
        if source.name == "many sums":
            self.blanks = {"kind": "twosum", "count": str((size - 1) // 4)}
        self.has_tree = any(tool in NEED_TREE for tool in tools)
        if self.has_tree:
            self.has_tree = runner.once(folder, ("tu", "-D", "tree", "matrix")).status is not None
        if self.has_tree and any(tool in NEED_SUM for tool in tools) and (kind := kind_of_sum(runner, folder)):
            self.blanks["sum"] = kind
        self.bases = {READING: runner.best(folder, ("sign", "matrix", "none")).seconds, SECONDS: 1.0}

    def run(self, tool: str) -> Run | None:
        """The run of a tool, if it is possible."""
        needed = {"compose": "sum", "parts": "sum", "generate": "kind"}.get(tool)
        if (tool in NEED_TREE and not self.has_tree) or (needed and needed not in self.blanks):
            return None
        return self.runner.best(self.folder, [word.format(**self.blanks) for word in TOOLS[tool]])

    def base(self, unit: str) -> float:
        """The time of the run by which an aim is a multiple, or a second."""
        if unit not in self.bases:
            self.bases[unit] = self.runner.best(self.folder, TOOLS[unit]).seconds
        return self.bases[unit]


@dataclass(frozen=True)
class Cell:
    """A run at a size, its multiple of reading, and its multiple of what its aim refers to."""

    size: int
    run: Run
    of_reading: float
    of_aim: float

    def __str__(self) -> str:
        return f"{'' if self.run.status is not None else '> '}{self.of_reading:.1f}"


@dataclass
class Row:
    """A tool on one kind of matrices. A run that is not possible has no cell."""

    source: Input
    tool: str
    cells: list[Cell | None] = field(default_factory=list)

    @property
    def name(self) -> str:
        return f"{self.source.name}: {self.tool}"

    @property
    def aim(self) -> Aim | None:
        return aim_of(self.source, self.tool)

    def measure(self, texts: Texts, size: int) -> None:
        run = texts.run(self.tool)
        unit = self.aim.unit if self.aim else READING
        of_reading, of_aim = (run.seconds / texts.base(base) if run else 0.0 for base in (READING, unit))
        self.cells.append(Cell(size, run, of_reading, of_aim) if run else None)

    def power(self) -> float | None:
        """With which power of the lines the time grows between the last two sizes. If the last run was stopped, it is at least this."""
        if len(self.cells) < 2:
            return None
        before, last = self.cells[-2:]
        if before is None or last is None or before.run.status is None:
            return None
        return math.log(last.run.seconds / before.run.seconds) / math.log(last.size / before.size)

    def is_steep(self) -> bool:
        """Whether it grows with a higher power than it should."""
        power = self.power()
        return power is not None and power > (self.aim.power if self.aim else POWER)

    def above_aim(self) -> str | None:
        """What it takes at 1000 lines, if that is more than its aim."""
        last = self.cells[-1]
        if self.aim is None or last is None or last.size != SIZE_OF_AIMS or last.of_aim <= self.aim.most:
            return None
        return f"{self.name}, {last.of_aim:.1f} (aim: {self.aim})"

    def __str__(self) -> str:
        power = self.power()
        grows = "-" if power is None else f"{power:.1f}"
        return f"| {self.name} | {' | '.join(str(it or '-') for it in self.cells)} | {grows} | {self.aim or ''} |"


def chosen_pairs(names: Sequence[str], aims: bool) -> list[tuple[Input, str]]:
    """The matrices with their tools: those that are named, or all; and only those with an aim of their own."""
    tools = [tool for tool in TOOLS if tool in names] or list(TOOLS)
    sources = [source for source in INPUTS if source.name in names] or INPUTS
    return [(source, tool) for source in sources for tool in tools if not aims or (source.name, tool) in AIMS]


def measured_rows(runner: Runner, pairs: Sequence[tuple[Input, str]], sizes: Sequence[int]) -> Iterator[Row]:
    """The rows of the table, matrix by matrix."""
    for source in dict.fromkeys(source for source, _ in pairs):
        rows = [Row(source, tool) for its, tool in pairs if its == source]
        for size in sizes:
            with tempfile.TemporaryDirectory() as folder:
                texts = Texts(runner, Path(folder), source, size, [row.tool for row in rows])
                for row in rows:
                    row.measure(texts, size)
        yield from (row for row in rows if any(row.cells))


def listed(found: Sequence[str]) -> str:
    return "; ".join(found) or "none"


def measure(runner: Runner, pairs: Sequence[tuple[Input, str]], sizes: Sequence[int]) -> None:
    print(f"| Matrix: tool | {' | '.join(map(str, sizes))} | grows with | aim |")
    print("|---" * (len(sizes) + 3) + "|")
    rows = []
    for row in measured_rows(runner, pairs, sizes):
        rows.append(row)
        print(row, flush=True)
    if len(sizes) > 1:
        print(f"\nGrows with a power above {POWER}, or above its aim: {listed([row.name for row in rows if row.is_steep()])}")
    if sizes[-1] == SIZE_OF_AIMS:
        print(f"\nAbove its aim: {listed([told for row in rows if (told := row.above_aim())])}")


def read_options(arguments: Sequence[str] | None) -> argparse.Namespace:
    parser = argparse.ArgumentParser(description=__doc__, formatter_class=argparse.RawDescriptionHelpFormatter)
    parser.add_argument("--program", type=pathlib.Path, default=Path("crates/cmr/out/cmr"))
    parser.add_argument("--sizes", type=int, nargs="+", default=[250, 500, 1000], help="in increasing order")
    parser.add_argument("--only", metavar="NAME", nargs="+", default=[], help="names of matrices, of tools, or of both (see --list)")
    parser.add_argument("--aims", action="store_true", help="only the runs with an aim of their own")
    parser.add_argument("--list", action="store_true", help="print the names of the matrices and the tools, and do nothing else")
    parser.add_argument("--runs", type=int, default=3)
    parser.add_argument("--seconds", type=int, default=30, help="the most processor time of a run")
    options = parser.parse_args(arguments)
    names = [source.name for source in INPUTS] + list(TOOLS)
    if unknown := [name for name in options.only if name not in names]:
        parser.error(f"--list has the names, and not {unknown[0]}")
    if not options.list and not options.program.is_file():
        parser.error(f"{options.program} does not exist: ./cmr builds it")
    sizes = options.sizes
    if any(not LEAST_SIZE <= size <= MOST_SIZE for size in sizes) or sorted(set(sizes)) != sizes:
        parser.error(f"sizes are {LEAST_SIZE} to {MOST_SIZE}, in increasing order")
    if options.runs < 1 or options.seconds < 1:
        parser.error("there is at least one run, and at least one second")
    return options


def main(arguments: Sequence[str] | None = None) -> int:
    options = read_options(arguments)
    if options.list:
        print("\n".join([*(source.name for source in INPUTS), "", *TOOLS]))
        return 0
    runner = Runner(options.program.resolve(), options.runs, options.seconds)
    measure(runner, chosen_pairs(options.only, options.aims), options.sizes)
    print("\n".join(runner.unexpected), end="\n" if runner.unexpected else "")
    return 1 if runner.unexpected else 0


if __name__ == "__main__":
    sys.exit(main())
