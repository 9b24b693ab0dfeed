"""Reads adversarial texts on a stack of 8 MiB, and prints how each run ends and the most memory that it takes.

    python3 bench/hostile_texts.py --program crates/cmr/out/cmr

The texts are generated in a temporary folder: trees of 2000 and of 2001 levels and of many small nodes, counts that no text can have,
evidence of 256 MiB, and matrix texts of 16 MiB in words of one byte. The output for each: the bytes of the text, the status, the first line
of its output, the time, the peak of the memory, and for large texts that peak per byte of the text. The first run does almost nothing; its
peak is the least possible here, since a run begins with the memory of a small script.

The status is 1 if a run does not end as stated here.
"""

import argparse
import pathlib
import subprocess
import sys
import tempfile
from dataclasses import dataclass
from typing import Callable

MIB = 1 << 20
STACK = 8 * MIB
MATRIX, EVIDENCE = 16 * MIB, 256 * MIB
LINES = 1000


@dataclass(frozen=True)
class Case:
    """A text, the arguments of a run that reads it as `text`, and the expected status and first line."""

    name: str
    words: str
    status: int
    line: str
    pieces: Callable
    matrix: str = "1 0\n\n"


def numbers(last):
    return " ".join(map(str, range(1, last + 1)))


def head(kind, rows, columns):
    return " ".join(filter(None, (kind, str(rows), str(columns), numbers(rows), numbers(columns)))) + "\n"


def tree(size, *nodes):
    yield f"cmr-tree 2\n{size}\n"
    for node in nodes:
        yield from node


def levels(count):
    """One-sums of one child each, above an empty node."""
    return tree("1 0", ("onesum 1 0 1\n1\n" for _ in range(count)), ["empty 0 0\n"])


def levels_due(count):
    return tree("1 0", [f"onesum 1 0 1\n{count}\n"])


def removals():
    """The lines of a matrix of zeros, removed one at a time: first the rows, then the columns, the last first."""
    rows = (head("reduced", row, LINES) + f"1 r{row}\n" for row in range(LINES, 0, -1))
    columns = (head("reduced", 0, column) + f"1 c{column}\n" for column in range(LINES, 0, -1))
    return tree(f"{LINES} {LINES}", rows, columns, ["empty 0 0\n"])


def many_nodes(size):
    """One-sums of one-sums of empty nodes, of ten bytes each, as many as fit into the size."""
    node = head("onesum", LINES, LINES)
    inner = node + f"{2 * LINES}\n" + "empty 0 0\n" * (2 * LINES)
    count = size // len(inner) - 1
    return tree(f"{LINES} {LINES}", [node, f"{count}\n"], (inner for _ in range(count)))


def filled(front, word, size):
    """The beginning, and the word repeated until the size is reached exactly."""
    yield front
    piece = word * (MIB // len(word))
    left = size - len(front)
    while left > 0:
        yield piece[:left]
        left -= len(piece)


def long_chain():
    """A chain of steps that each name all lines, of which the first breaks its rule."""
    step = head("forced 1 1", LINES, LINES)
    steps = EVIDENCE // len(step) - 1
    yield f"cmr-chain 1\n{LINES} {LINES} {steps}\n"
    for _ in range(steps):
        yield step
    yield "violator 0 0\n"


def triples():
    return filled("9 9 9\n", "1 1 1 ", MATRIX)


def text(text):
    return lambda: [text]


def full(entry):
    return f"{LINES} {LINES}\n" + (f"{entry} " * LINES + "\n") * LINES


ZEROS, ONES = full("0"), full("1")

CASES = [
    Case("no lines", "tu text", 0, "totally unimodular: yes", text("0 0\n")),
    Case("tree, 2000 levels of parts", "check matrix text", 7, "refused: root NotApart", lambda: levels(2000)),
    Case("tree, 2001 levels of parts", "check matrix text", 3, "cmr: text: TooDeep at byte 30030", lambda: levels(2001)),
    Case("tree, 2000 levels of removals", "check matrix text", 0, "accepted: yes", removals, ZEROS),
    Case("the same, written anew", "upgrade text -D tree", 0, "upgraded: 2001 nodes", removals),
    Case("tree, nodes of ten bytes", "check matrix text", 7, "refused: root NotApart", lambda: many_nodes(16 * MIB), ZEROS),
    Case("three times as many", "check matrix text", 7, "refused: root NotApart", lambda: many_nodes(3 * 16 * MIB), ZEROS),
    Case("sparse text, 2147483647 triples due", "tu -i sparse text", 3, "cmr: text: Short at byte 21", text("1000 1000 2147483647\n")),
    Case("dense text, 1000000 entries due", "tu text", 3, "cmr: text: Short at byte 10", text("1000 1000\n")),
    Case("tree, 999999999 parts due", "check matrix text", 3, "cmr: text: OutOfRange at byte 28", lambda: levels_due(999999999)),
    Case("chain, 1000000 steps due", "check matrix text", 3, "cmr: text: Short at byte 30", text("cmr-chain 1\n1000 1000 1000000\n")),
    Case("submatrix text, 2000 lines due", "check matrix text", 3, "cmr: text: Short at byte 20", text("1000 1000 1000 1000\n"), ZEROS),
    Case("evidence of blanks", "check matrix text", 3, f"cmr: text: Short at byte {EVIDENCE}", lambda: filled("", " ", EVIDENCE)),
    Case("evidence of one word", "check matrix text", 3, "cmr: text: OtherSize at byte 0", lambda: filled("", "0", EVIDENCE)),
    Case("evidence, one byte too long", "check matrix text", 3, "cmr: text: TooLong", lambda: filled("", " ", EVIDENCE + 1)),
    Case("chain, steps that name all lines", "check matrix text", 7, "refused: step 1", long_chain, ONES),
    Case("dense text, words of one byte", "tu text", 3, "cmr: text: Extra at byte 2000010", lambda: filled("1000 1000\n", "1 ", MATRIX)),
    Case("sparse text, words of one byte", "tu -i sparse text", 3, "cmr: text: TwiceNamed at byte 14", triples),
    Case("words of one byte, no numbers", "tu text", 3, "cmr: text: NotNumber at byte 0", lambda: filled("", "x ", MATRIX)),
    Case("dense text, entries of 15 bytes", "series-parallel text", 0, "series-parallel: yes", text(full("0" * 14 + "1"))),
    Case("dense text, one byte too long", "tu text", 3, "cmr: text: TooLong", lambda: filled("", "1 ", MATRIX + 1)),
]


# It starts the run with little memory of its own, and writes the status, the peak in KiB and the seconds to standard error.
LAUNCHER = """
import os, resource, sys, time
stack = int(sys.argv[1])
start = time.perf_counter()
child = os.fork()
if not child:
    resource.setrlimit(resource.RLIMIT_STACK, (stack, stack))
    os.dup2(1, 2)
    os.execv(sys.argv[2], sys.argv[2:])
_, status, usage = os.wait4(child, 0)
print(os.waitstatus_to_exitcode(status), usage.ru_maxrss, time.perf_counter() - start, file=sys.stderr)
"""


@dataclass(frozen=True)
class Ending:
    """The status is that of the program, or the negated number of the signal that ended it."""

    status: int
    line: str
    seconds: float
    peak: int


def run(program, words, folder):
    launcher = [sys.executable, "-I", "-S", "-c", LAUNCHER, str(STACK), program]
    done = subprocess.run([*launcher, *words.split()], cwd=folder, stdin=subprocess.DEVNULL, capture_output=True, text=True, check=True)
    status, peak, seconds = done.stderr.split()
    return Ending(int(status), done.stdout.partition("\n")[0], float(seconds), int(peak) * 1024)


def write(path, pieces):
    with path.open("w", encoding="ascii") as file:
        file.writelines(pieces)
    return path.stat().st_size


def main():
    parser = argparse.ArgumentParser(description=__doc__, formatter_class=argparse.RawDescriptionHelpFormatter)
    parser.add_argument("--program", type=pathlib.Path, default=pathlib.Path("crates/cmr/out/cmr"))
    parser.add_argument("--only", help="only the cases whose names contain this")
    options = parser.parse_args()
    if not options.program.is_file():
        parser.error(f"{options.program} does not exist: ./cmr builds it")

    program = str(options.program.resolve())
    others = 0
    print("| Text | Bytes | Run | Status | First line | Time | Peak | Peak per byte |")
    print("|---" * 8 + "|", flush=True)
    for case in CASES:
        if options.only and options.only not in case.name:
            continue
        with tempfile.TemporaryDirectory() as place:
            folder = pathlib.Path(place)
            size = write(folder / "text", case.pieces())
            write(folder / "matrix", [case.matrix])
            ending = run(program, case.words, folder)
        per_byte = f"{ending.peak / size:.1f}" if size > MIB else "-"
        print(
            f"| {case.name} | {size} | `{case.words}` | {ending.status} | `{ending.line}` | {ending.seconds:.2f} s"
            f" | {ending.peak / MIB:.0f} MiB | {per_byte} |",
            flush=True,
        )
        if (ending.status, ending.line) != (case.status, case.line):
            print(f"{case.name}: due was {case.status}, {case.line}", file=sys.stderr)
            others += 1
    sys.exit(1 if others else 0)


if __name__ == "__main__":
    main()
