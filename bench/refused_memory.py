"""Refuses each request for memory in turn, and prints how the runs end.

    python3 bench/refused_memory.py --program crates/cmr/out/cmr

Each run is made once unchanged, which counts its requests, and then once for each request, which is refused. It must end in one of two
ways; otherwise the script prints how it ended and exits with status 1:

    status 5    the only output is `cmr: out of memory` on standard error, and each file has its old content
    as ever     status, output and files are the same as without a refusal

The matrices come from examples/. The files that a run writes exist before, with other content. It runs on Linux with x86-64.
"""

import argparse
import pathlib
import subprocess
import sys
import tempfile
from dataclasses import dataclass, field

from refusals import Ending, count_requests, end_refusing

EXAMPLES = pathlib.Path(__file__).resolve().parents[1] / "examples"
OUT_OF_MEMORY = Ending(5, b"", b"cmr: out of memory\n")
HELD = b"what it held\n"


@dataclass(frozen=True)
class Case:
    """A run: its arguments, the example that it reads as `matrix`, the files that it may write, and further files that it reads."""

    words: str
    example: str
    outputs: tuple = ()
    further: dict = field(default_factory=dict)

    def fill(self, folder):
        matrix = (EXAMPLES / f"{self.example}.txt").read_bytes()
        files = {"matrix": matrix, **self.further, **dict.fromkeys(self.outputs, HELD)}
        for name, text in files.items():
            (folder / name).write_bytes(text)


def evidence(program, words, example, name):
    """What the program writes to a file."""
    with tempfile.TemporaryDirectory() as place:
        folder = pathlib.Path(place)
        Case(words, example).fill(folder)
        subprocess.run([program, *words.split()], cwd=folder, capture_output=True, check=False)
        return {name: (folder / name).read_bytes()}


def cases(program):
    tree = evidence(program, "tu -D tree matrix", "shifts", "tree")
    violator = evidence(program, "tu -E violator matrix", "triangle", "violator")
    chain = evidence(program, "regular -C chain matrix", "fano", "chain")
    return [
        Case("tu -D tree matrix", "shifts", ("tree",)),
        Case("tu -D tree -E violator matrix", "triangle", ("tree", "violator")),
        Case("regular -M signed -C chain matrix", "assignment", ("signed", "chain")),
        Case("regular -M signed -C chain matrix", "fano", ("signed", "chain")),
        Case("graphic -G graph matrix", "complete5", ("graph",)),
        Case("graphic -t -N minimal matrix", "complete5", ("minimal",)),
        Case("series-parallel -S steps matrix", "pipes", ("steps",)),
        Case("series-parallel -N minimal -S steps -R rest matrix", "assignment", ("minimal", "steps", "rest")),
        Case("check matrix tree", "shifts", further=tree),
        Case("check matrix violator", "triangle", further=violator),
        Case("check matrix chain", "fano", further=chain),
        Case("sign matrix rows", "intervals", further={"rows": b"6 7 6 0\n1 2 3 4 5 6\n\n"}),
        Case("camion -E fault matrix", "triangle", ("fault",)),
    ]


def contents(folder):
    return {path.name: path.read_bytes() for path in folder.iterdir()}


@dataclass
class Sweep:
    """How the runs of a case ended: unchanged, by the number of the refused request, and those that ended otherwise."""

    status: int
    requests: int
    ended: int = 0
    as_ever: int = 0
    others: list = field(default_factory=list)


def sweep(program, case):
    words = [program, *case.words.split()]
    with tempfile.TemporaryDirectory() as place:
        folder = pathlib.Path(place)
        case.fill(folder)
        before = contents(folder)
        requests, plain = count_requests(words, folder)
        after = contents(folder)
        found = Sweep(plain.status, requests)
        for number in range(1, requests + 1):
            case.fill(folder)
            ending, files = end_refusing(number, words, folder), contents(folder)
            if (ending, files) == (OUT_OF_MEMORY, before):
                found.ended += 1
            elif (ending, files) == (plain, after):
                found.as_ever += 1
            else:
                changed = sorted(name for name in {**before, **files} if files.get(name) != before.get(name))
                found.others.append(f"request {number}: {ending}, changed: {' '.join(changed) or 'nothing'}")
        return found


def main():
    parser = argparse.ArgumentParser(description=__doc__, formatter_class=argparse.RawDescriptionHelpFormatter)
    parser.add_argument("--program", type=pathlib.Path, default=pathlib.Path("crates/cmr/out/cmr"))
    parser.add_argument("--tools", nargs="+", help="only the runs of these tools")
    options = parser.parse_args()
    if not options.program.is_file():
        parser.error(f"{options.program} does not exist: ./cmr builds it")

    program = str(options.program.resolve())
    others = 0
    print("| Run | Example | Status | Requests | Status 5 | As ever | Otherwise |")
    print("|---" * 7 + "|", flush=True)
    for case in cases(program):
        if options.tools and case.words.split()[0] not in options.tools:
            continue
        found = sweep(program, case)
        counts = (found.status, found.requests, found.ended, found.as_ever, len(found.others))
        print(f"| `{case.words}` | {case.example} | {' | '.join(map(str, counts))} |", flush=True)
        for line in found.others:
            print(f"{case.words}, {case.example}: {line}", file=sys.stderr)
        others += len(found.others)
    sys.exit(1 if others else 0)


if __name__ == "__main__":
    main()
