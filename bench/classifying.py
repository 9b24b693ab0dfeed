"""Counts the matrices of 10 by 10 that `cmr-classify` classifies in a processor second, and divides the time of a run into its parts.

    /usr/bin/python3 bench/classifying.py --program crates/cmr/out/cmr

It measures the processor time of the command, its process and all runs of the program. This depends less than the clock on other work of
the machine, but a run whose memory was given to other processes still takes up to twice as long. So the measurements take turns, and the
best and the median round are printed. The matrices a second by the clock are printed beside them. They include the start of Python, whose
modules are compiled before.

Each kind of matrix is measured with all classes, and with `--infer`, which derives some verdicts from others. Of each row it prints the
processor time of Python and of `cmr-batch` in a worker, and of a run whose input is empty, which is only the start of the command. With
`--no-batch`, which measures the command with that option, a run for each class is then measured by itself, as `cmr-classify` makes it, and
a run whose arguments are refused, which is only the start and the end of the program.
"""

import argparse
import os
import random
import resource
import subprocess
import sys
import tempfile
import time
from contextlib import suppress
from pathlib import Path

TOP = Path(__file__).resolve().parents[1]
sys.path.insert(0, str(TOP / "python"))

from cmr_matrices import CmrError  # noqa: E402
from cmr_matrices.classifying.blocks import classify_block  # noqa: E402
from cmr_matrices.classifying.classes import CLASSES  # noqa: E402
from cmr_matrices.classifying.pools import blocks_of  # noqa: E402
from cmr_matrices.classifying.streams import Item  # noqa: E402
from cmr_matrices.classifying.verdicts import ask  # noqa: E402
from cmr_matrices.classifying.work import Settings  # noqa: E402
from cmr_matrices.running.batch.kept import batch_of  # noqa: E402
from cmr_matrices.running.clock import KEPT  # noqa: E402
from cmr_matrices.running.held_texts import held_text  # noqa: E402

COMMAND = TOP / "scripts" / "cmr-classify"

KINDS = {
    "half of the entries 1": (0, 1),
    "a sixth of the entries 1": (0, 0, 0, 0, 0, 1),
    "entries -1, 0 and 1": (-1, 0, 1),
}


def texts(entries, count):
    draw = random.Random(1)
    for _ in range(count):
        yield "10 10\n" + "\n".join(" ".join(str(draw.choice(entries)) for _ in range(10)) for _ in range(10)) + "\n"


def seconds(work, *whose):
    """The processor time of a call, and its time by the clock."""

    def taken():
        return sum(usage.ru_utime + usage.ru_stime for usage in map(resource.getrusage, whose))

    before, begun = taken(), time.perf_counter()
    work()
    return taken() - before, time.perf_counter() - begun


def in_turns(works, rounds, *whose):
    """The times of each task, of the processors and by the clock, both sorted. The tasks take turns."""
    times = [[seconds(work, *whose) for work in works] for _ in range(rounds)]
    return [tuple(map(sorted, zip(*column))) for column in zip(*times)]


def rates(program, count, rounds, more):
    with tempfile.TemporaryDirectory() as folder:
        names, works = [], []
        empty = Path(folder, "empty")
        empty.touch()
        environment = {**os.environ, "PYTHONPYCACHEPREFIX": os.path.join(folder, "modules")}
        environment.pop("PYTHONDONTWRITEBYTECODE", None)

        def classified(file, *options):
            words = [sys.executable, COMMAND, file, "--jobs", "1", "--program", program, *more, *options]
            nothing = subprocess.DEVNULL
            subprocess.run(words, stdout=nothing, stderr=nothing, check=True, env=environment)

        classified(empty)
        for place, (name, entries) in enumerate(KINDS.items()):
            file = Path(folder, str(place))
            file.write_text("".join(texts(entries, count)), encoding="ascii")
            for option in ([], ["--infer"]):
                names.append(" ".join([name, *option]))
                works.append(lambda file=file, option=option: classified(file, *option))
        *kinds, (start, _) = in_turns([*works, lambda: classified(empty)], rounds, resource.RUSAGE_CHILDREN)
        for name, found in zip(names, kinds):
            for what, times in zip(("a processor second", "a second by the clock"), found):
                best, middle = count / times[0], count / times[len(times) // 2]
                print(f"{name}: {best:.0f} {what}, middle {middle:.0f}", flush=True)
        print(f"the start of the command: {start[0]:.3f} processor seconds, in each of these")


def shares(program, count, rounds):
    """Prints the processor time of a row in a worker, of Python and of `cmr-batch`."""
    for name, entries in KINDS.items():
        items = [Item("-", number, text.encode(), size=len(text)) for number, text in enumerate(texts(entries, count), 1)]
        for infers in (False, True):
            settings = Settings(CLASSES, program, infers=infers, pivots=20)
            found = [worked(list(blocks_of(iter(items), 16)), settings) for _ in range(rounds)]
            python, batch = (min(column) * 1e6 / count for column in zip(*found))
            print(f"{name}{' --infer' * infers}: a row takes {python:.0f} us of Python and {batch:.0f} us of cmr-batch")


def worked(blocks, settings):
    """The processor seconds of Python and of `cmr-batch` for the rows of some blocks."""
    classify_block(blocks[0], settings)
    before = time.process_time(), kept_seconds()
    for block in blocks:
        classify_block(block, settings)
    return time.process_time() - before[0], kept_seconds() - before[1]


def kept_seconds():
    # The clock of a process of Linux, in nanoseconds.
    return sum(time.clock_gettime(~process << 3 | 2) for process in KEPT)


def runs(program, entries, rounds):
    """The least time of a run over the rounds, for each class and matrix, with the part of Python in it."""
    kept = [text.encode("ascii") for text in texts(entries, 20)]

    def asked(text, words, said):
        with held_text(text) as file, suppress(CmrError):
            ask(program, words, file, said)

    questions = [(["no-such-tool"], ""), *((kind.words, kind.said) for kind in CLASSES)]
    works = [lambda text=text, question=question: asked(text, *question) for question in questions for text in kept]
    least = [times[0] * 1e6 for times, _ in in_turns(works, rounds, resource.RUSAGE_SELF, resource.RUSAGE_CHILDREN)]
    start, *means = [sum(least[place : place + len(kept)]) / len(kept) for place in range(0, len(least), len(kept))]
    print(f"words that are refused: {start:.0f} us")
    for kind, mean in zip(CLASSES, means):
        print(f"{kind.name}: {mean:.0f} us")
    print(f"all classes: {sum(means):.0f} us, of which starts {len(means) * start:.0f} us")
    print(f"one start, and what each class takes above one: {sum(means) - (len(means) - 1) * start:.0f} us")


def main():
    parser = argparse.ArgumentParser(description=__doc__, formatter_class=argparse.RawDescriptionHelpFormatter)
    parser.add_argument("--program", required=True)
    parser.add_argument("--count", type=int, default=1000)
    parser.add_argument("--rounds", type=int, default=5)
    parser.add_argument("--no-batch", action="store_true")
    chosen = parser.parse_args()
    program = os.path.abspath(chosen.program)
    rates(program, chosen.count, chosen.rounds, ["--no-batch"] if chosen.no_batch else [])
    if chosen.no_batch or batch_of(program) is None:
        runs(program, KINDS["half of the entries 1"], 10 * chosen.rounds)
    else:
        shares(program, chosen.count, chosen.rounds)


if __name__ == "__main__":
    main()
