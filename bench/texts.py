"""Times a command on large matrix texts.

A full sparse text and a dense text of one size are generated in a temporary folder, from a seed, and the command
runs on each. In the command, {format} is `sparse` or `dense` and {file} is the path of the text:

    python3 bench/texts.py --cmd 'out/cmr tu -i {format} {file}'

The output for each text: its size, the shortest time of the runs, the speed by that time, and the exit statuses.
Without a command the output has only the sizes.
"""

import argparse
import pathlib
import random
import shlex
import subprocess
import sys
import tempfile
import time


def dense_text(rows, columns, draw):
    lines = [f"{rows} {columns}\n"]
    for _ in range(rows):
        lines.append(" ".join(draw.choices(("0", "1", "-1"), k=columns)) + "\n")
    return "".join(lines)


def full_sparse_text(rows, columns, draw):
    lines = [f"{rows} {columns} {rows * columns}\n"]
    for row in range(1, rows + 1):
        values = draw.choices(("1", "-1"), k=columns)
        lines.extend(f"{row} {column} {value}\n" for column, value in enumerate(values, 1))
    return "".join(lines)


TEXTS = {"dense": dense_text, "sparse": full_sparse_text}


def run(words):
    start = time.perf_counter()
    done = subprocess.run(words, stdout=subprocess.DEVNULL, stderr=subprocess.DEVNULL, check=False)
    return time.perf_counter() - start, done.returncode


def main():
    parser = argparse.ArgumentParser(description=__doc__, formatter_class=argparse.RawDescriptionHelpFormatter)
    parser.add_argument("--cmd", help="the command, with {format} and {file}")
    parser.add_argument("--rows", type=int, default=1000)
    parser.add_argument("--columns", type=int, default=1000)
    parser.add_argument("--runs", type=int, default=5)
    parser.add_argument("--seed", type=int, default=1)
    options = parser.parse_args()
    if not (0 <= options.rows <= 1000 and 0 <= options.columns <= 1000 and options.runs >= 1):
        parser.error("sizes are 0 to 1000, and there is at least one run")

    with tempfile.TemporaryDirectory() as folder:
        for name, make in TEXTS.items():
            path = pathlib.Path(folder, name)
            path.write_text(make(options.rows, options.columns, random.Random(options.seed)), encoding="ascii")
            size = path.stat().st_size
            if options.cmd is None:
                print(f"{name} {size} bytes")
                continue
            words = [word.format(format=name, file=path) for word in shlex.split(options.cmd)]
            runs = [run(words) for _ in range(options.runs)]
            best = min(seconds for seconds, _ in runs)
            statuses = " ".join(str(status) for status in sorted({status for _, status in runs}))
            print(f"{name} {size} bytes {best * 1e3:.1f} ms {size / best / 1e6:.0f} MB/s status {statuses}")
    return 0


if __name__ == "__main__":
    sys.exit(main())
