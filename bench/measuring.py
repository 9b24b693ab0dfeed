"""Dense texts and timed runs for all measurements."""

from __future__ import annotations

import os
import subprocess
import time
from collections.abc import Sequence

Matrix = list[list[int]]
Words = Sequence[str | os.PathLike[str]]


def dense_text(entries: Matrix) -> str:
    lines = [f"{len(entries)} {len(entries[0])}\n"]
    lines.extend(" ".join(map(str, row)) + "\n" for row in entries)
    return "".join(lines)


def run(words: Words) -> tuple[float, int]:
    start = time.perf_counter()
    done = subprocess.run(words, stdout=subprocess.DEVNULL, stderr=subprocess.DEVNULL, check=False)
    return time.perf_counter() - start, done.returncode


def measured(words: Words, runs: int) -> str:
    times = [run(words) for _ in range(runs)]
    best = min(seconds for seconds, _ in times)
    statuses = " ".join(str(status) for status in sorted({status for _, status in times}))
    return f"{best:.3f} s, status {statuses}"
