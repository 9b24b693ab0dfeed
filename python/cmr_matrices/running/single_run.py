"""A run of the program in a process and a folder of its own, which is removed when the run ends."""

from __future__ import annotations

import subprocess
import tempfile
from collections.abc import Mapping, Sequence
from contextlib import ExitStack
from pathlib import Path

from .batch.frames import Reply
from .clock import Clock
from .held_texts import held_text
from .processes import whole_run

__all__ = ["single_run"]


def single_run(
    program: Path, words: Sequence[str], text: bytes, inputs: Mapping[str, bytes], outputs: Sequence[str], clock: Clock
) -> Reply:
    """What a run gives on standard input and on files, with those of the outputs that it has written."""
    with ExitStack() as stack:
        has_files = bool(inputs or outputs)
        folder = stack.enter_context(tempfile.TemporaryDirectory(prefix="cmr-")) if has_files else None
        for name, content in inputs.items():
            Path(folder or "", name).write_bytes(content)
        held = stack.enter_context(held_text(text))
        left = clock.left()
        with whole_run([str(program), *words], held, folder=folder) as process:
            printed, said = _printed(process, clock, left)
        files = {name: path.read_bytes() for name in outputs if (path := Path(folder or "", name)).exists()}
    return Reply(process.returncode, printed, said, files)


def _printed(process: subprocess.Popen[bytes], clock: Clock, left: float | None) -> tuple[bytes, bytes]:
    """What a run prints until its end. Raises `TimeLimitReached` if it does not end in time."""
    while True:
        try:
            return process.communicate(timeout=left)
        except subprocess.TimeoutExpired:
            left = max(clock.left(process.pid) or 0, clock.moment)
