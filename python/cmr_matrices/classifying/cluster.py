"""Blocks of matrices on a Dask cluster, by Debian's python3-distributed.

Each worker gets the package and the program, also if it joins later, so all rows are results of the same versions. Each worker may
instead use a program of its own, at a given path. This machine reads the files. If a worker is lost, Dask gives its block to another.
"""

from __future__ import annotations

import contextlib
import hashlib
import os
import shutil
import tempfile
import zipfile
from collections import deque
from collections.abc import Iterator, Sequence
from dataclasses import replace
from pathlib import Path
from typing import Any

from ..errors import BadInput, ProgramMissing
from ..running.batch.kept import batch_of
from ..running.program import find_program
from .blocks import classify_block
from .pools import Block, died
from .streams import Item
from .work import Row, Settings, with_texts

__all__ = ["Cluster"]

_PACKAGE = Path(__file__).resolve().parents[1]
_SENT = "cmr-sent-"
_BATCH = "-batch"
_NEW = ".new"


class Cluster:
    """The workers of a Dask scheduler at an address such as `tcp://host:8786`."""

    def __init__(self, address: str, settings: Settings, program: str | None) -> None:
        """`program` is its path on each worker; without it, the program is sent to the workers."""
        try:
            import distributed  # pylint: disable=import-outside-toplevel
        except ImportError as fault:
            raise BadInput("--dask needs Debian's python3-distributed") from fault
        self._dask: Any = distributed
        self._client: Any
        try:
            self._client = self._dask.Client(address)
        except (OSError, ValueError) as fault:
            raise BadInput(f"there is no Dask scheduler at {address}: {fault}") from fault
        with tempfile.TemporaryDirectory() as folder:
            self._client.upload_file(_zipped(Path(folder, "cmr_matrices.zip")))
            self.settings = replace(settings, program=program or self._sent(settings, folder))

    def _sent(self, settings: Settings, folder: str) -> str:
        """Sends the program under both names, and returns that of `cmr` on the workers. Another program has other names and processes."""
        batch = batch_of(Path(settings.program)) if settings.batch else None
        programs = {"": Path(settings.program)} if batch is None else {"": Path(settings.program), _BATCH: batch}
        digest = hashlib.sha256(b"".join(path.read_bytes() for path in programs.values()))
        name = _SENT + digest.hexdigest()[:16]
        for end, path in programs.items():
            self._client.upload_file(shutil.copy(path, os.path.join(folder, name + end + _NEW)))
        return name

    def rows(self, blocks: Iterator[Block]) -> Iterator[list[Row]]:
        """The rows of all blocks, a block after the other as they are done."""
        running: dict[Any, Block] = {}
        again: deque[Block] = deque()
        finished = self._dask.as_completed()
        self._fill(finished, running, again, blocks)
        for future in finished:
            block = running.pop(future)
            try:
                rows: list[Row] = future.result()
            except self._dask.KilledWorker:
                rows = []
                if len(block) == 1:
                    rows = [died(block[0], "several workers died on it")]
                again.extend([item] for item in block if len(block) > 1)
            except ProgramMissing as fault:
                raise BadInput(f"on a worker {fault}") from fault
            except (OSError, self._dask.CancelledError) as fault:
                raise BadInput("the Dask scheduler is lost: --resume goes on with the table") from fault
            yield rows
            self._fill(finished, running, again, blocks)

    def close(self) -> None:
        """Lets go of the cluster, which stays."""
        self._client.close()

    def _fill(self, finished: Any, running: dict[Any, Block], again: deque[Block], blocks: Iterator[Block]) -> None:
        """Gives blocks until each thread of the cluster has two."""
        threads = sum(self._client.nthreads().values())
        while len(running) < max(2 * threads, 2):
            block = again.popleft() if again else next(blocks, [])
            if not block:
                return
            taken = [with_texts(item, self.settings) for item in block]
            future = self._client.submit(on_worker, taken, self.settings, pure=False)
            running[future] = block
            finished.add(future)


def on_worker(items: Sequence[Item], settings: Settings) -> list[Row]:
    """The rows of a block, on a worker. The program that was sent lies in the worker's own folder."""
    if not settings.program.startswith(_SENT):
        find_program(settings.program)
        return classify_block(items, settings)
    from distributed import get_worker  # pylint: disable=import-outside-toplevel

    program = os.path.join(get_worker().local_directory, settings.program)
    _take(program)
    _take(program + _BATCH)
    return classify_block(items, replace(settings, program=program))


def _take(program: str) -> None:
    """Gives a program that was sent its name. If one of this name is there and runs, its process keeps its own file."""
    with contextlib.suppress(FileNotFoundError):
        os.chmod(program + _NEW, 0o755)
        os.replace(program + _NEW, program)


def _zipped(path: Path) -> str:
    """The package as an archive that Python imports."""
    with zipfile.ZipFile(path, "w", zipfile.ZIP_DEFLATED) as archive:
        for file in sorted(_PACKAGE.rglob("*.py")):
            archive.write(file, file.relative_to(_PACKAGE.parent))
    return str(path)
