"""Who classifies: processes on this machine, or the workers of a Dask cluster.

Both take blocks of matrices one after another, hold only as many blocks as they have workers for, and return each row once. If a worker
dies, its block is repeated; a matrix on which workers die twice gets a row with that fault.
"""

from __future__ import annotations

import multiprocessing
import selectors
import signal
import time
from collections import deque
from collections.abc import Iterator
from multiprocessing.connection import Connection
from typing import Any

from ..running.batch.kept import end_all
from .blocks import rows_at_once
from .streams import Item
from .work import Row, Settings

__all__ = ["Block", "Processes", "blocks_of", "died"]

Block = list[Item]
_Key = tuple[str, int]

_BYTES = 2**20
_PATIENCE = 0.5
_SECONDS = 5.0
"""How long a worker has to leave, which a library that reads a model may keep from it."""


def blocks_of(items: Iterator[Item], size: int) -> Iterator[Block]:
    """The matrices in blocks of a size. A block is smaller if texts are large, or if they arrive slowly."""
    block: Block = []
    held = 0
    begun = time.monotonic()
    for item in items:
        block.append(item)
        held += item.size
        if len(block) == size or held > _BYTES or time.monotonic() - begun > _PATIENCE:
            yield block
            block, held, begun = [], 0, time.monotonic()
    if block:
        yield block


def died(item: Item, what: str = "the worker that classified it died twice") -> Row:
    """The row of a matrix on which workers die."""
    return Row(item.file, item.number, None, None, None, {}, fault="WorkerDied", message=what, size=item.size)


class Processes:
    """Processes of this machine, each with a pipe: a block goes in, and its rows come out as they are found."""

    def __init__(self, jobs: int, settings: Settings) -> None:
        self.settings = settings
        self._workers: dict[Connection, Any] = {}
        self._given: dict[Connection, dict[_Key, Item]] = {}
        self._again: deque[Block] = deque()
        self._suspects: set[_Key] = set()
        # It is kept, since it costs more to make one for each row than to read the row.
        self._ready = selectors.PollSelector()
        for _ in range(jobs):
            self._start()

    def rows(self, blocks: Iterator[Block]) -> Iterator[list[Row]]:
        """The rows of all blocks, in lists of those that are found at once."""
        for connection in list(self._workers):
            self._give(connection, blocks)
        while self._given:
            for key, _ in self._ready.select():
                connection = key.data
                try:
                    rows: list[Row] = connection.recv()
                except (EOFError, OSError):
                    yield self._lost(connection, blocks)
                    continue
                yield rows
                given = self._given[connection]
                for row in rows:
                    del given[row.file, row.number]
                if not given:
                    self._ended(connection)
                    self._give(connection, blocks)

    def close(self) -> None:
        """Ends the processes, and the runs for which they wait."""
        for connection, process in self._workers.items():
            if connection in self._given:
                process.terminate()
            connection.close()
        for process in self._workers.values():
            process.join(_SECONDS)
            process.kill()
            process.join()
        self._workers.clear()
        self._ready.close()

    def _start(self) -> Connection:
        ours, theirs = multiprocessing.Pipe()
        process = multiprocessing.Process(target=_serve, args=(theirs, ours, self.settings), daemon=True)
        process.start()
        theirs.close()
        self._workers[ours] = process
        return ours

    def _give(self, connection: Connection, blocks: Iterator[Block]) -> None:
        block = self._again.popleft() if self._again else next(blocks, [])
        if not block:
            return
        self._given[connection] = {(item.file, item.number): item for item in block}
        self._ready.register(connection, selectors.EVENT_READ, connection)
        try:
            connection.send(block)
        except OSError:
            pass  # its end is seen where its rows are read

    def _ended(self, connection: Connection) -> list[Item]:
        """Lets a worker be without a block, and gives what is left of it."""
        self._ready.unregister(connection)
        return list(self._given.pop(connection).values())

    def _lost(self, connection: Connection, blocks: Iterator[Block]) -> list[Row]:
        """Puts another worker in the place of one that died, and its matrices back, the one that it was at by itself."""
        left = self._ended(connection)
        process = self._workers.pop(connection)
        connection.close()
        process.join()
        first = left.pop(0)
        key = first.file, first.number
        rows = [died(first)] if key in self._suspects else []
        if not rows:
            self._suspects.add(key)
            self._again.append([first])
        if left:
            self._again.append(left)
        self._give(self._start(), blocks)
        return rows


def _serve(connection: Connection, others: Connection, settings: Settings) -> None:
    """A worker: it ignores interrupts, and ends when the process that began it ends."""
    others.close()
    signal.signal(signal.SIGINT, signal.SIG_IGN)
    signal.signal(signal.SIGTERM, _leave)
    try:
        while True:
            for rows in rows_at_once(connection.recv(), settings):
                connection.send(rows)
    except (EOFError, OSError):
        return
    finally:
        end_all()


def _leave(_number: int, _frame: Any) -> None:
    """Ends a worker, its run of the program, and the files of this run."""
    raise SystemExit(128 + signal.SIGTERM)
