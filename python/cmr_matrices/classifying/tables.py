"""Tables: a row for each matrix, written as it is found, as CSV, JSON lines or Parquet.

Rows are written whole, those that come at once by one call, after their evidence. If a table was cut off, in a row or between two, writing
resumes at the end of the last whole row. Parquet cannot be written row by row, so the rows are kept in a table of JSON lines beside it
until all are there.
"""

from __future__ import annotations

import csv
import fcntl
import json
import os
import sys
from collections.abc import Iterable, Iterator, Sequence
from pathlib import Path
from typing import Any, BinaryIO, Protocol

from ..errors import BadInput
from .classes import CLASS_NAMES
from .work import Row

__all__ = ["Done", "Lines", "Table", "columns_of", "files_of", "open_table", "read_table"]

_BEFORE = ("file", "number", "rows", "columns", "nonzeros")
_BEHIND = ("milliseconds", "fault", "byte", "message")
_WHOLE = {"number", "rows", "columns", "nonzeros", "byte"}


def columns_of(classes: Sequence[str]) -> list[str]:
    """The names of a table's columns."""
    return [*_BEFORE, *classes, *_BEHIND]


class Done:
    """Which matrices have a row: a bit for each number of a file."""

    def __init__(self) -> None:
        self._files: dict[str, bytearray] = {}

    def add(self, file: str, number: int) -> None:
        """Adds a row. Raises `BadInput` if it was there already."""
        bits = self._files.setdefault(file, bytearray())
        if number // 8 >= len(bits):
            bits.extend(bytes(number // 8 - len(bits) + 1 + len(bits) // 4))
        if (file, number) in self:
            raise BadInput(f"the table has two rows of {file} {number}")
        bits[number // 8] |= 1 << number % 8

    def __contains__(self, key: tuple[str, int]) -> bool:
        file, number = key
        bits = self._files.get(file, b"")
        return number // 8 < len(bits) and bool(bits[number // 8] >> number % 8 & 1)


class Lines(Protocol):
    """The format of rows in a file, as bytes."""

    def head(self, columns: Sequence[str]) -> bytes:
        """The bytes before all rows."""

    def rows(self, columns: Sequence[str], rows: Iterable[Sequence[Any]]) -> bytes:
        """Rows with their values in columns, each with its end."""

    def read(self, stream: BinaryIO) -> Iterator[tuple[list[str], dict[str, Any] | None, int]]:
        """The whole rows, each with the columns and the position in the file after it; first the head, without a row."""


class _Csv:
    def head(self, columns: Sequence[str]) -> bytes:
        return _csv_lines([columns])

    def rows(self, columns: Sequence[str], rows: Iterable[Sequence[Any]]) -> bytes:
        return _csv_lines(rows)

    def read(self, stream: BinaryIO) -> Iterator[tuple[list[str], dict[str, Any] | None, int]]:
        place = 0
        last = b""

        def lines() -> Iterator[str]:
            nonlocal place, last
            for line in stream:
                place += len(line)
                last = line
                yield line.decode("utf-8", "surrogateescape")

        columns: list[str] = []
        for words in csv.reader(lines()):
            if not last.endswith(b"\n") or (columns and len(words) < len(columns)):
                if stream.read(1):
                    raise ValueError(f"there are {len(words)} columns of {len(columns)}")
                return
            if not columns:
                columns = words
                yield columns, None, place
            else:
                yield columns, {name: _csv_value(name, word) for name, word in zip(columns, words, strict=True)}, place


class _JsonLines:
    def head(self, columns: Sequence[str]) -> bytes:
        return b""

    def rows(self, columns: Sequence[str], rows: Iterable[Sequence[Any]]) -> bytes:
        return "".join([json.dumps(dict(zip(columns, values))) + "\n" for values in rows]).encode("ascii")

    def read(self, stream: BinaryIO) -> Iterator[tuple[list[str], dict[str, Any] | None, int]]:
        place = 0
        for line in stream:
            if not line.endswith(b"\n"):
                return
            place += len(line)
            values = json.loads(line)
            yield list(values), values, place


class Table:
    """A table that is being written."""

    def __init__(self, stream: BinaryIO, lines: Lines, classes: Sequence[str], finished: Path | None = None) -> None:
        self._stream = stream
        self._lines = lines
        self._classes = classes
        self._columns = columns_of(classes)
        self._finished = finished

    def begin(self) -> None:
        """Writes the head of the table, before all rows."""
        self._stream.write(self._lines.head(self._columns))
        self._stream.flush()

    def write(self, rows: Iterable[Row]) -> None:
        """Writes rows, whole."""
        self._stream.write(self._lines.rows(self._columns, [_values(row, self._classes) for row in rows]))
        self._stream.flush()

    def finish(self) -> None:
        """Ends a table that has all its rows."""
        if self._finished is not None:
            _write_parquet(Path(self._stream.name), self._finished, self._classes)
        if self._stream is not sys.stdout.buffer:
            self._stream.close()
        if self._finished is not None:
            _working(self._finished).unlink()


def open_table(name: str, classes: Sequence[str], *, resumes: bool) -> tuple[Table, Iterator[dict[str, Any]]]:
    """A table to write to, and the rows that it contains, which have to be read before one is written.

    Raises `BadInput` if there is a table already that is not to be resumed, has other classes, or is being written.
    """
    if name == "-":
        table = Table(sys.stdout.buffer, _Csv(), classes)
        return table, _begun(table)
    finished = Path(name) if Path(name).suffix == ".parquet" else None
    path = Path(name) if finished is None else _working(finished)
    if not resumes and any(file is not None and file.exists() and file.stat().st_size for file in (path, finished)):
        raise BadInput(f"{name} is there already: --resume goes on with it")
    if finished is not None:
        _needs_pyarrow()
        if finished.exists() and not path.exists():
            _unpack(finished, path)
    try:
        os.close(os.open(path, os.O_RDWR | os.O_CREAT, 0o666))
        stream = open(path, "r+b")  # pylint: disable=consider-using-with
        fcntl.lockf(stream, fcntl.LOCK_EX | fcntl.LOCK_NB)
    except BlockingIOError as fault:
        raise BadInput(f"{name} is being written by another run") from fault
    except OSError as fault:
        raise BadInput(f"cannot write {name}: {fault.strerror}") from fault
    table = Table(stream, _lines_of(path), classes, finished)
    return table, _standing(table, stream, name, classes)


def files_of(name: str) -> list[str]:
    """The files that a table may have, also while it is written."""
    return [] if name == "-" else [name, str(_working(Path(name)))]


def read_table(name: str) -> Iterator[dict[str, Any]]:
    """The rows of a table in a file, without a row that was cut off."""
    path = Path(name)
    if path.suffix == ".parquet":
        for _, batch in _parquet_batches(path):
            yield from batch
        return
    try:
        with open(path, "rb") as stream:
            yield from _rows(stream, _lines_of(path), name)
    except OSError as fault:
        raise BadInput(f"cannot read {name}: {fault.strerror}") from fault


def _begun(table: Table) -> Iterator[dict[str, Any]]:
    table.begin()
    return iter(())


def _standing(table: Table, stream: BinaryIO, name: str, classes: Sequence[str]) -> Iterator[dict[str, Any]]:
    """The rows that a table contains. Whatever follows the last whole row is then cut off."""
    end = 0
    for columns, values, end in _read(stream, _lines_of(Path(stream.name)), name):
        if columns != columns_of(classes):
            raise BadInput(f"{name} has other classes: its columns are {','.join(columns)}")
        if values is not None:
            yield values
    stream.seek(end)
    stream.truncate()
    if end == 0:
        table.begin()


def _rows(stream: BinaryIO, lines: Lines, name: str) -> Iterator[dict[str, Any]]:
    for _, values, _ in _read(stream, lines, name):
        if values is not None:
            yield values


def _read(stream: BinaryIO, lines: Lines, name: str) -> Iterator[tuple[list[str], dict[str, Any] | None, int]]:
    end = 0
    try:
        for columns, values, end in lines.read(stream):
            if columns[: len(_BEFORE)] != list(_BEFORE) or columns[-len(_BEHIND) :] != list(_BEHIND):
                raise BadInput(f"{name} is no table of classes: its columns are {','.join(columns)}")
            yield columns, values, end
    except (ValueError, csv.Error) as fault:
        if isinstance(fault, BadInput):
            raise
        raise BadInput(f"{name}: there is no row at byte {end}: {fault}") from fault


def _values(row: Row, classes: Sequence[str]) -> list[Any]:
    """The values of a row in the columns of `columns_of`."""
    found = row.verdicts
    verdicts = [found.get(name, "") for name in classes]
    after = row.milliseconds, row.fault, row.byte, row.message
    return [row.file, row.number, row.rows, row.columns, row.nonzeros, *verdicts, *after]


def _lines_of(path: Path) -> Lines:
    if path.suffix in (".jsonl", ".ndjson"):
        return _JsonLines()
    return _Csv()


class _Written(list[str]):
    """The lines that are written to it."""

    def write(self, line: str) -> None:
        """Adds a line with its end `\\r\\n`, for the sake of which the module csv quotes both characters."""
        self.append(line[:-2] + "\n")


def _csv_lines(rows: Iterable[Sequence[Any]]) -> bytes:
    written = _Written()
    csv.writer(written, lineterminator="\r\n").writerows(rows)
    return "".join(written).encode("utf-8", "surrogateescape")


def _csv_value(name: str, word: str) -> Any:
    if name in _WHOLE:
        return int(word) if word else None
    if name == "milliseconds":
        return float(word)
    return word if name == "file" or name in CLASS_NAMES else word or None


def _working(finished: Path) -> Path:
    return finished.with_name(finished.name + ".jsonl")


def _needs_pyarrow() -> Any:
    try:
        import pyarrow.parquet  # pylint: disable=import-outside-toplevel
    except ImportError as fault:
        raise BadInput("a table in Parquet needs pyarrow") from fault
    return pyarrow


def _write_parquet(rows: Path, finished: Path, classes: Sequence[str]) -> None:
    """Writes the rows of a table of JSON lines to Parquet, a group at a time. The file has its name once it is whole."""
    arrow = _needs_pyarrow()
    kinds = {"milliseconds": arrow.float64(), **{name: arrow.int64() for name in _WHOLE}}
    schema = arrow.schema([(name, kinds.get(name, arrow.string())) for name in columns_of(classes)])
    unfinished = finished.with_name(finished.name + ".unfinished")
    with arrow.parquet.ParquetWriter(unfinished, schema) as writer, open(rows, "rb") as stream:
        group: list[dict[str, Any]] = []
        for values in _rows(stream, _JsonLines(), str(rows)):
            group.append(values)
            if len(group) == 10_000:
                writer.write_table(arrow.Table.from_pylist(group, schema))
                group = []
        if group:
            writer.write_table(arrow.Table.from_pylist(group, schema))
    unfinished.replace(finished)


def _parquet_batches(path: Path) -> Iterator[tuple[list[str], list[dict[str, Any]]]]:
    arrow = _needs_pyarrow()
    for batch in arrow.parquet.ParquetFile(path).iter_batches():
        yield batch.schema.names, batch.to_pylist()


def _unpack(finished: Path, path: Path) -> None:
    """Makes the table of JSON lines again from which Parquet was written."""
    unfinished = path.with_name(path.name + ".unfinished")
    with open(unfinished, "wb") as stream:
        for _, batch in _parquet_batches(finished):
            stream.writelines(_JsonLines().rows(list(values), [list(values.values())]) for values in batch)
    unfinished.replace(path)
