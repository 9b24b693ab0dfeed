"""Files of the stand-in."""

from __future__ import annotations

import json
from collections.abc import Iterator
from pathlib import Path
from typing import Any

from . import Schema, Table

_MARK = "PAR1"
_TYPES = {"int": int, "float": float, "str": str}


class ParquetWriter:
    """Writes tables of one schema, one after another."""

    def __init__(self, path: Path, wanted: Schema) -> None:
        self._stream = open(path, "w", encoding="utf-8")  # pylint: disable=consider-using-with
        self._schema = wanted
        self._put([_MARK, {name: kind.__name__ for name, kind in wanted.types.items()}])

    def __enter__(self) -> ParquetWriter:
        return self

    def __exit__(self, *_: object) -> None:
        self._put(_MARK)
        self._stream.close()

    def write_table(self, table: Table) -> None:
        """Writes the rows of a table."""
        if table.schema != self._schema:
            raise ValueError("the schema is another one")
        self._put(table.to_pylist())

    def _put(self, value: Any) -> None:
        self._stream.write(json.dumps(value) + "\n")


class ParquetFile:
    """A file that was written to its end."""

    def __init__(self, path: Path) -> None:
        head, *self._groups, end = map(json.loads, path.read_text(encoding="utf-8").splitlines())
        if head[0] != _MARK or end != _MARK:
            raise ValueError("no file of Parquet")
        self._schema = Schema({name: _TYPES[kind] for name, kind in head[1].items()})

    def iter_batches(self) -> Iterator[Table]:
        """The tables in their order."""
        for rows in self._groups:
            yield Table.from_pylist(rows, self._schema)
