"""Texts that runs of the program read from their standard input."""

from __future__ import annotations

import os
import tempfile
from collections.abc import Iterator
from contextlib import contextmanager

__all__ = ["held_text"]


@contextmanager
def held_text(text: bytes) -> Iterator[int]:
    """An unnamed file with a text, as a descriptor that runs read from its beginning. It is removed at the end."""
    if hasattr(os, "memfd_create"):
        file = os.memfd_create("matrix")
        try:
            with open(file, "wb", closefd=False) as stream:
                stream.write(text)
            os.lseek(file, 0, os.SEEK_SET)
            yield file
        finally:
            os.close(file)
    else:
        with tempfile.TemporaryFile() as stream:
            stream.write(text)
            stream.flush()
            os.lseek(stream.fileno(), 0, os.SEEK_SET)
            yield stream.fileno()
