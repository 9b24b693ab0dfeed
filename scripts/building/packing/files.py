"""The files of scripts/install in a folder, with fixed modes and times."""

from __future__ import annotations

import os
from collections.abc import Iterator
from dataclasses import replace
from pathlib import Path

from building.clone import BUILT
from building.installed import FOLDER, Item, items
from building.packing.origin import Origin

PACKAGE = f"{FOLDER}/python/"
VERSION = f"{PACKAGE}cmr_matrices/version.py"


def packed(origin: Origin, folder: Path) -> Iterator[Item]:
    """The files that scripts/install would install below a folder, with the program of the origin."""
    for it in items(folder):
        yield replace(it, source=origin.program) if it.source == BUILT else it


def put(origin: Origin, item: Item, target: Path) -> None:
    """Writes a file. The package has the version of the origin."""
    target.parent.mkdir(parents=True, exist_ok=True)
    item.write(target)
    if item.path == VERSION and item.source:
        lines = item.source.read_text(encoding="utf-8").splitlines()
        lines = [f'__version__ = "{origin.version}"' if it.startswith("__version__ = ") else it for it in lines]
        target.write_text("\n".join([*lines, ""]), encoding="utf-8")


def write(target: Path, content: str | bytes) -> None:
    target.parent.mkdir(parents=True, exist_ok=True)
    target.write_bytes(content.encode() if isinstance(content, str) else content)


def settle(folder: Path, time: int) -> None:
    """Gives a folder and what is below it fixed modes and the given time."""
    for it in sorted([folder, *folder.rglob("*")], reverse=True):
        if not it.is_symlink():
            it.chmod(0o755 if it.is_dir() or it.stat().st_mode & 0o100 else 0o644)
        os.utime(it, (time, time), follow_symlinks=False)
