"""The tarball: a folder with `bin`, `lib` and `share` that works at every place."""

from __future__ import annotations

import gzip
import io
import tarfile
from pathlib import Path

from building.packing.files import packed, put, settle, write
from building.packing.linked import Linked
from building.packing.origin import Origin

NOTE = """\
To install, move this folder to a place such as ~/{name}, and add its bin to the PATH: export PATH="$HOME/{name}/bin:$PATH"
To use the Python package (Python 3.11): export PYTHONPATH="$HOME/{name}/lib/cmr/python". To remove all, delete the folder.
"""


def make(origin: Origin, _linked: Linked, work: Path, out: Path) -> Path:
    """Writes the tarball to a folder and gives its path."""
    name = f"cmr-{origin.version}-linux-x86_64"
    folder = work / name
    for it in packed(origin, folder):
        put(origin, it, folder / it.path)
    write(folder / "INSTALL", NOTE.format(name=name))
    write(folder / "PROVENANCE", origin.text())
    settle(folder, origin.time)
    packed_folder = io.BytesIO()
    with tarfile.open(fileobj=packed_folder, mode="w", format=tarfile.GNU_FORMAT) as tar:
        # It adds the files in the order of their names.
        tar.add(folder, name, filter=_of_root)
    write(out / f"{name}.tar.gz", gzip.compress(packed_folder.getvalue(), mtime=origin.time))
    return out / f"{name}.tar.gz"


def _of_root(entry: tarfile.TarInfo) -> tarfile.TarInfo:
    entry.uid = entry.gid = 0
    entry.uname = entry.gname = "root"
    return entry
