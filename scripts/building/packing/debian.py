"""The package for Debian and its relatives."""

from __future__ import annotations

import gzip
import hashlib
from email.utils import format_datetime
from pathlib import Path

from building.packing.files import PACKAGE, packed, put, settle, write
from building.packing.linked import Linked
from building.packing.origin import Origin
from building.packing.tools import output

# Where Debian has what scripts/install puts elsewhere below the prefix.
MOVED = {PACKAGE: "lib/python3/dist-packages/", "share/zsh/site-functions/": "share/zsh/vendor-completions/"}

CONTROL = """\
Package: cmr
Version: {version}
Architecture: amd64
Maintainer: {author}
Installed-Size: {size}
Depends: {depends}
Recommends: glpk-utils, graphviz, python3-swiglpk
Suggests: python3-distributed, python3-networkx, python3-numpy, python3-pandas, python3-scipy, python3-tqdm
Section: math
Priority: optional
Description: {title}
 cmr decides whether a matrix is totally unimodular, regular, graphic, network
 or balanced, and gives evidence for each answer that can be checked
 independently. The package also contains cmr-large for larger matrices,
 cmr-batch for many runs in one process, and the Python package
 cmr_matrices with its commands for models of integer programs and for
 matroids.
{note}"""
NOTE = """\
 .
 The contracts of the program are proved: /usr/share/doc/cmr/PROVENANCE.
"""
UNPROVED_NOTE = """\
 .
 Nothing is proved of this program: /usr/share/doc/cmr/PROVENANCE.
"""
CHANGES = """\
cmr ({version}) unstable; urgency=medium

  * Commit {commit}.
    CHANGELOG.md of the repository has the changes.

 -- {author}  {date}
"""
# A stripped program would have other bytes.
OVERRIDES = """\
# PROVENANCE has the digest of the program as it was built.
cmr: unstripped-binary-or-object [usr/bin/cmr]
"""
# What dh_python3 writes for a package with Python modules.
POSTINST = """\
#!/bin/sh
set -e
if command -v py3compile > /dev/null 2>&1; then
    py3compile -p cmr
fi
"""
PRERM = """\
#!/bin/sh
set -e
if command -v py3clean > /dev/null 2>&1; then
    py3clean -p cmr
fi
"""


def make(origin: Origin, linked: Linked, work: Path, out: Path) -> Path:
    """Writes the package to a folder and gives its path."""
    # A `~` makes a version earlier, so that the proved program replaces the unproved one.
    version = origin.version.replace("+", "~")
    folder = work / "debian"
    for it in packed(origin, folder / "usr"):
        put(origin, it, folder / "usr" / _place(it.path))
    for page in sorted((folder / "usr/share/man").rglob("*.1")):
        write(page.with_name(f"{page.name}.gz"), gzip.compress(page.read_bytes(), mtime=0))
        page.unlink()
    changes = CHANGES.format(
        version=version, commit=origin.commit, author=origin.author, date=format_datetime(origin.date)
    )
    write(folder / "usr/share/doc/cmr/changelog.gz", gzip.compress(changes.encode(), mtime=0))
    write(folder / "usr/share/doc/cmr/PROVENANCE", origin.text())
    write(folder / "usr/share/lintian/overrides/cmr", OVERRIDES)
    _write_control(origin, linked, folder, version)
    settle(folder, origin.time)
    target = out / f"cmr_{version}_amd64.deb"
    output(["dpkg-deb", "--root-owner-group", "-Zxz", "--build", folder, target], work, origin.time)
    return target


def _place(path: str) -> str:
    for start, moved in MOVED.items():
        if path.startswith(start):
            return moved + path.removeprefix(start)
    return path


def _write_control(origin: Origin, linked: Linked, folder: Path, version: str) -> None:
    there = sorted((folder / "usr").rglob("*"))
    files = [it for it in there if it.is_file() and not it.is_symlink()]
    # In units of 1024 bytes, one for each folder and link.
    size = sum(-(-it.stat().st_size // 1024) for it in files) + len(there) - len(files)
    control = CONTROL.format(
        version=version,
        author=origin.author,
        size=size,
        depends=", ".join([*linked.debian, "python3 (>= 3.11)"]),
        title=origin.title,
        note=NOTE if origin.proved else UNPROVED_NOTE,
    )
    write(folder / "DEBIAN/control", control)
    sums = (f"{hashlib.md5(it.read_bytes()).hexdigest()}  {it.relative_to(folder)}\n" for it in files)
    write(folder / "DEBIAN/md5sums", "".join(sums))
    for name, text in {"postinst": POSTINST, "prerm": PRERM}.items():
        write(folder / "DEBIAN" / name, text)
        (folder / "DEBIAN" / name).chmod(0o755)
