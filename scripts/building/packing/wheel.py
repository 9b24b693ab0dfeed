"""The wheel for pip: setuptools builds one of the package, and then it gets the program, the manual pages and the completions."""

from __future__ import annotations

import re
import shutil
from pathlib import Path

from building.clone import TOP
from building.installed import SCRIPTS, Item
from building.packing.files import PACKAGE, packed, put, settle, write
from building.packing.linked import Linked
from building.packing.origin import Origin
from building.packing.tools import output

# Debian's Python, with its setuptools and its wheel.
PYTHON = "/usr/bin/python3"
BUILD = "import sys; from setuptools.build_meta import build_wheel; build_wheel(sys.argv[1])"


def make(origin: Origin, linked: Linked, work: Path, out: Path) -> Path:
    """Writes the wheel to a folder and gives its path."""
    source = work / "source"
    there = list(packed(origin, source))
    for it in there:
        if it.path.startswith(PACKAGE):
            put(origin, it, source / it.path.removeprefix(PACKAGE))
    shutil.copyfile(TOP / "python" / "README.md", source / "README.md")
    project = (TOP / "python" / "pyproject.toml").read_text(encoding="utf-8")
    if not origin.proved:
        project = re.sub("^description = .*$", f'description = "{origin.title}"', project, flags=re.MULTILINE)
    write(source / "pyproject.toml", project)
    output([PYTHON, "-c", BUILD, work], source, origin.time)
    pure = next(work.glob("*.whl"))
    output([PYTHON, "-m", "wheel", "unpack", "--dest", work / "wheel", pure], work)
    folder = next((work / "wheel").iterdir())
    _add(origin, linked, there, folder)
    settle(folder, origin.time)
    output([PYTHON, "-m", "wheel", "pack", "--dest-dir", out, folder], work, origin.time)
    return next(out.glob(f"{folder.name}-*.whl"))


def _add(origin: Origin, linked: Linked, there: list[Item], folder: Path) -> None:
    """Adds the other files to an unpacked wheel. A wheel has no links, so it gets their content. pip makes the commands of the package."""
    data = folder / f"{folder.name}.data"
    sources = {it.path: it.source for it in there}
    for it in there:
        top, _, name = it.path.partition("/")
        if top == "share" or (top == "bin" and name not in SCRIPTS):
            source = it.source or sources[str(Path(it.path).with_name(it.leads_to))]
            put(origin, Item(it.path, source), data / "scripts" / name if top == "bin" else data / "data" / it.path)
    info = folder / f"{folder.name}.dist-info"
    write(info / "PROVENANCE", origin.text())
    tags = (info / "WHEEL").read_text(encoding="utf-8")
    tags = tags.replace("Root-Is-Purelib: true", "Root-Is-Purelib: false")
    write(info / "WHEEL", tags.replace("Tag: py3-none-any", f"Tag: py3-none-{linked.wheel_tag}"))
