"""What the program needs of another machine."""

from __future__ import annotations

import re
from dataclasses import dataclass
from pathlib import Path

from building.packing.tools import output
from cmr_matrices.errors import BadInput

# The libraries that every Linux has, each with its package of Debian.
LIBRARIES = {"libc.so.6": "libc6", "libm.so.6": "libc6", "libgcc_s.so.1": "libgcc-s1"}


@dataclass(frozen=True)
class Linked:
    """The libraries that a program is linked with, and the version of glibc that it needs."""

    libraries: frozenset[str]
    glibc: tuple[int, int]

    @classmethod
    def of(cls, program: Path) -> Linked:
        said = output(["readelf", "--wide", "--file-header", "--dynamic", "--version-info", program], program.parent)
        if "X86-64" not in said:
            raise BadInput(f"{program} is not compiled for x86-64")
        libraries = frozenset(re.findall(r"\(NEEDED\).*\[(.*)\]", said))
        if others := libraries - LIBRARIES.keys():
            raise BadInput(f"another machine may not have the libraries of the program: {', '.join(sorted(others))}")
        return cls(libraries, max(map(_numbers, re.findall(r"\bGLIBC_([\w.]+)", said)), default=(2, 0)))

    @property
    def wheel_tag(self) -> str:
        return f"manylinux_{self.glibc[0]}_{self.glibc[1]}_x86_64"

    @property
    def debian(self) -> list[str]:
        """The packages of Debian that have the libraries."""
        packages = {LIBRARIES[it] for it in self.libraries}
        return [f"{it} (>= {self.glibc[0]}.{self.glibc[1]})" if it == "libc6" else it for it in sorted(packages)]


def _numbers(version: str) -> tuple[int, int]:
    """The first two numbers of a version of glibc."""
    found = re.match(r"(\d+)\.(\d+)", version)
    if not found:
        raise BadInput(f"another machine may not have GLIBC_{version}, which the program needs")
    return int(found[1]), int(found[2])
