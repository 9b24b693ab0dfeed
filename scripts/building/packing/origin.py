"""Where the program of a package comes from: its commit, kit and digests, as the text PROVENANCE."""

from __future__ import annotations

from collections.abc import Iterator
from dataclasses import dataclass
from datetime import datetime, timezone
from pathlib import Path

from building.clone import BUILT, OTHER_NAMES, PROGRAM, TOP, UNPROVED, Record, Sources
from building.packing.tools import output
from cmr_matrices.errors import BadInput
from cmr_matrices.version import __version__

PROVED = """\
The program was built from proved sources. For every list of arguments and all devices it is proved what an answer of cmr means, what a
run prints and writes, and that two reports on the same arguments and bytes have the same status and the same standard output. Each reply
of cmr-batch has such a report. In the repository, "What is proved" in README.md says more, docs/CONTRACTS.md lists what is proved, and
docs/DEFINITIONS.md states the definitions. The built program, the Python package and its commands are only tested. The toolchain of the
kit, with its logic, and the C library are trusted.
"""
UNPROVED_TEXT = """\
Nothing is proved of the program in this package: it was compiled without proofs, with run-time checks.
"""
REPEAT = """\
To repeat the build, put the rt of this kit on the PATH, and run in a new clone of the repository:

    git checkout {commit}
    scripts/package{option}

sha256sum prints the SHA-256 of an installed program. The digest of the sources covers the code of all crates of the program, and the digest
of the proofs their definitions and proofs; scripts/building/clone.py computes both.
"""


def place_of(*, proved: bool) -> Path:
    """Where the program is, with proofs or without."""
    return BUILT if proved else UNPROVED


def record_now(*, proved: bool) -> Record | None:
    """What is recorded beside the program, or None if it was not built from the present sources, and proved if asked."""
    place = place_of(proved=proved)
    record, sources = Record.of(place), Sources.now(proved=proved)
    is_present = record is not None and sources.have_made(place) and record.proofs == sources.proofs
    return record if is_present else None


@dataclass(frozen=True)
class Origin:
    """The commit of a clone, and the program that was built in it with its record."""

    proved: bool
    commit: str
    is_clean: bool
    time: int
    author: str
    record: Record

    @classmethod
    def now(cls, *, proved: bool) -> Origin:
        """Raises `BadInput` if the program is missing, or was not built from the present sources."""
        commit, time, author = output(["git", "log", "-1", "--format=%H%n%ct%n%cn <%ce>"], TOP).splitlines()
        is_clean = not output(["git", "status", "--porcelain"], TOP)
        record = record_now(proved=proved)
        if record is None:
            raise BadInput(f"{place_of(proved=proved)} was not built from the present sources")
        return cls(proved, commit, is_clean, int(time), author, record)

    @property
    def program(self) -> Path:
        return place_of(proved=self.proved)

    @property
    def version(self) -> str:
        return __version__ if self.proved else f"{__version__}+unproved"

    @property
    def title(self) -> str:
        return f"total unimodularity of matrices, {'with proved answers' if self.proved else 'compiled without proofs'}"

    def text(self) -> str:
        return "\n".join([*self._facts(), "", PROVED if self.proved else UNPROVED_TEXT, self._repeat()])

    def _facts(self) -> Iterator[str]:
        yield f"Version: {self.version}"
        yield f"Commit: {self.commit}{'' if self.is_clean else ', with changes that are not committed'}"
        yield f"Date: {self.date:%Y-%m-%d %H:%M:%S} UTC"
        yield f"Program: {PROGRAM}, also named {' and '.join(OTHER_NAMES)}"
        yield f"SHA-256: {self.record.program}"
        yield f"Sources: {self.record.sources}"
        if self.proved:
            yield f"Proofs: {self.record.proofs}"
        yield f"Kit: {self.record.kit or 'not recorded'}"

    def _repeat(self) -> str:
        return REPEAT.format(commit=self.commit, option="" if self.proved else " --unproved")

    @property
    def date(self) -> datetime:
        return datetime.fromtimestamp(self.time, timezone.utc)
