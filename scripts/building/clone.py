"""The crates of the repository, and whether a program was built from their sources."""

from __future__ import annotations

import hashlib
import os
import subprocess
import time
from collections.abc import Iterable, Iterator
from contextlib import suppress
from dataclasses import dataclass
from pathlib import Path

TOP = Path(__file__).resolve().parents[2]
PROGRAM = "cmr"
# The other names of the program.
BATCH, LARGE = OTHER_NAMES = (f"{PROGRAM}-batch", f"{PROGRAM}-large")
BUILT = TOP / "crates" / PROGRAM / "out" / PROGRAM
UNPROVED = TOP / "out" / "unproved" / PROGRAM
NO_KIT = 'there is no rt of the Rattle kit on the PATH to {task}: see "Run it" in README.md. A package needs no kit: see docs/INSTALLING.md'


def crates_below(crate: str = PROGRAM) -> dict[str, list[str]]:
    """A crate and each crate of the repository below it, with the crates that it uses."""
    listed: dict[str, list[str]] = {}
    for line in (TOP / "crates.txt").read_text(encoding="utf-8").splitlines():
        name, colon, uses = line.partition("#")[0].partition(":")
        if colon:
            listed[name.split()[0]] = uses.split()
    below: dict[str, list[str]] = {}
    waiting = [crate]
    while waiting:
        name = waiting.pop()
        if name not in below:
            below[name] = [it for it in listed[name] if it in listed]
            waiting += below[name]
    return below


def source_files(crate: str) -> Iterator[Path]:
    """The files from which a crate is compiled. Its definitions and proofs do not change the program."""
    yield from sorted((TOP / "crates" / crate / "src").rglob("*.rt"))


def _proof_files(crate: str) -> Iterator[Path]:
    """The definitions and proofs of a crate."""
    for folder in ("specs", "proofs"):
        yield from sorted((TOP / "crates" / crate / folder).rglob("*.antt"))


def sum_of(file: Path) -> str:
    return hashlib.sha256(file.read_bytes()).hexdigest()


def _sums(files: Iterable[Path]) -> list[tuple[str, str]]:
    return [(str(it.relative_to(TOP)), sum_of(it)) for it in files]


def _kit() -> str:
    """The line in which the `rt` on the `PATH` names its kit and its logic, or nothing."""
    with suppress(OSError):
        return subprocess.run(["rt", "version"], capture_output=True, text=True, check=False).stdout.strip()
    return ""


@dataclass(frozen=True)
class Record:
    """What a build records beside a program: digests of its sources, of itself, and of its definitions and proofs; and the kit.

    A program that was compiled without proofs has no digest of proofs. Earlier records have neither this digest nor the kit.
    """

    sources: str
    program: str
    proofs: str = ""
    kit: str = ""

    @classmethod
    def of(cls, program: Path) -> Record | None:
        with suppress(FileNotFoundError):
            first, _, kit = _beside(program).read_text(encoding="utf-8").partition("\n")
            sources, built, proofs, *_ = [*first.split(), "", "", ""]
            return cls(sources, built, proofs, kit.strip())
        return None

    def write(self, program: Path) -> None:
        _beside(program).write_text(f"{self.sources} {self.program} {self.proofs}\n{self.kit}\n", encoding="utf-8")


@dataclass(frozen=True)
class Sources:
    """The sources of the program at a time, and if they are proved, the definitions and proofs of its crates."""

    read: float
    digest: str
    proofs: str = ""

    @classmethod
    def now(cls, *, proved: bool = False) -> Sources:
        read, digest, proofs = time.time(), hashlib.sha256(), hashlib.sha256()
        for name, uses in sorted(crates_below().items()):
            digest.update(repr((name, uses, _sums(source_files(name)))).encode())
            if proved:
                proofs.update(repr((name, _sums(_proof_files(name)))).encode())
        return cls(read, digest.hexdigest(), proofs.hexdigest() if proved else "")

    def made(self, program: Path) -> None:
        """Records next to a program that it was built from these sources, and sets its time to theirs, since the files may have changed."""
        Record(self.digest, sum_of(program), self.proofs, _kit()).write(program)
        os.utime(program, (self.read, self.read))

    def have_made(self, program: Path) -> bool:
        record = Record.of(program)
        return record is not None and (record.sources, record.program) == (self.digest, sum_of(program))


def _beside(program: Path) -> Path:
    return program.with_name(f"{program.name}.sources")


def is_fresh(program: Path) -> bool:
    """Whether the program exists and was built from the present sources: no source is newer, or their digests are the recorded ones."""
    if not os.access(program, os.X_OK):
        return False
    files = [TOP / "crates.txt", *(file for it in crates_below() for file in source_files(it))]
    made = program.stat().st_mtime_ns
    if all(it.stat().st_mtime_ns <= made for it in files):
        return True
    sources = Sources.now()
    if not sources.have_made(program):
        return False
    # The next call then needs only the times.
    with suppress(OSError):
        os.utime(program, (sources.read, sources.read))
    return True
