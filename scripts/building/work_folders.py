"""Folders in which the crates of a clone are built in parallel.

`rt` locks a crate and all crates below it while it works, so in one clone it builds one crate at a time. Here each crate is built in a
folder of its own, which has the crate with its `out`, and links to the crates below. When it is built, its `out` moves back. The program
keeps its place until the next program is complete.
"""

from __future__ import annotations

import fcntl
import os
import shutil
from collections.abc import Callable, Iterable, Iterator
from contextlib import contextmanager, suppress
from pathlib import Path

from building.clone import PROGRAM, TOP


class Busy(Exception):
    """Another `rt` works in the folder that the text names."""


def _linked(source: str, target: str) -> None:
    """A hard link to a file, or a copy if links are impossible. The tools that write these files replace them and never change one."""
    try:
        os.link(source, target)
    except OSError:
        shutil.copy2(source, target)


def _held(folder: Path) -> int:
    """The folder, opened and locked as `rt` locks it."""
    opened = os.open(folder, os.O_RDONLY)
    try:
        fcntl.flock(opened, fcntl.LOCK_EX | fcntl.LOCK_NB)
    except BlockingIOError as fault:
        os.close(opened)
        raise Busy(str(folder)) from fault
    except OSError:
        # Some file systems have no locks.
        pass
    return opened


def _move(source: Path, target: Path) -> None:
    """Moves the content of a folder to another one, except the program and what the other one already has."""
    with suppress(FileNotFoundError):
        found = [it for it in source.iterdir() if it.name != PROGRAM]
        target.mkdir(exist_ok=True)
        for it in found:
            if not (target / it.name).exists():
                it.rename(target / it.name)


@contextmanager
def locked(folders: Iterable[Path]) -> Iterator[None]:
    """Locks the folders, so that no other `rt` works in them."""
    held: list[int] = []
    try:
        held.extend(_held(it) for it in sorted(folders))
        yield
    finally:
        for it in held:
            os.close(it)


@contextmanager
def locked_at_last(folder: Path, tell: Callable[[], object]) -> Iterator[None]:
    """Locks the folder, and calls `tell` if it must wait for another lock."""
    try:
        held = _held(folder)
    except Busy:
        tell()
        held = os.open(folder, os.O_RDONLY)
        fcntl.flock(held, fcntl.LOCK_EX)
    try:
        yield
    finally:
        os.close(held)


class WorkFolders:
    """The folders of one build. They are created and emptied under a lock, so one build of a clone waits for another, and says so."""

    def __init__(self, say: Callable[[str], object], top: Path = TOP) -> None:
        self._say = say
        self._top = top
        git = top / ".git"
        # `rt ci` accepts no other crate among the files of a repository.
        self._at = (git if git.is_dir() else top / "out") / "cmr-build"
        self._held: dict[str, int] = {}

    @contextmanager
    def opened(self) -> Iterator[None]:
        self._at.mkdir(parents=True, exist_ok=True)
        with locked_at_last(self._at, lambda: self._say("waiting for another build of this clone")):
            for it in list(self._at.iterdir()):
                self._take_back(it.name)
            yield

    def _crate(self, name: str) -> Path:
        return self._top / "crates" / name

    def crate(self, name: str) -> Path:
        """The folder in which a crate is built."""
        return self._at / name / "crates" / name

    def fill(self, name: str, below: Iterable[str]) -> None:
        """Creates the folder of a crate; all crates below it are built. Raises `Busy` if another `rt` works in one of them."""
        below = list(below)
        held = _held(self._crate(name))
        try:
            with locked(map(self._crate, below)):
                self._write_list(name, below)
                for it in (name, *below):
                    shutil.copytree(
                        self._crate(it),
                        self.crate(name).with_name(it),
                        ignore=shutil.ignore_patterns("out"),
                        copy_function=_linked,
                    )
                for it in below:
                    built = self.crate(name).with_name(it) / "out" / "rlib"
                    with suppress(FileNotFoundError):
                        shutil.copytree(self._crate(it) / "out" / "rlib", built, copy_function=_linked)
            _move(self._crate(name) / "out", self.crate(name) / "out")
        except BaseException:
            self._take_back(name)
            os.close(held)
            raise
        self._held[name] = held

    def _write_list(self, name: str, below: list[str]) -> None:
        """The lines of the crates in the folder, as the repository has them."""
        self.crate(name).parent.mkdir(parents=True)
        lines = (self._top / "crates.txt").read_text(encoding="utf-8").splitlines(keepends=True)
        kept = [it for it in lines if it.partition(":")[0].split()[:1] in [[name], *([it] for it in below)]]
        (self._at / name / "crates.txt").write_text("".join(kept), encoding="utf-8")

    def program(self, name: str) -> Path:
        """The place in which the build leaves the program."""
        return self.crate(name) / "out" / name

    def give_back(self, name: str, *, is_built: bool = False) -> None:
        """Moves the results of a build back to its crate, with the program if it is built, and removes the folder."""
        if is_built and name == PROGRAM:
            out = self._crate(name) / "out"
            out.mkdir(exist_ok=True)
            self.program(name).replace(out / name)
        self._take_back(name)
        with suppress(KeyError):
            os.close(self._held.pop(name))

    def _take_back(self, name: str) -> None:
        made, of = self.crate(name), self._crate(name)
        if made.is_dir():
            with locked_at_last(made, lambda: self._say(f"waiting for the rt on {name} of an earlier build")):
                if of.is_dir():
                    _move(made / "out", of / "out")
        shutil.rmtree(self._at / name, ignore_errors=True)
