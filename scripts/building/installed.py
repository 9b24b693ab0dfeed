"""Installs all files below a prefix, or none of them, and removes them."""

from __future__ import annotations

import hashlib
import os
import shutil
from collections.abc import Callable, Iterator
from contextlib import suppress
from dataclasses import dataclass, field
from pathlib import Path

from building.clone import BUILT, LARGE, OTHER_NAMES, PROGRAM, TOP, UNPROVED
from cmr_matrices.commands.signals import ignore_signals
from cmr_matrices.errors import BadInput

FOLDER = "lib/cmr"
LIST = f"{FOLDER}/installed"
# The folder in which files are written before they are moved to their places.
NEW = f"{FOLDER}/.new"
FIRST_LINE = "cmr-installed 1"
# Where the program without proofs is installed, in the folder in which the package looks for it, and the scripts that run it.
UNPROVED_FOLDER, UNPROVED_SCRIPTS = f"{FOLDER}/out/unproved", f"{FOLDER}/unproved"
_BASH = "share/bash-completion/completions"

# The commands of the package, by their installed names.
SCRIPTS = {
    "cmr-classify": "cmr-classify",
    "cmr-model": "cmr-model",
    "cmr-from-model": "model_to_matrix",
    "cmr-names": "name_lines",
    "cmr-graph-to-dot": "graph_to_dot",
    "cmr-tree-to-dot": "tree_to_dot",
    "cmr-explain": "explain",
    "cmr-named": "named",
    "cmr-minor": "cmr-minor",
    "cmr-edges-to-graph": "edges_to_graph",
}


@dataclass(frozen=True)
class Item:
    """A file below the prefix with the file that it copies, or a link with its target."""

    path: str
    source: Path | None = None
    leads_to: str = ""

    def write(self, target: Path) -> None:
        if self.source is None:
            target.symlink_to(self.leads_to)
        else:
            shutil.copyfile(self.source, target)
            target.chmod(0o755 if os.access(self.source, os.X_OK) else 0o644)


def _of_program(folder: str, *, proved: bool) -> Iterator[Item]:
    """The program and its other names. Without proofs they are in a folder of their own, and scripts that say so run them.

    `folder` leads from `bin` to the folder of this installation.
    """
    place = "bin" if proved else UNPROVED_FOLDER
    yield Item(f"{place}/{PROGRAM}", BUILT if proved else UNPROVED)
    yield from (Item(f"{place}/{it}", leads_to=PROGRAM) for it in OTHER_NAMES)
    if not proved:
        for name in (PROGRAM, *OTHER_NAMES):
            yield Item(f"{UNPROVED_SCRIPTS}/{name}", TOP / "scripts" / "building" / "unproved.sh")
            yield Item(f"bin/{name}", leads_to=f"{folder}/unproved/{name}")


def items(prefix: Path, *, proved: bool = True) -> list[Item]:
    """All files and links. The scripts and the package have the same relative paths as in the repository, so that the scripts find it."""
    scripts, python = TOP / "scripts", TOP / "python"
    # `bin` may itself be a link to another place.
    folder = os.path.relpath(os.path.realpath(prefix / FOLDER), os.path.realpath(prefix / "bin"))
    package = sorted(it for it in (python / "cmr_matrices").rglob("*") if it.suffix == ".py" or it.name == "py.typed")
    return [
        *_of_program(folder, proved=proved),
        *(Item(f"bin/{name}", leads_to=f"{folder}/scripts/{script}") for name, script in SCRIPTS.items()),
        *(Item(f"{FOLDER}/scripts/{it}", scripts / it) for it in SCRIPTS.values()),
        *(Item(f"{FOLDER}/python/{it.relative_to(python)}", it) for it in package),
        *(Item(f"share/man/man1/{it}.1", TOP / "docs" / f"{it}.1") for it in (PROGRAM, *OTHER_NAMES)),
        *(Item(f"share/man/man1/{it.name}", it) for it in sorted((TOP / "docs" / "commands").glob("*.1"))),
        Item(f"{_BASH}/cmr", scripts / "completions" / "cmr.bash"),
        Item(f"{_BASH}/cmr-commands", scripts / "completions" / "cmr-commands.bash"),
        # bash loads the file that has the name of the command.
        *(Item(f"{_BASH}/{it}", leads_to="cmr" if it in ("cmr-explain", LARGE) else "cmr-commands") for it in (*SCRIPTS, LARGE)),
        *(Item(f"share/zsh/site-functions/{it}", scripts / "completions" / it) for it in ("_cmr", "_cmr-commands")),
    ]


_AGAIN = "move it to another folder, and repeat the command"


def sum_of(path: Path) -> str:
    """A text that differs for different files or links."""
    if path.is_symlink():
        return f"link:{os.readlink(path)}"
    return hashlib.sha256(path.read_bytes()).hexdigest() if path.is_file() else "folder"


@dataclass
class Listed:
    """The installed files, each with the sums that it may have, and the folders that were created for them."""

    sums: dict[str, set[str]] = field(default_factory=dict)
    folders: list[str] = field(default_factory=list)

    def add(self, other: Listed) -> Listed:
        paths = {**self.sums, **other.sums}
        sums = {it: self.sums.get(it, set()) | other.sums.get(it, set()) for it in paths}
        return Listed(sums, list(dict.fromkeys([*self.folders, *other.folders])))

    def is_ours(self, prefix: Path, path: str) -> bool:
        return os.path.lexists(prefix / path) and sum_of(prefix / path) in self.sums.get(path, ())

    def write(self, file: Path) -> None:
        lines = [f"{it} {path}" for path, sums in self.sums.items() for it in sorted(sums)]
        lines += [f"made {it}" for it in self.folders]
        file.write_text("\n".join([FIRST_LINE, *lines, ""]), encoding="utf-8")


def read_list(prefix: Path) -> Listed | None:
    """What is installed below a prefix, or None."""
    try:
        first, *lines = (prefix / LIST).read_text(encoding="utf-8").splitlines() or [""]
    except (FileNotFoundError, NotADirectoryError):
        return None
    if first != FIRST_LINE:
        raise BadInput(f"{prefix / LIST} exists and does not belong to cmr")
    found = Listed()
    for line in lines:
        word, _, path = line.partition(" ")
        if word == "made":
            found.folders.append(path)
        else:
            found.sums.setdefault(path, set()).add(word)
    return found


def refuse_proved_program(prefix: Path) -> None:
    """Refuses a prefix below which a proved program is installed."""
    listed = read_list(prefix)
    if listed and listed.is_ours(prefix, "bin/cmr") and f"{UNPROVED_FOLDER}/cmr" not in listed.sums:
        raise BadInput(f"{prefix}/bin/cmr is a proved program, so nothing is installed: --force replaces it by one without proofs")


def refuse_what_is_there(prefix: Path, *, proved: bool = True) -> None:
    """Refuses a prefix below which some file cannot be installed."""
    listed = read_list(prefix) or Listed()
    for it in items(prefix, proved=proved):
        target = prefix / it.path
        _refuse_folder(target.parent)
        if os.path.lexists(target) and not listed.is_ours(prefix, it.path):
            if it.path in listed.sums:
                raise BadInput(f"{target} was changed since it was installed, so nothing is installed: {_AGAIN}")
            raise BadInput(f"{target} exists and was not installed by this script")


def _refuse_folder(folder: Path) -> None:
    """Refuses a folder that cannot be created or written."""
    while not os.path.lexists(folder):
        folder = folder.parent
    if not folder.is_dir():
        raise BadInput(f"{folder} is not a folder")
    if not os.access(folder, os.W_OK | os.X_OK):
        raise BadInput(f"cannot write in {folder}")


def _give_second_name(path: Path, second: Path) -> None:
    try:
        os.link(path, second, follow_symlinks=False)
    except OSError:
        # Some file systems have no hard links.
        shutil.copy2(path, second, follow_symlinks=False)


class Installation:
    """One installation. If it fails, it is undone."""

    def __init__(self, prefix: Path, *, proved: bool = True) -> None:
        self._prefix = prefix
        self._proved = proved
        self._new = prefix / NEW
        self._undo: list[Callable[[], object]] = []

    def put(self) -> None:
        try:
            self._put()
        except BaseException:
            ignore_signals()
            for it in reversed(self._undo):
                it()
            raise
        shutil.rmtree(self._new)

    def _put(self) -> None:
        before, put = read_list(self._prefix) or Listed(), items(self._prefix, proved=self._proved)
        made = [it for file in put for it in self._make_folders((self._prefix / file.path).parent)]
        shutil.rmtree(self._new, ignore_errors=True)
        self._undo.append(lambda: shutil.rmtree(self._new, ignore_errors=True))
        self._new.mkdir()
        written = {it.path: self._new / str(number) for number, it in enumerate(put)}
        for item in put:
            item.write(written[item.path])
        now = Listed({path: {sum_of(file)} for path, file in written.items()}, before.folders + made)
        before.add(now).write(self._new / "all")
        now.write(self._new / "list")
        ignore_signals()
        # The list of all files comes first, so that it identifies the installed files even if this is killed.
        self._replace(self._new / "all", LIST)
        for path, file in written.items():
            self._replace(file, path)
        for path in before.sums.keys() - now.sums.keys():
            if before.is_ours(self._prefix, path):
                self._set_aside(path)
        self._replace(self._new / "list", LIST)

    def _make_folders(self, folder: Path) -> Iterator[str]:
        """Creates a folder and its missing parents, and gives their paths relative to the prefix."""
        if folder.is_dir():
            return
        yield from self._make_folders(folder.parent)
        folder.mkdir()
        self._undo.append(folder.rmdir)
        yield os.path.relpath(folder, self._prefix)

    def _replace(self, new: Path, path: str) -> None:
        """Moves a file to its place in one step, so that the old or the new file is there at any time."""
        target = self._prefix / path
        if os.path.lexists(target):
            before = self._new / f"old-{len(self._undo)}"
            _give_second_name(target, before)
            self._undo.append(lambda: before.replace(target))
            new.replace(target)
        else:
            new.replace(target)
            self._undo.append(target.unlink)

    def _set_aside(self, path: str) -> None:
        target = self._prefix / path
        if os.path.lexists(target):
            aside = self._new / f"old-{len(self._undo)}"
            target.rename(aside)
            self._undo.append(lambda: aside.rename(target))


def take_away(prefix: Path) -> None:
    """Removes the installed files, and the folders that were created for them if nothing else is in them."""
    listed = read_list(prefix)
    if listed is None:
        raise BadInput(f"cmr is not installed in {prefix}")
    there = [it for it in listed.sums if os.path.lexists(prefix / it)]
    for path in there:
        if not listed.is_ours(prefix, path):
            raise BadInput(f"{prefix / path} was changed since it was installed, so nothing is removed: {_AGAIN}")
        _refuse_folder((prefix / path).parent)
    ignore_signals()
    for path in there:
        (prefix / path).unlink()
    shutil.rmtree(prefix / NEW, ignore_errors=True)
    # Python's compiled modules.
    for made in listed.folders:
        if made.startswith(f"{FOLDER}/python/"):
            shutil.rmtree(prefix / made / "__pycache__", ignore_errors=True)
    (prefix / LIST).unlink()
    for folder in sorted(listed.folders, key=lambda it: -len((prefix / it).resolve().parts)):
        with suppress(OSError):
            (prefix / folder).resolve().rmdir()
