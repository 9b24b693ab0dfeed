"""Tries the wrong bodies in the folders trials/ of the crates: python3 -m building.trials [CRATE ..]

The contracts of a crate must refuse each of its trials, which are edits as in must-fail/. The gate tries only must-fail/. The crates below
must be built. Each crate with trials is tried in a folder of its own, as in a build; without names, these are all crates with trials.
"""

from __future__ import annotations

import argparse
import shutil
import subprocess
import sys
from collections.abc import Sequence
from pathlib import Path

from building.clone import TOP, crates_below
from building.work_folders import Busy, WorkFolders

NO_KIT = "there is no rt on the PATH"


class NotTried(Exception):
    """A crate could not be tried. The text says why."""


def crates_with_trials(top: Path = TOP) -> list[str]:
    return sorted({it.parts[-3] for it in (top / "crates").glob("*/trials/*.edit")})


def _below(name: str) -> list[str]:
    below = [it for it in crates_below(name) if it != name]
    for it in below:
        if not (TOP / "crates" / it / "out" / "rlib").is_dir():
            raise NotTried(f"{name} uses {it}, which is not built: run scripts/build")
    return below


def all_are_refused(folders: WorkFolders, name: str) -> bool:
    """Whether each trial of the crate is refused. `rt` prints a line for each."""
    folders.fill(name, _below(name))
    try:
        crate = folders.crate(name)
        shutil.rmtree(crate / "must-fail", ignore_errors=True)
        (crate / "trials").rename(crate / "must-fail")
        return subprocess.run(["rt", "must-fail", name], cwd=crate.parents[1], check=False).returncode == 0
    finally:
        folders.give_back(name)


def try_all(names: Sequence[str]) -> bool:
    """Whether all trials of these crates are refused."""
    if shutil.which("rt") is None:
        raise NotTried(NO_KIT)
    folders = WorkFolders(print)
    with folders.opened():
        return all([all_are_refused(folders, it) for it in names])


def main() -> int:
    known = crates_with_trials()
    parser = argparse.ArgumentParser(description=__doc__, formatter_class=argparse.RawDescriptionHelpFormatter)
    parser.add_argument("crates", nargs="*", metavar="CRATE", help="a crate with trials")
    given: list[str] = parser.parse_args().crates
    if unknown := [it for it in given if it not in known]:
        parser.error(f"no crate has this name and trials: {unknown[0]}")
    try:
        return 0 if try_all(given or known) else 1
    except NotTried as fault:
        print(f"trials: {fault}", file=sys.stderr)
    except Busy as fault:
        print(f"trials: another rt works in {fault}", file=sys.stderr)
    return 1


if __name__ == "__main__":
    sys.exit(main())
