"""The commands of the system with which the packages are made."""

from __future__ import annotations

import os
import shutil
import subprocess
from collections.abc import Sequence
from pathlib import Path

from cmr_matrices.errors import BadInput, CommandMissing

# The packages of Debian that have the commands.
DEBIAN = {"/usr/bin/python3": "python3", "dpkg-deb": "dpkg", "git": "git", "readelf": "binutils"}


def output(words: Sequence[str | Path], folder: Path, time: int = 0) -> str:
    """What a command prints in a folder. A file that it makes has the given time, in seconds."""
    command = str(words[0])
    if shutil.which(command) is None:
        raise CommandMissing("scripts/package", command, DEBIAN[command])
    settings = {"LC_ALL": "C.UTF-8", "TZ": "UTC", "SOURCE_DATE_EPOCH": str(time), "DPKG_DEB_THREADS_MAX": "1"}
    ran = subprocess.run(words, cwd=folder, env={**os.environ, **settings}, capture_output=True, text=True, check=False)
    if ran.returncode:
        raise BadInput("\n".join([f"{command} has failed", *(ran.stderr or ran.stdout).splitlines()[-10:]]))
    return ran.stdout
