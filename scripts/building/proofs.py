"""Proves and builds the crates of a plan in parallel."""

from __future__ import annotations

import math
import os
import re
import shutil
import subprocess
import time
from dataclasses import dataclass
from pathlib import Path
from typing import BinaryIO

from building.clone import BUILT, NO_KIT, PROGRAM, Sources, crates_below, is_fresh
from building.plan import Plan, Running, read_seconds, time_with
from building.progress import Progress
from building.work_folders import Busy, WorkFolders
from cmr_matrices.commands.signals import end_if_told, ignore_signals, signals_wait

FIRST = (
    "proving and building the program, 90 minutes of processor time the first time (./try-cmr runs it at once, unproved)"
)
LAST_LINES = 20
SECONDS_TO_END = 20.0
# The memory that a proof with one job may take.
MEMORY_OF_JOB = 3 * 1024**3
# A crate that took less time was built before.
QUICK_SECONDS = 5.0
# A crate that took a smaller part of its time reused parts of its proof.
LEAST_PACE = 0.4


class NotBuilt(Exception):
    """A crate failed. The text names it, with the last lines of its output."""


@dataclass
class Proof:
    """A run of `rt` on a crate."""

    process: subprocess.Popen[bytes]
    said: BinaryIO
    jobs: int
    began: float

    def gone(self) -> float:
        return time.monotonic() - self.began

    def end(self) -> None:
        """Waits until it has ended after its signal."""
        try:
            self.process.wait(SECONDS_TO_END)
        except subprocess.TimeoutExpired:
            self.process.kill()
            self.process.wait()


def processors() -> int:
    """The number of processors to use: all that are available, and no more than there is memory for jobs."""
    found = re.search(r"MemAvailable:\s+(\d+) kB", Path("/proc/meminfo").read_text(encoding="ascii"))
    memory = int(found[1]) * 1024 if found else MEMORY_OF_JOB
    return max(1, min(len(os.sched_getaffinity(0)), memory // MEMORY_OF_JOB))


class Build:
    """A build of all crates of a plan."""

    def __init__(self, plan: Plan, folders: WorkFolders, progress: Progress) -> None:
        self._plan = plan
        self._folders = folders
        self._progress = progress
        self._processors = processors()
        self._built: list[str] = []
        self._running: dict[str, Proof] = {}
        self._began = time.monotonic()
        self._waits: str | None = None
        # The time that proofs took, and the time that the plan states for them.
        self._taken, self._planned = 0.0, 0.0

    def build_all(self) -> None:
        try:
            with signals_wait():
                while len(self._built) < len(self._plan.uses):
                    self._show(self._begin_ready())
                    time.sleep(0.1)
                    end_if_told()
                    self._end_finished()
        except BaseException:
            ignore_signals()
            self._end_all()
            raise

    def _end_all(self) -> None:
        for proof in self._running.values():
            proof.process.terminate()
        for name, proof in self._running.items():
            proof.end()
            self._folders.give_back(name)

    def _below(self, name: str) -> set[str]:
        used = self._plan.uses[name]
        return set(used).union(*map(self._below, used))

    def _begin_ready(self) -> str | None:
        """Begins the crates that are ready. Gives the folder in which another `rt` works, if one must be waited for."""
        running = {name: it.jobs for name, it in self._running.items()}
        try:
            for name, jobs in list(self._plan.next(self._built, running, self._processors)):
                self._folders.fill(name, self._below(name))
                try:
                    self._begin(name, jobs)
                except BaseException:
                    self._folders.give_back(name)
                    raise
        except Busy as fault:
            return str(fault)
        return None

    def _begin(self, name: str, jobs: int) -> None:
        folder = self._folders.crate(name)
        said = (folder.parent.parent / "said").open("w+b")
        command = ["rt", "run" if name == PROGRAM else "lib", "--jobs", str(jobs)]
        process = subprocess.Popen(command, cwd=folder, stdin=subprocess.DEVNULL, stdout=said, stderr=subprocess.STDOUT)
        self._running[name] = Proof(process, said, jobs, time.monotonic())

    def _end_finished(self) -> None:
        for name, proof in list(self._running.items()):
            pid, status, used = os.wait4(proof.process.pid, os.WNOHANG)
            if pid:
                proof.process.returncode = os.waitstatus_to_exitcode(status)
                del self._running[name]
                self._end(name, proof, used.ru_utime + used.ru_stime)

    def _end(self, name: str, proof: Proof, seconds: float) -> None:
        # `rt` also runs the program when it has built it, and exits with its status.
        is_built = self._folders.program(name).exists() if name == PROGRAM else proof.process.returncode == 0
        self._folders.give_back(name, is_built=is_built)
        if not is_built:
            proof.said.seek(0)
            said = proof.said.read().decode(errors="replace").splitlines()
            raise NotBuilt("\n".join([f"{name} was not built", *said[-LAST_LINES:]]))
        proof.said.close()
        self._built.append(name)
        if proof.gone() > QUICK_SECONDS:
            self._taken += proof.gone()
            self._planned += time_with(self._plan.seconds[name], proof.jobs)
        if not self._progress.is_drawn:
            self._progress.say(f"{self._state()}: {name} is proved ({seconds:.0f} processor seconds)")

    def _state(self) -> str:
        """The number of built crates, and the minutes gone and left."""
        pace = max(self._taken / self._planned, LEAST_PACE) if self._planned else 1.0
        running = {name: Running(it.jobs, it.gone() / pace) for name, it in self._running.items()}
        left = self._plan.time_left(self._built, running, self._processors) * pace
        gone = time.monotonic() - self._began
        crates = f"{len(self._built)} of {len(self._plan.uses)} crates"
        return f"{crates}, {gone // 60:.0f} min gone, about {math.ceil(left / 60)} min left"

    def _show(self, waits_for: str | None) -> None:
        waits = f"waiting for another rt in {waits_for}" if waits_for else None
        if self._progress.is_drawn:
            self._progress.show(f"{self._state()}: {', '.join([*self._running, *filter(None, [waits])])}")
        elif waits and waits != self._waits:
            self._progress.say(waits)
        self._waits = waits


def build(progress: Progress, *, anew: bool = True) -> None:
    """Builds the program; without `anew` only if it was not built from the present sources.

    Raises `NotBuilt`, or `OSError` if the system refuses an operation.
    """
    if not anew and is_fresh(BUILT):
        return
    if shutil.which("rt") is None:
        raise NotBuilt(NO_KIT.format(task="build the program"))
    if not anew:
        progress.say(FIRST)
    folders = WorkFolders(progress.say)
    plan = Plan(crates_below(), read_seconds())
    with folders.opened():
        # Another build may have built it in the meantime.
        if anew or not is_fresh(BUILT):
            sources = Sources.now(proved=True)
            Build(plan, folders, progress).build_all()
            sources.made(BUILT)
