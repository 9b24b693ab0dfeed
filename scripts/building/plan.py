"""The order in which crates are built in parallel, the processors of each, and the time that a build takes."""

from __future__ import annotations

from collections.abc import Collection, Iterable, Iterator, Mapping
from dataclasses import dataclass
from pathlib import Path

SECONDS = Path(__file__).with_name("seconds.txt")
UNKNOWN = 60.0
# More jobs than this hardly shorten a proof.
MOST_JOBS = 4
# The part of a proof that several jobs share.
DIVIDED = 0.85
# A proof that takes less than this part of the first proof's time takes no processor from it.
QUICK = 0.1
# With MANY_PROCESSORS the crate with the longest chain gets two jobs, and so does each crate whose proof takes LONG seconds, even if only
# one processor is free.
MANY_PROCESSORS = 4
LONG = 240.0


def read_seconds(file: Path = SECONDS) -> dict[str, float]:
    """The processor seconds of the crates' proofs, from a file."""
    lines = (it.split() for it in file.read_text(encoding="utf-8").splitlines() if not it.startswith("#"))
    return {name: float(seconds) for name, seconds in lines}


def time_with(seconds: float, jobs: int) -> float:
    """The time of a proof with several jobs, from its seconds on one processor."""
    return seconds * (1 - DIVIDED + DIVIDED / jobs)


@dataclass
class Running:
    """A crate that is being built: its jobs, and the seconds since it began."""

    jobs: int
    gone: float = 0.0


class Plan:
    """Crates, the crates that each uses, and the processor seconds of each."""

    def __init__(self, uses: Mapping[str, Collection[str]], seconds: Mapping[str, float]) -> None:
        self.uses = uses
        self.seconds = {it: seconds.get(it, UNKNOWN) for it in uses}
        self._ways: dict[str, float] = {}
        for name in uses:
            self._find_way(name)

    def _find_way(self, name: str) -> float:
        """The seconds of the longest chain of crates that begins with this crate, each used by the next."""
        if name not in self._ways:
            above = [other for other, used in self.uses.items() if name in used]
            self._ways[name] = self.seconds[name] + max(map(self._find_way, above), default=0.0)
        return self._ways[name]

    def seconds_of(self, names: Iterable[str]) -> float:
        """The processor seconds of some crates together."""
        return sum(self.seconds[it] for it in names)

    def above(self, name: str) -> list[str]:
        """The crates that use a crate, directly or through others, each after those that it uses."""
        found: set[str] = set()
        new = {name}
        while new:
            new = {it for it, used in self.uses.items() if it not in found and not new.isdisjoint(used)}
            found |= new
        return sorted(found, key=lambda it: -self._ways[it])

    def longest_chain(self) -> list[str]:
        """The crates of the longest chain, each used by the next."""
        chain: list[str] = []
        above = list(self.uses)
        while above:
            chain.append(max(above, key=lambda it: self._ways[it]))
            above = [it for it, used in self.uses.items() if chain[-1] in used]
        return chain

    def next(self, built: Collection[str], running: Mapping[str, int], processors: int) -> Iterator[tuple[str, int]]:
        """The crates to begin, and the jobs of each. `running` has the jobs of the running crates.

        Crates with longer chains come first. Each crate gets one processor. The first one also gets the remaining processors, and the
        processors of proofs that take a small part of its own time. With many processors it gets at least two if its proof is long or no
        crate with a longer chain runs.
        """
        done, free = set(built), processors - sum(running.values())
        longest = max((self._ways[it] for it in running), default=0.0)
        ready = [it for it in self.uses if it not in done and it not in running and done.issuperset(self.uses[it])]
        ready.sort(key=lambda it: -self._ways[it])
        while ready and free > 0:
            first, *others = ready
            needs_two = self._ways[first] > longest or self.seconds[first] >= LONG
            least = 2 if processors >= MANY_PROCESSORS and needs_two else 1
            slow = [it for it in others if self.seconds[it] >= QUICK * self.seconds[first]]
            jobs = min(MOST_JOBS, max(least, free - len(slow)))
            longest = max(longest, self._ways[first])
            yield first, jobs
            free -= jobs
            ready = others

    def time_left(self, built: Collection[str], running: Mapping[str, Running], processors: int) -> float:
        """The seconds until all crates are built, if each proof takes its stated time."""
        done, now = set(built), 0.0
        ends = {it: max(time_with(self.seconds[it], how.jobs) - how.gone, 0.0) for it, how in running.items()}
        jobs = {it: how.jobs for it, how in running.items()}
        while len(done) < len(self.uses):
            for name, given in list(self.next(done, {it: jobs[it] for it in ends}, processors)):
                ends[name], jobs[name] = now + time_with(self.seconds[name], given), given
            if not ends:
                break
            first = min(ends, key=lambda it: ends[it])
            now = ends.pop(first)
            done.add(first)
        return now
