"""Which rows, or columns, are kept so that what is left is totally unimodular: whole blocks of lines, such as families, or single rows.

The cheap questions come first for all sets. Sets that they leave open are asked again with pivots, each within a share of the time that is
left. So one slow question starves no other, and more time or more pivots only add to what is kept.
"""

from __future__ import annotations

from collections.abc import Iterable, Iterator, Sequence
from dataclasses import dataclass, field, replace
from functools import cached_property
from itertools import combinations

from ..matrices.words import LIMIT
from .asking import ModelAsker
from .pieces import Asked, Cells
from .rows import Axis

__all__ = ["Budget", "Kept", "keep_blocks"]

FEW = 12
"""The most blocks of which all sets are tried."""

_TOGETHER = 32
"""How many blocks a greedy search adds at once, before it leaves out those that make violators."""

_LEAST_SHARE = 0.1
"""The least share of the time that is left for a question with pivots."""

Block = tuple[int, ...]


@dataclass(frozen=True)
class Budget:
    """What is done, with the most questions, and the part of all time at which it ends."""

    what: str
    questions: int
    part: float


@dataclass(frozen=True)
class Kept:
    """The blocks that are kept, by their places, the answer on their rows, and for each other block why it cannot be added.

    That is a violator within the kept rows and its own, or None if the question is open or was not asked. The set is proved largest if
    every set of blocks with more rows has a violator.
    """

    blocks: tuple[int, ...]
    answer: Asked | None
    refused: dict[int, Cells | None] = field(default_factory=dict)
    is_largest: bool = False
    is_greedy: bool = False
    """Whether blocks were added one after another. Otherwise all sets with more rows were tried or have a violator."""
    is_cut: bool = False
    """Whether a limit ended the search, or the search of all sets before it."""
    violators: tuple[tuple[frozenset[int], Cells], ...] = ()
    """All violators that are known, each with the blocks in which it lies: no set with all of these can be kept."""
    open: tuple[frozenset[int], ...] = ()
    """The sets with more lines that are left open, if only they prevent that it is largest."""

    def closed(self, blocks: Sequence[Block], violators: Iterable[Cells]) -> Kept:
        """The same, after violators of rows that other searches have found. They may exclude the sets that are left open."""
        owner = {row: place for place, block in enumerate(blocks) for row in block}
        found = [(frozenset(owner[row] for row in cells.rows), cells) for cells in violators if owner.keys() >= set(cells.rows)]
        closing = [next((it for it in found if it[0] <= left), None) for left in self.open]
        if not self.open or None in closing:
            return self
        known = dict.fromkeys((*self.violators, *(it for it in closing if it is not None)))
        return replace(self, is_largest=True, open=(), violators=tuple(known))


def keep_blocks(
    asker: ModelAsker,
    base: Sequence[int],
    blocks: Sequence[Block],
    budget: Budget,
    *,
    all_sets: bool,
    known: Iterable[Cells] = (),
    axis: Axis = "row",
) -> Kept:
    """A set of blocks of lines that are totally unimodular together with those of the base. `known` are violators of some of these lines.

    If asked for, and if there are at most 12 blocks, it is a largest set by the number of lines. If a limit ends this search, a greedy
    search follows, with as many questions.
    """
    work = _Work(asker, tuple(base), tuple(blocks), known, axis)
    is_cut = False
    if all_sets and len(blocks) <= FEW:
        asker.begin(f"all sets of {budget.what}", budget.questions, budget.part - 0.1)
        found = work.largest()
        if found is not None:
            return found
        is_cut = True
    asker.begin(budget.what, budget.questions, budget.part)
    return work.greedy(is_cut)


class _Work:
    """The violators that are known, as sets of blocks: no set that has all blocks of one can be kept."""

    def __init__(
        self, asker: ModelAsker, base: Block, blocks: tuple[Block, ...], known: Iterable[Cells], axis: Axis
    ) -> None:
        self._asker = asker
        self._base = base
        self._blocks = blocks
        self._axis = axis
        self._owner = {line: place for place, block in enumerate(blocks) for line in block}
        self._violators: list[tuple[frozenset[int], Cells]] = []
        self._open: list[frozenset[int]] = []
        self._examined = 0
        for cells in known:
            self._add(cells)

    def _add(self, violator: Cells) -> None:
        lines = violator.rows if self._axis == "row" else violator.columns
        owners = frozenset(self._owner[line] for line in lines if line in self._owner)
        if self._owner.keys() | set(self._base) >= set(lines):
            self._violators.append((owners, violator))

    def largest(self) -> Kept | None:
        """The first set that can be kept, in the order of decreasing numbers of lines. None if a limit ends the search before one is found.

        Larger sets that are open then are asked with pivots, also in this order.
        """
        chosen, answer = self._first(self._by_size(), pivots=False)
        if answer is None and self._asker.is_spent and chosen is None:
            return None
        larger = [left for left in self._open if self._size_of(left) > self._size_of(chosen or ())]
        better, found = self._first(iter(larger), pivots=True)
        if found is not None:
            chosen, answer = better, found
        kept = chosen if answer is not None and chosen is not None else frozenset[int]()
        larger = [left for left in self._open if self._size_of(left) > self._size_of(kept) and self._violated(left) is None]
        return replace(self._kept(kept, answer, is_largest=not larger), open=tuple(larger))

    def _first(self, sets: Iterator[frozenset[int]], *, pivots: bool) -> tuple[frozenset[int] | None, Asked | None]:
        """The first of some sets that can be kept, with its answer. It is None if a limit ends the search, and empty if there is none."""
        waiting = list(sets)
        for place, chosen in enumerate(waiting):
            if self._violated(chosen) is not None:
                continue
            if self._asker.is_spent:
                return None, None
            answer = self._ask(chosen, pivots=pivots, share=_share(len(waiting) - place))
            if answer.verdict == "yes":
                return chosen, answer
        return frozenset(), None

    def _by_size(self) -> Iterator[frozenset[int]]:
        """All sets except the empty one, by falling numbers of lines, then by falling numbers of blocks, then in the order of blocks."""
        every = tuple(range(len(self._blocks)))
        sets = [chosen for size in reversed(every) for chosen in combinations(every, size + 1)]
        yield from (frozenset(chosen) for chosen in sorted(sets, key=self._size_of, reverse=True))

    def _size_of(self, chosen: Iterable[int]) -> int:
        return sum(map(self._size, chosen))

    def greedy(self, was_cut: bool) -> Kept:
        """Adds several blocks at once, and drops one block of each violator. Then adds each dropped block that can be kept."""
        chosen: frozenset[int] = frozenset()
        answer: Asked | None = None
        dropped: list[int] = []
        waiting = sorted(range(len(self._blocks)), key=lambda place: (-self._size(place), place))
        is_cut = False
        while waiting and not is_cut:
            some, waiting = self._possible(chosen, waiting[:_TOGETHER]), waiting[_TOGETHER:]
            added, found, is_cut = self._added(chosen, frozenset(some))
            if found is not None:
                chosen, answer = added, found
            dropped += [place for place in some if place not in chosen]
        for pivots in (False, True):
            for number, place in enumerate(dropped):
                if place in chosen or self._violated(chosen | {place}) is not None:
                    continue
                if self._asker.is_spent:
                    is_cut = True
                    break
                tried = self._ask(chosen | {place}, pivots=pivots, share=_share(len(dropped) - number))
                if tried.verdict == "yes":
                    chosen, answer = chosen | {place}, tried
        return replace(self._kept(chosen, answer, is_largest=False), is_greedy=True, is_cut=is_cut or was_cut)

    def _possible(self, chosen: frozenset[int], some: list[int]) -> list[int]:
        """Some blocks, without the single rows that cannot be added to base rows that are too large for the program.

        If no question would decide all blocks together, short cycles may show violators of single rows, and no question decides others.
        """
        if not self._is_large or not self._asker.is_hopeless(self._lines(chosen | set(some))):
            return some
        return [place for place in some if self._size(place) > 1 or not self._is_excluded(place)]

    def _is_excluded(self, place: int) -> bool:
        """Whether a short cycle shows that a single row cannot be added to the base, or no question would decide it."""
        self._examined += 1
        if self._asker.is_spent or self._examined > self._asker.most:
            return False
        (row,) = self._blocks[place]
        found = self._asker.fault_through(row, frozenset(self._base))
        if found is not None:
            self._add(found)
        return found is not None or self._asker.is_hopeless((*self._base, row))

    def _lines(self, chosen: Iterable[int]) -> list[int]:
        """The lines of some blocks and of the base."""
        return [*self._base, *(line for place in chosen for line in self._blocks[place])]

    @cached_property
    def _is_large(self) -> bool:
        return self._axis == "row" and max(self._asker.rows.shape("row", self._base)) > LIMIT

    def _added(self, chosen: frozenset[int], some: frozenset[int]) -> tuple[frozenset[int], Asked | None, bool]:
        """The chosen blocks and those of `some` that remain when one is dropped for each violator, and whether a limit ended the search."""
        while some:
            found = self._violated(chosen | some)
            if found is None:
                if self._asker.is_spent:
                    return chosen, None, True
                answer = self._ask(chosen | some, pivots=False)
                if answer.verdict != "no":
                    return chosen | some, answer if answer.verdict == "yes" else None, False
                found = self._violated(chosen | some)
                assert found is not None
            own = found & some
            if not own:
                # It lies in what was kept before, so no block of these is at fault.
                return chosen, None, False
            some -= {min(own, key=lambda place: (self._size(place), -self._weight(place), -place))}
        return chosen, None, False

    def _kept(self, chosen: frozenset[int], answer: Asked | None, *, is_largest: bool) -> Kept:
        assert answer is None or answer.verdict == "yes"
        refused: dict[int, Cells | None] = {}
        for place in range(len(self._blocks)):
            if place not in chosen:
                among = chosen | {place}
                refused[place] = next((cells for blocks, cells in self._violators if blocks <= among), None)
        return Kept(tuple(sorted(chosen)), answer, refused, is_largest, violators=tuple(self._violators))

    def _ask(self, chosen: frozenset[int], *, pivots: bool, share: float = 1.0) -> Asked:
        answer = self._asker.ask(self._lines(chosen), self._axis, pivots=pivots, share=share)
        if answer.violator is not None:
            self._add(answer.violator)
        if answer.verdict == "undecided":
            self._open += [chosen] if chosen not in self._open else []
        elif chosen in self._open:
            self._open.remove(chosen)
        return answer

    def _violated(self, chosen: frozenset[int]) -> frozenset[int] | None:
        return next((blocks for blocks, _ in self._violators if blocks <= chosen), None)

    def _size(self, place: int) -> int:
        return len(self._blocks[place])

    def _weight(self, place: int) -> int:
        """How many nonzeros the longest row of a block has. Blocks of columns have no weight."""
        return max(len(self._asker.rows.entries[row]) for row in self._blocks[place]) if self._axis == "row" else 0


def _share(waiting: int) -> float:
    """The share of the time that is left for the first of some questions."""
    return max(1 / waiting, _LEAST_SHARE)
