"""Which single rows of the refused families are kept, beside the rows of the families that are kept."""

from __future__ import annotations

from collections.abc import Mapping, Sequence

from .asking import ModelAsker
from .keeping import Budget, Kept, keep_blocks
from .rows import RowFamily

__all__ = ["kept_row_by_row"]


def kept_row_by_row(
    asker: ModelAsker, families: Mapping[int, RowFamily], kept: Sequence[int], questions: int, parts: tuple[float, float]
) -> dict[int, Kept]:
    """Of each family that is not kept and has several rows what is kept of it, the smallest family first.

    `kept` are the numbers of the families that are kept. A family is tried beside their rows and the rows of the families before it. All
    of them share the questions. They also share the time between two parts of all time, and each ends at its share.
    """
    refused = [number for number, family in families.items() if number not in kept and len(family.rows) > 1]
    waiting = sorted(refused, key=lambda number: (len(families[number].rows), number))
    base = [row for number in kept for row in families[number].rows]
    start, end = parts
    most = asker.asked + questions
    found: dict[int, Kept] = {}
    for place, number in enumerate(waiting):
        others = len(waiting) - place
        if found and others > 1:
            asker.begin(f"rows of {others} other families", most - asker.asked, end)
            if asker.is_spent:
                break
        family = families[number]
        share = start + (end - start) * (place + 1) / len(waiting)
        budget = Budget(f"rows of {family.name}", most - asker.asked, share)
        found[number] = keep_blocks(asker, base, [(row,) for row in family.rows], budget, all_sets=False)
        base += [family.rows[at] for at in found[number].blocks]
    return found
