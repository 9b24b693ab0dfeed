"""What a change costs: the crates that are proved again after it, and the processor minutes of their proofs.

In the folder scripts, `python3 -m building.costs` prints a line for each crate: the minutes of its own proof, the minutes after a change of
its code, and the number of the crates above it. With names of crates it prints only these, and lists the crates above each. The last lines
are the longest chain of proofs and the sum of all. The seconds are those of `seconds.txt`, without tests and edits.
"""

from __future__ import annotations

import sys
from collections.abc import Iterator, Sequence

from building.clone import crates_below
from building.plan import Plan, read_seconds


def costs(plan: Plan, names: Sequence[str] = ()) -> Iterator[str]:
    """The lines for some crates, or for all."""

    def minutes(*crates: str) -> str:
        return f"{plan.seconds_of(crates) / 60:6.1f}"

    after = {it: [it, *plan.above(it)] for it in names or plan.uses}
    yield "   own  change  above  crate"
    for name in names or sorted(after, key=lambda it: -plan.seconds_of(after[it])):
        yield f"{minutes(name)}  {minutes(*after[name])} {len(after[name]) - 1:6}  {name}"
        if names and after[name][1:]:
            yield f"{'':23}{', '.join(after[name][1:])}"
    chain = plan.longest_chain()
    yield f"{minutes(*chain)}  the longest chain: {', '.join(chain)}"
    yield f"{minutes(*plan.uses)}  all crates"


def main() -> int:
    uses, names = crates_below(), sys.argv[1:]
    unknown = [it for it in names if it not in uses]
    if unknown:
        print(f"costs: not below the program: {', '.join(unknown)}", file=sys.stderr)
        return 2
    print("\n".join(costs(Plan(uses, read_seconds()), names)))
    return 0


if __name__ == "__main__":
    sys.exit(main())
