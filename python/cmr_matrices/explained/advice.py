"""What can be done if the answer is undecided or evidence is refused."""

from __future__ import annotations

from collections.abc import Iterator, Sequence

from ..evidence.printed import line_sets
from .command_line import Order

__all__ = ["refused", "undecided"]

_USUAL_PIVOTS, _MOST_PIVOTS = 20, 100


def undecided(order: Order, lines: Sequence[str]) -> Iterator[str]:
    """What can be tried. A no of any part is a no for the matrix."""
    budget, pivots = int(order.options.get("--lines", "14")), int(order.options.get("--pivots", "0"))
    part = line_sets(lines).get("open")
    if part is not None:
        shorter = min(len(part.rows), len(part.columns))
        yield f"the part that is open has size {part.size}: it was neither recognised, taken apart, nor searched whole"
        if budget < shorter <= 24:
            yield f"`--lines {shorter}` searches it whole, in up to about 2^{shorter} steps; `-w N` shares them"
        elif shorter > 24:
            yield "its shorter side has more than 24 lines, so no budget searches it whole"
    if pivots < _MOST_PIVOTS:
        more = _USUAL_PIVOTS if pivots < _USUAL_PIVOTS else _MOST_PIVOTS
        can_say = "which can show a yes" if order.tool.name == "balanced" else "which decides most that is left so"
        yield f"`--pivots {more}` goes on from there: it pivots what is open, {can_say}"
    if pivots:
        yield "rows and columns in another order lead to other pivots (`tries` of the Python package asks again in others)"
    yield "a no for some rows or columns is one for all: leave some out (`model_to_matrix --rows`, `--without`)"


def refused(order: Order, line: str, texts: dict[str, bytes]) -> Iterator[str]:
    """What a refusal of `check`, `parts` or `compose` is about."""
    rule = line.split()[-1]
    if order.tool.name == "compose":
        yield _COMPOSE.get(rule, "docs/FORMATS.md has the causes")
    elif line.startswith("refused: root is "):
        yield f"parts takes a tree whose root is a sum of two matrices, and this root is {rule}"
    elif rule == "NotViolator":
        yield "the rows and columns are no violator: one of their sums is odd, or all entries together sum to 0 modulo 4"
        yield "(the files of `-N` name minimal submatrices, which need not be violators; check reads those of `-E`)"
    elif rule == "Size" and line.split()[1] == "root":
        yield "the evidence is that of a matrix of another size"
    else:
        yield "the evidence does not fit to the matrix, if both are whole: docs/DEFINITIONS.md has the rules by name"
    if order.tool.name != "compose":
        yield from _sizes(order, texts)
    if order.tool.name != "compose" and rule != "Size" and not line.startswith("refused: root is "):
        yield from _signed(order, texts)


def _signed(order: Order, texts: dict[str, bytes]) -> Iterator[str]:
    """That evidence of regularity is for the signed matrix, if the matrix has no signs. A chain is for the matrix without signs."""
    if any(text.startswith(b"cmr-chain") for text in texts.values()):
        return
    for kind, name in order.inputs.items():
        if kind == "MATRIX" and texts.get(name) and b"-" not in texts[name]:
            yield f"a tree or a violator of `regular` belongs to the signed matrix, which `regular -M` writes, and {name} has no signs"


def _sizes(order: Order, texts: dict[str, bytes]) -> Iterator[str]:
    """The sizes of the matrix and of that for which the evidence is."""
    for kind, name in order.inputs.items():
        words = texts.get(name, b"")[:200].split()
        if words[:1] in ([b"cmr-tree"], [b"cmr-pivots"], [b"cmr-chain"]):
            words = words[2:]
        if len(words) > 1:
            size = "x".join(word.decode("ascii", "replace") for word in words[:2])
            yield f"{name} has size {size}" if kind == "MATRIX" else f"{name} is for a matrix of size {size}"


_COMPOSE = {
    "TooManyRows": "the sum would have more than 1,000 rows",
    "TooManyColumns": "the sum would have more than 1,000 columns",
    "BadConnector": "the two matrices have not the connecting lines of this sum: docs/DEFINITIONS.md says which they are",
    "BadEntry": "an entry of the sum would be none of -1, 0 and 1",
}
