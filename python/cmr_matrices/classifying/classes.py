"""The classes that are asked of each matrix, and the inclusions that are known of them."""

from __future__ import annotations

from collections.abc import Iterable, Iterator, Mapping, Sequence
from dataclasses import dataclass
from functools import lru_cache

from ..errors import BadInput

__all__ = [
    "CLASSES",
    "CLASS_NAMES",
    "INCLUSIONS",
    "Inclusion",
    "MatrixClass",
    "asking_order",
    "chosen_classes",
    "contradictions",
    "settle",
]


@dataclass(frozen=True)
class MatrixClass:
    """A class: its name in tables, the words that ask the program, the word of its answer, and the evidence that it may write."""

    name: str
    words: tuple[str, ...]
    said: str
    is_binary: bool = False
    has_budget: bool = False
    evidence: tuple[tuple[str, str], ...] = ()
    """Options of the program, each with the ending of the file that it writes."""


_GRAPH = (("-G", "graph"), ("-N", "minimal"))
_REDUCTIONS = (("-S", "reductions"), ("-R", "rest"), ("-N", "minimal"))
_TREE = (("-D", "tree"), ("-E", "violator"))

CLASSES = (
    MatrixClass("tu", ("tu",), "totally unimodular", has_budget=True, evidence=_TREE),
    MatrixClass("regular", ("regular",), "regular", True, True, (*_TREE, ("-M", "signed"), ("-C", "chain"))),
    MatrixClass("graphic", ("graphic",), "graphic", True, evidence=_GRAPH),
    MatrixClass("cographic", ("graphic", "-t"), "cographic", True, evidence=_GRAPH),
    MatrixClass("network", ("network",), "network", evidence=_GRAPH),
    MatrixClass("conetwork", ("network", "-t"), "conetwork", evidence=_GRAPH),
    MatrixClass("series-parallel", ("series-parallel",), "series-parallel", evidence=_REDUCTIONS),
    MatrixClass(
        "binary-series-parallel", ("series-parallel", "-b"), "binary series-parallel", True, evidence=_REDUCTIONS
    ),
    MatrixClass("balanced", ("balanced",), "balanced", has_budget=True, evidence=(("-E", "violator"),)),
    MatrixClass("camion", ("camion",), "camion", evidence=(("-E", "violator"),)),
)
CLASS_NAMES = tuple(kind.name for kind in CLASSES)

_ASKED_FIRST = ("camion", "regular", "network", "graphic", "conetwork", "cographic")
"""The order of questions if answers settle others: first the classes of which a no settles many at the least cost."""


@dataclass(frozen=True)
class Inclusion:
    """A matrix that is in all classes of `within` is in the class `holds`."""

    within: tuple[str, ...]
    holds: str

    def __str__(self) -> str:
        return f"{' and '.join(self.within)} in {self.holds}"


INCLUSIONS = (
    Inclusion(("network",), "tu"),
    Inclusion(("conetwork",), "tu"),
    Inclusion(("tu",), "balanced"),
    Inclusion(("balanced",), "camion"),
    Inclusion(("tu",), "camion"),
    Inclusion(("series-parallel",), "network"),
    Inclusion(("series-parallel",), "conetwork"),
    Inclusion(("tu",), "regular"),
    Inclusion(("regular", "camion"), "tu"),
    Inclusion(("graphic",), "regular"),
    Inclusion(("cographic",), "regular"),
    Inclusion(("binary-series-parallel",), "graphic"),
    Inclusion(("binary-series-parallel",), "cographic"),
    Inclusion(("network",), "graphic"),
    Inclusion(("conetwork",), "cographic"),
    Inclusion(("graphic", "camion"), "network"),
    Inclusion(("cographic", "camion"), "conetwork"),
    Inclusion(("series-parallel",), "binary-series-parallel"),
    Inclusion(("binary-series-parallel",), "series-parallel"),
)
"""An inclusion with a class of 0/1 matrices applies to 0/1 matrices only, since other matrices have no verdict on that class."""


def chosen_classes(names: str) -> tuple[MatrixClass, ...]:
    """The classes of a list with commas between, in the order of tables. Raises `BadInput` at a name that is none."""
    chosen = names.split(",")
    for name in chosen:
        if name not in CLASS_NAMES:
            raise BadInput(f"{name or 'an empty name'} is no class; the classes are {','.join(CLASS_NAMES)}")
    return tuple(kind for kind in CLASSES if kind.name in chosen)


def contradictions(verdicts: Mapping[str, str]) -> tuple[Inclusion, ...]:
    """The inclusions that a row breaks: each class of `within` has a yes, and `holds` has a no."""
    return _broken_by(tuple(map(verdicts.get, CLASS_NAMES)))


@lru_cache(maxsize=4096)
def _broken_by(words: tuple[str | None, ...]) -> tuple[Inclusion, ...]:
    """The inclusions that the verdicts on all classes break. Many rows have the same verdicts."""
    verdicts = dict(zip(CLASS_NAMES, words))
    return tuple(
        inclusion
        for inclusion in INCLUSIONS
        if verdicts[inclusion.holds] == "no" and all(verdicts[name] == "yes" for name in inclusion.within)
    )


def settle(verdicts: dict[str, str], names: Sequence[str]) -> None:
    """Adds the verdicts on some classes that follow from those that are there."""
    verdicts.update(_settled(tuple(verdicts.items()), tuple(names)))


@lru_cache(maxsize=4096)
def _settled(known: tuple[tuple[str, str], ...], names: tuple[str, ...]) -> dict[str, str]:
    """What follows from verdicts that are known. Many rows have the same verdicts."""
    verdicts = dict(known)
    changed = True
    while changed:
        changed = False
        for name, verdict in _following(verdicts):
            if name in names and name not in verdicts:
                verdicts[name] = verdict
                changed = True
    return {name: verdict for name, verdict in verdicts.items() if (name, verdict) not in known}


def asking_order(classes: Iterable[MatrixClass], is_sparse: bool) -> list[MatrixClass]:
    """The order in which classes are asked if answers settle others.

    A series-parallel 0/1 matrix is in all classes, so this class is asked first if there are few nonzeros.
    """
    order = ("series-parallel", *_ASKED_FIRST) if is_sparse else _ASKED_FIRST
    rank = {name: place for place, name in enumerate(order)}
    return sorted(classes, key=lambda kind: rank.get(kind.name, len(rank)))


def _following(verdicts: Mapping[str, str]) -> Iterator[tuple[str, str]]:
    for inclusion in INCLUSIONS:
        others = [name for name in inclusion.within if verdicts.get(name) != "yes"]
        if not others:
            yield inclusion.holds, "yes"
        elif len(others) == 1 and verdicts.get(inclusion.holds) == "no":
            yield others[0], "no"
