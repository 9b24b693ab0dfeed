"""Which variables have to stay integer, if the constraint matrix is not totally unimodular.

Some variables are fixed at integers. What is left is a linear program in the others. Its matrix is that of their columns, and the fixed
variables change only its right-hand sides. So all its vertices are integral under these conditions:

* The columns of the other variables are totally unimodular, after each row is divided by its common factor.
* The coefficients of the fixed variables are integers after this division. They are, since the factor divides all coefficients of the row.
* The right-hand sides of the rows in which other variables are, are integers after this division. So are the bounds of the other variables.

This holds for each integral value of the fixed variables (Hoffman and Kruskal 1956). So only the fixed variables have to be declared as
integers. A variable that the model declares as continuous is not fixed: its column has to be among the others. If all declared variables
are fixed, the others are the continuous ones: if their columns are totally unimodular, they take integral values though not declared.
"""

from __future__ import annotations

from collections.abc import Sequence
from dataclasses import dataclass, field, replace

from ..matrices.families import families_of
from ..models.linear_models import Model
from .asking import ModelAsker
from .keeping import Budget, Kept, keep_blocks
from .pieces import Asked, Cells
from .reasons import Reason
from .rows import ModelRows, NotWhole, said_rows

__all__ = ["ColumnFamily", "Integers", "integers_of"]


@dataclass(frozen=True)
class ColumnFamily:
    """A family of variables: those that have to stay integer, of those that are integer in the model, and why."""

    name: str
    said: str
    columns: tuple[int, ...]
    fixed: tuple[int, ...]
    coefficients: tuple[int, ...]
    """Those with a coefficient other than -1, 0 and 1."""
    violator: Cells | None


@dataclass(frozen=True)
class Integers:
    """What is known of the variables that have to stay integer.

    There is an `answer` if some of them need not, or if the continuous variables are integral at each vertex for integral values of them.
    """

    is_declared: bool
    """Whether the model declares integer variables. Otherwise all variables are taken as integer ones."""
    families: tuple[ColumnFamily, ...]
    continuous: tuple[int, ...] = field(repr=False)
    """The variables that the model declares as continuous, if it declares integer ones."""
    blocked: int | None
    """A continuous variable with a coefficient other than -1, 0 and 1, for which no answer is possible."""
    kept: Kept | None = field(repr=False)
    answer: Asked | None = field(repr=False)
    """The answer on the columns of the other variables."""
    not_whole: tuple[NotWhole, ...]
    reason: Reason | None = None

    @property
    def fixed(self) -> tuple[int, ...]:
        """The variables that have to stay integer."""
        return tuple(sorted(column for family in self.families for column in family.fixed))

    @property
    def free(self) -> tuple[int, ...]:
        """The integer variables that need not be declared as integers."""
        return tuple(sorted({column for family in self.families for column in family.columns} - set(self.fixed)))

    @property
    def suffices(self) -> bool:
        """Whether the variables that the model declares as integer have to stay so, and make the continuous ones integral."""
        return self.answer is not None and not self.free

    @property
    def is_smallest(self) -> bool:
        """Whether each choice of families with fewer integer variables has a violator or other coefficients."""
        return self.kept.is_largest if self.kept is not None else self.blocked is None


def integers_of(asker: ModelAsker, rows: ModelRows, questions: int, part: float, known: Sequence[Cells]) -> Integers:
    """The families of variables that have to stay integer. `known` are violators of some rows and columns."""
    is_declared = any(rows.model.whole)
    candidates, continuous = _candidates(rows.model)
    large = {column for found in rows.entries.values() for column, entry in found if abs(entry) != 1}
    blocked = next((column for column in continuous if column in large), None)
    named = families_of(rows.model.columns).items()
    every = {name: tuple(column for column in columns if column in candidates) for name, columns in named}
    every = {name: columns for name, columns in every.items() if columns}
    units = {name: tuple(column for column in columns if column not in large) for name, columns in every.items()}
    units = {name: columns for name, columns in units.items() if columns}
    kept = None
    if blocked is None and units:
        budget = Budget("families of columns", questions, part)
        kept = keep_blocks(asker, continuous, list(units.values()), budget, all_sets=True, known=known, axis="column")
    families = tuple(_family(rows, name, columns, large, list(units), kept) for name, columns in every.items())
    found = Integers(is_declared, families, continuous, blocked, kept, None, ())
    answer = kept.answer if kept is not None and kept.blocks else None
    if answer is None and is_declared and blocked is None:
        answer = _of_continuous(asker, found, questions, part)
    if answer is None:
        return found
    others = sorted((*continuous, *found.free))
    return replace(found, answer=answer, not_whole=rows.not_whole(answer.rows, others))


def _candidates(model: Model) -> tuple[set[int], tuple[int, ...]]:
    """The variables that may have to stay integer, which are all if none is declared as integer, and the continuous ones."""
    every = range(len(model.columns))
    candidates = {column for column, is_whole in enumerate(model.whole) if is_whole} or set(every)
    return candidates, tuple(column for column in every if column not in candidates)


def _family(
    rows: ModelRows, name: str, columns: tuple[int, ...], large: set[int], blocks: Sequence[str], kept: Kept | None
) -> ColumnFamily:
    """A family of variables after the search. `blocks` are the families that it has tried, in its order."""
    coefficients = tuple(column for column in columns if column in large)
    place = blocks.index(name) if kept is not None and name in blocks else None
    is_kept = kept is not None and place in kept.blocks
    violator = kept.refused.get(place) if kept is not None and place is not None else None
    said = said_rows(name, [rows.model.columns[column] for column in columns])
    return ColumnFamily(name, said, columns, coefficients if is_kept else columns, coefficients, violator)


def _of_continuous(asker: ModelAsker, found: Integers, questions: int, part: float) -> Asked | None:
    """The answer on the columns of the continuous variables, if there are some and if they are totally unimodular."""
    is_excluded = found.kept is not None and any(not blocks for blocks, _ in found.kept.violators)
    asker.begin("the columns of the continuous variables", questions, part)
    if not found.continuous or is_excluded or asker.is_spent:
        return None
    answer = asker.ask(found.continuous, "column")
    return answer if answer.verdict == "yes" else None
