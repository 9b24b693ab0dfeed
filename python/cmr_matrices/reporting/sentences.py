"""What a report says, sentence by sentence, for its text and its page."""

from __future__ import annotations

from collections.abc import Sequence

from ..matrices.words import LIMIT
from ..models.model_texts import NONLINEAR_OBJECTIVE, ORDERED_SETS, SEMICONTINUOUS
from .integers import ColumnFamily
from .pieces import Asked
from .report import FamilyLine, ModelReport
from .rows import NotWhole
from .solving import Solved

__all__ = [
    "counted",
    "is_advice",
    "left_open",
    "listed",
    "of_arithmetic",
    "of_coefficients",
    "of_families",
    "of_integers",
    "of_left_out",
    "of_limits",
    "of_reductions",
    "of_relaxation",
    "of_sides",
    "of_solution",
    "of_verdict",
    "of_violator",
    "of_within",
    "why_relaxed",
]

_SOME = 4
_FAMILIES = 10


def counted(count: int, one: str, several: str | None = None) -> str:
    """A count with its word, such as `1 row` and `2 rows`."""
    return f"{count} {one if count == 1 else several or f'{one}s'}"


def listed(words: Sequence[str], most: int | None = None) -> str:
    """Words with commas and `and`. Of more than `most` words the first ones and the number of the others."""
    shown = list(words)
    if most is not None and len(shown) > most + 1:
        shown = [*shown[:most], f"{len(words) - most} others"]
    return " and ".join([", ".join(shown[:-1]), shown[-1]] if len(shown) > 1 else shown)


def of_verdict(report: ModelReport) -> list[str]:
    """What the verdict means for the linear program."""
    match report.verdict:
        case "yes":
            said = "If the right-hand sides and bounds are integers, all vertices of the linear program are integral."
            return [*([report.reason.sentence] if report.reason else []), said, *of_left_out(report)]
        case "no":
            return [
                "With inequalities, some integral right-hand sides and bounds give a linear program with a vertex that is not integral "
                "(Hoffman and Kruskal 1956). The vertices of this model may still be integral."
            ]
    return [f"The question is open: {left_open(report)}."]


def left_open(report: ModelReport) -> str:
    """Why a question is left open."""
    return report.whole.why_open


def of_limits(report: ModelReport) -> list[str]:
    """Which steps a limit has ended, and what that means for the answer."""
    timed = [what for what, limit in report.ended.items() if limit == "time"]
    counted_out = [what for what, limit in report.ended.items() if limit == "questions"]
    said = []
    if timed:
        limits = [f"{report.time_limit:g} seconds"] if report.time_limit is not None else []
        limits += [f"{report.clock_limit:g} seconds by the clock"] if report.clock_limit is not None else []
        said.append(
            f"The time limit of {' and '.join(limits)} ended these steps: {'; '.join(timed)}. Their results depend on the "
            "speed of the machine. `--time-limit` sets the limit."
        )
    if counted_out:
        said.append(f"The limits on questions ended these steps: {'; '.join(counted_out)}. `--questions` sets that of each search.")
    return said


def of_left_out(report: ModelReport) -> list[str]:
    """What the model has beside linear constraints and bounds, so that it is no linear program."""
    found = report.rows.model.left_out
    said = []
    if NONLINEAR_OBJECTIVE in found:
        said.append("The model has an objective that is not linear, so an optimum need not be at a vertex.")
    if SEMICONTINUOUS in found:
        said.append("The model has semicontinuous variables, which a linear program does not have.")
    if ORDERED_SETS in found:
        said.append("The model has special ordered sets in its section SETS, which a linear program does not have.")
    return said


def of_sides(report: ModelReport) -> str:
    """Whether right-hand sides and bounds are integers."""
    which = "" if report.verdict == "yes" else " of the remaining rows"
    found = [str(it) for it in report.not_whole]
    if found:
        said = f"Not integral: {listed(found, _SOME)}.{_of_rounding(report.not_whole)}"
        return f"{said} The vertices need not be integral unless all right-hand sides and bounds are integers."
    if not report.rows.model.sides:
        return "The right-hand sides are not known. The vertices need not be integral unless they and all bounds are integers."
    return f"All right-hand sides{which} and all bounds are integers."


def _of_rounding(found: Sequence[NotWhole]) -> str:
    """To which integers sides and bounds of integer variables can be rounded."""
    rounded = [f"that of {it.name} to {it.rounded}" for it in found if it.rounded is not None]
    return f" Round {listed(rounded, _SOME)}: all variables there are integer, so no integral solution is lost." if rounded else ""


def of_solution(report: ModelReport) -> list[str]:
    """Whether GLPK's optimal vertex of this model is integral."""
    found = report.solved
    if found is None:
        return []
    if found.state != "optimal":
        return [f"GLPK says that the linear program of this model is {found.state}."]
    value = f"the value {found.value:.12g}"
    said = f"For this objective and these right-hand sides only, GLPK's optimal vertex has {value} and is "
    if not found.fractional:
        has_others = any(report.rows.model.whole) and not all(report.rows.model.whole)
        return [f"{said}integral{' in the integer variables' if has_others else ''}."]
    names = report.rows.model.columns
    values = listed([f"{names[column]} = {value:.4g}" for column, value in found.fractional], _SOME)
    return [f"{said}not integral: {values}. {_of_best(found)}"]


def _of_best(found: Solved) -> str:
    """The gap between the linear program and the integral solutions."""
    if found.best is None or found.value is None:
        return "There is no integral solution." if found.is_best else "GLPK found no integral solution in its time."
    which = "The best integral value is" if found.is_best else "The best integral value that GLPK found in its time is"
    return f"{which} {found.best:.12g}, a gap of {abs(found.best - found.value):.9g}."


def of_coefficients(report: ModelReport) -> list[str]:
    """The rows with other coefficients, family by family, and the rows that were divided."""
    model, said = report.rows.model, []
    for family in report.families:
        if family.coefficients:
            row = family.coefficients[0]
            column, entry = next((column, entry) for column, entry in report.rows.entries[row] if abs(entry) != 1)
            count = len(family.coefficients)
            rows = family.said if count == family.rows else f"{count} of {counted(family.rows, 'row')} of {family.said}"
            divided = ", after the division of the row," if row in report.rows.divided else ""
            at = (
                model.columns[column]
                if family.said == model.rows[row]
                else f"{model.columns[column]} of {model.rows[row]}"
            )
            said.append(f"{rows}: the coefficient {float(entry):.12g} at {at}{divided} is none of -1, 0 and 1")
    kept = [str(scaling) for row, scaling in report.rows.divided.items() if row not in report.rows.refused]
    if kept:
        said.append(f"divided by their common factors: {listed(kept, _SOME)}")
    return said


def of_violator(report: ModelReport) -> str:
    """What the smallest violator is."""
    found = report.minimal
    assert found is not None
    size = f"{counted(len(found.row_names), 'row')} and {counted(len(found.column_names), 'column')}"
    if found.is_minimal:
        return f"{size} with the determinant {found.determinant}; if any of these lines is left out, the others are totally unimodular"
    return f"{size}, all with even sums, and a sum of 2 modulo 4; not all smaller ones were tried"


def of_relaxation(report: ModelReport) -> list[str]:
    """What to relax, and what the remaining rows are then."""
    if report.rest is None:
        is_sure = report.kept is not None and report.kept.is_largest
        return ["No family of rows is totally unimodular by itself." if is_sure else "No rows were found that can be kept."]
    if not report.relaxed:
        return []
    if is_advice(report):
        said = [f"Relax {listed(report.relax_said)}: the remaining rows are totally unimodular, and {_solves(report)}."]
    else:
        said = [
            f"It is not known whether a row of {listed([family.said for family in report.families if family.is_open])} has to be relaxed. "
            f"Without {listed(report.relax_said)} the remaining rows are totally unimodular, and {_solves(report)}."
        ]
    if report.reason:
        said.append(report.reason.sentence)
    kept = report.kept
    if kept is not None and not any(search.blocks for search in report.within.values()):
        said.append(_how(report))
    elif kept is not None:
        families = [family.said for family in report.families if family.violator is not None or family.is_open]
        said.append(f"By whole families: {'relax' if is_advice(report) else 'without'} {listed(families)}. {_how(report)}")
    said += of_within(report)
    subject = "it" if len(report.relaxed) == 1 else "they"
    if not is_advice(report):
        return [sentence for sentence in [*said, *of_left_out(report)] if sentence]
    said.append(
        f"In a Lagrangian relaxation {subject} would move to the objective, and in a decomposition to the master problem. "
        "The bound is that of the linear program, since the remaining rows have integral vertices if their right-hand sides are integers "
        "(Geoffrion 1974)."
    )
    return [sentence for sentence in [*said, *of_left_out(report)] if sentence]


def of_families(report: ModelReport) -> str:
    """What a family of rows is."""
    said = "The names of one family are the same up to digits and bracketed text."
    if any(family.pattern for family in report.families):
        said += " Automatic names are divided by the pattern of their rows: i, j, .. are indexes that all variables of a row share."
    return said


def is_advice(report: ModelReport) -> bool:
    """Whether each row to relax has a reason: a violator or its coefficients. If a question is open, none is advised."""
    return report.verdict != "undecided" and not any(family.is_open for family in report.families)


def of_integers(report: ModelReport) -> list[str]:
    """Which variables have to stay integer, and under which conditions."""
    found, names = report.integers, report.rows.model.columns
    if found is None:
        return []
    if found.blocked is not None:
        name = names[found.blocked]
        return [f"No answer by this rule: the continuous variable {name} has a coefficient other than -1, 0 and 1."]
    if found.answer is None:
        return ["No family of variables was found that can be continuous by this rule."]
    fixed = listed([_said_fixed(report, family) for family in found.families if family.fixed], _FAMILIES)
    others = [family.said for family in found.families if len(family.fixed) < len(family.columns)]
    count = counted(len(found.fixed), "variable")
    is_sure = bool(report.rows.model.sides) and not found.not_whole
    given = "" if is_sure else ", if the right-hand sides and bounds are integers"
    said = []
    if not found.is_declared:
        said.append("The model declares no variable as integer. If all variables have to be integral:")
    if found.suffices:
        verb = "is" if sum(1 for family in found.families if family.fixed) == 1 else "are"
        said.append(f"Only {fixed} {verb} declared as integer ({count}), and that suffices{given}.")
    else:
        free = counted(len(found.free), "variable")
        said.append(f"Declare only {fixed} as integer ({count}); {listed(others, _FAMILIES)} can be continuous ({free}){given}.")
    said.append(
        f"For each integral value of the {count}, all vertices of the linear program in the other variables are integral{given}: "
        f"the columns of the others are totally unimodular, and the coefficients of the {count} are integers."
    )
    if found.not_whole:
        said.append(f"Not integral: {listed([str(it) for it in found.not_whole], _SOME)}.{_of_rounding(found.not_whole)}")
    if found.reason is not None:
        said.append(f"Of the matrix of the other columns: {found.reason.sentence}")
    is_small = (
        "By this rule no choice of families leaves fewer variables integer: each such choice has a violator or a coefficient other than "
        "-1, 0 and 1."
    )
    said.append(is_small if found.is_smallest else "Another choice may leave fewer variables integer.")
    return [*said, *of_left_out(report)]


def _said_fixed(report: ModelReport, family: ColumnFamily) -> str:
    if len(family.fixed) == len(family.columns):
        return family.said
    names = [report.rows.model.columns[column] for column in family.fixed]
    return f"{len(names)} of the {len(family.columns)} variables of {family.said}" if len(names) > _SOME else listed(names)


def of_arithmetic(report: ModelReport) -> list[str]:
    """Which parts the program has not answered, but the arithmetic of the package."""
    asked = report.rest if report.rest is not None else report.whole
    said = [_of_arithmetic(asked, "the matrix")]
    if report.integers is not None and report.integers.answer is not None:
        said.append(_of_arithmetic(report.integers.answer, "the matrix of the variables that can be continuous,"))
    said.append(_of_cycles(report))
    return [sentence for sentence in said if sentence]


def _of_cycles(report: ModelReport) -> str:
    """That only arithmetic has checked the violators that are too large for the program."""
    cells = [family.violator for family in report.families] + ([report.minimal.cells] if report.minimal else [])
    searches = [report.kept, *report.within.values(), report.integers and report.integers.kept]
    cells += [violator for search in searches if search for _, violator in search.violators]
    large = {it for it in cells if it is not None and it in report.cycles}
    if not large:
        return ""
    sizes = listed([f"{len(it.rows)} rows" for it in sorted(large, key=lambda it: len(it.rows))], _SOME)
    cycles, them = ("an odd cycle", "it") if len(large) == 1 else ("odd cycles", "them")
    return (
        f"Not proved: {cycles} of {sizes}, larger than the {LIMIT} rows that the program reads; arithmetic of this package checked {them} "
        "line by line."
    )


def _of_arithmetic(asked: Asked, matrix: str) -> str:
    parts = asked.arithmetic
    if not parts:
        return ""
    sizes = ["x".join(map(str, piece.constraints.names.shape)) for piece in parts]
    others = len(asked.pieces) - len(parts)
    is_whole = not others and len(parts) == 1
    what = matrix if is_whole else f"{'a connected part' if len(parts) == 1 else 'connected parts'} of {matrix}"
    program = f" The program decided {counted(others, 'other connected part')}." if others else ""
    return (
        f"Not proved: {what} {'of' if is_whole else 'with'} {listed(sizes, _SOME)} {'is' if len(parts) == 1 else 'are'} decided by "
        f"arithmetic of this package, which checked the structure line by line.{program}"
    )


def _solves(report: ModelReport) -> str:
    """Whether what is kept solves as a linear program, and under which condition."""
    if report.not_whole:
        return "with integral right-hand sides and bounds a linear program solves the remaining model"
    if report.rows.model.left_out:
        return f"without {listed(report.rows.model.left_out)} a linear program solves the remaining model"
    return "a linear program solves the remaining model"


def _how(report: ModelReport) -> str:
    kept = report.kept
    assert kept is not None
    if kept.is_largest:
        return "No other choice of families keeps more rows: each choice of more rows has a violator."
    if kept.is_cut:
        return "A limit ended the search, so another choice may keep more rows."
    if not kept.is_greedy:
        return "Some choice of families with more rows is left open."
    is_sure = all(violator is not None for violator in kept.refused.values())
    added = "no other family can be added" if is_sure else "no other family was found that can be added"
    return f"The search was greedy: {added}, but another choice may keep more rows."


def of_within(report: ModelReport) -> list[str]:
    """The results of trying single rows of the families that are not kept."""
    names = {family.name: family.said for family in report.families}
    some, cut, none, unsure = list[str](), list[str](), list[str](), list[str]()
    for name, search in report.within.items():
        if search.blocks:
            some.append(f"{len(search.blocks)} of {len(search.blocks) + len(search.refused)} of {names[name]}")
        elif search.is_cut:
            cut.append(names[name])
        else:
            (unsure if None in search.refused.values() else none).append(names[name])
    end = ", and a limit ended the search" if any(it.is_cut and it.blocks for it in report.within.values()) else ""
    said = {
        f"Row by row, {listed(some, _FAMILIES)} can be kept (the search was greedy{end}, so it may be more).": some,
        f"Row by row, none of {listed(none, _FAMILIES)} can be kept.": none,
        f"Row by row, none of {listed(unsure, _FAMILIES)} was found that can be kept.": unsure,
        f"A limit ended the search row by row before it found a row of {listed(cut, _FAMILIES)} that can be kept.": cut,
    }
    return [sentence for sentence, families in said.items() if families]


def why_relaxed(report: ModelReport, family: FamilyLine) -> str:
    """Why a family is relaxed, in names."""
    said = []
    if family.coefficients:
        count = len(family.coefficients)
        which = "coefficients" if count == family.rows else f"{counted(count, 'row')} with coefficients"
        said.append(f"{which} other than -1, 0 and 1")
    if family.violator is not None:
        rows, columns = report.names_of(family.violator)
        said.append(f"a violator with rows {listed(rows, 5)}, columns {listed(columns, 5)}")
    elif family.is_open:
        said.append("not known whether it can be kept")
    return "; ".join(said)


def of_reductions(report: ModelReport) -> str:
    """How many lines the reductions remove, and what is left."""
    found = report.reduced
    rows, columns = found.size
    if not found.rows + found.columns:
        return f"No row or column is reducible: {rows}x{columns}."
    reasons = ", ".join(f"{count} {_REASONS[reason]}" for reason, count in found.counts.items())
    left = "nothing is left" if 0 in found.left else f"{found.left[0]} rows and {found.left[1]} columns are left"
    parts = f", in {counted(found.parts, 'connected part')}" if found.parts > 1 else ""
    gone = [
        f"{count} of {counted(all_of, word)}"
        for count, all_of, word in ((found.rows, rows, "row"), (found.columns, columns, "column"))
        if count
    ]
    is_one = found.rows + found.columns == 1
    what = f"{listed(gone)} {'is' if is_one else 'are'} reducible, so {'it changes' if is_one else 'they change'} no verdict"
    return f"{what} ({reasons}): {left}{parts}."


_REASONS = {"zero": "zero", "unit": "with one nonzero", "copy": "copies", "negative": "negatives"}
