"""Constraints of linear models, and models in files, read by GLPK through Debian's `python3-swiglpk`.

GLPK reads fixed and free MPS and keeps the names, without their blanks. Models in GNU MathProg and in the LP format of CPLEX
are converted to free MPS by `glpsol` of Debian's `glpk-utils`. What solvers write and GLPK does not read is first changed to what it reads.
"""

from __future__ import annotations

import os
import re
import resource
import signal
import subprocess
import tempfile
from collections.abc import Iterator
from contextlib import contextmanager, suppress
from dataclasses import dataclass, field, replace
from math import ceil, inf, isfinite
from pathlib import Path
from typing import Any

from ..errors import BadInput, CommandMissing, OutOfMemory, Unreadable
from ..libraries import library
from .model_texts import NONLINEAR_OBJECTIVE, format_of, has_maximum, left_out, plain_text

__all__ = ["Coefficient", "Ends", "Model", "Objective", "read_model"]

TRANSLATIONS = {"lp": "--lp", "mathprog": "--math"}

# About as many nonzeros as the package can look at in a second on a slow machine.
_NONZEROS_PER_SECOND = 30_000
# The most bytes of a file, and the memory that GLPK takes at most for each byte of MPS, and for itself.
_MOST_BYTES = 256 << 20
_MEMORY_PER_BYTE, _LEAST_MEMORY = 24, 32 << 20
_NO_MEMORY, _LACK = 5, "there is not enough memory to read the model"
_SMALLER = "take a smaller instance or a larger time limit"


@dataclass(frozen=True)
class Coefficient:
    """The entry at a row and a column, both counted from 0."""

    row: int
    column: int
    value: float


@dataclass(frozen=True)
class Ends:
    """The least and the greatest value of a row or of a column. They are equal for an equation."""

    lower: float = -inf
    upper: float = inf

    @property
    def finite(self) -> tuple[float, ...]:
        """The ends that are numbers, without repetition."""
        return tuple(end for end in dict.fromkeys((self.lower, self.upper)) if isfinite(end))


@dataclass(frozen=True)
class Objective:
    """A linear objective without its constant: the columns with their coefficients, and whether it is maximised."""

    coefficients: tuple[tuple[int, float], ...]
    is_maximised: bool = False


@dataclass(frozen=True)
class Model:
    """The constraints of a linear model, without free rows such as the objective.

    `sides` are the right-hand sides of the rows, `bounds` the bounds of the columns, and `whole` says which columns are integer
    variables. Each is empty if it is unknown. `left_out` names what the model has beside linear constraints. The objective is None if it
    is unknown or not linear.
    """

    rows: tuple[str, ...]
    columns: tuple[str, ...]
    coefficients: tuple[Coefficient, ...]
    sides: tuple[Ends, ...] = ()
    bounds: tuple[Ends, ...] = ()
    whole: tuple[bool, ...] = ()
    left_out: tuple[str, ...] = ()
    objective: Objective | None = field(default=None, compare=False, repr=False)


def read_model(name: str, form: str | None, data: str | None = None, seconds: float | None = None) -> Model:
    """The model of a file in the format `mps`, `lp` or `mathprog`, which may have its data in a second file.

    If no format is given, the file's suffix decides, or what the file begins with. With a limit in `seconds` it raises `BadInput` if GLPK
    needs more processor time to generate the model, or if the model has more nonzeros than can be looked at in this time.
    """
    text = _read(name)
    if data:
        _read(data)
    form = form or format_of(name, text)
    if data and form != "mathprog":
        raise BadInput(f"{name}: --data goes with a model in GNU MathProg, and this is {form}")
    try:
        plain, beside = plain_text(text, form), left_out(text, form)
    except BadInput as fault:
        raise BadInput(f"{name}: {fault}") from fault
    with tempfile.TemporaryDirectory(prefix="cmr-") as folder:
        source, translated = (os.path.join(folder, part) for part in ("model", "model.mps"))
        Path(source).write_bytes(plain)
        if form != "mps":
            _translate(source, name, TRANSLATIONS[form], data, translated, seconds)
        most = None if seconds is None else int(_NONZEROS_PER_SECOND * seconds)
        found = _read_mps(source if form == "mps" else translated, name, most)
        is_maximised = has_maximum(text) if form == "mps" else _is_maximised(f"{translated}.glp")
        return replace(found, left_out=beside, objective=_objective(found.objective, beside, is_maximised))


def _objective(found: Objective | None, beside: tuple[str, ...], is_maximised: bool | None) -> Objective | None:
    """The objective with its direction, if it is linear, if a variable is in it, and if the direction is known."""
    if found is None or not found.coefficients or is_maximised is None or NONLINEAR_OBJECTIVE in beside:
        return None
    return replace(found, is_maximised=is_maximised)


def _is_maximised(path: str) -> bool | None:
    """Whether a model in GLPK's own format is maximised, by its first line. None if it does not say it."""
    try:
        with open(path, encoding="utf-8", errors="replace") as file:
            words = file.readline().split()
    except OSError:
        return None
    return words[2] == "max" if words[:1] == ["p"] and len(words) > 2 else None


def _translate(
    source: str, name: str, option: str, data: str | None, translated: str, seconds: float | None
) -> None:
    # Only the format of GLPK itself says whether the objective is maximised.
    command = ["glpsol", option, source, "--check", "--wfreemps", translated, "--wglp", f"{translated}.glp"]
    if data:
        command += ["--data", os.path.abspath(data)]
    try:
        status, printed = _run(command, seconds)
    except FileNotFoundError as fault:
        raise CommandMissing(f"reading {name}", "glpsol", "glpk-utils") from fault
    if status == -signal.SIGABRT:
        raise OutOfMemory(_NO_MEMORY, _LACK)
    if status in (-signal.SIGXCPU, -signal.SIGKILL) and seconds is not None:
        raise BadInput(f"{name}: GLPK does not generate the model within {seconds:g} seconds; {_SMALLER}")
    if status != 0 or not os.path.exists(translated):
        words = _Complaint.of(printed).words
        hint = f" (files of tables are looked for from {os.getcwd()})" if "table" in words else ""
        raise BadInput(f"{name}: no model, {words}{hint}")


def _run(command: list[str], seconds: float | None) -> tuple[int, str]:
    """The status of a run and what it printed. The system ends the run after this processor time."""
    pipe = subprocess.PIPE
    with subprocess.Popen(command, stdout=pipe, stderr=subprocess.STDOUT, text=True, errors="replace") as process:
        if seconds is not None:
            most = max(ceil(seconds), 1)
            with suppress(ProcessLookupError):
                resource.prlimit(process.pid, resource.RLIMIT_CPU, (most, most + 1))
        try:
            printed, _ = process.communicate()
        except BaseException:
            process.kill()
            raise
    return process.returncode, printed


def _read_mps(path: str, name: str, most: int | None) -> Model:
    """Reads fixed MPS, and otherwise free MPS. Faults name the file `name`."""
    glpk = _glpk()
    _must_have_memory(os.path.getsize(path))
    complaints = []
    for kind in (glpk.GLP_MPS_DECK, glpk.GLP_MPS_FILE):
        problem = glpk.glp_create_prob()
        try:
            with _printed() as printed:
                refused = glpk.glp_read_mps(problem, kind, None, path) != 0
            if not refused:
                count = max(glpk.glp_get_num_nz(problem), glpk.glp_get_num_rows(problem))
                if most is not None and count > most:
                    raise BadInput(f"{name}: there are {count} nonzeros, too many for the time limit; {_SMALLER}")
                return _constraints(glpk, problem)
            complaints.append(_Complaint.of(printed[0]))
        finally:
            glpk.glp_delete_prob(problem)
    raise BadInput(f"{name}: no model, {max(complaints, key=lambda complaint: complaint.line).words}")


def _constraints(glpk: Any, problem: Any) -> Model:
    kept = [
        row for row in _numbers(glpk.glp_get_num_rows(problem)) if glpk.glp_get_row_type(problem, row) != glpk.GLP_FR
    ]
    columns = _numbers(glpk.glp_get_num_cols(problem))
    places = glpk.intArray(len(columns) + 1)
    values = glpk.doubleArray(len(columns) + 1)
    coefficients = []
    for row, number in enumerate(kept):
        filled = glpk.glp_get_mat_row(problem, number, places, values)
        for column, value in sorted((places[place], values[place]) for place in _numbers(filled)):
            coefficients.append(Coefficient(row, column - 1, value))
    return Model(
        tuple(glpk.glp_get_row_name(problem, row) for row in kept),
        tuple(glpk.glp_get_col_name(problem, column) for column in columns),
        tuple(coefficients),
        tuple(_sides(glpk, problem, row) for row in kept),
        tuple(_bounds(glpk, problem, column) for column in columns),
        tuple(glpk.glp_get_col_kind(problem, column) != glpk.GLP_CV for column in columns),
        objective=Objective(tuple(_costs(glpk, problem, columns))),
    )


def _costs(glpk: Any, problem: Any, columns: range) -> Iterator[tuple[int, float]]:
    for column in columns:
        cost = glpk.glp_get_obj_coef(problem, column)
        if cost:
            yield column - 1, cost


def _sides(glpk: Any, problem: Any, row: int) -> Ends:
    kind = glpk.glp_get_row_type(problem, row)
    return _ends(glpk, kind, glpk.glp_get_row_lb(problem, row), glpk.glp_get_row_ub(problem, row))


def _bounds(glpk: Any, problem: Any, column: int) -> Ends:
    kind = glpk.glp_get_col_type(problem, column)
    return _ends(glpk, kind, glpk.glp_get_col_lb(problem, column), glpk.glp_get_col_ub(problem, column))


def _ends(glpk: Any, kind: int, lower: float, upper: float) -> Ends:
    if kind == glpk.GLP_FX:
        return Ends(lower, lower)
    has_lower, has_upper = kind in (glpk.GLP_LO, glpk.GLP_DB), kind in (glpk.GLP_UP, glpk.GLP_DB)
    return Ends(lower if has_lower else -inf, upper if has_upper else inf)


def _numbers(count: int) -> range:
    return range(1, count + 1)


def _glpk() -> Any:
    return library("swiglpk", "reading a model")


def _read(name: str) -> bytes:
    try:
        with open(name, "rb") as file:
            data = file.read(_MOST_BYTES + 1)
    except OSError as fault:
        raise Unreadable(f"cannot read {name}: {fault.strerror}") from fault
    if len(data) > _MOST_BYTES:
        raise BadInput(f"{name}: no model, it has more than {_MOST_BYTES >> 20} MB")
    return data


def _must_have_memory(size: int) -> None:
    """Raises `OutOfMemory` if there is not the memory that GLPK takes for a text. GLPK itself would end the process."""
    try:
        bytearray(_MEMORY_PER_BYTE * size + _LEAST_MEMORY)
    except MemoryError:
        raise OutOfMemory(_NO_MEMORY, _LACK) from None


@contextmanager
def _printed() -> Iterator[list[str]]:
    """Takes what a library prints to standard output; at the end the list holds it."""
    texts: list[str] = []
    standard = os.dup(1)
    with tempfile.TemporaryFile() as taken:
        os.dup2(taken.fileno(), 1)
        try:
            yield texts
        finally:
            os.dup2(standard, 1)
            os.close(standard)
            taken.seek(0)
            texts.append(taken.read().decode("utf-8", "replace"))


@dataclass(frozen=True)
class _Complaint:
    """The place and the fault that GLPK prints as `FILE:LINE: FAULT`."""

    line: int
    words: str

    @classmethod
    def of(cls, printed: str) -> _Complaint:
        found = re.findall(r"^.*:(\d+): (?!warning)(.*)$", printed, re.MULTILINE)
        if not found:
            return cls(0, "GLPK cannot read it")
        line, fault = found[-1]
        return cls(int(line), f"line {line}: {fault}")
