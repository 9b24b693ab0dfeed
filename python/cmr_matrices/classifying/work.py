"""A matrix is classified: the program is asked for each class, and the verdicts are held against the known inclusions.

What is asked about a matrix, and what becomes of the answers, is a talk: a generator that gives questions and takes what the program
says of them. So the program can be asked about many matrices at once (`blocks`).
"""

from __future__ import annotations

import time
from collections.abc import Callable, Generator, Mapping, Sequence
from contextlib import suppress
from dataclasses import dataclass, field, replace
from functools import cached_property
from pathlib import Path

from ..errors import BadInput, BadText, CmrError, ProgramFault, TimeLimitReached, Undecided
from ..matrices.large_matrix import LargeMatrix
from ..matrices.matrix import Matrix
from ..matrices.words import LIMIT
from ..models.modellers import from_model, text_of_model
from ..questions.answers import Answer
from ..questions.excluded import CLASSES as MINOR_CLASSES
from ..questions.large_questions import ask_large_text
from ..questions.minors import excluded_minor
from ..questions.properties import is_balanced, is_regular, is_totally_unimodular
from ..running.batch.kept import batch_of
from ..running.calls import Call
from ..running.clock import TimeLimit
from ..running.large_run import large_of
from .askers import Asker, ClassQuestion, OneByOne, Said, Together, Wording
from .classes import CLASSES, MatrixClass, asking_order, contradictions, settle
from .shapes import Shape, shape_of
from .streams import LARGE, USUAL, Format, Item, Limits
from .verdicts import fault_words

__all__ = ["CONTRADICTION", "Row", "Settings", "Talk", "talk", "with_texts"]

CONTRADICTION = "Contradiction"

_CAMION = next(kind for kind in CLASSES if kind.name == "camion")
_REGULAR = next(kind for kind in CLASSES if kind.name == "regular")
_TU = next(kind for kind in CLASSES if kind.name == "tu")
_QUESTIONS: Mapping[str, Callable[..., Answer]] = {
    "tu": is_totally_unimodular,
    "regular": is_regular,
    "balanced": is_balanced,
}
"""What is asked again of the package if the program leaves a class undecided."""


@dataclass(frozen=True)
class Settings:
    """What is asked of all matrices alike."""

    classes: tuple[MatrixClass, ...]
    program: str
    lines: int | None = None
    time_limit: float | None = None
    evidence: bool = False
    infers: bool = False
    """Whether to skip a class that the inclusions settle. Otherwise the verdicts are compared with the inclusions."""
    pivots: int = 0
    """The most pivots on the path to a part that nothing else decides."""
    minors: bool = False
    """Whether the excluded minors of each no are evidence too."""
    tries: int = 0
    """In how many other orders of the lines an undecided matrix is asked again."""
    supports: bool = False
    """Whether `regular` is asked of the support of a matrix with an entry -1."""
    batch: bool = True
    """Whether the process of `cmr-batch` that a worker keeps answers all questions, if there is such a program."""

    def asker(self) -> Asker:
        """Who asks for the verdicts of some matrices."""
        batch = batch_of(self.program) if self.batch else None
        if batch is None:
            return OneByOne(self.program, self.time_limit)
        return Together(batch, self.time_limit)

    @cached_property
    def limits(self) -> Limits:
        """The limits of the matrices: if `tu` is asked and if there is `cmr-large`, its limits."""
        return LARGE if _TU in self.classes and large_of(Path(self.program)) is not None else USUAL

    @property
    def asks_again(self) -> bool:
        """Whether a class that is undecided is asked again."""
        return bool(self.pivots or self.tries)

    def asked(self, is_binary: bool) -> Sequence[MatrixClass]:
        """The classes on which a matrix has a verdict, in the order in which they are asked for if no verdict settles others."""
        return self.classes if is_binary else self._asked_with_signs

    @cached_property
    def _asked_with_signs(self) -> Sequence[MatrixClass]:
        return [kind for kind in self.classes if not kind.is_binary or (self.supports and kind == _REGULAR)]

    def order(self, is_sparse: bool) -> Sequence[MatrixClass]:
        """The order in which classes are asked for if verdicts settle others."""
        return self._orders[is_sparse]

    @cached_property
    def _orders(self) -> Mapping[bool, Sequence[MatrixClass]]:
        return {is_sparse: asking_order(self.classes, is_sparse) for is_sparse in (False, True)}

    def wording(self, kind: MatrixClass, form: Format, has_evidence: bool) -> Wording:
        """How the program is asked for a class in the first run, which makes no pivots."""
        return self._wordings[kind.name, form, has_evidence]

    @cached_property
    def _wordings(self) -> Mapping[tuple[str, Format, bool], Wording]:
        forms: tuple[Format, Format] = "dense", "sparse"
        return {
            (kind.name, form, has_evidence): Wording(kind, form, self.budget(kind), has_evidence)
            for kind in CLASSES
            for form in forms
            for has_evidence in (False, True)
        }

    def budget(self, kind: MatrixClass) -> tuple[str, ...]:
        """The words of the budget for a class."""
        return ("--lines", str(self.lines)) if kind.has_budget and self.lines is not None else ()


@dataclass(frozen=True)
class Row:
    """The results for a matrix. If there is a fault, the verdicts that were not found are empty."""

    file: str
    number: int
    rows: int | None
    columns: int | None
    nonzeros: int | None
    verdicts: Mapping[str, str]
    milliseconds: float = 0.0
    fault: str | None = None
    byte: int | None = None
    message: str | None = None
    evidence: Mapping[str, bytes] = field(default_factory=dict, compare=False, repr=False)
    """The texts of evidence, each by its class and its ending, such as `tu/tree`."""
    size: int = field(default=0, compare=False, repr=False)
    """The bytes of the text or model."""


Talk = Generator[Sequence[ClassQuestion], Sequence[Said], Row]
"""What is asked about a matrix: it gives questions, takes what is said of each, and returns the row."""

_Talked = Generator[Sequence[ClassQuestion], Sequence[Said], Sequence[Said]]
_Asking = Generator[Sequence[ClassQuestion], Sequence[Said], None]


class _Watch:
    """The seconds that a matrix takes: here, and until its questions are answered."""

    def __init__(self) -> None:
        self._spent = 0.0
        self._begun = time.perf_counter()

    def said(self, questions: Sequence[ClassQuestion]) -> _Talked:
        """What is said of questions. Raises the first fault, except a limit of time, which may have passed for each question."""
        self._spent += time.perf_counter() - self._begun
        found = yield questions
        self._begun = time.perf_counter()
        for _, seconds, _, fault in found:
            self._spent += seconds
            if fault is not None and not isinstance(fault, TimeoutError):
                raise fault
        return found

    def milliseconds(self) -> float:
        """The time up to now."""
        return round((self._spent + time.perf_counter() - self._begun) * 1000, 3)


def talk(item: Item, settings: Settings) -> Talk:
    """The talk about a matrix. It raises nothing: the row contains every fault."""
    watch = _Watch()
    try:
        return (yield from _read_and_asked(item, settings, watch))
    except ProgramFault as fault:
        kind, byte = fault_words(fault)
        message = ("what follows is not read" if item.is_last else None) if isinstance(fault, BadText) else str(fault)
        return _faulty(item, watch, kind, message, None if byte is None else item.start + byte)
    except (CmrError, OSError, MemoryError) as fault:
        return _faulty(item, watch, _kind(fault), str(fault))


def with_texts(item: Item, settings: Settings) -> Item:
    """The item, with its text if it is a model, for a machine that does not have the file."""
    if item.text is not None or item.fault:
        return item
    try:
        return replace(item, text=_model_text(item, settings))
    except BadInput as fault:
        return replace(item, fault=(_kind(fault), str(fault)))


def _read_and_asked(item: Item, settings: Settings, watch: _Watch) -> Talk:
    if item.fault is not None:
        return _faulty(item, watch, *item.fault)
    text = _model_text(item, settings) if item.text is None else item.text
    asked = _Asked(settings, _Source(text, item.form), watch)
    shape = shape_of(text, item.form, settings.limits.lines)
    if settings.limits == LARGE and _has_many_lines(text):
        asked.ask_large()
        if shape is not None:
            return _row(item, shape, asked, watch)
    if shape is None:
        yield from asked.must_be_read()
        raise ProgramFault(0, "the program reads a text whose counts and entries do not fit")
    if settings.supports and not shape.is_binary:
        asked.support = asked.source.support()
    yield from asked.all_classes(shape)
    if settings.minors:
        asked.add_minors()
    if not settings.infers:
        yield from asked.compare()
    return _row(item, shape, asked, watch)


def _row(item: Item, shape: Shape, asked: _Asked, watch: _Watch) -> Row:
    verdicts = {kind.name: asked.verdicts.get(kind.name, "") for kind in asked.settings.classes}
    return Row(
        item.file,
        item.number,
        shape.rows,
        shape.columns,
        shape.nonzeros,
        verdicts,
        watch.milliseconds(),
        fault=asked.fault[0],
        message=asked.fault[1],
        evidence=asked.evidence,
        size=item.size,
    )


@dataclass(frozen=True, slots=True)
class _Source:
    """A text of a matrix."""

    text: bytes
    form: Format

    @property
    def matrix(self) -> Matrix:
        """The matrix of the text."""
        return Matrix.from_text(self.text.decode("ascii"), sparse=self.form == "sparse")

    def support(self) -> _Source:
        """The text of the support."""
        return _Source(self.matrix.support().to_text().encode("ascii"), "sparse")


class _Asked:
    """What the program says of the matrix of a text."""

    def __init__(self, settings: Settings, source: _Source, watch: _Watch) -> None:
        self.settings = settings
        self.source = source
        self.support: _Source | None = None
        """The support of a matrix with signs, if `regular` is asked of it."""
        self.verdicts: dict[str, str] = {}
        self.evidence: dict[str, bytes] = {}
        self.fault: tuple[str | None, str | None] = (None, None)
        self._watch = watch

    def all_classes(self, shape: Shape) -> _Asking:
        """Asks about each class on which the matrix has a verdict, except classes that are settled already if `infers` is set."""
        settings = self.settings
        asked = settings.asked(shape.is_binary)
        if not asked:
            yield from self.must_be_read()
        names = [kind.name for kind in asked]
        self.verdicts.update({kind.name: "-" for kind in settings.classes if kind.name not in names})
        if not settings.infers:
            if asked:
                yield from self._ask(asked)
            return
        for kind in settings.order(shape.nonzeros <= shape.rows + shape.columns):
            if kind.name not in self.verdicts:
                yield from self._ask([kind])
                settle(self.verdicts, names)

    def ask_large(self) -> None:
        """Asks whether a matrix that is too large for `cmr` is totally unimodular. It has no verdicts on other classes."""
        settings, source = self.settings, self.source
        self.verdicts.update({kind.name: "-" for kind in settings.classes})
        try:
            call = Call.begin(settings.program, settings.time_limit)
            answer = ask_large_text(source.text, source.form, call, settings.budget(_TU))
            if answer.is_undecided and settings.asks_again:
                matrix = LargeMatrix.from_text(source.text.decode("ascii"), sparse=source.form == "sparse")
                answer = self._answer(_TU, matrix, call.clock)
        except TimeLimitReached as fault:
            self._late(_TU, fault)
            return
        self.verdicts[_TU.name] = answer.verdict
        if settings.evidence and answer.violator is not None:
            self.evidence[f"{_TU.name}/violator"] = answer.violator.to_text().encode("ascii")

    def add_minors(self) -> None:
        """Finds the excluded minor of each no. There is none if finding it takes longer than the limit of time, or is undecided."""
        settings = self.settings
        for kind in MINOR_CLASSES:
            if self.verdicts.get(kind.word) == "no":
                with suppress(TimeLimitReached, Undecided):
                    minor = excluded_minor(
                        (self.support or self.source if kind.word == "regular" else self.source).matrix,
                        kind.name,
                        lines=settings.lines,
                        pivots=settings.pivots,
                        time_limit=settings.time_limit,
                        program=settings.program,
                    )
                    if minor is not None:
                        self.evidence[f"{kind.word}/minor"] = minor.to_text().encode("ascii")

    def must_be_read(self) -> _Asking:
        """Raises the fault of the text, if no class is asked that would find it."""
        yield from self._verdict(_CAMION, self.source)

    def compare(self) -> _Asking:
        """Holds the verdicts against the inclusions.

        If `tu` and `regular` are asked of matrices without signs, it also asks whether the support of a totally unimodular matrix with
        signs is regular.
        """
        broken = [str(one) for one in contradictions(self.verdicts)]
        if self.verdicts.get("tu") == "yes" and self.verdicts.get("regular") == "-":
            if (yield from self._verdict(_REGULAR, self.source.support())) == "no":
                broken.append("the support of tu in regular")
        if broken:
            self.fault = CONTRADICTION, "; ".join(broken)

    def _question(self, kind: MatrixClass, source: _Source, has_evidence: bool) -> ClassQuestion:
        return ClassQuestion(self.settings.wording(kind, source.form, has_evidence), source.text)

    def _verdict(self, kind: MatrixClass, source: _Source) -> Generator[Sequence[ClassQuestion], Sequence[Said], str]:
        (said,) = yield from self._watch.said([self._question(kind, source, has_evidence=False)])
        if said.fault is not None:
            raise said.fault
        return said.verdict

    def _source_of(self, kind: MatrixClass) -> _Source:
        return self.support if self.support is not None and kind == _REGULAR else self.source

    def _ask(self, kinds: Sequence[MatrixClass]) -> _Asking:
        """Asks for classes. A run that was ended by the limit of time leaves its class undecided, and the others are asked."""
        has_evidence = self.settings.evidence
        questions = [self._question(kind, self._source_of(kind), has_evidence) for kind in kinds]
        for kind, said in zip(kinds, (yield from self._watch.said(questions))):
            if said.fault is not None:
                self._late(kind, said.fault)
            else:
                self._keep(kind, said)

    def _late(self, kind: MatrixClass, fault: Exception) -> None:
        self.verdicts[kind.name] = "undecided"
        self.fault = type(fault).__name__, f"{kind.name}: {fault}"

    def _keep(self, kind: MatrixClass, said: Said) -> None:
        """Keeps a verdict with its evidence. If it is undecided, the class is asked again with pivots and in other orders, if requested."""
        for ending, text in said.evidence.items():
            self.evidence[f"{kind.name}/{ending}"] = text
        self.verdicts[kind.name] = said.verdict
        if said.verdict == "undecided" and self.settings.asks_again:
            try:
                self.verdicts[kind.name] = self._asked_again(kind, self._source_of(kind), said.seconds)
            except TimeoutError as fault:
                self._late(kind, fault)

    def _asked_again(self, kind: MatrixClass, source: _Source, seconds: float) -> str:
        """The verdict with parts, pivots and other orders of the lines, in the time that some seconds leave of the limit."""
        settings = self.settings
        left = None if settings.time_limit is None else settings.time_limit - seconds
        if left is not None and left <= 0:
            raise TimeLimitReached(settings.time_limit or 0)
        answer = self._answer(kind, source.matrix, left)
        if settings.evidence and not answer.is_undecided:
            for _, ending in kind.evidence:
                self.evidence.pop(f"{kind.name}/{ending}", None)
                value = getattr(answer, ending)
                if value is not None:
                    text = _dense_text(value) if isinstance(value, Matrix) else value.to_text()
                    self.evidence[f"{kind.name}/{ending}"] = text.encode("ascii")
        return answer.verdict

    def _answer(self, kind: MatrixClass, matrix: Matrix | LargeMatrix, time_limit: TimeLimit) -> Answer:
        """The answer of the package, with parts, pivots and other orders of the lines."""
        settings = self.settings
        return _QUESTIONS[kind.name](
            matrix,
            **({} if kind.name == "balanced" else {"certificate": settings.evidence}),
            lines=settings.lines,
            pivots=settings.pivots,
            tries=settings.tries,
            time_limit=time_limit,
            program=settings.program,
        )


def _dense_text(matrix: Matrix) -> str:
    """The dense text of a matrix, as the program writes a signed matrix."""
    rows = [" ".join(map(str, row)) for row in matrix.to_lists()]
    return "\n".join(["{} {}".format(*matrix.shape), *rows, ""])


def _model_text(item: Item, settings: Settings) -> bytes:
    is_any = settings.limits == LARGE
    return (text_of_model(item.file) if is_any else from_model(item.file).to_text()).encode("ascii")


def _has_many_lines(text: bytes) -> bool:
    """Whether a text begins with a number of rows or columns that is above the limit of `cmr`."""
    counts = text.split(None, 2)[:2]
    return any(count.isdigit() and int(count[:20]) > LIMIT for count in counts)


def _faulty(item: Item, watch: _Watch, kind: str, message: str | None, byte: int | None = None) -> Row:
    taken = watch.milliseconds()
    return Row(item.file, item.number, None, None, None, {}, taken, kind, byte, message, size=item.size)


def _kind(fault: Exception) -> str:
    return type(fault).__name__
