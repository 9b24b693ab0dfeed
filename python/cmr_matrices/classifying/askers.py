"""Who asks the program for verdicts: a process for each question, or the kept process of `cmr-batch` for all."""

from __future__ import annotations

import tempfile
import time
from collections.abc import Iterator, Mapping, Sequence
from contextlib import ExitStack
from dataclasses import dataclass
from functools import cached_property
from pathlib import Path
from typing import NamedTuple, Protocol

from ..errors import CmrError
from ..running.batch.frames import Reply, Request, file_part, words_part
from ..running.batch.kept import replies_at_once
from ..running.held_texts import held_text
from .classes import MatrixClass
from .streams import Format
from .verdicts import ask, verdict_of

__all__ = ["Asker", "OneByOne", "ClassQuestion", "Said", "Together", "Wording"]


@dataclass(frozen=True)
class Wording:
    """How the program is asked for a class: the format of the text, more options, and whether it writes evidence."""

    kind: MatrixClass
    form: Format
    budget: tuple[str, ...] = ()
    has_evidence: bool = False

    def words(self, path: str = "") -> list[str]:
        """The arguments of the program. A text of evidence is written to the name of its ending, after a path."""
        evidence = self.kind.evidence if self.has_evidence else ()
        options = [word for option, ending in evidence for word in (option, path + ending)]
        return [*self.kind.words, "-i", self.form, *self.budget, *options]

    @cached_property
    def part(self) -> bytes:
        """The words in a request. They are the same for many matrices."""
        return words_part((*self.words(), "-"))


class ClassQuestion(NamedTuple):
    """Whether the matrix of a text is in a class."""

    wording: Wording
    text: bytes


class Said(NamedTuple):
    """A verdict with its texts of evidence, by their endings, and the seconds that it took, or the fault in place of these."""

    verdict: str
    seconds: float
    evidence: Mapping[str, bytes]
    fault: CmrError | OSError | MemoryError | None = None


class Asker(Protocol):
    """Who asks for verdicts. What it holds is let go at the end of its context."""

    most: int
    """Of how many matrices it is asked at once."""

    def said(self, questions: Sequence[ClassQuestion]) -> Iterator[list[Said]]:
        """What the program says of each question, in their order, in lists of what comes at once.

        Raises what `run` of the package raises, if the questions after the fault have to be asked again.
        """

    def __enter__(self) -> Asker: ...

    def __exit__(self, *_: object) -> None: ...


class OneByOne:
    """Starts a process for each question."""

    most = 1

    def __init__(self, program: str, time_limit: float | None) -> None:
        self._program = program
        self._time_limit = time_limit
        self._stack = ExitStack()
        self._held: dict[bytes, int] = {}
        self._folder: Path | None = None

    def __enter__(self) -> OneByOne:
        return self

    def __exit__(self, *_: object) -> None:
        self._stack.close()

    def said(self, questions: Sequence[ClassQuestion]) -> Iterator[list[Said]]:
        """What the program says of each question. It is asked for one when the one before is taken."""
        for question in questions:
            begun = time.monotonic()
            file = self._file(question.text)
            if question.wording.has_evidence:
                verdict, evidence = self._with_evidence(question.wording, file)
            else:
                verdict, evidence = self._verdict(question.wording, file), {}
            yield [Said(verdict, time.monotonic() - begun, evidence)]

    def _verdict(self, wording: Wording, file: int, path: str = "") -> str:
        return ask(self._program, wording.words(path), file, wording.kind.said, self._time_limit)

    def _with_evidence(self, wording: Wording, file: int) -> tuple[str, dict[str, bytes]]:
        if self._folder is None:
            self._folder = Path(self._stack.enter_context(tempfile.TemporaryDirectory(prefix="cmr-")))
        paths = {ending: self._folder / ending for _, ending in wording.kind.evidence}
        try:
            verdict = self._verdict(wording, file, f"{self._folder}/")
            return verdict, {ending: path.read_bytes() for ending, path in paths.items() if path.exists()}
        finally:
            for path in paths.values():
                path.unlink(missing_ok=True)

    def _file(self, text: bytes) -> int:
        if text not in self._held:
            self._held[text] = self._stack.enter_context(held_text(text))
        return self._held[text]


class Together:
    """Sends all questions at once to the process of `cmr-batch` that this thread keeps."""

    most = 32

    def __init__(self, program: Path, time_limit: float | None) -> None:
        self._program = program
        self._time_limit = time_limit

    def __enter__(self) -> Together:
        return self

    def __exit__(self, *_: object) -> None:
        pass

    def said(self, questions: Sequence[ClassQuestion]) -> Iterator[list[Said]]:
        """What the program says of each question. The time of a list is divided among its verdicts."""
        begun, at = time.monotonic(), 0
        requests = [Request.of_parts(wording.part, file_part("-", text)) for wording, text in questions]
        for found in replies_at_once(self._program, requests, self._time_limit):
            now = time.monotonic()
            seconds = (now - begun) / len(found)
            yield [_said(question, reply, seconds) for question, reply in zip(questions[at:], found)]
            begun, at = now, at + len(found)


def _said(question: ClassQuestion, reply: Reply, seconds: float) -> Said:
    try:
        verdict = verdict_of(reply.status, reply.output or reply.error, question.wording.kind.said)
    except CmrError as fault:
        return Said("", seconds, {}, fault)
    return Said(verdict, seconds, reply.files)
