"""Streams of many texts: where each ends, which faults it has, and what follows."""

from __future__ import annotations

import io
import random
import subprocess
import tempfile
import unittest
from pathlib import Path

from cmr_matrices import Matrix, find_program
from cmr_matrices.classifying.blocks import classify
from cmr_matrices.classifying.classes import CLASSES
from cmr_matrices.classifying.streams import USUAL, Format, Item, items_of, part_of, sources_of, texts_of
from cmr_matrices.classifying.work import Row, Settings
from tests.support import needs_program


class Slow(io.BytesIO):
    """A stream that gives a few bytes at a time."""

    def read1(self, size: int | None = -1, /) -> bytes:
        return super().read1(3)


def texts(stream: bytes, form: Format = "dense") -> list[bytes]:
    return [text for _, text, _ in texts_of(io.BytesIO(stream), form)]


class Texts(unittest.TestCase):
    def test_many(self) -> None:
        draw = random.Random(3)
        for form in ("dense", "sparse"):
            kept = []
            for _ in range(200):
                shape = draw.randrange(4), draw.randrange(4)
                places = [(row, column) for row in range(shape[0]) for column in range(shape[1]) if draw.random() < 0.5]
                matrix = Matrix(shape, tuple((row, column, draw.choice((1, -1))) for row, column in places))
                words = matrix.to_text().split()
                if form == "dense":
                    words = [*map(str, shape), *(str(entry) for row in matrix.to_lists() for entry in row)]
                kept.append(draw.choice((" ", "\n", "\t \v")).join(words).encode())
            stream = b"\n\n".join(kept)
            for source in (io.BytesIO(stream), Slow(stream)):
                found = list(texts_of(source, "dense" if form == "dense" else "sparse"))
                self.assertEqual([text for _, text, _ in found], kept)
                self.assertEqual([stream[start : start + len(text)] for start, text, _ in found], kept)
                self.assertFalse(any(is_last for _, _, is_last in found))

    def test_no_text(self) -> None:
        self.assertEqual(texts(b""), [])
        self.assertEqual(texts(b" \n"), [])

    def test_ends(self) -> None:
        self.assertEqual(texts(b"1 2 1 0 2 1 1\n"), [b"1 2 1 0", b"2 1 1\n"])
        self.assertEqual(texts(b"1 1 1 what 1 1 0"), [b"1 1 1", b"what"])
        self.assertEqual(texts(b"1 1 9 1 1 x 1 1 0"), [b"1 1 9", b"1 1 x", b"1 1 0"])
        self.assertEqual(texts(b"0 2000 1 1 1"), [b"0 2000", b"1 1 1"])
        self.assertEqual(texts(b"1 1001 " + b"1 " * 1001 + b"1 1 0"), [b"1 1001", b"1 1 0"])
        self.assertEqual(texts(b"1 1 1 1 1 1 2 2 0", "sparse"), [b"1 1 1 1 1 1", b"2 2 0"])

    def test_long_texts_are_not_held(self) -> None:
        found = texts(b"1 1" + b" " * (USUAL.size + 5) + b"1 1 1 0")
        self.assertEqual([len(text) for text in found], [USUAL.size + 1, 5])
        found = texts(b"1 1 " + b"0" * (USUAL.size + 70_000))
        self.assertEqual([len(text) for text in found], [USUAL.size + 1])

    def test_parts(self) -> None:
        items = [Item("file", number, b"") for number in range(1, 12)]
        parts = [[item.number for item in part_of(items, part, 3)] for part in (1, 2, 3)]
        self.assertEqual(parts, [[1, 4, 7, 10], [2, 5, 8, 11], [3, 6, 9]])


class Sources(unittest.TestCase):
    def test_folders(self) -> None:
        with tempfile.TemporaryDirectory() as folder:
            for name in ("b.txt", "a/model.LP", "a/.hidden", ".git/x", "c/evidence", "table.csv"):
                path = Path(folder, name)
                path.parent.mkdir(exist_ok=True)
                path.write_text("1 1 1", encoding="ascii")
            names = [f"{folder}/b.txt", folder, "-"]
            found = sources_of(names, [f"{folder}/table.csv", f"{folder}/c"])
            self.assertEqual([source.name for source in found], [f"{folder}/b.txt", f"{folder}/a/model.LP", "-"])
            self.assertEqual([source.is_model for source in found], [False, True, False])

    def test_a_file_that_is_not_there(self) -> None:
        found = list(items_of(sources_of(["/nowhere/file"]), "dense"))
        self.assertEqual(found[0].fault, ("CannotRead", "No such file or directory"))


@needs_program
class Faults(unittest.TestCase):
    def rows(self, stream: bytes, form: Format = "dense", names: str = "") -> list[Row]:
        classes = tuple(kind for kind in CLASSES if not names or kind.name in names.split(","))
        with tempfile.NamedTemporaryFile() as file:
            Path(file.name).write_bytes(stream)
            settings = Settings(classes, str(find_program()))
            return [classify(item, settings) for item in items_of(sources_of([file.name]), form, settings.limits)]

    def test_kinds_and_bytes(self) -> None:
        stream = b"1 1 1\n 1 1 2\n1 1 x 2000 1 " + b"1 " * 2000 + b"1 1 -1 1 2 3"
        rows = self.rows(stream, names="graphic")
        found = [(row.number, row.fault, row.byte) for row in rows]
        self.assertEqual(
            found[:4], [(1, None, None), (2, "BadEntry", 11), (3, "NotNumber", 17), (4, "TooManyRows", 19)]
        )
        self.assertEqual(
            [(row.fault, row.verdicts.get("graphic")) for row in rows[4:]], [(None, "-"), ("BadEntry", None)]
        )

    def test_what_follows_a_count_that_is_none(self) -> None:
        rows = self.rows(b"1 1 1 1 what 1 1 1")
        self.assertEqual([row.message for row in rows], [None, "what follows is not read"])

    def test_a_single_text_has_the_fault_of_the_program(self) -> None:
        for text, form in (
            (b" 1 1 ", "dense"),
            (b"1 2 1\n\n", "dense"),
            (b"1 1 1 2 1 1", "sparse"),
            (b"2 2 2 1 1 1 1 1 1 ", "sparse"),
        ):
            ran = subprocess.run(
                [find_program(), "network", "-i", form], input=text, capture_output=True, check=False, text=False
            )
            row = self.rows(text, "dense" if form == "dense" else "sparse")[0]
            self.assertEqual(
                f"cmr: <stdin>: {row.fault} at byte {row.byte}\n", ran.stderr.decode().replace("-:", "<stdin>:")
            )

    def test_faults_where_no_class_is_asked(self) -> None:
        row = self.rows(b"2 2 2 1 1 -1 3 1 1", "sparse", "graphic,regular")[0]
        self.assertEqual((row.fault, row.byte), ("RowOutOfRange", 13))
        row = self.rows(b"1 1 -1", "dense", "graphic,regular")[0]
        self.assertEqual((row.fault, dict(row.verdicts)), (None, {"graphic": "-", "regular": "-"}))


if __name__ == "__main__":
    unittest.main()
