"""The lines in documents are the output of runs, as is the picture of docs/CLASSIFYING.md."""

import tempfile
from pathlib import Path

from tests.support import ScriptTest, needs_dot, needs_glpsol, needs_program, needs_python, needs_swiglpk
from tests.walk import CLASSIFYING, DOCUMENT, ONE_MODEL, PICTURES, SCREENS, walked


@needs_python
@needs_program
class Screens(ScriptTest):
    maxDiff = None

    def test_each_line_is_that_of_a_run(self):
        for document in SCREENS:
            with self.subTest(document=document.name), tempfile.TemporaryDirectory() as folder:
                text = document.read_text(encoding="utf-8")
                self.assertIn("\n$ ", text)
                self.assertEqual(text.splitlines(), walked(text, Path(folder)).splitlines())


@needs_python
@needs_swiglpk
@needs_glpsol
@needs_dot
@needs_program
class Walk(ScriptTest):
    maxDiff = None

    def test_each_line_is_that_of_a_run(self):
        text = DOCUMENT.read_text(encoding="utf-8")
        self.assertEqual(text.splitlines(), walked(text, self.folder).splitlines())

    def test_each_line_on_one_model_is_that_of_a_run(self):
        text = ONE_MODEL.read_text(encoding="utf-8")
        self.assertEqual(text.splitlines(), walked(text, self.folder).splitlines())
        for page in PICTURES[ONE_MODEL]:
            self.assertEqual((ONE_MODEL.parent / page).read_bytes(), (self.folder / "out" / page).read_bytes())

    def test_each_line_on_classifying_is_that_of_a_run(self):
        text = CLASSIFYING.read_text(encoding="utf-8")
        self.assertEqual(text.splitlines(), walked(text, self.folder).splitlines())
        for picture in PICTURES[CLASSIFYING]:
            self.assertEqual((CLASSIFYING.parent / picture).read_bytes(), (self.folder / "out" / picture).read_bytes())
