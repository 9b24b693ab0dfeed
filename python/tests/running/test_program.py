"""How the program is found and run: statuses are exceptions, and no call leaves a process or a file."""

from __future__ import annotations

import os
import pickle
import shutil
import signal
import subprocess
import sys
import tempfile
import textwrap
import unittest
import warnings
from collections.abc import Callable
from pathlib import Path
from types import FrameType
from unittest import mock

from cmr_matrices import (
    Answer,
    BadCommandLine,
    BadInput,
    BadText,
    CannotRead,
    CannotWrite,
    OutOfMemory,
    ProgramFault,
    ProgramMissing,
    TextPlace,
    TimeLimitReached,
    UnprovedProgram,
    check,
    find_program,
    generate,
    is_balanced,
    is_network,
    is_totally_unimodular,
)
from cmr_matrices.running.program import run
from tests.support import FANO, PATIENCE, TOP, is_gone, needs_program, waits_until

MODULE = "cmr_matrices.running.program"


class Folder(unittest.TestCase):
    """A test with a folder, which is also that of temporary files."""

    def setUp(self) -> None:
        folder = tempfile.TemporaryDirectory()
        self.addCleanup(folder.cleanup)
        self.folder = Path(folder.name)
        self.temporary = self.folder / "temporary"
        self.temporary.mkdir()
        self.enterContext(mock.patch.object(tempfile, "tempdir", str(self.temporary)))
        self.enterContext(mock.patch.dict(os.environ))

    def script(self, text: str) -> Path:
        """A stand-in for the program, in the language of the shell."""
        path = self.folder / "program"
        path.write_text(f"#!/bin/sh\n{text}\n", encoding="ascii")
        path.chmod(0o755)
        return path

    def left(self) -> list[str]:
        return os.listdir(self.temporary)


class Finding(Folder):
    def test_the_argument_comes_first(self) -> None:
        script = self.script("exit 0")
        os.environ["CMR_PROGRAM"] = "/none"
        self.assertEqual(find_program(script), script)

    def test_the_variable_and_the_path(self) -> None:
        script = self.script("exit 0")
        os.environ["CMR_PROGRAM"] = str(script)
        self.assertEqual(find_program(), script)
        del os.environ["CMR_PROGRAM"]
        script.rename(self.folder / "cmr")
        os.environ["PATH"] = str(self.folder)
        self.assertEqual(find_program(), self.folder / "cmr")

    @needs_program
    def test_the_clone_comes_last(self) -> None:
        built = TOP / "crates" / "cmr" / "out" / "cmr"
        if not built.exists():
            self.skipTest("the program cmr, built in this clone, is not there")
        os.environ.pop("CMR_PROGRAM", None)
        os.environ["PATH"] = ""
        self.assertEqual(find_program(), built)

    def test_a_package_in_a_folder_next_to_the_root(self) -> None:
        """As `pip install --target FOLDER` makes it."""
        shutil.copytree(TOP / "python" / "cmr_matrices", self.folder / "cmr_matrices")
        words = [sys.executable, "-c", "import cmr_matrices; print(cmr_matrices.__file__)"]
        ran = subprocess.run(words, cwd=self.folder, capture_output=True, text=True, check=False)
        self.assertEqual((ran.stdout, ran.stderr), (f"{self.folder}/cmr_matrices/__init__.py\n", ""))

    def test_a_program_that_is_missing(self) -> None:
        with self.assertRaises(ProgramMissing) as missing:
            find_program("/none/cmr")
        self.assertEqual(missing.exception.places, ("the argument /none/cmr",))
        self.assertIn("`./cmr` proves and builds it", str(missing.exception))
        self.assertIn("`./try-cmr` compiles it without proofs", str(missing.exception))
        self.assertIsInstance(missing.exception, FileNotFoundError)
        os.environ["CMR_PROGRAM"] = str(self.folder)
        with self.assertRaises(ProgramMissing) as missing:
            is_totally_unimodular(FANO)
        self.assertEqual(missing.exception.places, (f"CMR_PROGRAM {self.folder}",))
        del os.environ["CMR_PROGRAM"]
        os.environ["PATH"] = ""
        with mock.patch.multiple(MODULE, _CLONE=self.folder), self.assertRaises(ProgramMissing) as missing:
            find_program()
        self.assertEqual(len(missing.exception.places), 3)

    def test_the_unproved_program_comes_last_with_a_warning(self) -> None:
        os.environ.pop("CMR_PROGRAM", None)
        os.environ["PATH"] = ""
        unproved = self.folder / "out" / "unproved" / "cmr"
        unproved.parent.mkdir(parents=True)
        self.script("cat > /dev/null; echo 'network: yes'").rename(unproved)
        (self.folder / "crates.txt").touch()
        with mock.patch.multiple(MODULE, _CLONE=self.folder, _BESIDE=self.folder / "bin" / "cmr"):
            with self.assertWarnsRegex(UnprovedProgram, "nothing is proved of this run: ./try-cmr compiled the program"):
                self.assertEqual(find_program(), unproved)
            with warnings.catch_warnings(record=True) as said:
                warnings.simplefilter("default")
                for _ in range(3):
                    self.assertTrue(is_network(FANO))
            self.assertEqual([it.category for it in said], [UnprovedProgram])
            built = self.folder / "crates" / "cmr" / "out" / "cmr"
            built.parent.mkdir(parents=True)
            self.script("exit 0").rename(built)
            self.assertEqual(find_program(), built)

    def test_the_program_that_is_installed_with_the_package_comes_before_the_path(self) -> None:
        os.environ.pop("CMR_PROGRAM", None)
        os.environ["PATH"] = str(self.folder)
        self.script("exit 0").rename(self.folder / "cmr")
        beside = self.folder / "bin" / "cmr"
        with mock.patch.multiple(MODULE, _CLONE=self.folder / "lib" / "cmr", _BESIDE=beside):
            self.assertEqual(find_program(), self.folder / "cmr")
            beside.parent.mkdir()
            self.script("exit 0").rename(beside)
            self.assertEqual(find_program(), beside)
            with mock.patch.multiple(MODULE, _PACKED_UNPROVED=True), self.assertWarns(UnprovedProgram):
                self.assertEqual(find_program(), beside)

    def test_a_clone_below_a_folder_with_programs_is_not_installed(self) -> None:
        os.environ.pop("CMR_PROGRAM", None)
        os.environ["PATH"] = str(self.folder)
        self.script("exit 0").rename(self.folder / "cmr")
        clone = self.folder / "src" / "clone"
        clone.mkdir(parents=True)
        (clone / "crates.txt").touch()
        beside = self.folder / "bin" / "cmr"
        beside.parent.mkdir()
        self.script("exit 0").rename(beside)
        with mock.patch.multiple(MODULE, _CLONE=clone, _BESIDE=beside):
            self.assertEqual(find_program(), self.folder / "cmr")


class Statuses(Folder):
    def fault(self, status: int, line: str) -> ProgramFault:
        script = self.script(f"cat > /dev/null; echo '{line}' >&2; exit {status}")
        with self.assertRaises(ProgramFault) as fault:
            is_totally_unimodular(FANO, certificate=True, program=script)
        self.assertEqual((fault.exception.status, fault.exception.line), (status, line))
        self.assertTrue(str(fault.exception).startswith(line))
        self.assertEqual(self.left(), [])
        return fault.exception

    def test_each_status_has_its_exception(self) -> None:
        for status, line, kind, builtin in [
            (2, "cmr: bad command line", BadCommandLine, ValueError),
            (3, "cmr: -: Short at byte 12", BadText, ValueError),
            (3, "cmr: -: TooLong", BadText, ValueError),
            (4, "cmr: cannot read -", CannotRead, OSError),
            (4, "cmr: cannot read the command line", CannotRead, OSError),
            (4, "cmr: cannot write tree", CannotWrite, OSError),
            (5, "cmr: out of memory", OutOfMemory, MemoryError),
            (70, "cmr was not built", ProgramFault, Exception),
        ]:
            with self.subTest(line=line):
                fault = self.fault(status, line)
                self.assertIs(type(fault), kind)
                self.assertIsInstance(fault, builtin)
                copy = pickle.loads(pickle.dumps(fault))
                self.assertEqual((type(copy), str(copy), copy.line, copy.status), (kind, str(fault), line, status))

    def test_the_kind_and_the_byte_of_a_text(self) -> None:
        fault = self.fault(3, "cmr: a: b: Short at byte 12")
        self.assertIsInstance(fault, BadText)
        assert isinstance(fault, BadText)
        self.assertEqual((fault.kind, fault.byte), ("Short", 12))
        fault = self.fault(3, "cmr: -: TooLong")
        assert isinstance(fault, BadText)
        self.assertEqual((fault.kind, fault.byte), ("TooLong", None))

    def test_another_program_is_not_taken_for_it(self) -> None:
        for status, printed in [(0, ""), (0, "all is well"), (0, "totally unimodular: no"), (1, "regular: no")]:
            script = self.script(f"cat > /dev/null; echo '{printed}'; exit {status}")
            with self.subTest(printed=printed), self.assertRaises(ProgramFault) as fault:
                is_totally_unimodular(FANO, program=script)
            self.assertTrue(str(fault.exception).startswith("the program is not cmr: "), fault.exception)
        with self.assertRaises(ProgramFault):
            generate("network", 3, 1, program=self.script("exit 0"))
        with self.assertRaises(ProgramFault):
            check(FANO, "3 4 0 0", program=self.script("exit 0"))

    def test_a_signal(self) -> None:
        with self.assertRaises(ProgramFault) as fault:
            is_totally_unimodular(FANO, program=self.script("kill -9 $$"))
        self.assertEqual((fault.exception.status, str(fault.exception)), (-9, "the program was ended by signal 9"))

    @needs_program
    def test_faults_of_the_program_itself(self) -> None:
        with self.assertRaises(BadText) as fault:
            check(FANO, "cmr-tree  3\n")
        self.assertEqual((fault.exception.kind, fault.exception.byte), ("WrongVersion", 10))
        self.assertEqual(fault.exception.place, TextPlace(1, 11, "3"))
        self.assertEqual(
            str(fault.exception),
            "cmr: evidence: WrongVersion at byte 10 (line 1, column 11: `3`): it seems to be a decomposition tree",
        )
        self.assertEqual(fault.exception.line, "cmr: evidence: WrongVersion at byte 10")
        with self.assertRaises(BadText) as fault:
            check(FANO, "cmr-tree 2\n3 4\nonesum 3 4 1 2 3\n")
        self.assertEqual(fault.exception.place, TextPlace(4, 1, ""))
        with self.assertRaises(BadCommandLine):
            generate("twosum", 250, 1)
        with self.assertRaises(CannotRead):
            run(["tu", "none"])
        # A process that is kept can write every name.
        os.environ["CMR_BATCH"] = ""
        with self.assertRaises(CannotWrite):
            run(["tu", "-D", "none/tree"], text="0 0", outputs=("tree",))
        self.assertEqual(self.left(), [])

    def test_options_out_of_their_ranges(self) -> None:
        questions: tuple[Callable[..., Answer], ...] = (is_totally_unimodular, is_balanced)
        for options, line in [
            ({"lines": 25}, "lines is a number from 0 to 24, and here it is 25"),
            ({"lines": -1}, "lines is a number from 0 to 24, and here it is -1"),
            ({"workers": 0}, "workers is a number from 1 to 64, and here it is 0"),
        ]:
            for question in questions:
                with self.assertRaises(BadInput) as refused:
                    question(FANO, **options)
                self.assertEqual(str(refused.exception), line)


class Ends(Folder):
    """Whatever ends a call leaves no process and no file."""

    def is_gone(self, number: Path) -> None:
        process = int(number.read_text(encoding="ascii"))
        waits_until(lambda: is_gone(process), "the end of the program")

    def sleeping(self) -> Path:
        return self.script(
            f"echo $$ > {self.folder}/number.new; mv {self.folder}/number.new {self.folder}/number; exec sleep 60"
        )

    def test_a_time_limit(self) -> None:
        with self.assertRaises(TimeLimitReached) as limit:
            is_totally_unimodular(FANO, certificate=True, program=self.sleeping(), time_limit=0.5)
        self.assertEqual((str(limit.exception), limit.exception.seconds), ("no answer within 0.5 seconds", 0.5))
        self.assertIsInstance(limit.exception, TimeoutError)
        # On a busy machine the limit may come before the shell has begun.
        if (self.folder / "number").exists():
            self.is_gone(self.folder / "number")
        self.assertEqual(self.left(), [])

    def test_an_interrupt(self) -> None:
        code = f"""
            import sys, tempfile
            sys.path.insert(0, {str(TOP / "python")!r})
            tempfile.tempdir = {str(self.temporary)!r}
            from cmr_matrices import is_totally_unimodular
            is_totally_unimodular([[1]], certificate=True, program={str(self.sleeping())!r})
        """
        with subprocess.Popen([sys.executable, "-c", textwrap.dedent(code)], stderr=subprocess.PIPE) as caller:
            waits_until((self.folder / "number").exists, "the start of the program")
            self.assertEqual(len(self.left()), 1)
            caller.send_signal(signal.SIGINT)
            _, said = caller.communicate(timeout=PATIENCE)
        self.assertIn(b"KeyboardInterrupt", said)
        self.is_gone(self.folder / "number")
        self.assertEqual(self.left(), [])

    def test_an_interrupt_leaves_no_entry_in_the_table_of_processes(self) -> None:
        """A caller such as a notebook goes on after it."""

        def interrupt(_number: int, _frame: FrameType | None) -> None:
            raise KeyboardInterrupt

        before = signal.signal(signal.SIGALRM, interrupt)
        self.addCleanup(signal.signal, signal.SIGALRM, before)
        program = self.sleeping()
        with self.assertRaises(KeyboardInterrupt):
            signal.setitimer(signal.ITIMER_REAL, 1)
            is_totally_unimodular([[1]], certificate=True, program=program)
        # A process that has ended and was not waited for still has its number.
        if (self.folder / "number").exists():
            self.assertTrue(is_gone(int((self.folder / "number").read_text(encoding="ascii"))))
        self.assertEqual(self.left(), [])

    def test_a_file_that_is_no_program(self) -> None:
        program = self.folder / "text"
        program.write_text("no program", encoding="ascii")
        program.chmod(0o755)
        with self.assertRaises(ProgramFault) as fault:
            is_totally_unimodular([[1]], program=program)
        self.assertIn(f"{program} cannot be run: ", str(fault.exception))

    @needs_program
    def test_an_answer(self) -> None:
        self.assertFalse(is_totally_unimodular(FANO, certificate=True, time_limit=60))
        self.assertEqual(self.left(), [])


if __name__ == "__main__":
    unittest.main()
