"""Many runs in one process: its requests and replies, when it is started and ended, and that nothing is lost when it dies."""

from __future__ import annotations

import doctest
import os
import random
import re
import shutil
import signal
import subprocess
import sys
import tempfile
import textwrap
import threading
import unittest
from collections.abc import Generator, Sequence
from itertools import count
from pathlib import Path
from types import FrameType
from unittest import mock

from cmr_matrices import (
    Matrix,
    ProgramFault,
    TimeLimitReached,
    find_program,
    is_network,
    is_totally_unimodular,
    model_report,
)
from cmr_matrices.running.batch import frames, kept, netstrings
from cmr_matrices.running.batch.frames import Reply, Request, can_be_sent
from cmr_matrices.running.batch.kept import batch_of, end_all, replies
from cmr_matrices.running.batch.netstrings import NoNetstring, lacking, netstring, whole
from cmr_matrices.running.batch.process import Process
from cmr_matrices.running.clock import Clock, ProcessorClock, TimeLimit, processor_seconds
from cmr_matrices.running.single_run import single_run
from tests.support import EXAMPLES, TOP, is_gone, needs_batch, needs_module, waits_until

STAND_IN = """\
import os, sys, time
sys.path.insert(0, {package!r})
from cmr_matrices.running.batch.netstrings import netstring, netstrings, row, whole

def replied(request):
    words, *files = netstrings(request)
    word = netstrings(words)[0].decode()
    if word == "die":
        sys.stdout.buffer.write(b"20:1:0,")
        sys.stdout.flush()
        os.kill(os.getpid(), 9)
    if word == "once" and not os.path.exists({mark!r}):
        open({mark!r}, "w").close()
        os.kill(os.getpid(), 9)
    if word == "wait":
        time.sleep(1000)
    if word == "busy":
        while True:
            pass
    if word == "work":
        end = time.process_time() + 0.4
        while time.process_time() < end:
            pass
    if word == "babble":
        return b"no netstring"
    if word == "odd":
        return netstring(row([b"0", b""]))
    if word == "stop":
        sys.stderr.write("cmr-batch: out of memory\\n")
        sys.exit(5)
    return netstring(row([b"0", str(os.getpid()).encode(), b""]))

got = b""
while piece := os.read(0, 65536):
    got += piece
    requests, end = whole(got)
    got = got[end:]
    for request in requests:
        sys.stdout.buffer.write(replied(request))
        sys.stdout.flush()
"""


class Interrupt(Exception):
    """What a signal raises."""


class Modules(unittest.TestCase):
    def test_docstrings(self) -> None:
        for module in (netstrings, frames):
            found = doctest.testmod(module)
            self.assertGreater(found.attempted, 2)
            self.assertEqual(found.failed, 0)


class Texts(unittest.TestCase):
    def test_what_is_no_netstring(self) -> None:
        for text in (b":", b"x", b"03:abc,", b"+3:abc,", b"3:abc;", b"12345678901"):
            with self.assertRaises(NoNetstring, msg=repr(text)):
                whole(text)
            # What comes before is given first.
            self.assertEqual(whole(b"1:a," + text), ([b"a"], 4), msg=repr(text))
            self.assertEqual(lacking(text), 0, msg=repr(text))

    def test_what_is_cut(self) -> None:
        for text, lacks in ((b"", 1), (b"1", 1), (b"12:", 13), (b"3:abc", 1), (b"3:a", 3)):
            self.assertEqual(whole(text), ([], 0), msg=repr(text))
            self.assertEqual(whole(b"1:a,0:," + text), ([b"a", b""], 7), msg=repr(text))
            self.assertEqual(lacking(text), lacks, msg=repr(text))

    def test_each_cut(self) -> None:
        texts = [b"a" * size for size in (0, 1, 9, 10, 99, 100, 12345)]
        stream = b"".join(map(netstring, texts))
        for at in range(0, len(stream), 7):
            found, end = whole(stream[:at])
            rest, _ = whole(stream[end:])
            self.assertEqual(found + rest, texts)

    def test_what_is_no_reply(self) -> None:
        for text in (b"", b"1:0,0:,", b"1:0,0:,0:,1:f,", b"1:x,0:,0:,", b"1:0,0:,0:"):
            with self.assertRaises(NoNetstring, msg=repr(text)):
                Reply.of(text)

    def test_words_that_cannot_be_sent(self) -> None:
        self.assertTrue(can_be_sent(["tu", "ü"], {"-": b"\xff"}))
        self.assertFalse(can_be_sent(["tu", "\udcff"], {}))
        self.assertFalse(can_be_sent(["tu"], {"\udcff": b""}))


class StandIn(unittest.TestCase):
    def setUp(self) -> None:
        folder = tempfile.TemporaryDirectory()
        self.addCleanup(folder.cleanup)
        self.folder = Path(folder.name)
        self.program = self.folder / "cmr-batch"
        text = STAND_IN.format(package=str(TOP / "python"), mark=str(self.folder / "mark"))
        self.program.write_text(f"#!{sys.executable}\n{text}", encoding="ascii")
        self.program.chmod(0o755)
        self.addCleanup(end_all)

    def asked(self, *words: str, time_limit: float | None = 60.0) -> list[Reply]:
        return list(replies(self.program, [Request.of([word], {}) for word in words], time_limit))

    def number(self, word: str = "a") -> int:
        (reply,) = self.asked(word)
        return int(reply.output)


class Processes(StandIn):
    def test_one_for_each_thread(self) -> None:
        first = self.number()
        self.assertEqual({self.number() for _ in range(10)}, {first})
        others: list[int] = []
        thread = threading.Thread(target=lambda: others.extend([self.number(), self.number()]))
        thread.start()
        thread.join()
        self.assertEqual(len(set(others)), 1)
        self.assertNotEqual(others[0], first)
        waits_until(lambda: is_gone(others[0]), "the end of the process of a thread that has ended")

    def test_many_at_once(self) -> None:
        long = Request.of(["a"], {"-": b"1" * 1000})
        found = list(replies(self.program, [long] * 3000, 60.0))
        self.assertEqual(len(found), 3000)
        self.assertEqual({reply.output for reply in found}, {found[0].output})

    def test_a_limit_of_time(self) -> None:
        first = self.number()
        with self.assertRaises(TimeLimitReached):
            self.asked("a", "wait", time_limit=0.2)
        self.assertTrue(is_gone(first))
        self.assertNotEqual(self.number(), first)
        with self.assertRaises(TimeLimitReached):
            list(replies(self.program, [Request.of(["wait"], {})], Clock(0.2)))

    def test_a_limit_of_processor_time(self) -> None:
        first, before = self.number(), processor_seconds()
        with self.assertRaises(TimeLimitReached):
            list(replies(self.program, [Request.of(["busy"], {})], ProcessorClock(0.3)))
        self.assertTrue(0.2 < processor_seconds() - before < 2)
        self.assertTrue(is_gone(first))
        self.assertNotEqual(self.number(), first)

    def test_the_processor_time_of_a_kept_process_counts_once(self) -> None:
        self.asked("work")
        clock = ProcessorClock(100.0)
        first = clock.left()
        self.asked("work")
        second = clock.left()
        end_all()
        third = clock.left()
        assert first is not None and second is not None and third is not None
        self.assertTrue(99.9 < first <= 100)
        self.assertTrue(0.3 < first - second < 2)
        self.assertTrue(0 <= second - third < 0.2)

    def test_a_kept_process_that_only_waits_ends(self) -> None:
        with self.assertRaises(TimeLimitReached):
            list(replies(self.program, [Request.of(["wait"], {})], ProcessorClock(0.05)))

    def test_a_system_that_does_not_tell_the_time_of_a_run_has_none(self) -> None:
        self.assertTrue(ProcessorClock(1.0).counts_kept)
        with mock.patch("cmr_matrices.running.clock._used_by", return_value=None):
            self.assertFalse(ProcessorClock(1.0).counts_kept)

    def test_an_interrupt(self) -> None:
        def interrupt(_number: int, _frame: FrameType | None) -> None:
            raise Interrupt

        first = self.number()
        before = signal.signal(signal.SIGALRM, interrupt)
        self.addCleanup(signal.signal, signal.SIGALRM, before)
        signal.setitimer(signal.ITIMER_REAL, 0.2)
        with self.assertRaises(Interrupt):
            self.asked("wait", time_limit=None)
        self.assertTrue(is_gone(first))
        self.assertNotEqual(self.number(), first)

    def test_replies_that_are_not_taken(self) -> None:
        first = self.number()
        coming = replies(self.program, [Request.of(["a"], {})] * 3)
        self.assertEqual(int(next(coming).output), first)
        self.assertNotEqual(self.number(), first)
        coming.close()
        waits_until(lambda: is_gone(first), "the end of a process whose replies are not taken")

    def test_a_death(self) -> None:
        first = self.number()
        os.kill(first, signal.SIGKILL)
        self.assertNotEqual(self.number(), first)

    def test_a_death_before_a_reply_is_tried_again(self) -> None:
        found = self.asked("a", "once", "b")
        self.assertEqual(len(found), 3)
        self.assertEqual(found[1].output, found[2].output)
        self.assertNotEqual(found[0].output, found[1].output)

    def test_two_deaths_before_a_reply(self) -> None:
        with self.assertRaises(ProgramFault) as fault:
            self.asked("a", "die", "b")
        self.assertEqual(fault.exception.status, -signal.SIGKILL)
        self.assertTrue(self.number())

    def test_an_end_with_a_line(self) -> None:
        with self.assertRaises(ProgramFault) as fault:
            self.asked("stop")
        self.assertEqual((fault.exception.status, fault.exception.line), (5, "cmr-batch: out of memory"))

    def test_other_programs(self) -> None:
        for word in ("babble", "odd"):
            with self.assertRaisesRegex(ProgramFault, "is not cmr-batch"):
                self.asked(word)

    def test_a_fork(self) -> None:
        first = self.number()
        reading, writing = os.pipe()
        child = os.fork()
        if not child:
            os.write(writing, str(self.number()).encode())
            os._exit(0)
        os.waitpid(child, 0)
        self.assertNotEqual(int(os.read(reading, 100)), first)
        self.assertEqual(self.number(), first)
        os.close(reading)
        os.close(writing)

    def test_the_exit(self) -> None:
        script = textwrap.dedent(
            f"""
            from pathlib import Path
            from cmr_matrices.running.batch.frames import Request
            from cmr_matrices.running.batch.kept import replies
            print(next(replies(Path({str(self.program)!r}), [Request.of(["a"], {{}})])).output.decode())
            """
        )
        ran = subprocess.run(
            [sys.executable, "-c", script], cwd=TOP / "python", capture_output=True, text=True, check=True
        )
        waits_until(lambda: is_gone(int(ran.stdout)), "the end of a process at the exit")

    def test_a_program_that_is_replaced(self) -> None:
        first = self.number()
        self.program.rename(self.folder / "old")
        self.program.write_bytes((self.folder / "old").read_bytes())
        self.program.chmod(0o755)
        self.assertNotEqual(self.number(), first)


class Finding(StandIn):
    def test_places(self) -> None:
        cmr = self.folder / "cmr"
        with mock.patch.dict(os.environ):
            os.environ.pop("CMR_BATCH", None)
            self.assertEqual(batch_of(cmr), self.program)
            self.assertIsNone(batch_of(self.folder / "other"))
            os.environ["CMR_BATCH"] = str(self.program)
            self.assertEqual(batch_of(self.folder / "other"), self.program)
            os.environ["CMR_BATCH"] = ""
            self.assertIsNone(batch_of(cmr))

    def test_the_link_of_a_clone(self) -> None:
        clone = self.folder / "clone"
        built, other = clone / "crates" / "cmr" / "out" / "cmr", clone / "crates" / "other" / "out" / "cmr"
        link = clone / "cmr-batch"
        for path in (built, other):
            path.parent.mkdir(parents=True)
            shutil.copy(self.program, path)
        with mock.patch.dict(os.environ):
            os.environ.pop("CMR_BATCH", None)
            self.assertIsNone(batch_of(built))
            link.symlink_to("crates/cmr/out/cmr")
            self.assertEqual(batch_of(built), link)
            # It leads to another program, or to none.
            self.assertIsNone(batch_of(other))
            built.unlink()
            self.assertIsNone(batch_of(built))
            self.assertIsNone(batch_of(other))


@needs_batch
class Clients(unittest.TestCase):
    """The clients of docs/MANY_RUNS.md, whose lines are those of runs."""

    def test_clients(self) -> None:
        text = (TOP / "docs" / "MANY_RUNS.md").read_text(encoding="utf-8")
        blocks = re.findall(r"^```(\w*)\n(.*?)^```", text, re.DOTALL | re.MULTILINE)
        self.assertEqual([name for name, _ in blocks], ["python", "", "sh", ""])
        folder = self.enterContext(tempfile.TemporaryDirectory())
        batch = batch_of(find_program())
        assert batch is not None
        os.symlink(batch, Path(folder, "cmr-batch"))
        environment = {**os.environ, "PATH": f"{folder}:{os.environ['PATH']}"}
        for command, (_, client), (_, due) in (([sys.executable, "-c"], *blocks[:2]), (["sh", "-c"], *blocks[2:])):
            ran = subprocess.run([*command, client], env=environment, capture_output=True, text=True, check=True)
            self.assertEqual(ran.stdout.rstrip("\n"), due.rstrip("\n"))


@needs_batch
class Answers(unittest.TestCase):
    def requests(self, count: int) -> list[tuple[list[str], dict[str, bytes], list[str]]]:
        draw = random.Random(62)
        found: list[tuple[list[str], dict[str, bytes], list[str]]] = []
        kinds: Sequence[tuple[list[str], list[str]]] = (
            (["tu", "-D", "tree", "-E", "fault", "-"], ["tree", "fault"]),
            (["regular", "-M", "signed", "-C", "chain", "-"], ["signed", "chain"]),
            (["graphic", "-G", "graph", "-N", "minimal", "-"], ["graph", "minimal"]),
            (["network", "-t", "-"], []),
            (["series-parallel", "-S", "steps", "-R", "rest", "f"], ["steps", "rest"]),
            (["balanced", "-"], []),
            (["camion", "g"], []),
            (["refused"], []),
        )
        for _ in range(count):
            rows, columns = draw.randint(0, 6), draw.randint(0, 6)
            entries = draw.choice(((0, 1), (0, 0, 1), (-1, 0, 1), (0, 1, 2)))
            text = f"{rows} {columns}\n" + "".join(f"{draw.choice(entries)} " for _ in range(rows * columns))
            words, outputs = draw.choice(kinds)
            found.append((words, {"-": text.encode(), "f": text.encode()}, outputs))
        return found

    def test_replies_are_those_of_runs(self) -> None:
        program, batch = find_program(), batch_of(find_program())
        assert batch is not None
        given = self.requests(300)
        found = replies(batch, [Request.of(words, files) for words, files, _ in given], 60.0)
        for (words, files, outputs), reply in zip(given, found, strict=True):
            alone = single_run(program, words, files["-"], {"f": files["f"]}, outputs, Clock(60))
            with self.subTest(words=words, text=files["-"]):
                self.assertEqual(
                    (reply.status, reply.output, reply.error), (alone.status, alone.output, alone.error)
                )
                self.assertEqual(dict(reply.files), dict(alone.files))

    def test_the_package_uses_it(self) -> None:
        with mock.patch.object(kept, "Process", wraps=kept.Process) as started:
            thread = threading.Thread(target=lambda: [is_network([[1, 1], [0, 1]]) for _ in range(5)])
            thread.start()
            thread.join()
            self.assertEqual(started.call_count, 1)
        with mock.patch.dict(os.environ, {"CMR_BATCH": ""}), mock.patch.object(kept, "Process") as started:
            self.assertTrue(is_network([[1, 1], [0, 1]]))
            self.assertEqual(started.call_count, 0)

    @needs_module("swiglpk")
    def test_a_report_has_one_process_and_survives_its_death(self) -> None:
        model = EXAMPLES / "crews.mod"
        with mock.patch.object(kept, "Process", wraps=kept.Process) as started:
            end_all()
            report = model_report(model)
            self.assertEqual(started.call_count, 1)
        calls, plain = count(), Process.replies

        def dying(
            process: Process, requests: Sequence[Request], limit: TimeLimit, most: int
        ) -> Generator[list[Reply], None, None]:
            if next(calls) % 5 == 2:
                os.kill(process.number, signal.SIGKILL)
            return plain(process, requests, limit, most)

        with mock.patch.object(Process, "replies", dying):
            self.assertEqual(model_report(model).to_json(), report.to_json())
        self.assertGreater(next(calls), 5)
        with mock.patch.dict(os.environ, {"CMR_BATCH": ""}):
            self.assertEqual(model_report(model).to_json(), report.to_json())

    def test_answers_are_the_same(self) -> None:
        for rows in ([[1, 1, 0], [0, 1, 1], [1, 0, 1]], [[1, 1], [0, 1]], [[0]]):
            found = is_totally_unimodular(Matrix.of(rows), certificate=True)
            with mock.patch.dict(os.environ, {"CMR_BATCH": ""}):
                self.assertEqual(is_totally_unimodular(Matrix.of(rows), certificate=True), found)


if __name__ == "__main__":
    unittest.main()
