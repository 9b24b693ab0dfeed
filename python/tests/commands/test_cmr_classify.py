"""The command `cmr-classify`: tables, what is taken up again, processes and machines that are lost."""

from __future__ import annotations

import csv
import json
import os
import random
import shutil
import signal
import subprocess
import sys
import tempfile
import unittest
from collections.abc import Iterator
from contextlib import ExitStack, contextmanager
from functools import partial
from pathlib import Path
from typing import Any
from unittest import mock

from cmr_matrices import Matrix, find_program
from tests.open_matrices import two_goods
from tests.support import EXAMPLES, TOP, is_gone, needs_batch, needs_module, needs_program, waits_until

COMMAND = [sys.executable, str(TOP / "scripts" / "cmr-classify")]


def stream(count: int, seed: int = 1) -> str:
    draw = random.Random(seed)
    texts = []
    for _ in range(count):
        rows, columns = draw.randint(1, 6), draw.randint(1, 6)
        entries = draw.choice(((0, 1), (0, 0, 1), (-1, 0, 1)))
        texts.append(f"{rows} {columns}\n" + "".join(f"{draw.choice(entries)} " for _ in range(rows * columns)) + "\n")
    return "".join(texts)


def _lines(table: Path) -> int:
    """How many lines a table has that is being written."""
    return table.read_bytes().count(b"\n") if table.exists() else 0


def rows_of(table: Path) -> list[dict[str, Any]]:
    """The rows without what differs from run to run."""
    with open(table, encoding="utf-8", newline="") as text:
        if table.suffix == ".jsonl":
            found = [json.loads(line) for line in text]
        else:
            found = list(csv.DictReader(text))
    for row in found:
        del row["milliseconds"]
    return sorted(found, key=lambda row: (row["file"], int(row["number"])))


@needs_program
class CommandTest(unittest.TestCase):
    def setUp(self) -> None:
        folder = tempfile.TemporaryDirectory()
        self.addCleanup(folder.cleanup)
        self.folder = Path(folder.name)

    def runs(self, *words: str, text: str = "", status: int = 0) -> subprocess.CompletedProcess[str]:
        ran = subprocess.run(
            [*COMMAND, *words], cwd=self.folder, input=text, capture_output=True, text=True, check=False
        )
        self.assertEqual(ran.returncode, status, ran.stderr)
        return ran

    def file(self, name: str, text: str) -> Path:
        path = self.folder / name
        path.write_text(text, encoding="ascii")
        return path

    def waits_for(self, run: subprocess.Popen[bytes], table: Path, lines: int) -> None:
        """Waits until a run has written a number of lines of its table."""
        waits_until(lambda: run.poll() is not None or _lines(table) >= lines, "the table")


def _batches(parent: int) -> list[int]:
    """The numbers of the processes of `cmr-batch` below a process."""
    found = []
    for entry in Path("/proc").iterdir():
        try:
            if entry.name.isdigit():
                above = int((entry / "stat").read_text("utf-8", "replace").rpartition(")")[2].split()[1])
                name = (entry / "cmdline").read_bytes().split(b"\0")[0]
                workers = (entry.parent / str(above) / "stat").read_text("utf-8", "replace").rpartition(")")[2].split()[1]
                if name.endswith(b"-batch") and int(workers) == parent:
                    found.append(int(entry.name))
        except (OSError, ValueError):
            continue
    return found


@needs_batch
class Batches(CommandTest):
    """The processes of `cmr-batch` that answer the questions of a table."""

    def test_the_same_table_without_them(self) -> None:
        for words in ([], ["--infer"], ["--support"], ["--lines", "1"]):
            tables, kept = ("with.csv", "without.csv"), ("kept", "other")
            self.runs("-", "--output", tables[0], "--evidence", kept[0], *words, text=stream(40))
            self.runs("-", "--output", tables[1], "--evidence", kept[1], *words, "--no-batch", text=stream(40))
            found, other = (rows_of(self.folder / table) for table in tables)
            self.assertEqual(found, other)
            files = [
                {path.relative_to(self.folder / name): path.read_bytes() for path in (self.folder / name).rglob("*.*")}
                for name in kept
            ]
            self.assertEqual(*files)
            for name in (*tables, *kept):
                path = self.folder / name
                shutil.rmtree(path) if path.is_dir() else path.unlink()

    def test_deaths_lose_and_double_nothing(self) -> None:
        text = stream(300)
        self.runs("-", "--output", "due.csv", "--jobs", "2", text=text)
        self.file("texts", text)
        with subprocess.Popen([*COMMAND, "texts", "--output", "table.csv", "--jobs", "2"], cwd=self.folder) as run:
            killed = 0
            for lines in (2, 20, 60, 120, 200):
                self.waits_for(run, self.folder / "table.csv", lines)
                for number in _batches(run.pid):
                    os.kill(number, signal.SIGKILL)
                    killed += 1
            self.assertEqual(run.wait(), 0)
        self.assertGreater(killed, 0)
        found, due = rows_of(self.folder / "table.csv"), rows_of(self.folder / "due.csv")
        self.assertEqual([{**row, "file": ""} for row in found], [{**row, "file": ""} for row in due])


class Tables(CommandTest):
    def test_csv_and_json_lines(self) -> None:
        self.runs("-", "--output", "table.csv", text=stream(20))
        self.runs("-", "--output", "table.jsonl", text=stream(20), *["--jobs", "2"])
        found, other = rows_of(self.folder / "table.csv"), rows_of(self.folder / "table.jsonl")
        self.assertEqual(
            found, [{name: "" if value is None else str(value) for name, value in row.items()} for row in other]
        )
        self.assertEqual([row["number"] for row in other], list(range(1, 21)))

    def test_standard_output(self) -> None:
        ran = self.runs("--classes", "graphic,tu", "-", text="1 1 1 1 1 -1")
        lines = list(csv.reader(ran.stdout.splitlines()))
        self.assertEqual(
            [line[:7] for line in lines[1:]],
            [["-", "1", "1", "1", "1", "yes", "yes"], ["-", "2", "1", "1", "1", "yes", "-"]],
        )
        self.assertIn("matrices   tu  graphic\n", ran.stderr)

    def test_names_of_files(self) -> None:
        for name in ('a,"b', "a\nb", "a\rb", "ü", "-x", "a b"):
            self.file(name, "1 1 1")
        os.makedirs(self.folder / "out")
        self.runs(".", "--output", "out/table.csv", "--evidence", "out/evidence")
        names = {row["file"] for row in rows_of(self.folder / "out" / "table.csv")}
        self.assertEqual(names, {f"./{name}" for name in ('a,"b', "a\nb", "a\rb", "ü", "-x", "a b")})
        before = (self.folder / "out" / "table.csv").read_bytes()
        self.runs(".", "--output", "out/table.csv", "--evidence", "out/evidence", "--resume")
        self.assertEqual((self.folder / "out" / "table.csv").read_bytes(), before)

    def test_evidence(self) -> None:
        triangle = str(EXAMPLES / "triangle.txt")
        os.makedirs(self.folder / "in")
        self.runs("../" + os.path.relpath(triangle, self.folder.parent), "--output", "table.csv", "--evidence", "kept")
        kept = sorted(path.relative_to(self.folder) for path in (self.folder / "kept").rglob("*.*") if path.is_file())
        self.assertTrue(all(path.parts[2] == "%2E%2E" and path.name.startswith("1.") for path in kept), kept)
        tree = next(path for path in kept if path.parts[1] == "tu" and path.name == "1.tree")
        self.assertTrue((self.folder / tree).read_text(encoding="ascii").startswith("cmr-tree 2"))

    def test_one_bad_text_stops_nothing(self) -> None:
        self.file("a.txt", "1 1 7 1 1 1")
        ran = self.runs("a.txt", "missing", str(EXAMPLES / "triangle.txt"), "--output", "table.csv", status=3)
        found = [(row["number"], row["fault"], row["byte"]) for row in rows_of(self.folder / "table.csv")]
        self.assertEqual(
            sorted(found), sorted([("1", "BadEntry", "4"), ("2", "", ""), ("1", "", ""), ("1", "CannotRead", "")])
        )
        self.assertTrue(ran.stdout.endswith("at fault: 1 BadEntry, 1 CannotRead\n"))

    def test_a_table_is_not_written_over(self) -> None:
        self.runs("-", "--output", "table.csv", text="1 1 1")
        self.assertIn("--resume", self.runs("-", "--output", "table.csv", text="1 1 1", status=1).stderr)
        ran = self.runs("-", "--output", "table.csv", "--classes", "tu", "--resume", text="1 1 1", status=1)
        self.assertIn("other classes", ran.stderr)
        self.file("other.csv", "a,b\n1,2\n")
        self.assertIn("no table", self.runs("-", "--output", "other.csv", "--resume", status=1).stderr)

    def test_a_damaged_table(self) -> None:
        self.runs("-", "--output", "table.csv", text=stream(9))
        lines = (self.folder / "table.csv").read_text(encoding="ascii").splitlines(keepends=True)
        damaged = self.file("table.csv", "".join([*lines[:4], "-,4,1\n", *lines[5:]]))
        for words in (["-", "--output", "table.csv", "--resume"], ["--tables", "table.csv"]):
            self.assertIn("there is no row at byte", self.runs(*words, text=stream(9), status=1).stderr)
        self.assertIn(b"-,4,1\n", damaged.read_bytes())

    @needs_module("pyarrow")
    def test_parquet(self) -> None:
        self.parquet()

    def test_parquet_over_a_stand_in(self) -> None:
        """Debian has no package for pyarrow, so this code is also tested with a stand-in that has only values and types."""
        stand_ins = str(Path(__file__).parent / "stand_ins")
        with mock.patch.dict(os.environ, {"PYTHONPATH": stand_ins}):
            self.parquet()

    def parquet(self) -> None:
        """A table is written, taken up, and summed up."""
        self.runs("-", "--output", "table.parquet", text=stream(9))
        self.assertEqual(sorted(os.listdir(self.folder)), ["table.parquet"])
        self.runs("-", "--output", "table.parquet", "--resume", text=stream(12))
        ran = self.runs("-", "--output", "table.csv", text=stream(12))
        self.assertEqual(self.runs("--tables", "table.parquet").stdout, ran.stdout)

    def test_pivots(self) -> None:
        """Each class that has a budget is decided after pivots."""
        words = ["-", "--format", "sparse", "--output", "table.csv", "--classes", "tu,balanced", "--lines", "0"]
        goods = Matrix.of(two_goods(6)).to_text()
        for pivots, verdict in ((0, "undecided"), (20, "yes")):
            self.runs(*words, "--pivots", str(pivots), text=goods)
            (row,) = rows_of(self.folder / "table.csv")
            self.assertEqual((row["tu"], row["balanced"]), (verdict, verdict))
            (self.folder / "table.csv").unlink()

    def test_words_that_are_refused(self) -> None:
        for words in (
            ["--part", "3/2"],
            ["--part", "0/2"],
            ["--jobs", "0"],
            ["--classes", "tu,x"],
            ["--resume"],
            ["--lines", "25"],
            ["--pivots", "101"],
            ["--tries", "1001"],
        ):
            self.runs("-", *words, status=2)


class Resumed(CommandTest):
    def test_after_a_cut_at_each_byte(self) -> None:
        """A table that is cut anywhere is taken up to the same rows."""
        for name in ("table.csv", "table.jsonl"):
            self.file('the, "file"\n', stream(4))
            words = ['the, "file"\n', "--output", name, "--classes", "camion,graphic", "--resume", "--jobs", "1"]
            self.runs(*words)
            table = self.folder / name
            whole, data = rows_of(table), table.read_bytes()
            for size in range(0, len(data), 23):
                table.write_bytes(data[:size])
                self.runs(*words)
                self.assertEqual(rows_of(table), whole, size)

    def test_after_a_kill(self) -> None:
        """The run is killed again and again: each row is there once at the end."""
        count = 1500
        self.file("stream", stream(count))
        table = self.folder / "table.csv"
        words = ["stream", "--output", "table.csv", "--resume", "--jobs", "3", "--classes", "tu,regular,camion"]
        for place, kind in enumerate((signal.SIGKILL, signal.SIGINT, signal.SIGTERM, signal.SIGKILL), 1):
            with subprocess.Popen(
                [*COMMAND, *words], cwd=self.folder, stdout=subprocess.PIPE, stderr=subprocess.PIPE
            ) as run:
                self.waits_for(run, table, 200 * place)
                run.send_signal(kind)
                run.wait()
        self.runs(*words)
        self.runs("stream", "--output", "fresh.csv", "--classes", "tu,regular,camion", "--jobs", "2")
        self.assertEqual(rows_of(table), rows_of(self.folder / "fresh.csv"))
        self.assertEqual(len(rows_of(table)), count)

    def test_two_runs_do_not_write_one_table(self) -> None:
        with subprocess.Popen(
            [*COMMAND, "-", "--output", "table.csv"], cwd=self.folder, stdin=subprocess.PIPE, stdout=subprocess.DEVNULL
        ) as first:
            waits_until(lambda: _lines(self.folder / "table.csv") > 0, "the head of the table")
            self.assertIn("another run", self.runs("-", "--output", "table.csv", "--resume", status=1).stderr)
            first.communicate(b"1 1 1")

    def test_parts(self) -> None:
        self.file("stream", stream(50))
        for part in (1, 2, 3):
            self.runs("stream", "--part", f"{part}/3", "--output", f"part{part}.csv", "--infer")
        parts = [f"part{part}.csv" for part in (1, 2, 3)]
        ran = self.runs("--tables", *parts)
        whole = self.runs("stream", "--output", "whole.csv")
        self.assertEqual(ran.stdout, whole.stdout)
        found = [row for part in parts for row in rows_of(self.folder / part)]
        self.assertEqual(sorted(found, key=lambda row: int(row["number"])), rows_of(self.folder / "whole.csv"))
        self.assertIn("two rows", self.runs("--tables", "part1.csv", "part1.csv", status=1).stderr)


class Interrupted(CommandTest):
    def test_no_process_is_left(self) -> None:
        program = self.folder / "cmr"
        program.write_text("#!/bin/sh\necho $$ > began\nmv began process\nexec sleep 100\n", encoding="ascii")
        program.chmod(0o755)
        words = ["-", "--program", "./cmr", "--output", "table.csv"]
        for kind in (signal.SIGINT, signal.SIGTERM):
            with subprocess.Popen(
                [*COMMAND, *words, "--resume"], cwd=self.folder, stdin=subprocess.PIPE, stderr=subprocess.PIPE
            ) as run:
                assert run.stdin is not None
                run.stdin.write(b"1 1 1")
                run.stdin.close()
                run.stdin = None
                waits_until((self.folder / "process").exists, "the start of the program")
                run.send_signal(kind)
                said = run.communicate()[1]
            self.assertEqual((run.returncode, said.count(b"\n")), (130, 1), said)
            process = int((self.folder / "process").read_text(encoding="ascii"))
            waits_until(partial(is_gone, process), "the end of the program")
            (self.folder / "process").unlink()
        self.assertEqual(rows_of(self.folder / "table.csv"), [])


class Contradicted(CommandTest):
    def test_the_status(self) -> None:
        self.file("table.csv", self.runs("-", "--output", "-", text="1 1 1").stdout.replace("yes", "no", 1))
        ran = self.runs("--tables", "table.csv", status=8)
        self.assertIn("CONTRADICTION: - 1: ", ran.stderr)
        ran = self.runs("-", "--output", "table.csv", "--resume", text="1 1 1", status=8)


class Lost(CommandTest):
    def test_a_program_that_dies(self) -> None:
        """A worker that its program kills is replaced; the matrix on which it dies twice has that fault, and no other."""
        program = self.folder / "cmr"
        program.write_text(
            '#!/bin/sh\nread rows columns\nif [ "$rows" = 7 ]; then kill -9 $PPID; fi\necho "camion: yes"\n',
            encoding="ascii",
        )
        program.chmod(0o755)
        text = ("1 1\n1\n" * 20) + "7 1\n1 1 1 1 1 1 1\n" + ("1 1\n1\n" * 20)
        words = ["--program", "./cmr", "--classes", "camion", "--jobs", "2", "--output", "table.csv"]
        self.runs("-", *words, text=text, status=3)
        found = [row["fault"] for row in rows_of(self.folder / "table.csv")]
        self.assertEqual(found, [""] * 20 + ["WorkerDied"] + [""] * 20)


@needs_module("distributed")
class OnDask(CommandTest):
    @contextmanager
    def cluster(self) -> Iterator[tuple[str, list[subprocess.Popen[bytes]]]]:
        """A scheduler and two workers on 127.0.0.1, all ended at the end by their own numbers."""
        begun: list[subprocess.Popen[bytes]] = []
        scheduler_file = self.folder / "scheduler.json"
        common = ["--scheduler-file", str(scheduler_file), "--no-dashboard"]
        environment = {**os.environ, "PYTHONPATH": ""}

        def begin(module: str, *words: str) -> None:
            log = stack.enter_context(open(self.folder / f"log{len(begun)}", "wb"))
            command = [sys.executable, "-m", f"distributed.cli.{module}", *common, *words]
            begun.append(subprocess.Popen(command, cwd=self.folder, stdout=log, stderr=log, env=environment))

        with ExitStack() as stack:
            try:
                begin("dask_scheduler", "--host", "127.0.0.1", "--port", "0")
                waits_until(scheduler_file.exists, "the start of the scheduler")
                for _ in range(2):
                    begin("dask_worker", "--host", "127.0.0.1", "--no-nanny", "--nthreads", "1", "--nworkers", "1")
                yield json.loads(scheduler_file.read_text(encoding="utf-8"))["address"], begun[1:]
            finally:
                for process in begun:
                    process.kill()
                    process.wait()

    def test_a_worker_is_ended_in_the_midst(self) -> None:
        count = 1500
        self.file("stream", stream(count))
        classes = ["--classes", "tu,graphic,camion"]
        self.runs("stream", *classes, "--output", "here.csv")
        with self.cluster() as (address, workers):
            words = ["stream", *classes, "--dask", address, "--output", "table.csv", "--block", "10"]
            with subprocess.Popen(
                [*COMMAND, *words], cwd=self.folder, stdout=subprocess.PIPE, stderr=subprocess.PIPE
            ) as run:
                table = self.folder / "table.csv"
                self.waits_for(run, table, 200)
                self.assertIsNone(run.poll(), run.poll() is not None and run.communicate()[1])
                workers[0].kill()
                said = run.communicate()[1]
            self.assertEqual(run.returncode, 0, said)
            self.assertEqual(rows_of(table), rows_of(self.folder / "here.csv"))
            self.keeps_evidence(address)

    def keeps_evidence(self, address: str) -> None:
        """Evidence comes from the worker, a fault stands in its row, and a program that no worker has is told."""
        words = ["-", "--dask", address, "--classes", "tu,network"]
        self.runs(*words, "--evidence", "kept", "--output", "kept.csv", text="1 1 1 1 1 2", status=3)
        self.assertEqual([row["fault"] for row in rows_of(self.folder / "kept.csv")], ["", "BadEntry"])
        self.assertEqual(
            (self.folder / "kept" / "network" / "-" / "1.graph").read_text(encoding="ascii").split()[2], "r1"
        )
        self.runs(*words, "--worker-program", str(find_program()), text="1 1 1")
        ran = self.runs(*words, "--worker-program", "/nowhere/cmr", text="1 1 1", status=1)
        self.assertIn("on a worker the program cmr is not there", ran.stderr)


if __name__ == "__main__":
    unittest.main()
