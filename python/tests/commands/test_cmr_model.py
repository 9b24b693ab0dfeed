"""Tests of `cmr-model`: its statuses and faults, and that the commands of a report give its answers again."""

from __future__ import annotations

import json
import os
import shutil
import signal
import subprocess
import time
import unittest
from contextlib import suppress
from pathlib import Path

from cmr_matrices import find_program
from tests.scripts import ScriptTest, needs_glpsol, needs_python, needs_swiglpk
from tests.support import PATIENCE, TOP, needs_program

EXAMPLES = TOP / "examples"

# Nine parts, which have more than 1,000 rows together.
PARTS = """
set parts := 1..9; set hours := 1..130;
var x{parts, hours} integer >= 0;
minimize cost: sum{p in parts, h in hours} x[p,h];
two{p in parts, h in hours: h < 130}: x[p,h] + x[p,h+1] >= 1;
three{p in parts, h in hours: h < 129}: x[p,h] + x[p,h+1] + x[p,h+2] >= 1;
end;
"""

# A module that Python loads first: it tells, by a byte in a pipe, when the package is loaded.
TELLS = """
import os, sys

def tell(event, words, told=[]):
    if event == "import" and words[0].startswith("cmr_matrices") and not told:
        told.append(os.write(int(os.environ["TELLS"]), b"."))

sys.addaudithook(tell)
"""

needs_prlimit = unittest.skipUnless(shutil.which("prlimit"), "there is no prlimit")


def _take_signals():
    """A shell lets what it runs in the background ignore signals."""
    for number in (signal.SIGINT, signal.SIGTERM, signal.SIGHUP):
        signal.signal(number, signal.SIG_DFL)


@needs_python
@needs_swiglpk
@needs_glpsol
@needs_program
class ModelTest(ScriptTest):
    def report(self, *words):
        """The object of a report, and the status."""
        run = self.run_script("cmr-model", "--json", *words)
        self.assertEqual(run.stderr, "")
        return json.loads(run.stdout), run.returncode

    def test_statuses(self) -> None:
        for name, words, status in (
            ("assignment.mps", [], 0),
            ("crews.mod", [], 1),
            ("goods.mod", [], 1),
            ("goods.mod", ["--data", EXAMPLES / "three_places.dat", "--pivots", "0", "--lines", "0"], 6),
            ("goods.mod", ["--data", EXAMPLES / "three_places.dat"], 0),
        ):
            with self.subTest(name=name, words=words):
                run = self.run_script("cmr-model", EXAMPLES / name, *words)
                said = {0: "yes", 1: "no", 6: "undecided"}[status]
                self.assertEqual((run.returncode, run.stderr), (status, ""))
                self.assertEqual(run.stdout.splitlines()[0], f"totally unimodular: {said}")

    def test_faults(self) -> None:
        model = self.write("text.lp", "this is none\n")
        for words, status, line in (
            ([model], 3, f"cmr-model: {model}: no model, line "),
            (["nothing.lp"], 4, "cmr-model: cannot read nothing.lp: No such file or directory"),
            ([EXAMPLES / "crews.mod", "--html", "none/page.html"], 4, "cmr-model: cannot write none/page.html: No such file"),
            ([EXAMPLES / "crews.mod", "--program", "none"], 70, "cmr-model: the program cmr is not there"),
            ([EXAMPLES / "crews.mod", "--program", "/bin/false"], 70, "cmr-model: "),
        ):
            with self.subTest(words=words):
                run = self.run_script("cmr-model", *words)
                self.assertEqual((run.returncode, run.stdout, run.stderr.count("\n")), (status, "", 1), run.stderr)
                self.assertTrue(run.stderr.startswith(line), run.stderr)
        run = self.run_script("cmr-model", EXAMPLES / "crews.mod", "--pivots", "200")
        self.assertEqual((run.returncode, run.stdout), (2, ""))

    def run_limited(self, command, bytes_of_memory=None):
        """A run in a shell, whose processes may have a limited memory. Temporary folders are made in `work`."""
        (self.folder / "work").mkdir(exist_ok=True)
        limit = [] if bytes_of_memory is None else ["prlimit", f"--as={bytes_of_memory}"]
        return subprocess.run(
            [*limit, "bash", "-c", command],
            cwd=self.folder,
            capture_output=True,
            text=True,
            env=os.environ | {"TMPDIR": str(self.folder / "work"), "MODEL": str(TOP / "scripts" / "cmr-model")},
        )

    def test_faults_of_standard_output(self) -> None:
        for end in (">&-", "> /dev/full"):
            with self.subTest(end=end):
                run = self.run_limited(f'"$MODEL" "{EXAMPLES / "assignment.mps"}" {end}')
                self.assertEqual((run.returncode, run.stderr.count("\n")), (4, 1), run.stderr)
                self.assertTrue(run.stderr.startswith("cmr-model: cannot write -: "), run.stderr)
        # The reader is gone before the report is written.
        run = self.run_limited(f'("$MODEL" "{EXAMPLES / "crews.mod"}"; echo $? > status) | true')
        self.assertEqual((self.read("status"), run.stderr), ("4\n", ""))

    def test_reading_is_bounded(self) -> None:
        run = self.run_limited('"$MODEL" /dev/zero')
        self.assertEqual((run.returncode, run.stderr), (3, "cmr-model: /dev/zero: no model, it has more than 256 MB\n"))

    @needs_prlimit
    def test_missing_memory(self) -> None:
        """From little memory to much: the status is 5 with one line, or that of the answer, and nothing remains."""
        rows = "".join(f" L supply[{at}]\n" for at in range(6000))
        columns = "".join(f" x{at} supply[{at}] 1\n x{at} supply[{(at + 1) % 6000}] 1\n" for at in range(6000))
        model = self.write("large.mps", f"NAME\nROWS\n N cost\n{rows}COLUMNS\n{columns}RHS\nENDATA\n")
        statuses = set()
        for size in (60, 100, 130, 160, 2000):
            with self.subTest(megabytes=size):
                run = self.run_limited(f'"$MODEL" --time-limit 100 {model}', size << 20)
                statuses.add(run.returncode)
                self.assertIn((run.returncode, run.stderr.count("\n")), ((0, 0), (5, 1)), run.stderr)
                self.assertIn("" if run.returncode == 0 else "there is not enough memory", run.stderr)
                self.assertEqual(list((self.folder / "work").iterdir()), [])
        self.assertEqual(statuses, {0, 5})

    def test_an_early_interrupt_is_quiet(self) -> None:
        """Interrupts from when the command begins to load its modules. Before that only Python itself has run."""
        self.write("sitecustomize.py", TELLS)
        words = [TOP / "scripts" / "cmr-model", EXAMPLES / "assignment.mps"]
        pipes = {"stdout": subprocess.PIPE, "stderr": subprocess.PIPE}
        for after in (0.0, 0.05, 0.1, 0.2, 0.4):
            with self.subTest(after=after):
                begun, told = os.pipe()
                env = os.environ | {"PYTHONPATH": str(self.folder), "TELLS": str(told)}
                with subprocess.Popen(words, env=env, pass_fds=[told], preexec_fn=_take_signals, **pipes) as run:
                    os.close(told)
                    with os.fdopen(begun, "rb") as pipe:
                        self.assertEqual(pipe.read(1), b".")
                    time.sleep(after)
                    run.send_signal(signal.SIGINT)
                    _, said = run.communicate(timeout=PATIENCE)
                self.assertIn(run.returncode, (0, 130, -signal.SIGINT))
                self.assertEqual(said, b"")

    def test_the_names_of_the_rows_to_relax(self) -> None:
        run = self.run_script("cmr-model", EXAMPLES / "crews.mod", "--relaxed", "relaxed")
        self.assertEqual((run.returncode, run.stderr), (1, ""))
        self.assertEqual(self.read("relaxed").split(), [*(f"skill[{at}]" for at in range(4)), "total", "pay"])
        run = self.run_script("model_to_matrix", "--without-names", "relaxed", EXAMPLES / "crews.mod", "crews.txt", "crews.names")
        self.assertEqual((run.returncode, run.stderr), (0, ""))
        self.assertEqual(self.read("crews.txt").splitlines()[0].split()[0], "8")
        run = self.run_script("cmr-model", EXAMPLES / "crews.mod", "--relaxed", "one", "--html", "one")
        self.assertEqual((run.returncode, run.stdout), (2, ""))

    @needs_glpsol
    def test_the_kept_and_the_relaxed_part_are_written(self) -> None:
        written = ("--write-kept", "kept.mps", "--write-relaxed", "relaxed.mps")
        run = self.run_script("cmr-model", EXAMPLES / "crews.mod", *written, "--no-solve")
        self.assertEqual((run.returncode, run.stderr), (1, ""))
        self.assertNotIn("GLPK's optimal vertex", run.stdout)
        for name, rows in (("kept.mps", 8), ("relaxed.mps", 6)):
            words = ["glpsol", "--freemps", name, "--check", "--wlp", "read.lp"]
            read = subprocess.run(words, cwd=self.folder, capture_output=True, text=True)
            self.assertEqual(read.returncode, 0)
            self.assertIn(f"Number of rows               = {rows:8}", read.stdout)
        self.assertEqual(self.run_script("cmr-model", "kept.mps").returncode, 0)
        run = self.run_script("cmr-model", EXAMPLES / "crews.mod", "--write-kept", "one", "--write-relaxed", "one")
        self.assertEqual((run.returncode, run.stdout), (2, ""))

    def test_commands_stay_short(self) -> None:
        """One row of each of 40 triangles is relaxed, and no two names are of one family: the names are in a file."""
        rows = []
        for at in range(40):
            name = f"capacity_{chr(97 + at // 7)}{chr(97 + at % 7)}"
            rows += [f" {name}{'pqr'[row]}: x{at}_{row} + x{at}_{(row + 1) % 3} <= 1" for row in range(3)]
        model = self.write("many.lp", "\n".join(["Minimize", " cost: x0_0", "Subject To", *rows, "End", ""]))
        report, status = self.report(model, "--time-limit", "200")
        self.assertEqual((status, len(report["relax"]["rows"])), (1, 40))
        relaxed = [it["what"] for it in report["commands"] if "--relaxed" in it["commands"][0]]
        self.assertEqual(relaxed, ["the rows to relax, as a file of their names"])
        self.assertTrue(any("--without-names many.relaxed" in command for it in report["commands"] for command in it["commands"]))
        self.assertLess(max(len(command) for it in report["commands"] for command in it["commands"]), 3001)

    def test_the_commands_of_the_variables_that_need_not_be_integer(self) -> None:
        report, status = self.report(EXAMPLES / "lots.mod")
        self.assertEqual((status, len(report["integers"]["declare"])), (1, 12))
        found = [it for it in report["commands"] if it["what"] == "the columns of the variables that need not be integer"]
        self.assertEqual([it["says"] for it in found], ["accepted: yes"])
        self.repeats({"commands": found})

    def test_the_commands_of_declared_variables_that_suffice(self) -> None:
        """Also if the columns of the others are more than a matrix may have, so that the commands reduce them."""
        for places in (3, 26):
            text = f"""
                set I := 1..{places}; set J := 1..40;
                var x{{I, J}} >= 0; var open{{I}} binary;
                minimize c: sum{{i in I}} open[i];
                served{{j in J}}: sum{{i in I}} x[i,j] = 1;
                from_open{{i in I, j in J}}: x[i,j] <= open[i];
                end;
            """
            with self.subTest(places=places):
                report, status = self.report(self.write(f"places{places}.mod", text), "--time-limit", "20", "--no-solve")
                self.assertEqual((status, report["integers"]["suffices"], len(report["integers"]["declare"])), (1, True, places))
                found = [it for it in report["commands"] if "the columns of the continuous variables" in it["what"]]
                self.assertGreater(len(found), 0)
                self.repeats({"commands": found})

    def test_names_with_blanks(self) -> None:
        """GLPK makes one name of `ROW 1` and `ROW1`."""
        lines = ["NAME          BLANKS", "ROWS", " N  COST", " L  ROW 1", " L  ROW1", "COLUMNS"]
        lines += ["    X 1       COST      1.0            ROW 1     1.0", "    X 1       ROW1      1.0"]
        lines += ["    Y 1       ROW 1     1.0", "RHS", "    RHS 1     ROW 1     4.0", "ENDATA", ""]
        run = self.run_script("cmr-model", self.write("blanks.mps", "\n".join(lines)))
        self.assertEqual((run.returncode, run.stderr), (0, ""))

    def test_help(self) -> None:
        run = self.run_script("cmr-model", "--help")
        self.assertEqual((run.returncode, run.stderr), (0, ""))
        self.assertIn("usage: cmr-model", run.stdout)
        self.assertIn("Status: 0 yes, 1 no, 6 undecided", run.stdout)

    def test_words_that_are_refused(self) -> None:
        model = self.write("own.lp", "Minimize\n x\nSubject To\n c: x <= 1\nEnd\n")
        for words in (["--html", model], ["--html", "-"], ["--html", ""], ["--time-limit", "0"], ["--lines", "25"], ["other.lp"]):
            with self.subTest(words=words):
                run = self.run_script("cmr-model", model, *words)
                self.assertEqual((run.returncode, run.stdout), (2, ""))
        self.assertIn("Subject To", self.read(model))

    def test_a_missing_library_is_named(self) -> None:
        (self.folder / "swiglpk.py").write_text("raise ImportError\n")
        run = self.run_script("cmr-model", EXAMPLES / "assignment.mps", env=os.environ | {"PYTHONPATH": str(self.folder)})
        self.assertEqual((run.returncode, run.stdout), (70, ""))
        said = "reading a model needs swiglpk: `apt-get install python3-swiglpk` on Debian, elsewhere `pip install swiglpk`"
        self.assertEqual(run.stderr, f"cmr-model: {said}\n")
        run = self.run_script("cmr-model", EXAMPLES / "crews.mod", env=os.environ | {"PATH": str(self.folder)})
        self.assertEqual((run.returncode, run.stdout), (70, ""))
        self.assertIn("needs the command glpsol: `apt-get install glpk-utils` on Debian; pip has no package of it", run.stderr)

    def test_an_interrupt_leaves_nothing(self) -> None:
        (self.folder / "work").mkdir()
        waiting = self.folder / self.write("waiting", "#!/bin/sh\ntouch begun\nexec sleep 600\n")
        waiting.chmod(0o755)
        page = self.folder / self.write("page.html", "before")
        for number in (signal.SIGINT, signal.SIGTERM, signal.SIGHUP):
            with self.subTest(signal=number):
                words = [TOP / "scripts" / "cmr-model", EXAMPLES / "assignment.mps", "--html", page, "--program", waiting]
                pipes = {"stdout": subprocess.PIPE, "stderr": subprocess.PIPE, "env": os.environ | {"TMPDIR": str(self.folder / "work")}}
                with subprocess.Popen(words, preexec_fn=_take_signals, **pipes) as run:
                    while not list((self.folder / "work").glob("cmr-*/begun")):
                        self.assertIsNone(run.poll())
                        time.sleep(0.05)
                    run.send_signal(number)
                    printed, said = run.communicate(timeout=120)
                self.assertEqual((run.returncode, printed, said), (128 + number, b"", b""))
                self.assertEqual((list((self.folder / "work").iterdir()), page.read_text()), ([], "before"))
                self.assertEqual(sorted(it.name for it in self.folder.iterdir()), ["page.html", "waiting", "work"])

    def test_a_bar_on_a_terminal(self) -> None:
        master, slave = os.openpty()
        words = [TOP / "scripts" / "cmr-model", EXAMPLES / "crews.mod"]
        with subprocess.Popen(words, stdout=subprocess.DEVNULL, stderr=slave, cwd=self.folder) as run:
            os.close(slave)
            said = b""
            with suppress(OSError):
                while piece := os.read(master, 10_000):
                    said += piece
        os.close(master)
        self.assertEqual(run.returncode, 1)
        self.assertIn(b"reading the model", said)
        self.assertIn(b"all sets of families of rows", said)
        self.assertTrue(said.endswith(b"\x1b[K") or b"\r" in said[-200:])

    def test_the_same_page_each_time(self) -> None:
        pages = []
        for number in range(2):
            self.run_script("cmr-model", EXAMPLES / "crews.mod", "--html", f"{number}.html")
            pages.append(self.read(f"{number}.html"))
        self.assertEqual(*pages)

    def test_the_commands_of_a_report_give_its_answers_again(self) -> None:
        commands = 0
        for name in ("assignment.mps", "crews.mod", "goods.mod", "knapsack.mps", "lots.mod", "shifts.lp", "wards.mod"):
            report, _ = self.report(EXAMPLES / name)
            with self.subTest(name=name):
                commands += self.repeats(report)
        self.assertGreater(commands, 40)

    def test_the_commands_of_a_model_of_many_parts(self) -> None:
        model = self.write("parts.mod", PARTS)
        report, status = self.report(model, "--time-limit", "600")
        self.assertEqual(status, 0)
        self.assertEqual([it["what"] for it in report["commands"]], ["the whole matrix, part by part"])
        self.assertEqual(self.repeats(report), 3)
        self.assertEqual(len(list((self.folder / "parts").glob("*.tree"))), 9)

    def repeats(self, report):
        """Runs the commands of a report, and counts them."""
        (self.folder / "bin").mkdir(exist_ok=True)
        for tool, place in (("cmr", find_program()), *((it, TOP / "scripts" / it) for it in ("model_to_matrix", "name_lines"))):
            if not (self.folder / "bin" / tool).exists():
                (self.folder / "bin" / tool).symlink_to(place)
        path = os.pathsep.join((str(self.folder / "bin"), os.environ["PATH"]))
        count = 0
        for it in report["commands"]:
            said = ""
            for command in it["commands"]:
                run = subprocess.run(
                    ["bash", "-c", command], cwd=self.folder, capture_output=True, text=True, env=os.environ | {"PATH": path}
                )
                said = run.stdout
                count += 1
            if it["says"]:
                self.assertEqual(said.splitlines()[:1], [it["says"]], it)
        return count

    def test_what_is_relaxed_is_left_out_by_the_commands(self) -> None:
        report, _ = self.report(EXAMPLES / "crews.mod")
        self.repeats(report)
        rest = Path(self.folder, "crews-rest.names").read_text(encoding="utf-8")
        rows = [line.split(" ", 1)[1] for line in rest.splitlines() if line.startswith("r")]
        self.assertEqual(rows, [f"period[{at}]" for at in range(8)])
