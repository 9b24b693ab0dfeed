"""The manual page has the arguments of docs/FORMATS.md, and its examples are runs."""

import re
import subprocess

from building.clone import BUILT
from cmr_matrices.explained.arguments import LARGE, TOOLS
from tests.command_line import KINDS, LARGE_OPTIONS, LARGE_USAGE, NUMBERS, OPTIONS, RANGES, SECTION, STATUSES, SUMS, USAGES
from tests.support import TOP, ScriptTest, needs_man, needs_mandoc, needs_program

FILE = TOP / "docs" / "cmr.1"
PAGE = FILE.read_text(encoding="utf-8").replace("\\-", "-").replace("\\en", "\\n")
PARTS = dict(re.findall(r"^\.Sh (.*)\n((?:(?!\.Sh ).*\n)*)", PAGE, re.M))


def synopsis():
    """For each tool its options, with the names of their values."""
    found = {}
    for line in PARTS["SYNOPSIS"].split(".Nm\n")[1:]:
        tool = re.search(r"^\.Cm (\S+)", line)[1]
        options = re.findall(r"^\.(?:Op )?Fl (\S+)(?: Ar (\w+))?", line, re.M)
        found.setdefault(tool, {}).update({f"-{name}": value for name, value in options})
    return found


def items(part, head):
    """The list items of a part whose heads begin so, as one text for each."""
    return dict(re.findall(rf"^\.It {head} ?(.*)\n((?:(?!\.It |\.El).*\n)*)", PARTS[part], re.M))


class ManualTest(ScriptTest):
    def test_the_table_of_which_it_is_made_has_the_usages(self):
        self.assertEqual({it.name: list(filter(None, (it.usage, it.other_usage))) for it in TOOLS.values()}, USAGES)
        self.assertEqual(LARGE.usage, LARGE_USAGE)

    def test_each_tool_has_its_options(self):
        shown = synopsis()
        self.assertEqual(list(shown), list(OPTIONS))
        for tool, options in OPTIONS.items():
            with self.subTest(tool=tool):
                has_value = {it: bool(of) for it, of in options.items()}
                self.assertEqual({it: bool(of) for it, of in shown[tool].items()}, has_value)

    def test_each_tool_and_each_option_is_described(self):
        self.assertEqual([it for it in items("DESCRIPTION", "Cm") if it in OPTIONS], list(OPTIONS))
        described = re.findall(r"Fl (\S+)", " ".join(items("DESCRIPTION", "(?=Fl)")))
        self.assertEqual({f"-{it}" for it in described}, {it for options in OPTIONS.values() for it in options})

    def test_ranges(self):
        tools, options = items("DESCRIPTION", "Cm"), items("DESCRIPTION", "Fl")
        texts = {option: options[f"{option[1:]} Ar {OPTIONS['tu'][option]}"] for option in NUMBERS}
        texts.update(dict.fromkeys(("SIZE", "NUMBER"), tools["generate"]))
        for name, ranges in RANGES.items():
            for it in ranges:
                with self.subTest(of=name, range=it):
                    self.assertIn(it, " ".join(SECTION.split()))
                    self.assertIn(it, " ".join(texts[name].split()))
        for tool, kinds in [("generate", KINDS), ("compose", SUMS)]:
            named = [it for it in re.findall(r"\.Cm (\S+)", tools[tool]) if it in kinds]
            self.assertEqual(list(dict.fromkeys(named)), kinds)

    def test_statuses(self):
        self.assertEqual([int(it) for it in items("EXIT STATUS", "")], STATUSES)

    @needs_program
    def test_examples(self):
        examples = re.findall(r"^\.Bd -literal.*\n((?:(?!\.Ed).*\n)*)", PARTS["EXAMPLES"], re.M)
        self.assertEqual(len(examples), 2)
        for block in examples:
            for command, printed in re.findall(r"^\$ (.*)\n((?:(?!\$ ).*\n)*)", block, re.M):
                command = re.sub(r"\bcmr (?=tu|check)", f"'{BUILT}' ", command)
                words = ["bash", "-c", command]
                run = subprocess.run(words, cwd=self.folder, capture_output=True, text=True, check=False)
                self.assertEqual(run.stdout + run.stderr, printed, command)

    def test_the_page_of_large_matrices(self):
        page = (TOP / "docs" / "cmr-large.1").read_text(encoding="utf-8")
        for head in ("Op", "It"):
            found = re.findall(rf"^\.{head} Fl (\S+) Ar", page, re.M)
            self.assertEqual([f"-{it}".replace("\\", "") for it in found], list(LARGE_OPTIONS))
        self.assertEqual([int(it) for it in re.findall(r"^\.It (\d)$", page, re.M)], STATUSES[:-1])

    @needs_mandoc
    def test_mandoc_finds_nothing(self):
        # The level below `style` is for pages of the base system, which name no version.
        run = subprocess.run(["mandoc", "-Tlint", "-Wstyle", FILE], capture_output=True, text=True, check=False)
        self.assertEqual((run.returncode, run.stdout + run.stderr), (0, ""))

    @needs_man
    def test_man_shows_the_page_and_warns_of_nothing(self):
        run = subprocess.run(["man", "--warnings", "-l", FILE], capture_output=True, text=True, check=False)
        self.assertEqual((run.returncode, run.stderr), (0, ""))
        self.assertIn("series-parallel", run.stdout)
