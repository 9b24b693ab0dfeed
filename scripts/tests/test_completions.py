"""The completions offer the arguments of docs/FORMATS.md, in the shells themselves."""

import re
import subprocess

from tests.command_line import KINDS, LARGE_OPTIONS, NUMBERS, OPTIONS, SUMS
from tests.support import TOP, ScriptTest, needs_zsh
from tests.terminal import Terminal

BASH = TOP / "scripts" / "completions" / "cmr.bash"
ZSH = TOP / "scripts" / "completions" / "_cmr"

# Prints what bash offers for a command with its arguments.
OFFER = 'source "$0"; COMP_WORDS=("$@"); COMP_CWORD=$(($# - 1)); COMPREPLY=(); _cmr; printf "%s\\n" "${COMPREPLY[@]}"'

# Prints what zsh offers for a command with its arguments.
HAND_OVER = """_arguments() { print -l -- "$@" }; _describe() { print -l -- "${(@P)2}" }
file=$1; shift; words=("$@"); CURRENT=$#words; source $file"""
OF_ZSH = re.compile(r"^(?:\(.*?\))?(--?\w+)\[.*?\](?::\w+:(.*))?$")


class BashTest(ScriptTest):
    def offered(self, *words, of="cmr"):
        run = subprocess.run(["bash", "-c", OFFER, BASH, of, *words], capture_output=True, text=True, check=False)
        self.assertEqual(run.stderr, "")
        return run.stdout.split()

    def test_tools(self):
        self.assertEqual(self.offered(""), list(OPTIONS))
        self.assertEqual(self.offered("s"), ["series-parallel", "sign"])

    def test_options_of_each_tool(self):
        for tool, options in OPTIONS.items():
            with self.subTest(tool=tool):
                self.assertEqual(sorted(self.offered(tool, "-")), sorted(options))

    def test_what_stands_there_is_not_offered_again(self):
        self.assertEqual(self.offered("regular", "-D", "tree", "--lines", "3", "-"), ["-i", "--pivots", "-w", "-E", "-M", "-C"])

    def test_many_words(self):
        words = ["regular", "-i", "sparse", "--lines", "3", "--pivots", "9", "-w", "2", "-D", "tree", "-E", "fault"]
        self.assertEqual(self.offered(*words, "-"), ["-M", "-C"])
        self.assertEqual(self.offered(*words, "-M", ""), [])

    def test_what_stands_behind_an_option(self):
        for tool, options in OPTIONS.items():
            for option, value in options.items():
                with self.subTest(tool=tool, option=option):
                    offered = self.offered(tool, option, "")
                    if value in ("", "FILE"):
                        self.assertEqual(offered, [])
                    elif option in NUMBERS:
                        least, most, _ = NUMBERS[option]
                        self.assertEqual(offered, [str(it) for it in range(least, most + 1)])
                    else:
                        self.assertEqual(offered, value.split("|"))

    def test_kinds_and_sums(self):
        self.assertEqual(self.offered("generate", ""), KINDS)
        self.assertEqual(self.offered("compose", ""), SUMS)
        self.assertEqual(self.offered("check", ""), [])

    def test_of_the_program_for_large_matrices(self):
        self.assertEqual(self.offered("", of="cmr-large"), ["tu"])
        self.assertEqual(self.offered("tu", "-", of="/usr/bin/cmr-large"), list(LARGE_OPTIONS))
        self.assertEqual(self.offered("tu", "-E", "f", "-", of="cmr-large"), ["-i", "--lines", "--pivots", "-w"])
        self.assertEqual(self.offered("tu", "-i", "", of="cmr-large"), ["dense", "sparse"])

    def test_at_a_terminal(self):
        self.write("a_matrix.txt", "")
        shell = Terminal(["bash", "--norc", "--noprofile", "-i"], self.folder)
        self.addCleanup(shell.close)
        shell.type(f"source '{BASH}'; echo rea''dy\n")
        shell.waits_for("ready")
        shell.type("echo it is; cmr ser\t-S a_m\tgen\t")
        shell.waits_for("cmr series-parallel -S a_matrix.txt gen")


@needs_zsh
class ZshTest(ScriptTest):
    def handed(self, *words, of="cmr"):
        run = subprocess.run(["zsh", "-fc", HAND_OVER, "zsh", ZSH, of, *words], capture_output=True, text=True, check=False)
        self.assertEqual(run.stderr, "")
        return run.stdout.splitlines()

    def test_tools(self):
        self.assertEqual([it.partition(":")[0] for it in self.handed("")], list(OPTIONS))

    def test_options_of_each_tool(self):
        values = {"FILE": "_files", "dense|sparse": "(dense sparse)", "": ""}
        numbers = {option: f"({{{least}..{most}}})" for option, (least, most, _) in NUMBERS.items()}
        for tool, options in OPTIONS.items():
            with self.subTest(tool=tool):
                found = [OF_ZSH.match(it) for it in self.handed(tool, "")]
                found = {it[1]: it[2] or "" for it in found if it}
                self.assertEqual(found, {it: numbers.get(it) or values[value] for it, value in options.items()})

    def test_kinds_and_sums(self):
        self.assertIn(f":kind:({' '.join(KINDS)})", self.handed("generate", ""))
        self.assertIn(f":sum:({' '.join(SUMS)})", self.handed("compose", ""))

    def test_of_the_program_for_large_matrices(self):
        self.assertEqual([it.partition(":")[0] for it in self.handed("", of="cmr-large")], ["tu"])
        found = [OF_ZSH.match(it) for it in self.handed("tu", "", of="cmr-large")]
        self.assertEqual([it[1] for it in found if it], list(LARGE_OPTIONS))

    def test_at_a_terminal(self):
        self.write("a_matrix.txt", "")
        shell = Terminal(["zsh", "-f", "-i"], self.folder)
        self.addCleanup(shell.close)
        shell.type(f"fpath=('{ZSH.parent}' $fpath); autoload -Uz compinit; compinit -u -D; echo rea''dy\n")
        shell.waits_for("ready\r\n")
        shell.type("cmr ser\t-S a_m\t")
        shell.waits_for("a_matrix.txt")
