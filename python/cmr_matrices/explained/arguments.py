"""The arguments of `cmr` and `cmr-large` in one table: manual pages, completions and the explanations of words are made of it.

docs/FORMATS.md has the rules; a test compares its rows with the table. In the texts for the manual page, a word in capitals is the name of
an argument, and one between backquotes is written as it is.
"""

from __future__ import annotations

import re
from dataclasses import dataclass

__all__ = [
    "FORMATS",
    "KINDS",
    "LARGE",
    "LARGE_OPTIONS",
    "NUMBERS",
    "OPTIONS",
    "RANGES",
    "SUMS",
    "TOOLS",
    "Option",
    "Tool",
    "options_in",
    "usage_parts",
]

FORMATS = ("dense", "sparse")
KINDS = {"network": 1000, "twosum": 249}
"""The KINDs of matrices that are generated, with their greatest SIZE. The least is 1."""
NUMBERS = (0, 2**31 - 1)
"""The least and the greatest NUMBER of a generated matrix."""
RANGES = {"--lines": (0, 24), "--pivots": (0, 100), "-w": (1, 64)}
"""Of each option with a number, the least and the greatest one."""
SUMS = ("one", "two", "delta", "y", "mixed", "concentrated")

_USAGE_PART = re.compile(r"\[[^]]*\]|--?[A-Za-z]+(?: [A-Z]+)?|[A-Z]+")


@dataclass(frozen=True)
class Option:
    """An option, the name of its value, and what it does: in a few words, and in sentences for the manual page."""

    name: str
    value: str
    does: str
    manual: str
    gets: str = ""
    """Of an option that names a file which is written, what the file gets."""
    choices: tuple[str, ...] = ()

    @classmethod
    def written(cls, name: str, gets: str, manual: str) -> Option:
        """An option that names a file which is written."""
        return cls(name, "FILE", f"file for {gets}", manual, gets)

    @classmethod
    def number(cls, name: str, value: str, does: str, manual: str, usual: int) -> Option:
        """An option with a number. `{}` in the text becomes its range and its default."""
        least, greatest = RANGES[name]
        return cls(name, value, does, manual.format(f"{least} to {greatest} (default {usual})"))


OPTIONS = {
    option.name: option
    for option in (
        Option.written("-A", "the first matrix", "Write the first matrix to FILE, as a dense text."),
        Option.written("-B", "the second matrix", "Write the second matrix to FILE, as a dense text."),
        Option("-b", "", "the matrix is 0/1", "The matrix is 0/1, and no line is reducible as the negative of another."),
        Option.written("-C", "the chain of signs", "For a no, write the chain of signs to FILE."),
        Option(
            "-c",
            "",
            "print the matrix of a graph text",
            "Read a graph text, test nothing, and print the matrix of its paths.",
        ),
        Option.written("-D", "the decomposition tree", "Write the decomposition tree to FILE."),
        Option.written(
            "-E", "the violator or fault of a no", "For a no, write the violator or the fault to FILE, as a submatrix text."
        ),
        Option.written("-G", "the graph of a yes", "For a yes, write a graph to FILE."),
        Option(
            "-i",
            "FORMAT",
            "format of the matrix",
            "The format of the matrix: `dense` (default) or `sparse`.",
            choices=FORMATS,
        ),
        Option.number(
            "--lines",
            "L",
            "most lines of what is searched whole",
            "Search a part of the matrix exhaustively if its shorter side has at most L lines. L is {}.",
            14,
        ),
        Option.number(
            "--pivots",
            "K",
            "most pivots on the way to what nothing else decides",
            "Make at most K pivots on the path to a part of the matrix that nothing else decides. K is {}. The tree then has `pivoted` "
            "nodes, and a no is a violator of the matrix itself.",
            0,
        ),
        Option.written(
            "-M", "the matrix that is made", "Write the signed, generated or composed matrix to FILE, as a dense text."
        ),
        Option.written(
            "-N",
            "the minimal submatrix of a no",
            "For a no, write a minimal submatrix without the property to FILE, as a submatrix text, and print its lines.",
        ),
        Option.written(
            "-R", "what the reductions leave", "Write what the reductions leave to FILE, as a submatrix text."
        ),
        Option.written("-S", "the list of reductions", "Write the list of reductions to FILE."),
        Option("-t", "", "test the transposed matrix", "Test the transposed matrix."),
        Option.number(
            "-w",
            "N",
            "workers that share the searches",
            "Share the searches among N workers, {}. The number affects neither the answer nor the output.",
            1,
        ),
    )
}
"""The options by name, in their order in the manual page."""


@dataclass(frozen=True)
class Tool:
    """A tool: the words that it takes, as docs/FORMATS.md has them, and what it does."""

    name: str
    usage: str
    tells: str
    manual: str
    other_usage: str = ""
    """The words that it takes instead."""

    @property
    def options(self) -> tuple[str, ...]:
        """The names of all its options."""
        return options_in(self.usage) + options_in(self.other_usage)

    @property
    def values(self) -> tuple[str, ...]:
        """Its options with a value."""
        return tuple(name for name in self.options if OPTIONS[name].value)

    @property
    def flags(self) -> tuple[str, ...]:
        """Its options without a value."""
        return tuple(name for name in self.options if not OPTIONS[name].value)

    @property
    def needed(self) -> tuple[str, ...]:
        """The options that have to be given."""
        return tuple(part.split()[0] for part in usage_parts(self.usage) if part.startswith("-"))

    @property
    def operands(self) -> tuple[str, ...]:
        """The other words."""
        return tuple(part.strip("[]") for part in usage_parts(self.usage) if not part.lstrip("[").startswith("-"))

    @property
    def reads_input(self) -> bool:
        """Whether its last word is an optional file."""
        return self.operands == ("FILE",)


def usage_parts(usage: str) -> list[str]:
    """The parts of a usage: options and other words, each in brackets if it is optional.

    >>> usage_parts("[-i dense|sparse] MATRIX TREE -A FILE")
    ['[-i dense|sparse]', 'MATRIX', 'TREE', '-A FILE']
    """
    return _USAGE_PART.findall(usage)


def options_in(usage: str) -> tuple[str, ...]:
    """The names of the options in a usage."""
    names = [part.strip("[]").split()[0] for part in usage_parts(usage)]
    return tuple(name for name in names if name in OPTIONS)


_SEARCH = "[--lines L] [--pivots K] [-w N]"

TOOLS = {
    tool.name: tool
    for tool in (
        Tool(
            "tu",
            f"[-i dense|sparse] {_SEARCH} [-D FILE] [-E FILE] [FILE]",
            "whether a matrix is totally unimodular",
            "Whether the matrix is totally unimodular. The evidence is a decomposition tree, and for a no a violator: a submatrix whose "
            "rows and columns have even sums and whose entries sum to 2 modulo 4.",
        ),
        Tool(
            "regular",
            f"[-i dense|sparse] {_SEARCH} [-D FILE] [-E FILE] [-M FILE] [-C FILE] [FILE]",
            "whether the ones of a matrix can be signed so that it is totally unimodular",
            "Whether the ones of a 0/1 matrix can be signed so that it becomes totally unimodular. The evidence is a signed matrix with "
            "its tree, and for a no a chain of signs.",
        ),
        Tool(
            "series-parallel",
            "[-i dense|sparse] [-b] [-N FILE] [-S FILE] [-R FILE] [FILE]",
            "whether the lines of a matrix can be removed one by one",
            "Whether repeatedly removing a line that is zero, has one nonzero, or equals another line or its negative leaves no lines. "
            "The evidence is the list of these steps, and for a no a minimal submatrix.",
        ),
        Tool(
            "graphic",
            "[-i dense|sparse] [-t] [-N FILE] [-G FILE] [FILE]",
            "whether the columns of a matrix are paths of a tree",
            "Whether a 0/1 matrix is the matrix of paths in a tree. The evidence is a graph, and for a no a minimal submatrix.",
            "-c [FILE]",
        ),
        Tool(
            "network",
            "[-i dense|sparse] [-t] [-N FILE] [-G FILE] [FILE]",
            "whether the columns of a matrix are directed paths of a tree",
            "The same for a matrix of directed paths in a directed tree.",
            "-c [FILE]",
        ),
        Tool(
            "generate",
            f"KIND SIZE NUMBER {_SEARCH} [-M FILE]",
            "makes a matrix from a number",
            "Makes a matrix, the same on every machine, and runs `tu` on it. KIND is `network`, the matrix of a random tree with SIZE "
            "arcs, or `twosum`, a sum of SIZE matrices of R10. "
            f"SIZE is 1 to {KINDS['network']}, with `twosum` at most {KINDS['twosum']}, and NUMBER {NUMBERS[0]} to {NUMBERS[1]}.",
        ),
        Tool(
            "check",
            "[-i dense|sparse] MATRIX EVIDENCE",
            "whether evidence keeps its rules",
            "Whether EVIDENCE keeps its rules for the matrix. Evidence is a decomposition tree, a chain of signs, or a violator.",
        ),
        Tool(
            "upgrade",
            "EVIDENCE -D FILE",
            "a tree text in its latest version",
            "Writes the tree of a tree text of any version in the latest version.",
        ),
        Tool(
            "camion",
            "[-i dense|sparse] [-E FILE] [FILE]",
            "whether a matrix has no cycle fault",
            "Whether the matrix has no cycle fault, which is Camion's test.",
        ),
        Tool(
            "sign",
            "[-i dense|sparse] MATRIX ROWS",
            "a signing of some rows",
            "Signs for the rows of the submatrix that ROWS names, so that each column sum is -1, 0 or 1, or a violator.",
        ),
        Tool(
            "balanced",
            f"[-i dense|sparse] {_SEARCH} [-E FILE] [FILE]",
            "whether a matrix is balanced",
            "Whether no submatrix with exactly two nonzeros in each line has a sum of 2 modulo 4.",
        ),
        Tool(
            "parts",
            "[-i dense|sparse] MATRIX TREE -A FILE -B FILE",
            "the two matrices of which a matrix is the sum",
            "The two matrices whose sum is the matrix, if the root of its TREE is a sum of two matrices.",
        ),
        Tool(
            "compose",
            "[-i dense|sparse] SUM FIRST SECOND -M FILE",
            "the sum of two matrices",
            f"The sum of the matrices FIRST and SECOND. SUM is {', '.join(f'`{it}`' for it in SUMS[:-1])} or `{SUMS[-1]}`.",
        ),
    )
}
"""The tools by name."""

LARGE = Tool(
    "tu",
    f"[-i dense|sparse] {_SEARCH} [-E FILE] [FILE]",
    "whether a matrix is totally unimodular",
    "Whether the matrix, which may be large, is totally unimodular. The evidence of a no is a violator.",
)
"""The only tool of `cmr-large`."""

LARGE_OPTIONS = {
    option.name: option
    for option in (
        OPTIONS["-i"],
        OPTIONS["--lines"],
        Option.number(
            "--pivots",
            "K",
            "most pivots on the way to what nothing else decides",
            "Make at most K pivots on the path to a part of the matrix that nothing else decides. K is {}.",
            0,
        ),
        OPTIONS["-w"],
        Option.written(
            "-E",
            "the violator of a no, or the open part",
            "For a no, write the violator to FILE, as a submatrix text. If the answer is undecided, write the part that remains open.",
        ),
    )
}
"""The options of `cmr-large` by name."""
