"""The tools with their arguments, from docs/FORMATS.md."""

import re

from tests.support import TOP

FORMATS = (TOP / "docs" / "FORMATS.md").read_text(encoding="utf-8")
SECTION = FORMATS.partition("## The command line")[2].partition("\n## ")[0]


def _rows():
    for tools, words in re.findall(r"^\| (`.*?`) \| (`.*?)\s*\|$", SECTION, re.M):
        yield re.findall(r"`([\w-]+)`", tools), words.replace("\\|", "|")


def _options(words):
    """Each option with the name of its value, or nothing."""
    return dict(re.findall(r"(?<![\w-])(--?[A-Za-z]+)(?: ([\w|]+))?", words))


# For each tool its options, with the names of their values.
OPTIONS = {tool: _options(words) for tools, words in _rows() for tool in tools}

# For each tool its usages, as the package has them.
USAGES = {tool: re.findall(r"`(.*?)`", words) for tools, words in _rows() for tool in tools}

# The same of `cmr-large tu`.
LARGE_USAGE = re.search(r"`cmr-large tu (.*?)`", SECTION)[1]
LARGE_OPTIONS = _options(LARGE_USAGE)

# The words that a tool takes in one position: KIND of `generate` and SUM of `compose`.
KINDS = re.findall(r"`(\w+)`", re.search(r"KIND is (.*?),", SECTION)[1])
SUMS = re.findall(r"`(\w+)`", re.search(r"SUM is (.*?)\.", SECTION, re.S)[1])


def _range(option):
    """The least and the greatest number of an option, and its default."""
    found = re.search(rf"`{option}` is [^.]*?(\d+)\s+to\s+(\d+)\s+\(default\s+(\d+)\)", SECTION)
    assert found, f"docs/FORMATS.md has no range of {option} in the words: is .., 0 to 9 (default 1)"
    return tuple(map(int, found.groups()))


# For each option with a number, which has a single letter in the table: the least, the greatest, and the default.
NUMBERS = {
    option: _range(option)
    for options in OPTIONS.values()
    for option, value in options.items()
    if re.fullmatch("[A-Z]", value)
}

# The ranges of the numbers, in the words of the text.
RANGES = {option: (f"{least} to {most}", f"default {usual}") for option, (least, most, usual) in NUMBERS.items()}
RANGES |= {"SIZE": ("1 to 1000", "at most 249"), "NUMBER": ("0 to 2147483647",)}

STATUSES = sorted({int(it) for it in re.findall(r"\| (\d) \|$|^\| (\d) \|", FORMATS, re.M) for it in it if it})
