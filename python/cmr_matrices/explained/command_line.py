"""The words of the command line of `cmr`: what they ask for, or which of them is at fault. docs/FORMATS.md has the rules."""

from __future__ import annotations

import re
from collections.abc import Mapping
from dataclasses import dataclass, field
from difflib import get_close_matches

from .arguments import FORMATS, KINDS, NUMBERS, OPTIONS, RANGES, SUMS, TOOLS, Tool

__all__ = ["Order", "WordFault", "asks_for_help", "asks_for_version", "read_words"]

_OTHER_NAMES = {
    "sp": "series-parallel",
    "seriesparallel": "series-parallel",
    "cographic": "graphic -t",
    "conetwork": "network -t",
    "totally-unimodular": "tu",
    "unimodular": "tu",
    "totallyunimodular": "tu",
    "balance": "balanced",
    "verify": "check",
    "convert": "upgrade",
}
_HELP = ("-h", "--help", "-?")
_VERSION = ("-V", "--version")
_NUMBER = re.compile(r"\+?[0-9]+")


@dataclass(frozen=True)
class WordFault:
    """A word at fault and why, or a word that is missing. `tool` is given if its usage helps."""

    why: str
    tool: Tool | None = None
    is_help: bool = False


@dataclass
class Order:
    """What the words ask for: a tool with its options, each with its value, its flags, and its other words."""

    tool: Tool
    options: dict[str, str] = field(default_factory=dict)
    flags: set[str] = field(default_factory=set)
    operands: list[str] = field(default_factory=list)

    @property
    def named(self) -> Mapping[str, str]:
        """The other words, each by what it is."""
        return dict(zip(self.tool.operands, self.operands))

    @property
    def outputs(self) -> Mapping[str, str]:
        """The files that may be written, by their options."""
        return {option: name for option, name in self.options.items() if OPTIONS[option].gets}

    @property
    def inputs(self) -> Mapping[str, str]:
        """The files that are read, by what they are; standard input is `-`."""
        found = {kind: word for kind, word in self.named.items() if kind not in ("KIND", "SIZE", "NUMBER", "SUM")}
        return {"FILE": "-"} | found if self.tool.reads_input else found

    @property
    def sparse(self) -> bool:
        """Whether matrix texts are sparse ones."""
        return self.options.get("-i") == "sparse"


def read_words(words: list[str]) -> Order | WordFault:
    """What the words ask for, or the first fault in them."""
    if not words:
        return WordFault("there is no word: the first one names the tool", is_help=True)
    first = words[0]
    if first not in TOOLS:
        return WordFault(_unknown_tool(first))
    order = Order(TOOLS[first])
    rest = words[1:]
    from_input = order.tool.reads_input and rest[-1:] == ["-"]
    why = _fill(order, rest[:-1] if from_input else rest) or _bad_operands(order, from_input) or _bad_values(order)
    return WordFault(why, order.tool) if why else order


def asks_for_help(words: list[str]) -> tuple[Tool, ...] | None:
    """The tools whose usage somebody asks for: all of them, or one. None if the words ask for no help."""
    if words[:1] == ["help"] or words[:1] and words[0] in _HELP:
        return (TOOLS[words[1]],) if words[1:2] and words[1] in TOOLS else tuple(TOOLS.values())
    if words[:1] and words[0] in TOOLS and any(word in _HELP for word in words[1:]):
        return (TOOLS[words[0]],)
    return None


def asks_for_version(words: list[str]) -> bool:
    """Whether somebody asks for the version."""
    return bool(words) and words[0] in _VERSION


def _unknown_tool(word: str) -> str:
    glued = word.split()
    if len(glued) > 1 and glued[0] in TOOLS:
        return f"`{word}` is one word with a space in it: leave the quotes out, `cmr {' '.join(glued)}`"
    plain = word.lower().replace("_", "-")
    if plain in TOOLS:
        return f"`{word}` is no tool: it is spelled `{plain}`"
    if plain in _OTHER_NAMES:
        return f"`{word}` is no tool: that is `{_OTHER_NAMES[plain]}`"
    if word.startswith("-"):
        return f"`{word}` comes too early: the first word names the tool, and its options follow it"
    if "." in word or "/" in word:
        return f"`{word}` is no tool, which comes first: for example `cmr tu {word}`"
    near = get_close_matches(plain, TOOLS, 1)
    return f"`{word}` is no tool" + (f": did you mean `{near[0]}`?" if near else "")


def _fill(order: Order, words: list[str]) -> str:
    """Sorts the words into options, flags and others. Says what is wrong with the first word that is none."""
    left = list(words)
    while left:
        word = left.pop(0)
        if word == "--":
            order.operands += left
            break
        if word.startswith("--"):
            why = _long_option(order, word, left)
        elif word.startswith("-") and word != "-":
            why = _letters(order, word, left)
        else:
            order.operands.append(word)
            continue
        if why:
            return why
    return ""


def _long_option(order: Order, word: str, left: list[str]) -> str:
    name, equals, value = word.partition("=")
    if name in order.tool.values:
        return _set(order, name, value if equals else None, left)
    return _unknown_option(order.tool, name)


def _letters(order: Order, word: str, left: list[str]) -> str:
    """The letters of a word such as `-bS`: flags, followed by one option, whose value may follow without a space."""
    for place, letter in enumerate(word[1:], 1):
        option = f"-{letter}"
        if option in order.tool.values:
            value = word[place + 1 :].removeprefix("=")
            return _set(order, option, value or None, left)
        if option not in order.tool.flags:
            return _unknown_option(order.tool, option, word)
        if option in order.flags:
            return f"`{option}` occurs twice"
        order.flags.add(option)
    return ""


def _set(order: Order, option: str, value: str | None, left: list[str]) -> str:
    takes = " or ".join(OPTIONS[option].choices) or OPTIONS[option].value
    if value is None:
        if not left:
            return f"`{option}` is the last word, and needs {takes} after it"
        value = left.pop(0)
        if value.startswith("-"):
            reason = "a file cannot be called so; write `./` before the name" if len(value) > 1 else _DASH
            return f"`{option}` takes {takes}, and `{value}` follows it: " + (
                reason if takes == "FILE" else "that is no format" if option == "-i" else "that is no number"
            )
    if option in order.options:
        return f"`{option}` occurs twice"
    order.options[option] = value
    return ""


_DASH = "`-` is standard input only as the last word, and nothing can be written to it; /dev/stdout can be named"


def _unknown_option(tool: Tool, option: str, word: str = "") -> str:
    place = f" (in `{word}`)" if word and word != option else ""
    known = tool.values + tool.flags
    other_case = option.swapcase()
    said = f"`{option}`{place} is no option of {tool.name}"
    if option in ("-l", "-L", "--line", "--budget") and "--lines" in known:
        return f"{said}: did you mean `--lines`?"
    if option in ("-p", "-P", "-k", "-K", "--pivot") and "--pivots" in known:
        return f"{said}: did you mean `--pivots`?"
    if option in ("--workers", "--threads", "-j", "-n") and "-w" in known:
        return f"{said}: did you mean `-w`?"
    if option in ("--format", "--input", "--sparse", "-s") and "-i" in known:
        return f"{said}: did you mean `-i sparse`?"
    if other_case in known:
        return f"{said}: did you mean `{other_case}`?"
    have = [other.name for other in TOOLS.values() if option in other.values + other.flags]
    return f"{said}, but of {_listed(have)}" if have else said


def _bad_operands(order: Order, from_input: bool) -> str:
    tool, operands = order.tool, order.operands
    if not tool.reads_input and "-" in operands:
        return f"`-` is standard input only for tools with one file, and {tool.name} has names for all its files"
    if tool.reads_input and "-" in operands:
        return "`-` is standard input only as the last word"
    most = len(tool.operands)
    if from_input and operands:
        return f"`-` is standard input, and `{operands[0]}` is a file beside it: one of the two has to go"
    if len(operands) > most:
        return f"`{operands[most]}` is a word too much: {tool.name} takes {_listed(list(tool.operands))}"
    if not tool.reads_input and len(operands) < most:
        return f"{_listed(list(tool.operands[len(operands):]))} {_is(most - len(operands))} missing"
    for option in tool.needed:
        if option not in order.options:
            return f"`{option} FILE` is missing, for {OPTIONS[option].gets}"
    beside = [word for word in ("-i", "-t", "-N", "-G") if word in order.options or word in order.flags]
    if "-c" in order.flags and beside:
        return f"`{beside[0]}` does not go with `-c`, which reads a graph text and tests nothing"
    return ""


def _bad_values(order: Order) -> str:
    form = order.options.get("-i")
    if form is not None and form not in FORMATS:
        hint = "; a model becomes a sparse text by scripts/model_to_matrix" if form.lower() in _MODELS else ""
        return f"`-i {form}`: the formats are {_listed(list(FORMATS))}, in small letters{hint}"
    for option, (least, most) in RANGES.items():
        value = order.options.get(option)
        if value is not None and not _within(value, least, most):
            return f"`{option} {value}`: the number is {least} to {most}"
    if order.tool.name == "generate":
        return _bad_generate(*order.operands)
    if order.tool.name == "compose" and order.operands[0] not in SUMS:
        return f"`{order.operands[0]}` is no SUM: the sums are {_listed(list(SUMS))}"
    return ""


_MODELS = ("mps", "lp", "mod", "mathprog", "csv", "npy")


def _bad_generate(kind: str, size: str, number: str) -> str:
    if kind not in KINDS:
        return f"`{kind}` is no KIND: the kinds are {_listed(list(KINDS))}"
    if not _within(size, 1, KINDS[kind]):
        return f"`{size}`: the SIZE of {kind} is 1 to {KINDS[kind]}"
    if not _within(number, *NUMBERS):
        return f"`{number}`: the NUMBER is {NUMBERS[0]} to {NUMBERS[1]}"
    return ""


def _within(word: str, least: int, most: int) -> bool:
    return bool(_NUMBER.fullmatch(word)) and len(word.lstrip("+0")) <= 10 and least <= int(word) <= most


def _listed(words: list[str]) -> str:
    return words[0] if len(words) == 1 else f"{', '.join(words[:-1])} and {words[-1]}"


def _is(count: int) -> str:
    return "is" if count == 1 else "are"
