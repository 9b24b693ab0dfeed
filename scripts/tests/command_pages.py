"""Manual pages and completions of the commands of the package, made of their parsers, and those of `cmr`.

`python3 -m tests.command_pages` in `scripts` writes them, and a test asks that they are written.
"""

import argparse
import re
from importlib import import_module
from unittest import mock

from building.clone import TOP
from building.installed import SCRIPTS
from cmr_matrices.explained.arguments import TOOLS
from cmr_matrices.version import __version__
from tests import program_pages
from tests.program_pages import plain

PAGES = TOP / "docs" / "commands"
BASH = TOP / "scripts" / "completions" / "cmr-commands.bash"
ZSH = TOP / "scripts" / "completions" / "_cmr-commands"
EXPLAIN = "cmr-explain"
# Values of options that are no names of files.
NO_FILES = {"N", "L", "K", "S", "K/N", "LIST", "ADDRESS", "NAME", "PATTERN"}


class Parsed(Exception):
    """Has the parser of a command, which was about to read its arguments."""


def module_of(command):
    return import_module(f"cmr_matrices.commands.{SCRIPTS[command].replace('-', '_')}")


def parser_of(command):
    """The parser of a command. That of `cmr-explain` has what `cmr` takes."""
    if command == EXPLAIN:
        parser = argparse.ArgumentParser(description=module_of(command).__doc__)
        parser.add_argument("--version", action="version", version="")
        parser.add_argument("tool", metavar="TOOL", choices=list(TOOLS), help="the tool of cmr")
        parser.add_argument("words", metavar="WORD", nargs="*", help="the other arguments of cmr")
        return parser

    def stop(parser, *_):
        raise Parsed(parser)

    with mock.patch.object(argparse.ArgumentParser, "parse_known_args", stop):
        try:
            module_of(command).arguments()
        except Parsed as found:
            return found.args[0]
    raise AssertionError(f"{command} reads no arguments")


def arguments_of(command):
    """The options and the other arguments of a command."""
    actions = parser_of(command)._actions  # pylint: disable=protected-access
    return [it for it in actions if it.option_strings], [it for it in actions if not it.option_strings]


def help_of(command, action):
    if isinstance(action, argparse._HelpAction):  # pylint: disable=protected-access
        return "show the arguments and end"
    if isinstance(action, argparse._VersionAction):  # pylint: disable=protected-access
        return "show the version and end"
    return parser_of(command)._get_formatter()._expand_help(action)  # pylint: disable=protected-access


def value_of(action):
    """The name of the value of an option, or nothing."""
    if action.nargs == 0:
        return ""
    return action.metavar or ("|".join(action.choices) if action.choices else action.dest.upper())


def _paragraphs(doc):
    """The lines of the description: paragraphs, and indented lines as they are."""
    first, _, rest = doc.strip().partition("\n\n")
    for block in [first, *rest.split("\n\n")]:
        lines = block.split("\n")
        if not block.strip():
            continue
        yield ".Pp"
        if all(line.startswith("    ") for line in lines):
            yield from (".Bd -literal -compact", *(plain(line[4:]) for line in lines), ".Ed")
        else:
            yield from (plain(line.strip()) for line in lines)


def page(command):
    """The manual page of a command."""
    doc = module_of(command).__doc__
    options, others = arguments_of(command)
    summary = re.match(r"(.*?)(?:[.:](?=\s)|\Z)", " ".join(doc.split()))[1]
    lines = [
        f'.\\" Made by scripts/tests/command_pages.py of `{command} --help`.',
        ".Dd November 30, 2026",
        f".Dt {command.upper()} 1",
        f".Os cmr {__version__}",
        ".Sh NAME",
        f".Nm {command}",
        f".Nd {plain(summary[0].lower() + summary[1:])}",
        ".Sh SYNOPSIS",
        ".Nm",
    ]
    for action in options:
        name = action.option_strings[-1].lstrip("-")
        dashes = "\\-" if action.option_strings[-1].startswith("--") else ""
        value = value_of(action)
        lines.append(f".Op Fl {dashes}{plain(name)}" + (f" Ar {value}" if value else ""))
    for action in others:
        dots = " ..." if action.nargs in ("*", "+") else ""
        name = f"Ar {action.metavar or action.dest.upper()}{dots}"
        lines.append(f".Op {name}" if action.nargs in ("?", "*") else f".{name}")
    lines += [".Sh DESCRIPTION", *list(_paragraphs(doc))[1:], ".Bl -tag -width Ds"]
    for action in others:
        lines += [f".It Ar {action.metavar or action.dest.upper()}", plain(help_of(command, action))]
    for action in options:
        value = f" Ar {value_of(action)}" if value_of(action) else ""
        names = [f"Fl {plain(it[1:])}" for it in action.option_strings]
        lines += [f".It {' , '.join(names)}{value}", plain(help_of(command, action))]
    return "\n".join([*lines, ".El", ".Sh SEE ALSO", ".Xr cmr 1", ""])


def _bash_case(command):
    options, others = arguments_of(command)
    words = " ".join(it for action in options for it in action.option_strings)
    yield f"        {command}) printf '%s\\n' {words} ;;"


def bash():
    """The completions of all commands but `cmr-explain`, which takes the words of `cmr`."""
    commands = [it for it in SCRIPTS if it != EXPLAIN]
    lines = [
        "# Completions of the commands beside cmr for bash, made by scripts/tests/command_pages.py of their parsers.",
        "# Where nothing is offered, names of files are.",
        "",
        "_cmr_command_options()",
        "{",
        "    case $1 in",
        *(line for command in commands for line in _bash_case(command)),
        "    esac",
        "}",
        "",
        "_cmr_command_values()",
        "{",
        '    case "$1 $2" in',
    ]
    for command in commands:
        options, others = arguments_of(command)
        for action in options:
            if action.choices:
                names = " | ".join(f'"{command} {it}"' for it in action.option_strings)
                lines.append(f"        {names}) echo {' '.join(map(str, action.choices))} ;;")
        for place, action in enumerate(others, 1):
            if action.choices:
                lines.append(f'        "{command} {place}") echo {" ".join(map(str, action.choices))} ;;')
    return "\n".join(
        [
            *lines,
            "    esac",
            "}",
            "",
            "_cmr_command()",
            "{",
            "    local command=${COMP_WORDS[0]##*/} word=${COMP_WORDS[COMP_CWORD]} offered",
            "    if [[ $word == -* ]]; then",
            '        offered=$(_cmr_command_options "$command")',
            "    else",
            '        offered="$(_cmr_command_values "$command" "${COMP_WORDS[COMP_CWORD - 1]}")"',
            '        [[ $offered ]] || offered=$(_cmr_command_values "$command" "$COMP_CWORD")',
            "    fi",
            '    mapfile -t COMPREPLY < <(compgen -W "$offered" -- "$word")',
            "}",
            "",
            f"complete -o bashdefault -o default -F _cmr_command {' '.join(commands)}",
            "",
        ]
    )


def _zsh_text(text):
    return re.sub(r"([\[\]:\\])", r"\\\1", text).replace("'", "'\\''")


def _zsh_argument(command, action):
    aid = _zsh_text(help_of(command, action))
    value = value_of(action)
    offered = " " if value in NO_FILES else "_files"
    offered = f"({' '.join(map(str, action.choices))})" if action.choices else offered
    if action.option_strings:
        behind = f":{_zsh_text(value)}:{offered}" if value else ""
        return [f"'{name}[{aid}]{behind}'" for name in action.option_strings]
    many = "*" if action.nargs in ("*", "+") else ""
    return [f"'{many}:{_zsh_text(action.metavar or action.dest)}:{offered}'"]


def zsh():
    commands = [it for it in SCRIPTS if it != EXPLAIN]
    lines = [f"#compdef {' '.join(commands)}"]
    lines += ["# Completions of the commands beside cmr for zsh, made by scripts/tests/command_pages.py of their parsers.", ""]
    lines += ["case ${words[1]:t} in"]
    for command in commands:
        options, others = arguments_of(command)
        lines.append(f"    {command})")
        found = [word for action in [*options, *others] for word in _zsh_argument(command, action)]
        lines += ["        _arguments \\", *(f"            {word} \\" for word in found[:-1]), f"            {found[-1]}", "        ;;"]
    return "\n".join([*lines, "esac", ""])


def files():
    """All files that are made, with their texts."""
    return {**{PAGES / f"{it}.1": page(it) for it in SCRIPTS}, BASH: bash(), ZSH: zsh(), **program_pages.files()}


if __name__ == "__main__":
    PAGES.mkdir(exist_ok=True)
    for path, text in files().items():
        path.write_text(text, encoding="utf-8")
