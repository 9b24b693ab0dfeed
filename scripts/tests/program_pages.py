"""The arguments in the manual pages and completions of `cmr` and `cmr-large`, made of the table in the package (`explained/arguments.py`)."""

import re
from itertools import groupby

from building.clone import TOP
from cmr_matrices.explained.arguments import (
    FORMATS,
    KINDS,
    LARGE,
    LARGE_OPTIONS,
    OPTIONS,
    RANGES,
    SUMS,
    TOOLS,
    options_in,
    usage_parts,
)

PAGE = TOP / "docs" / "cmr.1"
LARGE_PAGE = TOP / "docs" / "cmr-large.1"
BASH = TOP / "scripts" / "completions" / "cmr.bash"
ZSH = TOP / "scripts" / "completions" / "_cmr"
MADE = "made by scripts/tests/command_pages.py of the table of arguments"

# The words that a tool takes at its first position.
FIRST_WORDS = {"generate": tuple(KINDS), "compose": SUMS}
# Words that are written as they are.
LITERAL = {*TOOLS, *FORMATS, *KINDS, *SUMS}
# Names of arguments.
NAMES = {name for tool in TOOLS.values() for name in tool.operands} | {option.value for option in OPTIONS.values()}
WIDTH = 78


def plain(text):
    """A line of text in a manual page."""
    text = text.replace("\\", "\\e").replace("-", "\\-")
    return f"\\&{text}" if text[:1] in (".", "'") else text


def _name(word):
    return word if len(word) == 1 else word.lower()


def _flag(name):
    return f"Fl {plain(name[1:])}"


def _macro(word):
    """The macro for a word of a text, with the punctuation after it, or nothing if the word is a plain one."""
    found = re.fullmatch(r"(`?)([\w-]+)\1([.,:]?)", word)
    if found and (found[1] or found[2] in NAMES):
        kind = "Ar" if not found[1] else "Cm" if found[2] in LITERAL else "Ql"
        shown = _name(found[2]) if kind == "Ar" else found[2]
        return " ".join(filter(None, (f".{kind}", shown, found[3])))
    return ""


def text_lines(text):
    """The lines of a text of the table in a manual page. Each sentence begins a line."""
    line = ""
    for word in text.split():
        if macro := _macro(word):
            yield from filter(None, (line, macro))
            line = ""
            continue
        if line and len(line) + len(plain(word)) >= WIDTH:
            yield line
            line = ""
        line = f"{line} {plain(word)}" if line else plain(word)
        if word.endswith("."):
            yield line
            line = ""
    if line:
        yield line


def _usage(usage):
    """The lines of a usage: an option on each, and other words beside one another."""
    for is_option, group in groupby(usage_parts(usage), lambda part: part.lstrip("[").startswith("-")):
        if is_option:
            for part in group:
                option = OPTIONS[part.strip("[]").split()[0]]
                value = f" Ar {_name(option.value)}" if option.value else ""
                yield f".{'Op ' * part.startswith('[')}{_flag(option.name)}{value}"
        else:
            words = list(group)
            yield f".{'Op ' * words[0].startswith('[')}Ar {' '.join(_name(it.strip('[]')) for it in words)}"


def synopsis(tools=TOOLS.values()):
    for tool in tools:
        for usage in filter(None, (tool.usage, tool.other_usage)):
            yield from (".Nm", f".Cm {tool.name}", *_usage(usage))


def tools():
    for tool in TOOLS.values():
        yield from (f".It Cm {tool.name}", *text_lines(tool.manual))


def options(table=OPTIONS):
    for option in table.values():
        value = f" Ar {_name(option.value)}" if option.value else ""
        yield from (f".It {_flag(option.name)}{value}", *text_lines(option.manual))


def _replaced(path, *parts):
    """The text of a manual page with lines that are made in place of those between two texts, for each of the parts."""
    text = path.read_text(encoding="utf-8")
    for before, made, after in parts:
        head, found, rest = text.partition(before)
        assert found, f"{path} lacks {before!r}"
        comment = f'.\\" The following is {MADE}.'
        text = "\n".join([head + before + comment, *made, after + rest.partition(after)[2]])
    return text


def page():
    """The manual page of `cmr` with its arguments."""
    return _replaced(
        PAGE,
        (".Sh SYNOPSIS\n", synopsis(), ".Sh DESCRIPTION\n"),
        ("The tools are:\n.Bl -tag -width series-parallel\n", tools(), ".El\n"),
        ("The options are:\n.Bl -tag -width Ds\n", options(), ".El\n"),
    )


def large_page():
    """The manual page of `cmr-large` with its arguments."""
    return _replaced(
        LARGE_PAGE,
        (".Sh SYNOPSIS\n", synopsis([LARGE]), ".Sh DESCRIPTION\n"),
        ("The options are:\n.Bl -tag -width Ds\n", options(LARGE_OPTIONS), ".El\n"),
    )


def _values(option):
    """The values that are offered for an option: words, or numbers in the braces of a shell."""
    least, greatest = RANGES.get(option.name, (0, 0))
    return " ".join(option.choices) or (f"{{{least}..{greatest}}}" if greatest else "")


def bash():
    """The completions for bash."""
    alike = {}
    for tool in TOOLS.values():
        alike.setdefault(tool.options, []).append(tool.name)
    offered = {it.name: _values(it) for it in OPTIONS.values()}
    outputs = "".join(sorted(it.name[1:] for it in OPTIONS.values() if it.gets))
    first = [
        f'            elif [[ "$COMP_CWORD $before" == "2 {tool}" ]]; then\n                echo {" ".join(words)}'
        for tool, words in FIRST_WORDS.items()
    ]
    return "\n".join(
        [
            "# Completions of cmr and cmr-large for bash: the tools, their options that are not on the line yet, and the value of an option.",
            f"# If nothing else is offered, names of files are. The file is {MADE}.",
            "",
            "_cmr_options()",
            "{",
            "    case $1 in",
            f"        large) printf '%s\\n' {' '.join(LARGE.options)} ;;",
            *(f"        {' | '.join(names)}) printf '%s\\n' {' '.join(them)} ;;" for them, names in alike.items()),
            "    esac",
            "}",
            "",
            "_cmr_words()",
            "{",
            "    local word=${COMP_WORDS[COMP_CWORD]} before=${COMP_WORDS[COMP_CWORD - 1]} tool=${COMP_WORDS[1]} it",
            "    [[ ${COMP_WORDS[0]} == *-large && $COMP_CWORD != 1 ]] && tool=large",
            '    case "$COMP_CWORD $before" in',
            f'        "1 "*-large) echo {LARGE.name} ;;',
            f'        "1 "*) echo {" ".join(TOOLS)} ;;',
            *(f'        *" {name}") echo {values} ;;' for name, values in offered.items() if values),
            f'        *" -"[{outputs}]) ;;',
            "        *)",
            "            if [[ $word == -* ]]; then",
            '                for it in $(_cmr_options "$tool"); do',
            '                    [[ " ${COMP_WORDS[*]:1:COMP_CWORD-1} " == *" $it "* ]] || printf \'%s\\n\' "$it"',
            "                done",
            *first,
            "            fi",
            "            ;;",
            "    esac",
            "}",
            "",
            "_cmr()",
            "{",
            '    mapfile -t COMPREPLY < <(compgen -W "$(_cmr_words)" -- "${COMP_WORDS[COMP_CWORD]}")',
            "}",
            "",
            "complete -o bashdefault -o default -F _cmr cmr cmr-explain cmr-large",
            "",
        ]
    )


def _zsh_option(tool, option):
    """What `_arguments` takes for an option. Options of the two usages of a tool exclude each other."""
    other = options_in(tool.other_usage)
    against = options_in(tool.usage) if option.name in other else other
    excluded = f"({' '.join(against)})" if against else ""
    aid = f"{option.name}[{option.does}]"
    if not option.value:
        return f"'{excluded}{aid}'"
    name = "file" if option.gets else "format" if option.choices else option.name.lstrip("-") if len(option.name) > 2 else "number"
    offered = "_files" if option.gets else f"({_values(option)})"
    return f"'{excluded}{aid}:{name}:{offered}'"


def _zsh_word(tool, place, name):
    offered = "_files"
    if name in ("KIND", "SIZE", "NUMBER", "SUM"):
        offered = f"({' '.join(FIRST_WORDS[tool.name])})" if place == 0 else ""
    shown = {"FILE": "matrix", "FIRST": "first matrix", "SECOND": "second matrix"}.get(name, name.lower())
    return f"':{shown}:{offered}'"


def _zsh_arguments(tool, options, indent):
    """The call of `_arguments` for a tool."""
    found = [_zsh_option(tool, options[name]) for name in tool.options]
    found += [_zsh_word(tool, place, name) for place, name in enumerate(tool.operands)]
    return [f"{indent}_arguments \\", *(f"{indent}    {it} \\" for it in found[:-1]), f"{indent}    {found[-1]}"]


def zsh():
    """The completions for zsh."""
    lines = [
        "#compdef cmr cmr-explain cmr-large",
        "# Completions of cmr and cmr-large for zsh: the tools, their options that are not on the line yet, and the value of an option.",
        f"# The file is {MADE}.",
        "",
        "_cmr_tools()",
        "{",
        "    local -a tools=(",
        *(f"        '{tool.name}:{tool.tells}'" for tool in TOOLS.values()),
        "    )",
        "    _describe tool tools",
        "}",
        "",
        "_cmr()",
        "{",
        "    if ((CURRENT == 2)); then",
        "        _cmr_tools",
        "        return",
        "    fi",
        "    local tool=$words[2]",
        "    shift words",
        "    ((CURRENT--))",
        "    case $tool in",
    ]
    for tool in TOOLS.values():
        lines += [f"        {tool.name})", *_zsh_arguments(tool, OPTIONS, " " * 12), "            ;;"]
    lines += [
        "    esac",
        "}",
        "",
        "_cmr_large()",
        "{",
        "    if ((CURRENT == 2)); then",
        f"        local -a tools=('{LARGE.name}:{LARGE.tells}')",
        "        _describe tool tools",
        "        return",
        "    fi",
        "    shift words",
        "    ((CURRENT--))",
        *_zsh_arguments(LARGE, LARGE_OPTIONS, " " * 4),
        "}",
        "",
        'if [[ $words[1] == *-large ]]; then _cmr_large "$@"; else _cmr "$@"; fi',
        "",
    ]
    return "\n".join(lines)


def files():
    """All files that are made, with their texts."""
    return {PAGE: page(), LARGE_PAGE: large_page(), BASH: bash(), ZSH: zsh()}
