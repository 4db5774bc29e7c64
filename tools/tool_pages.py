#!/usr/bin/env python3
"""Makes the manual page of council-tools and its completions of bash, zsh and fish from what each
tool says of itself:

    tools/tool_pages.py            writes them
    tools/tool_pages.py --check    says which of them would change, with status 1

It needs only the standard library.
"""
from __future__ import annotations

import argparse
import importlib
import os
import re
import sys
from typing import Callable, Iterator, NoReturn

TOP = os.path.dirname(os.path.dirname(os.path.realpath(__file__)))
sys.dont_write_bytecode = True
sys.path.insert(0, os.path.join(TOP, "python/src"))

import council  # noqa: E402
from council import tools  # noqa: E402
from council.tools import command  # noqa: E402

# what is completed by the names of files
FILES = {"FILE", "PROGRAM"}


class Found(Exception):
    """The reader of a tool's words, before it reads any."""


def find_reader(tool: str) -> command.Words:
    """Returns what reads the words of a tool."""
    def stop(reader: command.Words, words: list[str]) -> NoReturn:
        raise Found(reader)

    kept = command.Words.parse_words
    setattr(command.Words, "parse_words", stop)
    try:
        importlib.import_module("council.tools." + tool.replace("-", "_")).main([])
    except Found as it:
        reader = it.args[0]
        assert isinstance(reader, command.Words)
        return reader
    finally:
        setattr(command.Words, "parse_words", kept)
    raise SystemExit(f"tools/tool_pages.py: council-tools {tool} reads no words")


READERS = {tool: find_reader(tool) for tool in tools.TOOLS}
ABOUT = dict(re.findall(r"^    ([a-z-]+)   +(\S.*)$", tools.__doc__, re.M))


def options(tool: str) -> Iterator[tuple[str, str, list[str], str]]:
    """Yields the options of a tool: its longest name, what it says, the words that may come after
    it, and what else may."""
    for it in READERS[tool]._actions:
        if it.option_strings:
            wanted = (it.metavar or it.dest.upper()) if it.nargs != 0 else ""
            yield it.option_strings[-1], it.help or "", [str(word) for word in it.choices or ()], wanted if isinstance(wanted, str) else wanted[0]


def find_repeated(tool: str) -> set[str]:
    """Returns the options of a tool that may be given more than once."""
    return {it.option_strings[-1] for it in READERS[tool]._actions if isinstance(it, argparse._AppendAction)}


def words_of(tool: str) -> list[str]:
    """Returns the words that may come first after a tool, beside options and files."""
    return ["csv", "json", "latex", "markdown"] if tool == "export" else []


# ---- the manual page
def escape(text: str) -> str:
    """Returns a text as roff takes it."""
    text = text.replace("\\", "\\e").replace("-", "\\-")
    return "\\&" + text if text[:1] in (".", "'") else text


def write_paragraphs(text: str) -> Iterator[str]:
    """Yields the lines of a text of paragraphs, of which some are indented and keep their lines."""
    for part in text.strip().split("\n\n"):
        lines = part.split("\n")
        if all(it.startswith("    ") for it in lines):
            yield from [".PP", ".nf", *(escape(it) for it in lines), ".fi"]
        else:
            yield from [".PP", *(escape(it) for it in lines)]


def write_arguments(tool: str) -> Iterator[str]:
    """Yields the lines of the files and options of a tool."""
    for it in READERS[tool]._actions:
        names = ", ".join(it.option_strings) or str(it.metavar)
        wanted = "" if it.nargs == 0 or not it.option_strings else it.metavar or "|".join(map(str, it.choices or ())) or it.dest.upper()
        wanted = wanted if isinstance(wanted, str) else " ".join(wanted)
        yield from [".TP", f".B {escape(names)}" + (f" {escape(wanted)}" if wanted else ""), escape(it.help or "")]


def write_manual() -> Iterator[str]:
    with open(f"{TOP}/docs/council.1", encoding="utf-8") as it:
        date = it.readline().split()[3]
    yield '.\\" Made by tools/tool_pages.py: change what the tools say of themselves.'
    yield f'.TH COUNCIL-TOOLS 1 {date} "council {council.__version__}" "User Commands"'
    yield from [".SH NAME", "council\\-tools \\- tools for games, reports and tables of power indices"]
    yield from [".SH SYNOPSIS", ".B council\\-tools", ".I TOOL", ".RI [ OPTION ]...", ".RI [ FILE ]..."]
    yield from [".SH DESCRIPTION", "Each tool reads files or standard input."]
    for tool in tools.TOOLS:
        yield from [".TP", f".B {escape(tool)}", escape(ABOUT[tool])]
    for tool in tools.TOOLS:
        yield f".SH {escape(tool).upper()}"
        yield from write_paragraphs(READERS[tool].description or "")
        yield from write_arguments(tool)
    yield from [".SH \"EXIT STATUS\"", ".TP", ".B 0", "The tool is done."]
    yield from [".TP", ".B 1", "A file could not be read or written, has another form, or leaves a question that an option answers."]
    yield from [".TP", ".B 2", "The command line is wrong."]
    yield from [".TP", ".B 3, 4, 6", "The program refused a game."]
    yield from [".TP", ".B 5", "Memory ran out."]
    yield from [".SH \"SEE ALSO\"", ".BR council (1),", ".IR docs/GUIDE.md ."]


# ---- completions
def write_bash() -> Iterator[str]:
    yield "# Completions of bash for council-tools: source this file, or put it into"
    yield "# ~/.local/share/bash-completion/completions/ under the name council-tools."
    yield "# Made by tools/tool_pages.py."
    yield "_council_tools() {"
    yield "    local word=${COMP_WORDS[COMP_CWORD]} words="
    yield "    if [[ $COMP_CWORD -eq 1 ]]; then"
    yield f'        mapfile -t COMPREPLY < <(compgen -W "{" ".join(tools.TOOLS)} --help --version" -- "$word")'
    yield "        return"
    yield "    fi"
    yield "    case ${COMP_WORDS[1]}:${COMP_WORDS[COMP_CWORD - 1]} in"
    for tool in tools.TOOLS:
        for name, _, choices, wanted in options(tool):
            if choices:
                yield f'    {tool}:{name}) words="{" ".join(choices)}" ;;'
            elif wanted and wanted not in FILES:
                yield f"    {tool}:{name}) return ;;"
        if words_of(tool):
            yield f'    {tool}:{tool}) words="{" ".join(words_of(tool))}" ;;'
    yield "    esac"
    yield "    if [[ -z $words && $word == -* ]]; then"
    yield "        case ${COMP_WORDS[1]} in"
    for tool in tools.TOOLS:
        yield f'        {tool}) words="{" ".join(name for name, *_ in options(tool))}" ;;'
    yield "        esac"
    yield "    fi"
    yield "    if [[ -n $words ]]; then"
    yield '        mapfile -t COMPREPLY < <(compgen -W "$words" -- "$word")'
    yield "    else"
    yield "        compopt -o filenames 2>/dev/null"
    yield '        mapfile -t COMPREPLY < <(compgen -f -- "$word")'
    yield "    fi"
    yield "}"
    yield "complete -F _council_tools council-tools"


def quote(text: str) -> str:
    """Returns a text as one word of a shell."""
    return "'" + text.replace("'", "'\\''") + "'"


def quote_zsh(name: str, text: str, after: str) -> str:
    return quote(f"{name}[{re.sub(r'([][:])', chr(92) * 3 + '1', text)}]{after}")


def write_zsh() -> Iterator[str]:
    yield "#compdef council-tools"
    yield "# Completions of zsh for council-tools: put this file into a folder of $fpath."
    yield "# Made by tools/tool_pages.py."
    yield "if ((CURRENT == 2)); then"
    yield "    _values tool \\"
    for tool in tools.TOOLS:
        yield f"        {quote_zsh(tool, ABOUT[tool], '')} \\"
    yield "        --help --version"
    yield "    return"
    yield "fi"
    yield "local tool=$words[2]"
    yield "shift words"
    yield "((CURRENT--))"
    yield "case $tool in"
    for tool in tools.TOOLS:
        yield f"{tool})"
        yield "    _arguments \\"
        for name, text, choices, wanted in options(tool):
            after = f":{wanted.lower()}:({' '.join(choices)})" if choices else f":{wanted.lower()}:" + ("_files" if wanted in FILES else "") if wanted else ""
            after += ":other:" if name == "--same" else ""
            yield f"        {quote_zsh(('*' if name in find_repeated(tool) else '') + name, text, after)} \\"
        if words_of(tool):
            yield f"        '1:format:({' '.join(words_of(tool))})' \\"
        yield "        '*:file:_files'"
        yield "    ;;"
    yield "esac"


def write_fish() -> Iterator[str]:
    yield "# Completions of fish for council-tools: put this file into ~/.config/fish/completions/."
    yield "# Made by tools/tool_pages.py."
    for tool in tools.TOOLS:
        yield f"complete -c council-tools -f -n __fish_use_subcommand -a {tool} -d {quote(ABOUT[tool])}"
    for tool in tools.TOOLS:
        here = f"complete -c council-tools -n '__fish_seen_subcommand_from {tool}'"
        for name, text, choices, wanted in options(tool):
            after = f" -x -a {quote(' '.join(choices))}" if choices else "" if not wanted else " -r -F" if wanted in FILES else " -x"
            yield f"{here} -l {name.lstrip('-')}{after} -d {quote(text)}"
        if words_of(tool):
            yield f"{here} -a {quote(' '.join(words_of(tool)))}"


PAGES: dict[str, Callable[[], Iterator[str]]] = {
    "docs/council-tools.1": write_manual,
    "completions/council-tools.bash": write_bash,
    "completions/_council-tools": write_zsh,
    "completions/council-tools.fish": write_fish,
}


def main(args: list[str]) -> int:
    reader = argparse.ArgumentParser(prog="tools/tool_pages.py", description=__doc__, formatter_class=argparse.RawDescriptionHelpFormatter)
    reader.add_argument("--check", action="store_true", help="write nothing")
    words = reader.parse_args(args)
    differ = []
    for page, write in PAGES.items():
        path, text = os.path.join(TOP, page), "".join(f"{line}\n" for line in write())
        if not words.check:
            with open(path, "w", encoding="utf-8", newline="\n") as file:
                file.write(text)
        elif not os.path.exists(path) or open(path, encoding="utf-8").read() != text:
            differ.append(page)
    if differ:
        print(f"tools/tool_pages.py makes other pages: {', '.join(differ)}")
    return int(bool(differ))


if __name__ == "__main__":
    sys.exit(main(sys.argv[1:]))
