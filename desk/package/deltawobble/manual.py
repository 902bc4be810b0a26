"""The manual page, and completions for bash and zsh: all three made from the help texts of the command.

    python3 -m deltawobble.manual man | bash | zsh     one of them
    python3 -m deltawobble.manual all                  all in one JSON value, by their place below a prefix
"""
from __future__ import annotations

import argparse
import json
import sys
from typing import Iterator

from . import cli
from .version import __version__


def commands() -> Iterator[tuple[str, str, argparse.ArgumentParser]]:
    """Each subcommand: its name, its help, its parser."""
    chosen = next(a for a in cli.parser()._actions if isinstance(a, argparse._SubParsersAction))
    words = {choice.dest: choice.help or "" for choice in chosen._choices_actions}
    for name, parser in chosen.choices.items():
        yield name, words[name], parser


def options(parser: argparse.ArgumentParser) -> list[argparse.Action]:
    return [a for a in parser._actions if a.option_strings]


def operands(parser: argparse.ArgumentParser) -> list[argparse.Action]:
    return [a for a in parser._actions if not a.option_strings and not isinstance(a, argparse._SubParsersAction)]


def helped(parser: argparse.ArgumentParser, action: argparse.Action) -> str:
    """The help of an argument, its %-words filled in."""
    return parser._get_formatter()._expand_help(action) if action.help else ""


def value(action: argparse.Action) -> str:
    """What stands behind an option, or nothing."""
    return "" if action.nargs == 0 else str(action.metavar or (action.dest or "").upper())


# ---- man

def roff(text: str) -> str:
    """A text for roff: its own signs spelt out, and none first in a line."""
    text = text.replace("\\", "\\e").replace("-", "\\-").replace("'", "\\(aq")
    return "\n".join("\\&" + line if line[:1] in (".", "'") else line for line in text.split("\n"))


def man() -> str:
    """The page deltawobble(1)."""
    top = cli.parser()
    lines = ['.TH DELTAWOBBLE 1 "" "deltawobble %s" "User Commands"' % __version__, ".SH NAME", "deltawobble \\- " + roff((top.description or "").rstrip(".").lower()),
             ".SH SYNOPSIS", ".B deltawobble", ".I COMMAND", "[\\fIOPTION\\fR]... [\\fIFILE\\fR]...", ".br", ".B deltawobble \\-\\-version",
             ".SH DESCRIPTION", roff(top.description or ""), ".P",
             roff("A file is raw bytes (.sheet, .net, .bin), commented hex (.hex) or notation (.dw); - is standard input."), ".SH COMMANDS"]
    for name, words, parser in commands():
        lines += command_lines(name, words, parser)
    lines += [".SH EXIT STATUS", roff("0 accepted, 1 refused, 2 wrong use (130 after Ctrl-C, 141 where the reader has gone)."),
              ".SH ENVIRONMENT", ".TP", ".B DELTAWOBBLE_LIBRARY", "another shared library with the calls",
              ".TP", ".B NO_COLOR", "no colour, also on a terminal"]
    return "\n".join(lines) + "\n"


def command_lines(name: str, words: str, parser: argparse.ArgumentParser) -> list[str]:
    files = " ".join("[\\fI%s\\fR]" % roff(a.dest) if a.nargs in ("?", "*") else "\\fI%s\\fR" % roff(a.dest) for a in operands(parser))
    lines = [".SS \\fBdeltawobble %s\\fR [\\fIOPTION\\fR]... %s" % (name, files), roff(words[:1].upper() + words[1:] + ".")]
    for action in operands(parser):
        lines += [".TP", ".I " + roff(action.dest), roff(helped(parser, action))]
    for action in options(parser):
        shown = ", ".join("\\fB%s\\fR" % roff(word) for word in action.option_strings)
        behind = " \\fI%s\\fR" % roff(value(action)) if value(action) else ""
        lines += [".TP", shown + behind, roff(helped(parser, action))]
    example = (parser.epilog or "").removeprefix("example:\n")
    return lines + [".P", "Example:", ".P", ".nf", roff(example), ".fi"]


# ---- completions

def bash() -> str:
    """A completion for bash: subcommands, options, and files elsewhere."""
    lines = ["# completions for bash, made from the help texts of deltawobble %s" % __version__, "_deltawobble() {",
             "    local word=${COMP_WORDS[COMP_CWORD]} words= command= i",
             "    for ((i = 1; i < COMP_CWORD; i++)); do", "        case ${COMP_WORDS[i]} in -*) ;; *) command=${COMP_WORDS[i]}; break ;; esac", "    done",
             "    case $command in", "        '') words='%s --help --version' ;;" % " ".join(name for name, _, _ in commands())]
    for name, _, parser in commands():
        lines.append("        %s) words='%s' ;;" % (name, " ".join(word for a in options(parser) for word in a.option_strings)))
    lines += ["    esac", "    if [[ -z $command || $word == -* ]]; then", '        mapfile -t COMPREPLY < <(compgen -W "$words" -- "$word")', "    else",
              "        compopt -o filenames 2>/dev/null", '        mapfile -t COMPREPLY < <(compgen -f -- "$word")', "    fi", "}",
              "complete -F _deltawobble deltawobble"]
    return "\n".join(lines) + "\n"


def quoted(text: str) -> str:
    """A text inside the single quotes and brackets of a zsh completion."""
    return text.replace("'", "'\\''").replace("[", "\\[").replace("]", "\\]").replace(":", "\\:")


def zsh() -> str:
    """A completion for zsh, with the help of each subcommand and option."""
    lines = ["#compdef deltawobble", "# made from the help texts of deltawobble %s" % __version__, "_deltawobble() {", "  local -a commands", "  commands=("]
    lines += ["    '%s:%s'" % (name, quoted(words)) for name, words, _ in commands()]
    lines += ["  )", "  if ((CURRENT == 2)); then", "    _describe -t commands command commands",
              "    _arguments '--help[help]' '--version[version and hashes]'", "    return", "  fi", "  local command=${words[2]}",
              "  shift words; ((CURRENT--))", "  case $command in"]
    for name, _, parser in commands():
        said = ["'%s[%s]%s'" % (word, quoted(helped(parser, a)), ":%s:_files" % quoted(value(a)) if value(a) else "") for a in options(parser) for word in a.option_strings]
        lines.append("    %s) _arguments %s '*:file:_files' ;;" % (name, " ".join(said)))
    return "\n".join(lines + ["  esac", "}", '_deltawobble "$@"']) + "\n"


#: where each text stands below a prefix
PLACES = {"share/man/man1/deltawobble.1": man, "share/bash-completion/completions/deltawobble": bash, "share/zsh/site-functions/_deltawobble": zsh}

if __name__ == "__main__":
    made = {"man": man, "bash": bash, "zsh": zsh, "all": lambda: json.dumps({place: text() for place, text in PLACES.items()})}
    if len(sys.argv) != 2 or sys.argv[1] not in made:
        sys.exit("python3 -m deltawobble.manual man | bash | zsh | all")
    sys.stdout.write(made[sys.argv[1]]())
