#!/usr/bin/env python3
"""Makes the manual page and the completions for bash, zsh and fish from what the program says by `--help`.

It writes `docs/edgematch.1` and `completions/` here, or below FOLDER. What no help says is in `manual_notes.toml`,
beside this script.
"""
import argparse
import os
import re
import shlex
import subprocess
import tomllib

from check_cases import program_at

HERE = os.path.dirname(os.path.abspath(__file__))
TOP = os.path.dirname(HERE)
# The values that may be completed, by what stands for them in a help.
VALUES = {
    "WHICH": "all board", "SIDES": "3 4", "KIND": "rect triangle hexagon", "BORDER": "frame one free each",
    "ANSWER": "yes no", "WORKERS": "all", "DEPTH": "0 1 2 3 auto",
}
# What begins a list of rows in a help. All else is prose.
HEADINGS = {"Commands:", "Arguments:", "Options:", "Exit status:", "Example:", "Examples:"}


class Help:
    """What `--help` says: of the program, or of one of its commands."""

    def __init__(self, program, *command):
        words = [program, *command, "--help"]
        said = subprocess.run(words, capture_output=True, text=True, check=True).stdout
        self.about, usage, *blocks = said.rstrip("\n").split("\n\n")
        self.usage = usage.removeprefix("Usage: ")
        # The paragraphs, and below each heading the rows: the words on the left, and what is said of them.
        self.prose, self.rows = [], {}
        for block in blocks:
            heading, *lines = block.split("\n")
            if heading in HEADINGS:
                self.rows[heading] = [re.split("  +", it.strip(), maxsplit=1) for it in lines]
            else:
                self.prose.append(" ".join(block.split()))
        self.examples = [it[0] for heading in ("Example:", "Examples:") for it in self.rows.get(heading, [])]
        # The options of the command alone: the name, what stands for its value or "", and what is said of it, without
        # and with the default.
        options = [(*re.match(r"(--\w+)(?: <(.*)>)?$", words).groups(""), said)
                   for words, said in self.rows["Options:"] if words.startswith("--")]
        self.options = [(name, value, re.sub(r" \[default: \w+\]$", "", said), said) for name, value, said in options]
        # The arguments: the name, what has to be before it in zsh, and whether it is a file.
        self.arguments = [(re.sub(r"\W", "", words), "*" if "..." in words else ":" if words[0] == "[" else "",
                           said.startswith("File")) for words, said in self.rows.get("Arguments:", [])]


# ---- the manual page


def roff(text, bold=(), italic=()):
    """A text as the manual has it, with these words in bold or italics, and each sentence in a line of its own."""

    def word(it):
        said = it[0].replace("\\", "\\e").replace("^", "\\(ha")
        bare = it[0].strip(".,:;()")
        # In prose a hyphen is one; in what is typed it is a minus sign.
        said = said if re.fullmatch(r"[a-z]+-[a-z]+\W*", it[0]) else said.replace("-", "\\-")
        kind = "B" if re.fullmatch(r"--[a-z]+", bare) or bare in bold else "I" if bare in italic else None
        bare = bare.replace("-", "\\-")
        return said.replace(bare, f"\\f{kind}{bare}\\fR", 1) if kind else said

    def typed(it):
        return "\\fB" + it[1].replace("-", "\\-").replace(" ", "\u00a0") + "\\fR"

    parts = re.split(r"(`[^`]*`)", text.strip())
    said = "".join(re.sub(r"`(.*)`", typed, it) if it.startswith("`") else re.sub(r"\S+", word, it) for it in parts)
    lines = re.sub(r"(?<=[\w)R]\.) +(?=\S)", "\n", said).replace("\u00a0", " ").split("\n")
    return ["\\&" + it if it.startswith((".", "'")) else it for it in lines]


def paragraphs(text, *how):
    """The paragraphs of a text, each behind a line `.PP`."""
    return [line for it in text.strip().split("\n\n") for line in (".PP", *roff(it, *how))]


def usage_line(usage):
    """A line of the synopsis."""
    words = re.sub(r"([\[<])([A-Z]+)([\]>])", lambda it: (it[0] if it[1] == "[" else it[2]), usage)
    name = re.match(r"edgematch(?: [a-z]+)?", words)[0]
    return f"\\fB{name}\\fR" + re.sub(r"[A-Z]+", lambda it: f"\\fI{it[0]}\\fR", words[len(name):])


def rows(of, *how):
    """A list of words and of what is said of each."""
    for words, said in of:
        yield from (".TP", words, *roff(said, *how))


def command_lines(name, of, notes):
    """What the manual page says of a command."""
    words = [it[0] for it in of.arguments] + [value for _, value, *_ in of.options] + ["A-B/N"]
    yield from (f".SS {name}", *roff(of.about + "."))
    yield from rows([(f"\\fI{re.sub('[^A-Z]', '', word)}\\fR", said) for word, said in of.rows.get("Arguments:", [])])
    signs = [(f"\\fB{it}\\fR" + (f" \\fI{value}\\fR" if value else ""), said) for it, value, _, said in of.options]
    yield from rows([(sign.replace("-", "\\-"), said) for sign, said in signs], (), words)
    for text in [*of.prose, *filter(None, [notes])]:
        yield from paragraphs(text, (), words)
    if "Exit status:" in of.rows:
        yield from (".PP", "Exit status:", *(f"\\fB{it}\\fR, {said}." for it, said in of.rows["Exit status:"]))


def manual(program, top, commands):
    """The manual page."""
    with open(os.path.join(HERE, "manual_notes.toml"), "rb") as file:
        notes = tomllib.load(file)
    version = subprocess.run([program, "--version"], capture_output=True, text=True, check=True).stdout.split()[1]
    # Words aren't cut at the ends of lines, which aren't made equally long.
    yield from (f'.TH EDGEMATCH 1 "2026" "edgematch {version}" "User Commands"', ".nh", ".ad l", ".SH NAME")
    yield f"edgematch \\- {top.about[0].lower()}{top.about[1:]}"
    usages = [usage_line(it.usage) for it in (top, *commands.values())]
    yield from (".SH SYNOPSIS", "\n.br\n".join(usages))
    yield from (".SH DESCRIPTION", *roff(notes["description"]))
    for text in [*top.prose, notes["notes"]]:
        yield from paragraphs(text, {*commands})
    yield ".SH COMMANDS"
    for name, of in commands.items():
        yield from command_lines(name, of, notes["commands"].get(name))
    yield from (".SS help", *roff(dict(top.rows["Commands:"])["help"]))
    yield ".SH OPTIONS"
    yield from rows([(f"\\fB{it}\\fR".replace("-", "\\-"), said) for it, said in top.rows["Options:"]])
    yield from paragraphs(notes["options"])
    yield ".SH EXIT STATUS"
    yield from rows([(f"\\fB{it}\\fR", said) for it, said in top.rows["Exit status:"]], {"find", "generate", "solve", "count"})
    yield from (".SH FILES", *paragraphs(notes["files"])[1:], ".SH EXAMPLES")
    for about, of in [("Checks three texts that come joined", top), *((of.about, of) for of in commands.values())]:
        yield from (*([".PP"] if of is not top else []), *roff(about + ":"), ".PP", ".nf", ".RS 4")
        yield from (it.replace("-", "\\-") for it in of.examples)
        yield from (".RE", ".fi")


# ---- the completions


BASH = """\
# Completion for bash: source this file, or put it where bash-completion looks for it.
# Made by `make docs`.

_edgematch() {{
  local word=${{COMP_WORDS[COMP_CWORD]}} before=${{COMP_WORDS[COMP_CWORD - 1]}} command=${{COMP_WORDS[1]}} words
  COMPREPLY=()
  if [ "$COMP_CWORD" -eq 1 ]; then
    words="{commands} --help --version"
  else
    case $before in
{values}
    esac
    case $command in
{options}
      help) words="{commands}" ;;
    esac
  fi
  case $command in
    {readers})
      if [ "$COMP_CWORD" -gt 1 ] && [ "${{word:0:1}}" != - ]; then
        mapfile -t COMPREPLY < <(compgen -f -- "$word")
        return
      fi
      ;;
  esac
  mapfile -t COMPREPLY < <(compgen -W "$words" -- "$word")
}}

complete -o filenames -F _edgematch edgematch
"""


def bash(_, commands):
    """The completion for bash."""
    valued = {name: value for of in commands.values() for name, value, *_ in of.options if value}
    free = " | ".join(sorted(name for name, value in valued.items() if value not in VALUES))
    values = [f"      {free}) return ;;"]
    for name, value in valued.items():
        if value in VALUES:
            values += [f"      {name})", f'        mapfile -t COMPREPLY < <(compgen -W "{VALUES[value]}" -- "$word")',
                       "        return", "        ;;"]
    options = [f'      {name}) words="{" ".join([*(it[0] for it in of.options), "--help"])}" ;;'
               for name, of in commands.items()]
    readers = [name for name, of in commands.items() if any(is_file for *_, is_file in of.arguments)]
    return BASH.format(commands=" ".join([*commands, "help"]), values="\n".join(values), options="\n".join(options),
                       readers=" | ".join(readers))


ZSH = """\
#compdef edgematch
# Completion for zsh: put this file into a folder of $fpath.
# Made by `make docs`.

_edgematch() {{
  local -a commands
  commands=(
{commands}
  )
  if ((CURRENT == 2)); then
    _describe 'command' commands
    _arguments '(-h --help)'{{-h,--help}}'[Print help]' '(-V --version)'{{-V,--version}}'[Print version]'
    return
  fi
  local command=$words[2]
  shift words
  ((CURRENT--))
  case $command in
{cases}
    help)
      _describe 'command' commands
      ;;
  esac
}}

_edgematch "$@"
"""


def zsh_words(of):
    """What zsh is told of the options and arguments of a command."""
    for name, value, said, _ in of.options:
        yield shlex.quote(f"{name}[{said}]" + (f":{value}:{action(value)}" if value else ""))
    yield "'(-h --help)'{-h,--help}'[Print help]'"
    for name, sign, is_file in of.arguments:
        yield f"'{sign}:{name}:{'_files' if is_file else action(name)}'"


def action(value):
    return f"({VALUES[value]})" if value in VALUES else ""


def zsh(top, commands):
    """The completion for zsh."""
    named = "\n".join(f"    {shlex.quote(f'{name}:{said}')}" for name, said in top.rows["Commands:"])
    ends = " \\\n        "
    cases = [f"    {name})\n      _arguments {ends.join(zsh_words(of))}\n      ;;" for name, of in commands.items()]
    return ZSH.format(commands=named, cases="\n".join(cases))


def fish_lines(top, commands):
    """The lines of the completion for fish."""
    yield "# Completion for fish: put this file into a folder of $fish_complete_path."
    yield from ("# Made by `make docs`.", "")
    for name, said in top.rows["Commands:"]:
        yield f'complete -c edgematch -f -n __fish_use_subcommand -a {name} -d "{said}"'
    yield 'complete -c edgematch -f -n __fish_use_subcommand -s V -l version -d "Print version"'
    yield 'complete -c edgematch -s h -l help -d "Print help"'
    yield ""
    for command, of in commands.items():
        begins = f'complete -c edgematch -n "__fish_seen_subcommand_from {command}"'
        yield from (f'{begins} -f -a "{VALUES[name]}"' for name, *_ in of.arguments if name in VALUES)
        for name, value, said, _ in of.options:
            takes = f' -a "{VALUES[value]}"' if value in VALUES else ""
            yield f'{begins}{" -x" if value else ""} -l {name[2:]}{takes} -d "{said}"'


def main():
    parser = argparse.ArgumentParser(description=__doc__, formatter_class=argparse.RawDescriptionHelpFormatter)
    parser.add_argument("program", type=program_at, metavar="PROGRAM")
    parser.add_argument("--into", default=TOP, metavar="FOLDER")
    given = parser.parse_args()
    top = Help(given.program)
    commands = {name: Help(given.program, name) for name, _ in top.rows["Commands:"] if name != "help"}
    made = {
        "docs/edgematch.1": "\n".join(manual(given.program, top, commands)) + "\n",
        "completions/edgematch.bash": bash(top, commands),
        "completions/_edgematch": zsh(top, commands),
        "completions/edgematch.fish": "\n".join(fish_lines(top, commands)) + "\n",
    }
    for name, text in made.items():
        path = os.path.join(given.into, name)
        os.makedirs(os.path.dirname(path), exist_ok=True)
        with open(path, "w", encoding="utf-8") as file:
            file.write(text)


if __name__ == "__main__":
    main()
