"""The man pages and the completions of all commands, made from the program's own help and tools/before.txt."""
import re
import subprocess
from typing import Dict, Iterable, List, NamedTuple, Tuple

import tree

FILES = ("DUMP", "SCRIPT", "FILE", "OLD")
# A row of a part of the help: what it is about, and what is told of it, where that doesn't begin on the next line.
ROW = re.compile(r" {2,6}(\S.*?)(?: {2,}(\S.*))?$")
Rows = List[Tuple[str, str]]


class Option(NamedTuple):
    """An option, the names of its values, and what it does."""

    name: str
    values: List[str]
    does: str


class Command(NamedTuple):
    """A command of the program, as its help tells it."""

    name: str
    usage: str
    does: str
    arguments: Rows
    options: List[Option]
    exits: Rows
    page: str  # one of docs/, or nothing


def rows(lines: Iterable[str]) -> Rows:
    """The rows of a part of a help, up to the first empty line."""
    found: Rows = []
    for line in lines:
        row = ROW.match(line)
        if not line:
            break
        if row:
            found.append((row[1], row[2] or ""))
        elif found:
            name, told = found[-1]
            found[-1] = (name, f"{told} {line.strip()}".strip())
    return found


def part(text: str, head: str) -> Rows:
    """The rows behind a head of a help; none where it hasn't that head."""
    found = re.search(rf"(?m)^{head}.*:\n", text)
    return rows(text[found.end() :].splitlines()) if found else []


def told_by(program: str, *words: str) -> str:
    """What a program tells of itself. Fails where it ends with another status than 0."""
    return subprocess.run([program, "help", *words], stdout=subprocess.PIPE, universal_newlines=True, check=True).stdout


def command(program: str, name: str) -> Command:
    """What the program tells of one of its commands."""
    text = told_by(program, name)
    options = [
        Option(re.search(r"--[a-z-]+", shown)[0], re.findall(r"<([^>]+)>", shown), does)
        for shown, does in part(text, "Options")
    ]
    page = re.search(r"(?m)^more: docs/(\S+)$", text)
    return Command(
        name,
        re.search(r"(?m)^Usage: factoplan (.*)$", text)[1],
        text.splitlines()[0],
        part(text, "Arguments"),
        [option for option in options if option.name not in ("--help", "--version")],
        part(text, "Exit status"),
        page[1] if page else "",
    )


def commands(program: str) -> List[Command]:
    """All commands of a program, but for `help`."""
    return [command(program, name) for name, _ in part(told_by(program), "Commands") if name != "help"]


def before() -> Rows:
    """What may stand before a command."""
    return part((tree.TOP / "tools" / "before.txt").read_text(encoding="utf-8"), "Before")


def before_names() -> List[str]:
    """The options that may stand before a command."""
    return [name for shown, _ in before() for name in re.findall(r"--[a-z-]+", shown)]


def day() -> str:
    """The day of the version, as CHANGELOG.md has it."""
    text = (tree.TOP / "CHANGELOG.md").read_text(encoding="utf-8")
    return re.search(rf"(?m)^## {re.escape(tree.version())}, (\S+)", text)[1]


def roff(text: str) -> str:
    """A text as a line of a man page."""
    text = text.replace("\\", "\\e").replace("-", "\\-").replace("`", "")
    return f"\\&{text}" if text.startswith((".", "'")) else text


def page_head(name: str, about: str) -> List[str]:
    return [
        f'.TH {name.upper()} 1 "{day()}" "factoplan {tree.version()}" "User commands"',
        ".SH NAME",
        f"{roff(name)} \\- {roff(about)}",
        ".SH SYNOPSIS",
    ]


def list_of(head: str, found: Rows) -> List[str]:
    """A part of a man page with a row for each; nothing where there is none."""
    lines = [f".SH {head}"] if found else []
    for shown, does in found:
        lines += [".TP", f".B {roff(shown)}", roff(does)]
    return lines


def command_page(it: Command) -> str:
    """The man page of a command."""
    lines = page_head(f"factoplan-{it.name}", it.does) + [f".B factoplan {roff(it.usage)}"]
    lines += [".SH DESCRIPTION", f"{roff(it.does)}."]
    lines += list_of("ARGUMENTS", it.arguments)
    lines += list_of("OPTIONS", [(" ".join([option.name, *option.values]), option.does) for option in it.options])
    lines += list_of("EXIT STATUS", it.exits)
    lines += [".PP" if it.exits else ".SH EXIT STATUS", ".BR factoplan (1)", "has those of all commands."]
    if it.page:
        lines += [".SH FILES", f".I /usr/share/doc/factoplan/docs/{roff(it.page)}"]
    lines += [".SH SEE ALSO", ".BR factoplan (1)"]
    return "\n".join(lines) + "\n"


def main_page(program: str, found: List[Command]) -> str:
    """The man page of the whole."""
    text = told_by(program)
    lines = page_head("factoplan", text.splitlines()[0])
    for it in found:
        lines += [f".B factoplan {roff(it.usage)}", ".br"]
    lines += [".SH DESCRIPTION", "Each command has a page of its own, as", ".BR factoplan\\-run (1)."]
    for line in re.search(r"(?ms)^DUMP is .*?(?=\n\n)", text)[0].splitlines():
        lines.append(roff(line))
    lines += list_of("COMMANDS", [(it.name, it.does) for it in found])
    lines += list_of("BEFORE A COMMAND", before())
    lines += list_of("EXIT STATUS", part(text, "Exit status"))
    lines += [
        ".SH ENVIRONMENT",
        ".TP",
        ".B XDG_CACHE_HOME",
        "where a checkout unpacks its release, as the folder factoplan; ~/.cache by default",
        ".SH SEE ALSO",
        *(f".BR factoplan\\-{roff(it.name)} (1){'' if it is found[-1] else ','}" for it in found),
    ]
    return "\n".join(lines) + "\n"


def man_pages(program: str, found: List[Command]) -> Dict[str, str]:
    """Each man page by its file's name."""
    return {
        "factoplan.1": main_page(program, found),
        **{f"factoplan-{it.name}.1": command_page(it) for it in found},
    }


def bash(found: List[Command]) -> str:
    cases = "\n".join(
        f"    {it.name}) options='{' '.join([*(option.name for option in it.options), '--help'])}' ;;" for it in found
    )
    return f"""# bash completion of factoplan, made by tools/manual.py
_factoplan() {{
  local here=${{COMP_WORDS[COMP_CWORD]}} word= options= at
  for ((at = 1; at < COMP_CWORD; at++)); do
    case ${{COMP_WORDS[at]}} in
      -*) ;;
      help) [ "$at" = $((COMP_CWORD - 1)) ] || return ;;
      *) word=${{COMP_WORDS[at]}}; break ;;
    esac
  done
  if [ -z "$word" ]; then
    mapfile -t COMPREPLY < <(compgen -W '{' '.join(it.name for it in found)} help {' '.join(before_names())}' -- "$here")
    return
  fi
  case $word in
{cases}
  esac
  if [[ $here = -* ]]; then
    mapfile -t COMPREPLY < <(compgen -W "$options" -- "$here")
  else
    mapfile -t COMPREPLY < <(compgen -f -- "$here")
  fi
}}
complete -o filenames -F _factoplan factoplan
"""


def quoted(text: str) -> str:
    return text.replace("'", "'\\''")


def zsh_option(option: Option) -> str:
    told = quoted(option.does).replace("[", "(").replace("]", ")")
    values = "".join(f":{value}:{'_files' if value in FILES else ' '}" for value in option.values)
    return f"'{option.name}[{told}]{values}'"


def zsh(found: List[Command]) -> str:
    told = "\n".join(f"    '{it.name}:{quoted(it.does)}'" for it in found)
    cases = "\n".join(
        f"    {it.name}) _arguments {' '.join([*map(zsh_option, it.options), ''])}'--help[tells of this command]' '*:file:_files' ;;"
        for it in found
    )
    first = " ".join(zsh_option(Option(name, [], "before a command")) for name in before_names())
    return f"""#compdef factoplan
# zsh completion of factoplan, made by tools/manual.py
_factoplan_command() {{
  case $1 in
    help) _describe command commands_of_factoplan ;;
{cases}
  esac
}}
_factoplan() {{
  local -a commands_of_factoplan
  commands_of_factoplan=(
{told}
    'help:tells of a command'
  )
  local curcontext=$curcontext state line
  _arguments -C {first} '1: :->command' '*:: :->rest'
  case $state in
    command) _describe command commands_of_factoplan ;;
    rest) _factoplan_command $line[1] ;;
  esac
}}
_factoplan "$@"
"""


def fish(found: List[Command]) -> str:
    lines = ["# fish completion of factoplan, made by tools/manual.py"]
    for name in before_names():
        lines.append(f"complete -c factoplan -n __fish_use_subcommand -l {name[2:]} -d 'before a command'")
    lines.append("complete -c factoplan -n __fish_use_subcommand -f -a help -d 'tells of a command'")
    for it in found:
        lines.append(f"complete -c factoplan -n __fish_use_subcommand -f -a {it.name} -d '{quoted(it.does)}'")
        for option in it.options:
            takes = " -r" if option.values else ""
            takes += " -F" if option.values and option.values[0] in FILES else ""
            lines.append(
                f"complete -c factoplan -n '__fish_seen_subcommand_from {it.name}' -l {option.name[2:]}{takes} -d '{quoted(option.does)}'"
            )
    return "\n".join(lines) + "\n"
