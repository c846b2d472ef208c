# SPDX-License-Identifier: MIT OR Apache-2.0
# The pages of the manual, written out of what the commands say of themselves, with what their help is silent about.
from typing import NamedTuple

from words import Command, Option, Tool


class Prose(NamedTuple):
    """What a page says beside the options: a line, paragraphs, statuses, variables of the environment, an example."""

    line: str
    description: tuple[str, ...]
    statuses: tuple[tuple[str, str], ...]
    environment: tuple[tuple[str, str], ...]
    example: tuple[str, ...]
    see: str


PROGRAM = Prose(
    "verifies Ansible playbooks in JSON form, and runs what it accepts",
    ("check answers, before any host is touched, either \"accepted budget N\" (at most N module calls) or one refusal "
     "with its code, line and host. run runs an accepted playbook and prints a recap.",
     "A line is no line of the file: plays, tasks and handlers are counted. playcheck-ansible(1) reads playbooks in "
     "YAML, and tells the places of their files."),
    (("0", "all is well"), ("1", "a refusal"), ("2", "a task failed"), ("3", "want of memory or of a thread"),
     ("4", "a host couldn't be reached"), ("64", "a bad command line, or a file that can't be read or written")),
    (),
    ("playcheck check book.json -i inventory.json",),
    "playcheck-ansible(1)",
)
FRONT_END = Prose(
    "judges Ansible playbooks in YAML",
    ("check reads playbooks as people write them, with roles, imports and inventories, asks playcheck(1), and puts its "
     "answer into the words of the files. A task with a form that isn't known is told as not judged, and a verdict "
     "never stands without the count of the tasks that are.",),
    (("0", "all books are accepted"), ("1", "a refusal, or with --strict a task that isn't judged"),
     ("3", "want of memory or of time"), ("5", "no task of a book is judged, or fewer than --min-judged wants"),
     ("64", "a bad command line, a file that can't be read, or a folder without a playbook"),
     ("70", "a fault of the program itself")),
    (("PLAYCHECK", "the program that is asked, in the place of the one that stands beside the command"),
     ("NO_COLOR", "where it is set, nothing is printed in colour but for --color always")),
    ("playcheck-ansible check site.yml -i hosts.yml", "playcheck-ansible explain V03"),
    "playcheck(1), ansible-playbook(1)",
)


def roff(text: str) -> str:
    """A text as roff prints it: no sign at the start of a line, and no backslash, is a request."""
    text = text.replace("\\", "\\e").replace("-", "\\-").replace("'", "\\(aq")
    return "\\&" + text if text.startswith(".") else text


def bold(text: str) -> str:
    return f"\\fB{roff(text)}\\fR"


def italic(text: str) -> str:
    return f"\\fI{roff(text)}\\fR"


def tagged(tag: str, text: str) -> list[str]:
    return [".TP", tag, roff(text) if text else "\\&"]


def option_lines(option: Option) -> list[str]:
    value = f" {italic('|'.join(option.choices) or option.value)}" if option.takes() else ""
    return tagged(", ".join(bold(name) for name in option.names) + value, option.help)


def command_lines(command: Command) -> list[str]:
    lines = [f".SS {command.name}", roff(command.help[:1].upper() + command.help[1:]) + "."]
    if command.argument_help:
        lines += tagged(italic(command.argument), command.argument_help)
    return lines + [line for option in command.options for line in option_lines(option)]


def synopsis_of(tool: Tool, command: Command) -> list[str]:
    options = " [options]" if command.options else ""
    repeated = " .." if command.is_repeated else ""
    return [f"{bold(f'{tool.name} {command.name}')}{options} {italic(command.argument)}{repeated}", ".br"]


def section(name: str, lines: list[str]) -> list[str]:
    return [f".SH {name}", *lines] if lines else []


def page(tool: Tool, prose: Prose) -> str:
    """The page of a command, in section 1."""
    paragraphs = [line for text in prose.description for line in (".PP", roff(text))][1:]
    commands = [line for command in tool.commands for line in command_lines(command)]
    examples = [".nf", *(roff(line) for line in prose.example), ".fi"]
    lines = [
        ".\\\" SPDX-License-Identifier: MIT OR Apache-2.0",
        ".\\\" Made by packaging/make_pages.py: change that.",
        f".TH {tool.name.upper()} 1 \"\" playcheck \"User Commands\"",
        *section("NAME", [f"{roff(tool.name)} \\- {roff(prose.line)}"]),
        *section("SYNOPSIS", [line for command in tool.commands for line in synopsis_of(tool, command)][:-1]),
        *section("DESCRIPTION", paragraphs),
        *section("OPTIONS", [line for option in tool.options for line in option_lines(option)]),
        *section("COMMANDS", commands),
        *section("EXIT STATUS", [line for status, told in prose.statuses for line in tagged(bold(status), told)]),
        *section("ENVIRONMENT", [line for name, told in prose.environment for line in tagged(bold(name), told)]),
        *section("EXAMPLES", examples),
        *section("SEE ALSO", [roff(prose.see)]),
    ]
    return "\n".join(lines) + "\n"
