# SPDX-License-Identifier: MIT OR Apache-2.0
# The commands with their options, as each says of itself by --help: for completions and pages of the manual.
import argparse
import os
import re
import subprocess
import sys
from pathlib import Path
from typing import Any, NamedTuple

TOP = Path(__file__).resolve().parent.parent
# What stands for a value in a help text, and what completes it; all else is a file.
TAKEN = {"DIR": "folder", "modules": "folder", "TAGS": "text", "forks": "text", "arguments": "text", "timeout": "text",
         "PERCENT": "text", "CODE": "code", "COMMAND": "command"}
HELP_OPTION = re.compile(r"^ +(?:(-\w), )?(--[\w-]+)(?: <(\w+)>)?  +(\S.*)$", re.M)
HELP_ARGUMENT = re.compile(r"^ +[<\[](\w+)[>\]](?:\.\.\.)?  +(\S.*)$", re.M)
HELP_COMMAND = re.compile(r"^  (\w+)  +(\S.*)$", re.M)


class Option(NamedTuple):
    names: tuple[str, ...]
    value: str  # what stands for its value, empty where it takes none
    choices: tuple[str, ...]
    help: str

    def takes(self) -> str:
        """What completes its value: words, a file, a folder or nothing; an empty text where it takes no value."""
        if self.choices:
            return "words"
        return TAKEN.get(self.value, "file") if self.value else ""


class Command(NamedTuple):
    name: str
    help: str
    argument: str  # what stands for its words
    argument_help: str
    is_repeated: bool
    options: tuple[Option, ...]

    def takes(self) -> str:
        return TAKEN.get(self.argument, "file")


class Tool(NamedTuple):
    name: str
    help: str
    commands: tuple[Command, ...]
    options: tuple[Option, ...]


# The front end, by its parser.


def parsed_option(action: argparse.Action) -> Option:
    choices = tuple(str(one) for one in action.choices or ())
    value = "" if action.nargs == 0 else str(action.metavar or action.dest)
    return Option(tuple(action.option_strings), value, choices, action.help or "")


def parsed_options(parser: argparse.ArgumentParser) -> tuple[Option, ...]:
    return tuple(parsed_option(action) for action in parser._actions if action.option_strings)


def parsed_command(name: str, told: str, parser: argparse.ArgumentParser) -> Command:
    words = next(action for action in parser._actions if not action.option_strings)
    return Command(name, told, str(words.metavar), words.help or "", words.nargs == "+", parsed_options(parser))


def front_end() -> Tool:
    sys.path.insert(0, str(TOP / "ansible"))
    from playcheck_ansible.command import parser

    top: argparse.ArgumentParser = parser()
    chosen: Any = next(action for action in top._actions if action.dest == "command")
    told = {action.dest: action.help or "" for action in chosen._choices_actions}
    commands = tuple(parsed_command(name, told[name], one) for name, one in chosen.choices.items())
    return Tool(top.prog, top.description or "", commands, parsed_options(top))


def codes() -> dict[str, str]:
    """Each code with its title."""
    sys.path.insert(0, str(TOP / "ansible"))
    from playcheck_ansible.codes import OWN_TITLES, TITLES

    return {**TITLES, **OWN_TITLES}


# The program, by its help.


def help_of(program: str, *words: str) -> str:
    """The help of a command, which the program prints on standard error."""
    done = subprocess.run([os.path.abspath(program), *words, "--help"], capture_output=True, text=True, check=True)
    return done.stderr


def told_options(text: str) -> tuple[Option, ...]:
    return tuple(Option(tuple(name for name in (short, long) if name), value, (), told)
                 for short, long, value, told in HELP_OPTION.findall(text))


def told_command(program: str, name: str, told: str) -> Command:
    if name == "help":
        return Command(name, told, "COMMAND", "the command that is meant", False, ())
    text = help_of(program, name)
    argument, argument_help = HELP_ARGUMENT.findall(text)[0]
    return Command(name, told, argument, argument_help, False, told_options(text))


def the_program(program: str) -> Tool:
    text = help_of(program)
    listed = HELP_COMMAND.findall(text.partition("Commands:")[2].partition("Options:")[0])
    commands = tuple(told_command(program, name, told) for name, told in listed)
    return Tool("playcheck", text.partition("\n")[0], commands, told_options(text))
