# SPDX-License-Identifier: MIT OR Apache-2.0
# Which words the command line takes.
from __future__ import annotations

import argparse
import re
from typing import NoReturn

from . import __version__
from .ansible_core import RUN, TRUST
from .formats import FORMATS
from .printing import told

BAD_WORDS = 64
EPILOG = """status: 0 all books are accepted, 1 a refusal (or, with --strict, a task that isn't judged),
3 want of memory or of time, 5 no task is judged (or fewer than --min-judged wants),
64 a bad command line or a file that can't be read, 70 a fault of this program"""


class Words(argparse.ArgumentParser):
    def error(self, message: str) -> NoReturn:
        told(f"{message}; --help tells more")
        self.exit(BAD_WORDS)


def percentage(text: str) -> int:
    if not re.fullmatch("[0-9]{1,3}", text) or int(text) > 100:
        raise argparse.ArgumentTypeError(f"a whole number from 0 to 100 is wanted, not {text!r}")
    return int(text)


def parser() -> argparse.ArgumentParser:
    words = Words(prog="playcheck-ansible", description="Judges Ansible playbooks in YAML.", epilog=EPILOG,
                  formatter_class=argparse.RawDescriptionHelpFormatter)
    words.add_argument("-V", "--version", action="version", version=f"playcheck-ansible {__version__}")
    commands = words.add_subparsers(prog=words.prog, dest="command", required=True, metavar="COMMAND",
                                    parser_class=Words)
    check = commands.add_parser("check", help="judges playbooks, or all of a folder")
    check.add_argument("books", nargs="+", metavar="BOOK", help="a playbook, or a folder of playbooks")
    add_inputs(check)
    check.add_argument("--format", choices=sorted(FORMATS), default="text", help="how it is printed (text)")
    check.add_argument("--color", choices=("auto", "always", "never"), default="auto")
    check.add_argument("--strict", action="store_true", help="a task that isn't judged is refused")
    check.add_argument("--min-judged", type=percentage, default=0, metavar="PERCENT",
                       help="which part of a book's tasks has to be judged: 0 to 100 (0)")
    check.add_argument("--all", action="store_true", dest="go_on", help="goes on after a refusal")
    check.add_argument("--baseline", action="append", default=[], metavar="FILE",
                       help="findings that are known: they are counted as skipped, and don't refuse")
    check.add_argument("--write-baseline", metavar="FILE", help="writes the findings as a baseline, as --all finds them")
    convert = commands.add_parser("convert", help="writes the JSON that is judged, and what each counted line is")
    convert.add_argument("book", metavar="BOOK")
    convert.add_argument("-o", "--output", required=True, metavar="DIR", help="the folder, made where it isn't there")
    add_inputs(convert)
    signatures = commands.add_parser("signatures", help="writes signatures out of Ansible's documentation")
    signatures.add_argument("names", nargs="+", metavar="MODULE",
                            help="a module, or a playbook whose modules are meant")
    add_trust(signatures)
    explain = commands.add_parser("explain", help="prints what a code means")
    explain.add_argument("code", metavar="CODE")
    return words


def add_inputs(words: argparse.ArgumentParser) -> None:
    words.add_argument("-i", "--inventory", action="append", default=[], nargs="+", metavar="INVENTORY",
                       help="a file in YAML or JSON, what ansible-inventory reads, or a list of hosts with a comma")
    words.add_argument("-s", "--signatures", action="append", default=[], metavar="FILE", help="declared modules")
    words.add_argument("-e", "--extra-vars", action="append", default=[], metavar="VARS",
                       help="variables: name=value, an object in braces, or @FILE")
    words.add_argument("-t", "--tags", action="append", default=[], metavar="TAGS",
                       help="as Ansible has it: the tasks that a run with these tags takes, the others are left out")
    words.add_argument("--skip-tags", action="append", default=[], metavar="TAGS",
                       help="as Ansible has it: tasks with these tags are left out")
    words.add_argument("--trust-facts", action="store_true", help="all six facts are there where facts are gathered")
    words.add_argument("--trust-returns", action="store_true",
                       help="all fields that a module's documentation names are there in each answer")
    words.add_argument("--no-lookup", action="store_true",
                       help="looks no modules up by ansible-doc, where ansible-core is installed")
    words.add_argument(RUN, action="store_true",
                       help="runs inventories that are programs or that name a plugin; else nothing of them is run")
    add_trust(words)
    words.add_argument("--vars", action="append", default=[], metavar="FILE", help="a file of variables")


def add_trust(words: argparse.ArgumentParser) -> None:
    words.add_argument(TRUST, action="store_true",
                       help="lets Ansible's programs take ansible.cfg, modules, plugins and collections of the "
                            "repository, and run them; else nothing of it is run")
