# SPDX-License-Identifier: MIT OR Apache-2.0
# The command line: which words there are, and the status with which it ends.
from __future__ import annotations

import argparse
import errno
import io
import json
import os
import sys
import traceback
from typing import TYPE_CHECKING, List, Tuple

from .ansible_core import passed_over, trust_of
from .baselines import read_baseline, write_baseline
from .checking import Options, check_book, settled
from .codes import section_of
from .command_words import BAD_WORDS, parser
from .folders import SUFFIXES, named_books
from .formats import FORMATS
from .limits import ALLOWANCE, OutOfTime, reason_of
from .loading import load_book
from .looking_up import NOT_INSTALLED, looked_up, used_modules
from .modules import PROFILE, UNKNOWN, ansible_name, read_signatures, short_name
from .nodes import Mapping, Node, Pairs, as_node, is_nothing
from .positions import node_of, read_file
from .printing import told
from .problems import Place, Problem
from .processes import on_path
from .reports import REFUSED, TOO_FEW, UNREAD
from .values import arguments_of

if TYPE_CHECKING:
    from .books import Book
    from .reports import Report

NO_MEMORY = 3
INTERNAL = 70
INTERRUPTED = 130


def main(arguments: List[str]) -> int:
    words = parser().parse_args(arguments)
    try:
        status: int = COMMANDS[words.command](words)
        return status
    except Problem as problem:
        told(problem)
        return problem.status
    except RecursionError:
        told("a file nests too deep")
        return BAD_WORDS
    except (MemoryError, OutOfTime) as end:
        told(reason_of(end))
        return NO_MEMORY


def run(arguments: List[str]) -> int:
    """What the launcher calls: a command within its limits. What nobody thought of has a status of its own."""
    keep_streams_open()
    ALLOWANCE.set()
    try:
        return main(arguments)
    except KeyboardInterrupt:
        return INTERRUPTED
    except Exception as error:
        at = traceback.extract_tb(error.__traceback__)[-1]
        told(f"internal error: {type(error).__name__}: {error} ({os.path.basename(at.filename)}:{at.lineno})")
        return INTERNAL


def keep_streams_open() -> None:
    """Opens what the caller has closed of the three streams, so that no other file gets its number."""
    for number in range(3):
        try:
            os.fstat(number)
        except OSError:
            os.open(os.devnull, os.O_RDWR)  # it gets the lowest number that is free


def write_out(text: str) -> None:
    """Writes to standard output, all of it."""
    try:
        if sys.stdout is None:
            raise OSError(errno.EBADF, os.strerror(errno.EBADF))
        if isinstance(sys.stdout, io.TextIOWrapper):  # the tests have others
            sys.stdout.reconfigure(errors="backslashreplace")
        sys.stdout.write(text)
        sys.stdout.flush()
    except OSError as error:
        os.dup2(os.open(os.devnull, os.O_WRONLY), 1)  # what is left of it isn't tried again at the end
        raise Problem(None, f"the output can't be written: {error.strerror}") from None


def explain(words: argparse.Namespace) -> int:
    write_out(section_of(words.code.upper()))
    return 0


def convert(words: argparse.Namespace) -> int:
    from .converting import warnings_of, write_converted  # read where it is wanted, as in the other commands

    options = options_of(words)
    settler, inventory = settled(words.book, options, *with_lookup([words.book], options, words))
    write_converted(words.output, settler, inventory)
    for warning in warnings_of(settler):
        told(warning)
    return 0


def signatures(words: argparse.Namespace) -> int:
    """Prints the signatures of modules, and says on standard error which of them can't be declared."""
    from .documented import documentation, signatures_of, without_file

    names: List[str] = []
    for name in words.names:
        names += used_modules(load_book(name)) if name.endswith(SUFFIXES) else [short_name(name)]
    names = sorted(set(names) - set(PROFILE))
    trust = trust_of(False, words.trust_repository, words.names)
    declared, left = signatures_of(documentation(names, trust)) if names else ([], {})
    found = {ansible_name(module) for module in declared}
    for name in names:
        if name not in found:
            told(f"the module {name} isn't declared: {left.get(name, UNKNOWN)}")
    write_out(json.dumps([without_file(module) for module in declared], indent=1) + "\n")
    return 0 if declared or not names else BAD_WORDS


def options_of(words: argparse.Namespace) -> Options:
    inventories = [path for group in words.inventory for path in group]
    extra = {}
    for text in words.extra_vars:
        extra.update(variables_of(text))
    for path in words.vars:
        extra.update(variables_in(read_file(path), path))
    modules = read_signatures(words.signatures)
    trust = trust_of(words.run_inventory, words.trust_repository, [*books_in(words), *inventories])
    for what in passed_over(trust):
        told(what)
    return Options(inventories, modules, extra, getattr(words, "go_on", False), words.trust_facts,
                   divided(words.tags), divided(words.skip_tags), trust)


def books_in(words: argparse.Namespace) -> List[str]:
    """The books that a command line names."""
    return [words.book] if "book" in words else list(words.books)


def divided(texts: List[str]) -> Tuple[str, ...]:
    """The tags of options that may be given more than once, each a text with commas."""
    return tuple(word.strip() for text in texts for word in text.split(",") if word.strip())


def variables_of(text: str) -> Pairs:
    """The variables of one `-e`."""
    if text.startswith("@"):
        return variables_in(read_file(text[1:]), text[1:])
    if text.lstrip().startswith(("{", "[")):
        return variables_in(node_of(text, "-e"), "-e")
    found = arguments_of(text)
    if found is None:
        raise Problem(None, f"-e takes name=value, an object in braces or @FILE, not {text!r}")
    return as_node(found, Place("-e")).pairs


def variables_in(node: Node, path: str) -> Pairs:
    if is_nothing(node):
        return {}
    if not isinstance(node, Mapping):
        raise Problem(Place(path), "a mapping of variables is wanted")
    return node.pairs


def with_lookup(paths: List[str], options: Options, words: argparse.Namespace) -> List[Book]:
    """Looks the modules of books up, and answers the book where it is one alone, since it is read by now."""
    read: List[Book] = []
    if words.no_lookup or not on_path("ansible-doc"):
        options.modules.unasked = "`--no-lookup` is given" if words.no_lookup else NOT_INSTALLED
    else:
        names: List[str] = []
        for path in paths:
            ALLOWANCE.begin()
            try:
                read = [load_book(path)]
            except (Problem, MemoryError, OutOfTime):
                continue  # it is told when the book is checked
            names += used_modules(read[0])
        options.modules = looked_up(names, options.modules, told, options.trust)
    if words.trust_returns:
        options.modules = options.modules.trusting()
    return read if len(paths) == 1 else []


def check(words: argparse.Namespace) -> int:
    options = options_of(words)
    options.go_on = words.go_on or words.write_baseline is not None
    for path in words.baseline:
        options.baseline = {**options.baseline, **read_baseline(path)}
    reports, statuses = [], [0]
    named = named_books(words.books)
    book = with_lookup(named.books, options, words)
    for folder in named.bare:
        told(f"{folder}: no playbook is in this folder")
        statuses.append(BAD_WORDS)
    for path in named.books:
        ALLOWANCE.begin()
        try:
            report = check_book(path, options, *book)
        except Problem as problem:
            told(problem)
            statuses.append(problem.status)
            continue
        except (MemoryError, OutOfTime) as end:
            told(f"{path}: {reason_of(end)}")
            statuses.append(NO_MEMORY)
            continue
        report.is_strict, report.min_judged = words.strict, words.min_judged
        reports.append(report)
    reports += named.unread
    write_out(FORMATS[words.format](reports, has_colour(words.color)))
    if words.write_baseline is not None:
        write_baseline(words.write_baseline, reports)
    return status_of(reports, statuses)


def status_of(reports: List[Report], others: List[int]) -> int:
    """The status of all books: what ended without a report comes first, then a refusal, and the others in turn."""
    found = {report.status for report in reports}
    return max(others) or next((status for status in (REFUSED, UNREAD, TOO_FEW) if status in found), 0)


def has_colour(choice: str) -> bool:
    if choice != "auto":
        return choice == "always"
    return sys.stdout is not None and sys.stdout.isatty() and not os.environ.get("NO_COLOR")


COMMANDS = {"check": check, "convert": convert, "explain": explain, "signatures": signatures}
