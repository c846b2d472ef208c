# SPDX-License-Identifier: MIT OR Apache-2.0
# Checks one book: reads it, runs the passes, asks the program, and puts its answer into the words of the files.
from __future__ import annotations

from dataclasses import dataclass, field, replace
from typing import TYPE_CHECKING, List, Optional, Tuple

from .ansible_core import Trust
from .books import Book, Play, Raw, Task
from .codes import OWN_TITLES, TITLES
from .connections import connection_variables
from .documented_facts import documented_facts
from .facts import trust_facts
from .hosts import host_patterns, with_localhost
from .inventory_reading import read_inventories
from .literals import run_literal_passes
from .loading import load_book
from .magic import magic_variables
from .plays import leave_all, run_book_passes
from .program import Answer, Asker
from .reports import Finding, Report, Unjudged
from .reserved_names import lose_reserved, mistaken_names
from .returns import measured
from .settling import Settler
from .skipping import Skips
from .tags import leave_out
from .taint import CUT
from .variables import put_variables

if TYPE_CHECKING:
    from .baselines import Baseline
    from .inventory import Inventory
    from .lines import Line
    from .modules import Modules
    from .nodes import Pairs
    from .problems import Mistake

# What a counted line that no file has is called.
KINDS = {"asked": "task", "facts": "play", "condition": "block"}


@dataclass
class Options:
    inventories: List[str]
    modules: Modules
    extra: Pairs = field(default_factory=dict)
    go_on: bool = False
    trusts_facts: bool = False
    tags: Tuple[str, ...] = ()
    skip_tags: Tuple[str, ...] = ()
    trust: Trust = Trust()  # what of the repository that is checked may be run
    baseline: Baseline = field(default_factory=dict)


def prepared(path: str, options: Options, book: Book) -> Tuple[Book, Inventory]:
    """The book with its passes run, and the inventory that it is judged with."""
    inventory = read_inventories(options.inventories, path, options.trust)
    leave_out(book, options.tags, options.skip_tags)
    plays = book.read_plays()
    for play in plays:
        put_variables(play, inventory)
    run_book_passes(book, options.modules, options.extra)
    connection_variables(book, inventory)
    documented_facts(book, options.trusts_facts)
    run_literal_passes(book, inventory)
    if options.trusts_facts:
        trust_facts(book)
    added = with_localhost(inventory, plays)
    lose_reserved(book, inventory, options.extra)
    mistaken_names(book)
    magic_variables(book, inventory, options.tags, options.skip_tags)
    for play in plays:
        host_patterns(play, inventory, added, bool(options.inventories))
        if play.reason:
            leave_all(play.tasks(), play.reason)
    return book, inventory


def settled(path: str, options: Options, book: Optional[Book] = None) -> Tuple[Settler, Inventory]:
    """The book as it was judged last, with the inventory that it was judged with."""
    options = replace(options, modules=measured(options.modules))
    book, inventory = prepared(path, options, book or load_book(path))
    with Asker(inventory.json(), options.modules.signatures(book)) as asker:
        settler = Settler(book, options.modules, inventory, asker, Skips(options.baseline))
        settler.take_mistakes(finding_of_mistake)
        settler.settle(finding_of, options.go_on)
    return settler, inventory


def check_book(path: str, options: Options, book: Optional[Book] = None) -> Report:
    return report_of(path, settled(path, options, book)[0])


def report_of(path: str, settler: Settler) -> Report:
    tasks = settler.tasks
    report = Report(path, tasks=len(tasks), left_out=len(settler.book.left_out))
    found = numbered(settler)
    report.findings = [one for one in found if one.skip is None]
    report.skipped = [one for one in found if one.skip is not None]
    settler.skips.tell(settler.book, not settler.answer.code)
    report.skip_notes = settler.skips.notes
    refused = {id(line.step) for line, _ in settler.findings if line is not None and line.step is not None}
    for task in tasks:
        reason, place = task.judging.reason, task.judging.reason_place or task.place
        if reason and id(task) not in refused:
            report.unjudged.append(Unjudged(place, task.name, reason, "handler" if task.is_handler else "task"))
    report.notes = [Unjudged(place, "", what) for place, what in settler.notes]
    report.judged = sum(not task.judging.reason or task.judging.reason.startswith(CUT) for task in tasks)
    report.budget = settler.answer.budget
    report.has_bound = not any(task.judging.has_no_bound for task in tasks) and not any(
        found.skip is not None and may_call_more(found, line) for line, found in settler.findings)
    return report


def may_call_more(found: Finding, line: Optional[Line]) -> bool:
    """Whether a task that is left for a silenced finding may lead to more calls than the one in its place."""
    task = line.step if line is not None else None
    is_repeated = isinstance(task, Task) and any(
        word in ("loop", "until", "retries") or word.startswith("with_") for word in task.words.pairs)
    return is_repeated or found.code in ("V05", "V12")


def numbered(settler: Settler) -> List[Finding]:
    """The findings in the order of their counted lines; those of the front end itself get theirs now."""
    numbers = {id(line.step): number for number, line in enumerate(settler.numbered.lines) if line is not None}
    for line, found in settler.findings:
        if line is not None and not found.number:
            found.number = numbers[id(line.step)]
    return sorted((found for _, found in settler.findings), key=lambda found: found.number)


def finding_of(answer: Answer, line: Optional[Line], settler: Settler) -> Finding:
    from .hints import hint  # read where it is wanted: an accepted book has no finding

    found = hint(answer, line, settler)
    source = line.source if line is not None else None
    play = line.play.name if line is not None and line.play is not None else ""
    kind = KINDS.get(line.kind, line.kind) if line is not None else ""
    if isinstance(source, Play):
        kind = "play"
    name = source.name if source is not None and not isinstance(source, Raw) else ""
    host = answer.host if answer.host != "-" else ""
    return Finding(answer.code, TITLES.get(answer.code, "a refusal"), found.place, host, name, play, kind,
                   found.detail, found.help, answer.line)


def finding_of_mistake(mistake: Mistake, line: Line) -> Finding:
    """The finding of what the front end sees itself."""
    play = line.play.name if line.play is not None else ""
    return Finding(mistake.code, OWN_TITLES[mistake.code], mistake.place, "", line.name, play, line.kind,
                   mistake.detail)
