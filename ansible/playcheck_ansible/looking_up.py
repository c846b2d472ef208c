# SPDX-License-Identifier: MIT OR Apache-2.0
# Looks up the modules of books in Ansible's documentation: one call for all that are neither built in nor declared.
from __future__ import annotations

import re
from typing import Callable, Iterable, Iterator, List

from .ansible_core import TRUST, Trust, own_text
from .books import Block, Book, Holder, Play, Step, Task, is_module
from .modules import INCLUDES, PREFIXES, UNKNOWN, Modules, ansible_name, short_name
from .nodes import Mapping, is_text, texts_of
from .problems import Problem
from .tokens import NAME

SECONDS = 60
# What is no name of a module isn't asked: it might be taken for an option.
MODULE = re.compile(rf"{NAME.pattern}(\.{NAME.pattern})*")
MOST_COLLECTIONS = 16
NOT_INSTALLED = "ansible-doc isn't installed"
FAILED = "ansible-doc failed"


def note_collections(book: Book) -> None:
    """Tells each task the collections in which the short name of its module is looked for: the innermost given ones."""
    for play in book.plays:
        if isinstance(play, Play):
            for section in play.sections.values():
                note_below(section, collections_of(play, []))


def note_below(steps: List[Step], outer: List[str]) -> None:
    for step in steps:
        if isinstance(step, Task):
            step.collections = collections_of(step, outer)
        elif isinstance(step, Block):
            for part in step.parts.values():
                note_below(part, collections_of(step, [] if step.is_role else outer))


def collections_of(holder: Holder, outer: List[str]) -> List[str]:
    node = holder.words.get("collections")
    if node is None:
        return outer
    return [text.value for text in texts_of(node) if text.value + "." not in PREFIXES][:MOST_COLLECTIONS]


def used_modules(book: Book) -> Iterator[str]:
    """The modules that a book's tasks may name, those of `action` too; of a short name those of the collections too."""
    for task in book.tasks():
        for name in named_modules(task):
            yield name
            if "." not in name:
                yield from (f"{one}.{name}" for one in task.collections)


def named_modules(task: Task) -> Iterator[str]:
    for key in task.words.pairs:
        if is_module(key) and short_name(key) not in INCLUDES:
            yield short_name(key)
    for node in (task.words.get(key) for key in ("action", "local_action")):
        named = node.get("module") if isinstance(node, Mapping) else node
        if is_text(named) and named.value.split():
            yield short_name(named.value.split()[0])


def looked_up(names: Iterable[str], modules: Modules, told: Callable[[object], None], trust: Trust) -> Modules:
    """The modules with those of these names that Ansible's documentation has; what fails is told."""
    wanted = sorted({name for name in names if MODULE.fullmatch(name) and not modules.has(name)
                     and name not in modules.written})
    if not wanted:
        return modules
    from .documented import documentation, signatures_of  # read where it is wanted: many books ask nothing

    try:
        documents = documentation(wanted, trust, SECONDS)
    except Problem as problem:
        told(f"modules aren't looked up: {problem}")
        modules.unasked = FAILED
        return modules
    declared, left = signatures_of({name: documents[name] for name in wanted if name in documents})
    found = {ansible_name(module) for module in declared}
    unknown = {name: left.get(name) or reason_of(name, trust) for name in wanted if name not in found}
    return Modules([*modules.declared, *declared], unknown)


def reason_of(name: str, trust: Trust) -> str:
    """Why nothing is known of a module that `ansible-doc` doesn't have."""
    text = own_text(name, trust)
    return f"{text} isn't used; {TRUST} lets ansible-doc read it" if text else UNKNOWN
