# SPDX-License-Identifier: MIT OR Apache-2.0
# What compares or passes on an `rc` that is null: that of a command whose folder isn't there, where the host goes on.
from __future__ import annotations

import re
from typing import Iterator, Set, Tuple

from .books import Block, Book, Play, Raw, Task, steps_below
from .expressions import read_once
from .names import expressions_of, read_places
from .nodes import Mapping
from .outlived import register_of

PROGRAMS = ("command", "shell")
REASON = "it reads an 'rc' that is null where the folder of `chdir` isn't there"
# A name that is read as a whole, or its `rc`, or its results.
RC_READ = re.compile(r"(?<!\w)([A-Za-z_]\w*)\b(?!\s+is\b)(?!\s*\.\s*(?!rc\b|results\b)\w)"
                     r"(?!\s*\[\s*['\"](?!rc\b|results\b))")
# What null can't be an operand of.
OPERATORS = re.compile(r"[<>+*/%-]")


def leave_readers_of_null(book: Book) -> None:
    """Leaves what orders or passes on such an `rc`: equality and membership are asked of null too."""
    names = {register_of(task) for task in book.tasks() if gives_null(task)}
    for play in (one for one in book.plays if names and isinstance(one, Play)):
        for step in [play, *play.steps()]:
            if not isinstance(step, Raw) and any(is_read(*place, names) for place in places(step)):
                leave(step)


def gives_null(task: Task) -> bool:
    node = task.words.get(task.module() or "")
    goes_on = task.judging.is_outlived or "failed_when" in task.words or "until" in task.words
    return (task.module() in PROGRAMS and isinstance(node, Mapping) and "chdir" in node and goes_on
            and bool(register_of(task)))


def places(step: Play | Block | Task) -> Iterator[Tuple[str, bool]]:
    """Each expression with whether what it gives goes on under a name."""
    kept = Mapping({key: node for key, node in step.words.pairs.items() if key in ("vars", "set_fact", "loop")},
                   step.place)
    others = Mapping({key: node for key, node in step.words.pairs.items() if key not in kept.pairs}, step.place)
    for node in kept.pairs.values():
        yield from ((expression, True) for expression, _ in expressions_of(node, False))
    yield from ((expression, False) for expression, _ in read_places(others, step.evaluated))


def is_read(expression: str, goes_on: bool, names: Set[str]) -> bool:
    bare = expression if "hostvars" in expression else read_once(expression).bare
    is_found = any(found[1] in names for found in RC_READ.finditer(bare))
    return is_found and (goes_on or OPERATORS.search(read_once(expression).bare) is not None)


def leave(step: Play | Block | Task) -> None:
    if isinstance(step, Task):
        step.leave(REASON)
        return
    given = step.words.get("vars")
    for name in given.pairs if isinstance(given, Mapping) else ():
        step.lost[name] = REASON
    for task in steps_below([step]) if isinstance(step, Block) else ():
        if isinstance(task, Task) and "when" in step.words:
            task.leave(REASON)
