# SPDX-License-Identifier: MIT OR Apache-2.0
# Tasks whose failure their host's play may outlive, and what reads a loop's results behind such a one.
from __future__ import annotations

import re
from typing import Iterable

from .books import Block, Book, Play, Raw, Task, steps_below
from .expressions import read_once
from .names import read_places
from .nodes import Mapping, Node, Scalar, is_text, pairs_in

# Actions call no module: none of their items is unreachable.
ACTIONS = ("debug", "set_fact", "assert", "fail", "meta")
# What each result of a loop has, also where an item was unreachable; and a list of it alone, which reads no field.
OF_ALL = r"\s+is\b|\s*\.\s*(?:changed|failed|skipped|msg)\b|\s*\]\s*\|\s*length\b"
ITEMS_READ = re.compile(rf"(?<!\w)(?P<dot>\.?)\s*\b(?P<name>[A-Za-z_]\w*)\b(?!{OF_ALL})")


def note_outlived(play: Play) -> None:
    """Marks the tasks behind whose failure something of the play still runs, and those that hosts run in no order."""
    is_free = is_word(play, "strategy", "free")
    forced = play.words.get("force_handlers")
    is_forced = forced is not None and not (isinstance(forced, Scalar) and forced.value is False)
    for task in play.tasks():
        task.judging.is_free, task.judging.is_outlived = is_free, is_forced or ignores(task)
    for block in play.blocks():
        if block.parts.get("rescue") or block.parts.get("always") or ignores(block):
            for step in steps_below([block]):
                if isinstance(step, Task):
                    step.judging.is_outlived = True


def is_word(play: Play, word: str, value: str) -> bool:
    node = play.words.get(word)
    return isinstance(node, Scalar) and node.value == value


def ignores(step: "Task | Block") -> bool:
    node = step.words.get("ignore_errors")
    return node is not None and not (isinstance(node, Scalar) and node.value in (False, None))


def leave_readers_of_items(book: Book) -> None:
    """Leaves what reads the items of a loop that is outlived: behind a failed item another may have been unreachable.

    Such a loop counts as failed, and the host goes on with a result that has none of the module's fields.
    """
    loops = {name: task for task in book.tasks() for name in [register_of(task)]
             if name and "loop" in task.words and task.judging.is_outlived and task.module() not in ACTIONS}
    for play in book.plays if loops else ():
        for holder in [play, *play.steps()] if isinstance(play, Play) else ():
            if not isinstance(holder, Raw):
                leave_reader(holder, loops)


def register_of(task: Task) -> str:
    node = task.words.get("register")
    return node.value if is_text(node) else ""


def leave_reader(holder: "Play | Block | Task", loops: "dict[str, Task]") -> None:
    if isinstance(holder, Task):
        found = read_in(holder.words, holder.evaluated, loops)
        if found and loops[found] is not holder:
            holder.leave(told(found, loops))
        return
    for name, node in pairs_in(holder.words.get("vars")).items():
        found = read_in(Mapping({"vars": node}, node.place), (), loops)
        if found:
            holder.lost[name] = f"its value on line {node.place.line} is read where {told(found, loops)}"
    found = read_in(Mapping({key: node for key, node in holder.words.pairs.items() if key != "vars"}, holder.place),
                    holder.evaluated, loops)
    for task in steps_below([holder]) if found and isinstance(holder, Block) else ():
        if isinstance(task, Task):
            task.leave(told(found, loops))


def told(name: str, loops: "dict[str, Task]") -> str:
    return (f"it reads the results '{name}' of the loop on line {loops[name].place.line}, of which one may be "
            "unreachable behind one that failed")


def read_in(words: Mapping, evaluated: Iterable[Node], loops: "dict[str, Task]") -> str:
    """The first of these names whose items an expression may read."""
    for expression, _ in read_places(words, evaluated):
        by_text = "hostvars" in expression or "vars" in expression
        for found in ITEMS_READ.finditer(expression if by_text else read_once(expression).bare):
            if found["name"] in loops and (by_text or not found["dot"]):
                return found["name"]
    return ""
