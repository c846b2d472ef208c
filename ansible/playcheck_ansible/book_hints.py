# SPDX-License-Identifier: MIT OR Apache-2.0
# What a refusal of a host, a handler or a part of a block is about: hints that look at more of the book than one task.
from __future__ import annotations

import itertools
import re
from typing import TYPE_CHECKING, Iterable, List, Optional

from .books import Play, Raw, Step, Task
from .expressions import read_once
from .hosts import divided
from .names import read_places
from .nodes import Node, Scalar, as_value, texts_of
from .wording import Hint, named, nearest, shown, where

if TYPE_CHECKING:
    from .lines import Line
    from .settling import Settler

HOSTVARS = re.compile(r"hostvars\s*(?:\[\s*['\"]([^'\"]+)['\"]\s*\]|\.\s*(\w+))")
GROUPS = re.compile(r"(?<![\w.])groups\s*(?:\[\s*['\"]([^'\"]+)['\"]\s*\]|\.\s*(\w+))")
OTHER_HOST = re.compile(r"hostvars(?:\[[^\]]*\]|\.\w+)\.\w+")
# Names whose values hang on other hosts.
OTHERS = ("hostvars", "ansible_play_batch")
# Modules that can't fail on a host that gets to them.
NEVER_FAIL = ("debug", "set_fact", "meta")


def unknown_host(task: Task, line: Line, settler: Settler) -> Optional[Hint]:
    """A host or a group that an expression names and the inventory lacks."""
    hosts, groups = settler.inventory.hosts, {*settler.inventory.groups, "all", "ungrouped"}
    for expression, node in read_places(task.words, task.evaluated):
        for pattern, known, what in ((HOSTVARS, hosts, "host"), (GROUPS, groups, "group")):
            for found in pattern.finditer(expression):
                name = found[1] or found[2]
                if name not in known:
                    return Hint(node.place, lacking(name, known, what))
    return None


def unknown_hosts(play: Play, settler: Settler) -> Hint:
    """A word of a play's `hosts` that names nothing."""
    node = play.words["hosts"]
    known = {*settler.inventory.hosts, *settler.inventory.groups, "all", "ungrouped", "localhost"}
    for text in texts_of(node):
        for word in divided(text.value):
            if re.fullmatch(r"[\w.-]+", word) and word not in known:
                return Hint(text.place, lacking(word, known, "host or group"))
    return Hint(node.place, f"hosts: {shown(node)}")


def lacking(name: str, known: Iterable[str], what: str) -> str:
    near = nearest(name, known)
    meant = f". Did you mean '{near}'?" if near else ""
    return f"the inventory has no {what} '{name}'{meant}"


def other_host(task: Task, line: Line, settler: Settler) -> Optional[Hint]:
    """A variable of another host, which may be in another batch."""
    serial = line.play.words.get("serial") if line.play is not None else None
    later = f"be in another batch (serial: {as_value(serial)})" if serial is not None else "not have come so far"
    for expression, node in read_places(task.words, task.evaluated):
        path = OTHER_HOST.search(expression)
        if path:
            return Hint(node.place, f"'{path[0]}': that host may {later}, or may have left the run",
                        f"Guard: when: {path[0]} is defined")
    return None


def judged_by_others(task: Task, line: Line, settler: Settler) -> Optional[Hint]:
    """What hangs on other hosts in the words that judge a result."""
    for key in ("changed_when", "failed_when", "until"):
        for text in texts_of(task.words.get(key)) if key in task.words else ():
            read = [name for name in OTHERS if name in read_once(text.value).names]
            if read:
                return Hint(text.place, f"`{key}` reads '{read[0]}'")
    return None


def second_handler(task: Task, line: Line, settler: Settler) -> Optional[Hint]:
    """A handler with the name of an earlier one."""
    first = next((other for other in line.handlers if other.name == task.name), task)
    place = task.written["name"].place if "name" in task.written else task.place
    return Hint(place, f"it is that of an earlier one{where(first.place, place)}") if first is not task else None


def earlier_handler(task: Task, line: Line, settler: Settler) -> Optional[Hint]:
    """The handler that another one notifies, though it doesn't stand behind it."""
    handlers = line.handlers
    place = next((number for number, other in enumerate(handlers) if other is task), -1)
    for text in texts_of(task.words.get("notify")) if "notify" in task.words else ():
        for other in handlers[:place + 1]:
            if text.value in (other.name, *topics(other)):
                told = "is itself" if other is task else f"stands before it{where(other.place, text.place)}"
                return Hint(text.place, f"what '{text.value}' notifies {told}")
    return None


def topics(handler: Step) -> List[str]:
    return [text.value for text in texts_of(handler.words.get("listen"))] if not isinstance(handler, Raw) else []


def entered_before(name: str, node: Node, reader: Task, giver: Task, settler: Settler) -> str:
    """Of a name that a `rescue` or an `always` reads: the task whose failure leads there before the name is set."""
    for block in settler.blocks_round(reader):
        part = next((part for part in ("rescue", "always") if settler.is_in(reader, block, part)), "")
        if part and settler.is_in(giver, block, "block"):
            before = itertools.takewhile(lambda task: task is not giver, settler.tasks)
            first = next((task for task in before if settler.is_in(task, block, "block") and may_fail(task)), None)
            if first is not None:
                return (f"'{name}' isn't set where {named(first, node.place)} failed: `{part}` is entered before "
                        f"{named(giver, node.place)}")
    return ""


def may_fail(task: Task) -> bool:
    """Whether a failure of a task can lead out of its block."""
    ignores = task.words.get("ignore_errors")
    is_ignored = isinstance(ignores, Scalar) and ignores.value is True and task.judging.ignore_condition is None
    return not is_ignored and task.module() not in NEVER_FAIL
