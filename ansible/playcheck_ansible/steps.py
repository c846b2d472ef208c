# SPDX-License-Identifier: MIT OR Apache-2.0
# Steps of a file as blocks and tasks: imports, includes and roles with literal names are put in place.
from __future__ import annotations

import os
import re
from dataclasses import dataclass, field, replace
from typing import TYPE_CHECKING, Iterable, List, Optional, Set

from .books import PARTS, Block, Play, Raw, Step, Task, items_of, steps_below
from .expressions import read_once
from .modules import INCLUDES, short_name
from .names import given_names, mentioned
from .nodes import Mapping, Node, Scalar, has_template, is_text, pairs_in, texts_of
from .positions import read_file
from .precedence import Given, Source
from .problems import Place, Problem
from .role_variables import all_defaults, exported, given_to_play, given_to_tasks
from .roles import block_words, inherit, put_handlers, role_of

if TYPE_CHECKING:
    from .contexts import Context, Role

MOST_INCLUDES = 32
# What bars an include from being put in place; the rest of its words become those of a block.
BARS_INCLUDE = ("loop", "until", "retries", "register", "loop_control", "async", "args", "notify", "changed_when",
                "failed_when")


def include_key(item: Node, names: Iterable[str]) -> Optional[str]:
    if not isinstance(item, Mapping):
        return None
    return next((key for key in item.pairs if short_name(key) in names), None)


def role_blocks(play: Play, context: Context) -> List[Step]:
    """The roles that a play names, each as a block."""
    roles = items_of(play.words.get("roles"))
    if roles is None:
        return []
    play.words.take("roles")
    found: List[Step] = []
    for node in roles:
        role = role_of(node, context)
        words = Mapping({"include_role": node}, node.place, {"include_role": node.place})
        task = Task(words, node.place, context.play)
        if role is None or role.tasks_file in context.open:
            found.append(left_include(task, "a role"))
        else:
            found.append(role_block(role, node.place, context, True))
            context.listed.append(role)
    return found


def role_block(role: Role, place: Place, context: Context, is_seen_by_all: bool) -> Block:
    """A role as a block: the roles that it needs, then its tasks, under what stands beside its name."""
    context.count.add(place)
    inside = replace(context, file=role.tasks_file or context.file, open=(*context.open, role.tasks_file),
                     is_handlers=False, role_folder=role.folder, is_late=not is_seen_by_all,
                     around=(*context.around, role.words))
    role.around = inside.around
    steps: List[Step] = []
    for node in role.needs:
        needed = role_of(node, inside) if len(inside.open) < MOST_INCLUDES else None
        if needed is None or needed.tasks_file in inside.open:
            words = Mapping({"include_role": node}, node.place, {"include_role": node.place})
            steps.append(left_include(Task(words, node.place, context.play), "a role"))
        else:
            steps.append(role_block(needed, node.place, inside, is_seen_by_all))
            role.needed.append(needed)
    steps += steps_of(role.tasks, inside)
    context.roles.append((role, is_seen_by_all))
    return Block(block_words(role, place), place, {"block": steps}, given=given_to_tasks(role), is_role=True,
                 folder=role.folder)


def put_role_parts(play: Play, context: Context) -> None:
    """The handlers of the roles of a play, and the variables that all of it sees: of those that it names, then imports."""
    for role, is_seen in context.roles:
        inside = replace(context, file=role.handlers_file, is_handlers=True, roles=[])
        handlers = [step for step in steps_of(role.handlers, inside) if isinstance(step, Task)]
        for handler in handlers:
            handler.comes_with = "" if is_seen else role.folder
            for words in reversed(role.around):
                inherit(handler, words)
        put_handlers(play, role, handlers)
    for role in [*context.listed, *context.imported]:
        play.given += given_to_play(role)


def included_role(task: Task, kind: str, key: str, context: Context) -> List[Step]:
    """A role that a task includes, as a block."""
    context = replace(context, around=(*context.around, task.words)) if kind == "import_role" else context
    node = task.words.get(key)
    role = role_of(node, context, True) if isinstance(node, Mapping) and not context.is_handlers else None
    if role is None or role.tasks_file in context.open or len(context.open) >= MOST_INCLUDES:
        return [left_include(task, f"`{kind}`")]
    role.beside = {**role.beside, **pairs_in(task.words.get("vars"))}
    block = role_block(role, task.place, context, kind == "import_role" and not context.is_late)
    note_role(role, kind, context)
    names: Set[str] = set().union(*(given_names(step) for step in tasks_below([block])))
    words = task.words.copy()
    words.take(key)
    bars = [word for word in words.pairs if word in BARS_INCLUDE or word.startswith("with_")]
    if kind == "include_role":
        bars += bars_of_include(words, names, [block])
    if bars:
        return [left_whole(task, kind, bars[0], [block], names)]
    return [included_block(task, kind, words, [block])]


def note_role(role: Role, kind: str, context: Context) -> None:
    """Of a role that a task names: the play sees it from its start on, or from then on, or never."""
    if kind == "import_role" and not context.is_late:
        context.imported.append(role)
    elif kind == "import_role" or is_public(role):
        reason = f"the role {role.name} gives it from some task on"
        for name in all_defaults(role):
            context.late.setdefault(name, (Source.ROLE_DEFAULTS, reason))
        context.late.update(dict.fromkeys(exported(role), (Source.ROLE, reason)))


def is_public(role: Role) -> bool:
    node = role.words.get("public")
    return node is not None and not (isinstance(node, Scalar) and node.value in (False, None))


def left_include(task: Task, what: str) -> Task:
    task.leave(f"{what} isn't put in place")
    task.judging.sets_unknown = task.judging.notifies_any = True
    return task


def found_file(name: str, context: Context, folder: str) -> Optional[str]:
    beside = os.path.dirname(context.file)
    in_role = [os.path.join(context.role_folder, folder)] if context.role_folder else []
    for start in (beside, os.path.join(beside, folder), *in_role, context.book_folder,
                  os.path.join(context.book_folder, folder)):
        path = os.path.join(start, name)
        if os.path.isfile(path):
            return path
    return None


def steps_of(nodes: List[Node], context: Context) -> List[Step]:
    steps: List[Step] = []
    for node in nodes:
        key = include_key(node, INCLUDES)
        if not isinstance(node, Mapping):
            steps.append(Raw(node))
        elif "block" in node:
            steps.append(block_of(node, context))
        elif key:
            steps += included(node, key, context)
        else:
            steps.append(Task(node.copy(), node.place, context.play, context.is_handlers))
    return steps


def block_of(node: Mapping, context: Context) -> Block:
    words, parts = node.copy(), {}
    for part in PARTS:
        nodes = items_of(node.get(part))
        if nodes is not None and part in node:
            words.take(part)
            parts[part] = steps_of(nodes, replace(context, around=(*context.around, words)))
    return Block(words, node.place, parts)


def included(node: Mapping, key: str, context: Context) -> List[Step]:
    """The steps of a file that is imported or included, in the place of the task that names it."""
    task = Task(node.copy(), node.place, context.play, context.is_handlers)
    kind = short_name(key)
    if kind in ("import_role", "include_role"):
        return included_role(task, kind, key, context)
    if kind not in ("import_tasks", "include_tasks"):
        return [left_include(task, f"`{kind}`")]
    name = included_name(node.get(key))
    if name is None:
        return [left_include(task, f"`{kind}` with a name that is no literal text")]
    path = found_file(name, context, "tasks")
    if path is None:
        if kind == "import_tasks":
            raise Problem(node[key].place, f"{name} isn't there")
        return [left_include(task, f"{name} isn't there, so `{kind}`")]
    if path in context.open:
        return [left_include(task, f"{name} includes itself, so it")]
    if len(context.open) >= MOST_INCLUDES:
        return [left_include(task, f"more than {MOST_INCLUDES} files include one another, so {name}")]
    return put_in_place(task, kind, key, path, context)


def included_name(node: Optional[Node]) -> Optional[str]:
    if isinstance(node, Mapping) and set(node.pairs) <= {"file"}:
        node = node.get("file")
    if not is_text(node) or has_template(node.value) or "=" in node.value:
        return None
    return node.value.strip()


def put_in_place(task: Task, kind: str, key: str, path: str, context: Context) -> List[Step]:
    context.count.add(task.place)
    nodes = items_of(read_file(path))
    if nodes is None:
        raise Problem(Place(path), "a list of tasks is wanted")
    is_late = context.is_late or kind == "include_tasks"
    around = (*context.around, task.words) if kind == "import_tasks" else context.around
    inside = replace(context, file=path, open=(*context.open, path), is_late=is_late, around=around)
    steps = steps_of(nodes, inside)
    words = task.words.copy()
    words.take(key)
    bars = [word for word in words.pairs if word in BARS_INCLUDE or word.startswith("with_")]
    if context.is_handlers and (set(words.pairs) - {"name"} or kind == "include_tasks"):
        bars.append("handlers")
    names: Set[str] = set().union(*(given_names(step) for step in tasks_below(steps)))
    if kind == "include_tasks":
        bars += bars_of_include(words, names, steps)
    if bars:
        return [left_whole(task, kind, bars[0], steps, names)]
    if context.is_handlers or kind == "import_tasks" and not set(words.pairs) - {"name"}:
        return steps
    return [included_block(task, kind, words, steps)]


def bars_of_include(words: Mapping, names: Set[str], steps: List[Step]) -> List[str]:
    """What bars an include alone: its condition, and that one host alone runs it."""
    once = words.get("run_once")
    bars = [] if once is None or isinstance(once, Scalar) and once.value in (False, None) else ["run_once"]
    is_asked_late = mentions_any(words.get("when"), names) and not is_asked_once(words, steps)
    return bars + ["when"] * is_asked_late


def included_block(task: Task, kind: str, words: Mapping, steps: List[Step]) -> Block:
    """What stands in the place of a task that names a file or a role: of an include its words aren't its tasks'."""
    block = Block(words, task.place, {"block": steps}, is_include=kind.startswith("include"))
    given = words.get("vars")
    if block.is_include and isinstance(given, Mapping):
        block.given.append(Given(Source.INCLUDE_PARAMETERS, given.pairs))
    if block.is_include:
        block.evaluated += [words.pairs.pop("ignore_errors")] if "ignore_errors" in words else []
        block.is_asked_once = is_asked_once(words, steps)
    return block


def is_asked_once(words: Mapping, steps: List[Step]) -> bool:
    """Whether an include's condition can stand before its tasks: none of them needs to know what it has tested."""
    node = words.get("when")
    texts = texts_of(node) if node is not None else []
    tests = [text.value for text in texts if re.search(r"\b(un)?defined\b", text.value)]
    tested: Set[str] = set().union(*(read_once(text).names for text in tests))
    return bool(texts) and not any(tested & mentioned(step.words) for step in steps_below(steps)
                                   if isinstance(step, (Block, Task)))


def mentions_any(node: Optional[Node], names: Set[str]) -> bool:
    return node is not None and any(read_once(text.value).names & names for text in texts_of(node))


def tasks_below(steps: Iterable[Step]) -> List[Task]:
    return [step for step in steps_below(steps) if isinstance(step, Task)]


def left_whole(task: Task, kind: str, bar: str, steps: List[Step], names: Set[str]) -> Task:
    """An include that can't be put in place, though what it sets and notifies is known."""
    task.leave(f"`{kind}` with `{bar}` isn't put in place")
    task.judging.sets |= names
    for step in tasks_below(steps):
        notified = [text.value for text in texts_of(step.words.get("notify"))]
        task.judging.notified += [name for name in notified if not has_template(name)]
        task.judging.notifies_any = task.judging.notifies_any or step.judging.notifies_any
        task.judging.sets_unknown = task.judging.sets_unknown or step.judging.sets_unknown
    return task
