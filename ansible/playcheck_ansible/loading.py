# SPDX-License-Identifier: MIT OR Apache-2.0
# Reads a book: its plays, those that it imports, and their files of variables.
from __future__ import annotations

import os
from dataclasses import replace
from typing import List, Optional, Tuple, Union

from .books import Book, Play, Raw, Step, Task, items_of
from .contexts import Context, Count
from .looking_up import note_collections
from .nodes import (Mapping, Node, Pairs, Scalar, Sequence, as_node, as_value, has_template, is_nothing, is_text,
                    items_or_one)
from .positions import read_file
from .precedence import Given, Source
from .problems import Place, Problem
from .steps import MOST_INCLUDES, found_file, include_key, left_include, put_role_parts, role_blocks, steps_of
from .tags import tags_of

# The profile has so many lines at most.
MOST_STEPS = 4096


def load_book(path: str) -> Book:
    book = Book(path, *plays_of(read_file(path), path, (), Count()))
    steps = sum(1 for play in book.read_plays() for _ in play.steps())
    if steps > MOST_STEPS:
        raise Problem(Place(path), f"more than {MOST_STEPS:,} tasks and blocks, with what its aliases stand for")
    note_collections(book)
    return book


def plays_of(node: Node, path: str, open_files: Tuple[str, ...],
             count: Count) -> Tuple[List[Play | Raw], Optional[Node]]:
    """The plays of a file, or none and the node itself where it is no list."""
    if not isinstance(node, Sequence):
        return [], node
    plays: List[Union[Play, Raw]] = []
    for item in node.items:
        key = include_key(item, ("import_playbook",))
        if isinstance(item, Mapping) and key:
            plays += imported_plays(item, key, path, open_files, count)
        else:
            plays.append(play_of(item, path, count) if isinstance(item, Mapping) else Raw(item))
    return plays, None


def imported_plays(item: Mapping, key: str, path: str, open_files: Tuple[str, ...], count: Count) -> List[Play | Raw]:
    named = item.get(key)
    if not is_text(named) or has_template(named.value):
        return [left_play(item, key)]
    target = os.path.join(os.path.dirname(path), named.value.strip())
    if target in open_files or len(open_files) >= MOST_INCLUDES:
        raise Problem(named.place, f"{named.value} is imported in itself")
    count.add(named.place)
    try:
        node = read_file(target)
    except Problem as problem:
        raise Problem(named.place, f"what is imported can't be read: {problem}") from None
    plays, other = plays_of(node, target, (*open_files, path, target), count)
    if other is not None:
        raise Problem(other.place, "an imported playbook has to be a list of plays")
    for play in plays:
        add_words(play, item, key)
    return plays


def left_play(item: Mapping, key: str) -> Play:
    """In the place of a playbook whose name isn't known: a play with a task that isn't judged."""
    task = Task(Mapping({key: item[key]}, item.place, {key: item.keys[key]}), item.place)
    words = {"hosts": as_node("all", item.place), "gather_facts": as_node(False, item.place)}
    tasks: List[Step] = [left_include(task, "`import_playbook` with a name that is no literal text")]
    return Play(Mapping(words, item.place), item.place, {"tasks": tasks})


def add_words(play: Play | Raw, item: Mapping, key: str) -> None:
    """Gives an imported play what stands beside its import."""
    if isinstance(play, Raw):
        return
    for word, part in item.pairs.items():
        if word == "vars" and isinstance(part, Mapping):
            play.given.append(Given(Source.PLAY, part.pairs))
        elif word == "when":
            play.reason = play.reason or "it is imported under a condition"
        elif word == "tags":
            tags = sorted(tags_of(item) | tags_of(play.words))
            play.words.put("tags", as_node(tags, part.place))
        elif word not in (key, "name"):
            play.evaluated.append(part)


def play_of(item: Mapping, path: str, count: Count) -> Play:
    words = item.copy()
    name = item.get("name") or item.get("hosts")
    context = Context(path, os.path.dirname(path), str(as_value(name)) if isinstance(name, Scalar) else "", count)
    play = Play(words, item.place, {})
    roles = role_blocks(play, context)
    # In this order Ansible reads what roles the parts of a play import.
    for section in ("handlers", "pre_tasks", "post_tasks", "tasks"):
        nodes = items_of(words.get(section))
        if nodes is not None:
            words.take(section)
            play.sections[section] = steps_of(nodes, replace(context, is_handlers=section == "handlers"))
    if roles:
        play.sections["tasks"] = roles + play.sections.get("tasks", [])
    put_vars_files(play, context)
    put_role_parts(play, context)
    play.late = context.late
    return play


def put_vars_files(play: Play, context: Context) -> None:
    files = items_of(play.words.get("vars_files"))
    for node in files or ():
        play.given.append(Given(Source.VARS_FILES, variables_of(node, play, context)))
    if files is not None:
        play.words.take("vars_files")


def variables_of(node: Node, play: Play, context: Context) -> Pairs:
    """The variables of a file; what can't be read by its name is said, and names may come from it."""
    for choice in items_or_one(node):
        if not is_text(choice) or has_template(choice.value):
            play.unread_files.append((node.place, "a file of variables named by a template: its names aren't known"))
            return {}
        path = found_file(choice.value, context, "vars")
        if path:
            read = read_file(path)
            if isinstance(read, Mapping):
                return read.pairs
            if not is_nothing(read):
                play.unread_files.append((node.place, f"{choice.value} is no mapping: its names aren't known"))
            return {}
    play.unread_files.append((node.place, "a file of variables isn't there: its names aren't known"))
    return {}
