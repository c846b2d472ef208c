# SPDX-License-Identifier: MIT OR Apache-2.0
# Roles with literal names put in place: their tasks, handlers, defaults and variables.
from __future__ import annotations

import os
import re
from dataclasses import dataclass, field
from typing import List, Optional

from .books import Play, Task, items_of
from .contexts import Context, Role
from .flow_words import FLOW, PASSED
from .nodes import (Mapping, Node, Pairs, Scalar, Sequence, as_node, has_template, is_literal, is_nothing, is_text,
                    items_or_one)
from .positions import read_file
from .problems import Place, Problem

SUFFIXES = (".yml", ".yaml", ".json")
# Words beside a role's name that are Ansible's keywords: any other is a variable of the role.
ROLE_WORDS = {"role", "name", "vars", "when", "tags", "any_errors_fatal", "become", "become_exe", "become_flags",
              "become_method", "become_user", "check_mode", "collections", "connection", "debugger", "delegate_facts",
              "delegate_to", "diff", "environment", "ignore_errors", "ignore_unreachable", "module_defaults", "no_log",
              "port", "remote_user", "run_once", "throttle", "timeout"}
INCLUDE_WORDS = {"name", "tasks_from", "vars_from", "defaults_from", "handlers_from", "public", "apply",
                 "allow_duplicates", "rolespec_validate"}


def role_of(node: Node, context: Context, is_include: bool = False) -> Optional[Role]:
    """The role that a node names, or None where it can't be put in place."""
    words = node.copy() if isinstance(node, Mapping) else Mapping({"name": node}, node.place)
    named = words.take("role") or words.take("name")
    words.take("name")
    if not is_text(named) or has_template(named.value):
        return None
    folder = role_folder(named.value.strip(), context)
    if folder is None:
        return None
    if is_include and set(words.pairs) - {"public", "allow_duplicates", "rolespec_validate", "tasks_from"}:
        return None
    start = words.take("tasks_from") if is_include else None
    if start is not None and (not is_text(start) or has_template(start.value)):
        return None
    return read_role(named.value.strip(), folder, words, start.value if start is not None else "main")


def role_folder(name: str, context: Context) -> Optional[str]:
    base = context.book_folder
    places = [os.path.join(start, name) for start in (
        os.path.join(base, "roles"), base, os.path.join(base, "..", "roles"),
        os.path.dirname(os.path.dirname(os.path.dirname(context.file))) or ".")]
    for path in [os.path.normpath(place) for place in [*places, *collection_places(name, context)]]:
        if any(os.path.isdir(os.path.join(path, part)) for part in ("tasks", "handlers", "defaults", "vars", "meta")):
            return path
    return None


def collection_places(name: str, context: Context) -> List[str]:
    """Where a role of a collection may lie: beside the book, in the collections round it, and where Ansible looks."""
    parts = name.split(".")
    if len(parts) != 3 or not all(re.fullmatch(r"\w+", part) for part in parts):
        return []
    above = os.path.abspath(context.file).split(os.sep)
    roots = [os.sep.join(above[:at]) for at, folder in enumerate(above) if folder == "ansible_collections"]
    named = os.environ.get("ANSIBLE_COLLECTIONS_PATH") or os.environ.get("ANSIBLE_COLLECTIONS_PATHS") or ""
    roots += [os.path.join(context.book_folder, "collections"), *filter(None, named.split(os.pathsep)),
              os.path.expanduser("~/.ansible/collections"), "/usr/share/ansible/collections"]
    return [os.path.join(root, "ansible_collections", parts[0], parts[1], "roles", parts[2]) for root in roots]


def read_role(name: str, folder: str, words: Mapping, start: str) -> Role:
    role = Role(name, folder, words)
    role.defaults = pairs_of(role_file(folder, "defaults", "main"))
    role.variables = pairs_of(role_file(folder, "vars", "main"))
    role.tasks_file = role_file(folder, "tasks", start) or ""
    role.tasks = list_of(role.tasks_file)
    role.handlers_file = role_file(folder, "handlers", "main") or ""
    role.handlers = list_of(role.handlers_file)
    meta = role_file(folder, "meta", "main")
    node = read_file(meta) if meta else None
    role.needs = items_of(node.get("dependencies")) or [] if isinstance(node, Mapping) else []
    if isinstance(node, Mapping) and "collections" in node and "collections" not in words:
        words.put("collections", node["collections"])
    put_own_collection(role)
    given = words.get("vars")
    role.beside = dict(given.pairs) if isinstance(given, Mapping) else {}
    role.parameters = {one: part for one, part in words.pairs.items() if one not in ROLE_WORDS | INCLUDE_WORDS}
    return role


def put_own_collection(role: Role) -> None:
    """A role that is named with its collection looks for short names there first."""
    own, dot, _ = role.name.rpartition(".")
    if dot and role.folder.split(os.sep)[-4:-2] == own.split("."):
        others = items_or_one(role.words.get("collections"))
        role.words.put("collections", as_node([own, *others], role.words.place))


def role_file(folder: str, part: str, name: str) -> Optional[str]:
    for suffix in ("", *SUFFIXES):
        path = os.path.join(folder, part, name + suffix)
        if os.path.isfile(path):
            return path
    return None


def pairs_of(path: Optional[str]) -> Pairs:
    node = read_file(path) if path else None
    if node is None or is_nothing(node):
        return {}
    if not isinstance(node, Mapping):
        raise Problem(node.place, "a mapping of variables is wanted")
    return node.pairs


def list_of(path: str) -> List[Node]:
    found = items_of(read_file(path)) if path else []
    if found is None:
        raise Problem(Place(path), "a list of tasks is wanted")
    return found


def block_words(role: Role, place: Place) -> Mapping:
    """The words of the block that stands for a role: what is beside its name; its variables come later."""
    return Mapping({key: part for key, part in role.words.pairs.items()
                    if key in ROLE_WORDS and key not in ("vars", "role", "name")}, place)


def inherit(handler: Task, words: Mapping) -> None:
    """What a handler of a role has from words round the role: conditions before its own, and `ignore_errors`."""
    for word, node in words.pairs.items():
        own = handler.words.get(word)
        is_off = isinstance(node, Scalar) and node.value in (False, None)
        if word == "when":
            handler.words.put(word, Sequence([*items_or_one(node), *items_or_one(own)], node.place))
        elif word == "ignore_errors" and own is None:
            handler.words.put(word, node)
        elif word in (*FLOW, "notify") and not is_off or word in PASSED and not is_literal(node):
            handler.leave(f"`{word}` round its role changes it", node.place)


def put_handlers(play: Play, role: Role, handlers: List[Task]) -> None:
    """Adds a role's handlers to its play, each with its longer name as a topic."""
    there = {handler.name: handler for handler in play.sections.get("handlers", [])
             if isinstance(handler, Task) and handler.name}
    for handler in handlers:
        other = there.get(handler.name)
        if other is not None:
            if handler.place != other.place:
                other.leave(f"two handlers have the name '{handler.name}'")
            elif any(handler.words.get(word) != other.words.get(word) for word in ("when", "ignore_errors")):
                other.leave("its role stands in several places with other words round it")
            other.comes_with = other.comes_with and handler.comes_with
            continue
        handler.folder = role.folder
        if "collections" not in handler.words:
            handler.words.put("collections", role.words.get("collections") or as_node([], handler.place))
        if handler.name:
            topics = items_or_one(handler.words.get("listen"))
            longer = as_node(f"{role.name} : {handler.name}", handler.place)
            handler.words.put("listen", Sequence([*topics, longer], handler.place))
            there[handler.name] = handler
        play.sections.setdefault("handlers", []).append(handler)
