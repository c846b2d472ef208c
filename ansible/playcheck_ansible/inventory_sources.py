# SPDX-License-Identifier: MIT OR Apache-2.0
# Reads what `-i` names: a list of hosts, a file in INI, YAML or JSON, a folder of such; programs only where they may.
from __future__ import annotations

import json
import os
import re
from functools import lru_cache
from typing import TYPE_CHECKING

from .ansible_core import READERS, RUN, Trust, run_ansible
from .inventory_names import divided_port
from .inventory_yaml import is_listed, take_groups, take_listed
from .nodes import Mapping, Record, as_value, as_values, is_nothing
from .positions import node_of, read_bytes, text_in
from .printing import told
from .problems import Place, Problem
from .processes import on_path

if TYPE_CHECKING:
    from .inventory import Inventory

SECONDS = 60
YAML_SUFFIXES = (".yml", ".yaml", ".json")
INI_SUFFIXES = (".ini", ".cfg")
# What Ansible passes over in a folder.
PASSED_OVER = re.compile(r"\.|(?:host_vars|group_vars|vars_plugins)$")
PASSED_OVER_SUFFIXES = (".pyc", ".pyo", ".swp", ".bak", "~", ".rpm", ".md", ".txt", ".rst", ".orig", ".ini", ".cfg",
                        ".retry")
MOST_LEVELS = 16
MOST_FILES = 1000
ENCRYPTED = b"$ANSIBLE_VAULT"


def read_source(inventory: "Inventory", path: str, trust: Trust) -> None:
    """Adds what one `-i` gives; where it gives nothing at all, that is told."""
    if "," in path and not os.path.exists(path):
        has_anything = read_host_list(inventory, path)
    elif os.path.isdir(path):
        has_anything = read_folder(inventory, path, trust)
    else:
        has_anything = read_file(inventory, path, trust)
    if not has_anything:
        raise Problem(Place(path), "this inventory has neither hosts nor groups")


def read_host_list(inventory: "Inventory", path: str) -> bool:
    names = [name.strip() for name in path.split(",") if name.strip()]
    for name in names:
        host, port = divided_port(name)
        if "[" in host:  # a range isn't read here: the whole is the name
            host, port = name, None
        inventory.add_host("ungrouped", host, port)
    return bool(names)


def read_folder(inventory: "Inventory", path: str, trust: Trust) -> bool:
    """The files of a folder, each by its kind and in the order of their names' bytes; of a folder in it the same."""
    if (trust.inventory or trust.repository) and on_path("ansible-inventory"):
        return take_asked(inventory, path, trust)
    files = files_of(path, 0)
    for file in files:
        read_file(inventory, file, trust)
    return bool(files)


def files_of(folder: str, levels: int) -> "list[str]":
    if levels > MOST_LEVELS:
        raise Problem(Place(folder), f"more than {MOST_LEVELS} folders inside one another")
    try:
        names = sorted(os.listdir(folder), key=os.fsencode)
    except OSError as error:
        raise Problem(Place(folder), error.strerror or str(error)) from None
    found = []
    for name in names:
        path = os.path.join(folder, name)
        if PASSED_OVER.match(name) or name.endswith(PASSED_OVER_SUFFIXES):
            continue
        found += files_of(path, levels + 1) if os.path.isdir(path) else [path]
        if len(found) > MOST_FILES:
            raise Problem(Place(folder), f"more than {MOST_FILES:,} files")
    return found


def read_file(inventory: "Inventory", path: str, trust: Trust) -> bool:
    data = read_bytes(path)
    if data.startswith(ENCRYPTED):
        raise Problem(Place(path), "this inventory is encrypted")
    if is_program(path, data):
        may_run(path, "a program", trust)
        return take_asked(inventory, path, trust)
    if path.endswith(".toml"):
        return take_asked(inventory, path, trust, "toml")
    if not looks_like_yaml(data, path):
        if trust.repository and on_path("ansible-inventory"):
            return take_asked(inventory, path, trust)
        from .inventory_ini import read_ini  # read where it is wanted: many inventories are YAML

        return read_ini(inventory, path, data)
    return read_yaml(inventory, path, data, trust)


def may_run(path: str, what: str, trust: Trust) -> None:
    if not trust.inventory:
        raise Problem(Place(path), f"this inventory is {what}, which isn't run; {RUN} lets `ansible-inventory` run it")


def is_program(path: str, data: bytes) -> bool:
    """Whether a file would be run: it may be, and it isn't a text without a line that names its program."""
    return os.access(path, os.X_OK) and (data.startswith(b"#!") or b"\0" in data)


def looks_like_yaml(data: bytes, path: str) -> bool:
    """Whether a file is YAML or JSON, by its name, or else by its first line that is no comment."""
    if path.endswith(YAML_SUFFIXES + INI_SUFFIXES):
        return path.endswith(YAML_SUFFIXES)
    lines = (line.strip() for line in data.removeprefix(b"\xef\xbb\xbf").splitlines())
    first = next((line for line in lines if line and not line.startswith((b"#", b";"))), b"")
    return first.startswith((b"{", b"---")) or bool(re.match(rb"[\w'\"-]+\s*:(\s|$)", first))


def read_yaml(inventory: "Inventory", path: str, data: bytes, trust: Trust) -> bool:
    node = node_of(text_in(data, path), path)
    if is_nothing(node):
        return False
    if not isinstance(node, Mapping):
        raise Problem(node.place, "an inventory is a mapping of groups")
    plugin = node.get("plugin")
    if plugin is not None and as_value(plugin):
        may_run(path, f"for the plugin {as_value(plugin)}", trust)
        return take_asked(inventory, path, trust)
    if is_listed(node):
        take_listed(inventory, as_values(node))
    else:
        take_groups(inventory, node)
    return bool(node.pairs)


def take_asked(inventory: "Inventory", path: str, trust: Trust, plugins: str = READERS) -> bool:
    """Adds what `ansible-inventory` says of a file or a folder."""
    value = listing_of(os.path.abspath(path), path, trust, plugins)
    take_listed(inventory, value)
    names = {name for name, group in value.items() if name not in ("_meta", "all", "ungrouped")
             or isinstance(group, list) and group
             or isinstance(group, dict) and (group.get("hosts") or group.get("vars"))}
    meta = value.get("_meta")
    return bool(names) or isinstance(meta, dict) and bool(meta.get("hostvars"))


@lru_cache(64)
def listing_of(path: str, shown: str, trust: Trust, plugins: str) -> Record:
    """What `ansible-inventory` prints; its warnings are told, once for all books."""
    place = Place(shown)
    said, warned, status = run_ansible("ansible-inventory", ["-i", path, "--list"], SECONDS, trust, place, plugins)
    if status:
        raise Problem(place, f"ansible-inventory ended with status {status}: {' '.join(warned.split())[-400:]}")
    for line in filter(str.strip, warned.splitlines()):
        told(f"{shown}: ansible-inventory: {line.strip()}")
    try:
        value = json.loads(said)
    except (ValueError, RecursionError) as error:
        raise Problem(place, f"ansible-inventory printed no JSON: {error}") from None
    if not isinstance(value, dict) or not all(isinstance(part, (dict, list)) for part in value.values()):
        raise Problem(place, "ansible-inventory printed no object of groups")
    return value
