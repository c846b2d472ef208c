# SPDX-License-Identifier: MIT OR Apache-2.0
# Reads the inventories of a book and the files of variables beside them, and puts them together.
from __future__ import annotations

import os
from typing import TYPE_CHECKING, List, Tuple

from .inventory import Inventory
from .inventory_layers import Layers
from .inventory_sources import read_source
from .nodes import Mapping, Record, as_values, is_nothing, is_text
from .positions import read_file
from .problems import Place, Problem

if TYPE_CHECKING:
    from .ansible_core import Trust

SUFFIXES = ("", ".yml", ".yaml", ".json")
MOST_LEVELS = 16


def read_inventories(paths: List[str], book: str, trust: Trust) -> "Inventory":
    """All inventories put together, with what wins on each host where the order of the groups alone wouldn't say so."""
    inventory, layers = put_together(paths, book, trust)
    layers.settle()
    return inventory


def put_together(paths: List[str], book: str, trust: Trust) -> "Tuple[Inventory, Layers]":
    """All inventories, later ones winning, with the variables that stand in files beside them; and what gives them."""
    inventory = Inventory()
    for path in paths:
        read_source(inventory, path, trust)
    inventory.take_out_of_ungrouped()
    layers = Layers(inventory)
    folders = [os.path.dirname(path) if os.path.isfile(path) else path for path in paths if "," not in path]
    for folder in dict.fromkeys([*folders, os.path.dirname(book)]):
        add_variable_files(inventory, folder or ".", layers, folder not in folders)
    return inventory, layers


def add_variable_files(inventory: Inventory, folder: str, layers: Layers, is_of_book: bool) -> None:
    """Adds group_vars and host_vars of a folder, as Ansible reads them."""
    for name in list(dict.fromkeys(["all", *inventory.groups])):
        for given in variable_files(folder, "group_vars", name):
            inventory.group(name)["vars"].update(given)
            layers.add(is_of_book, name, given)
    for name in list(inventory.hosts):
        for given in variable_files(folder, "host_vars", name):
            inventory.hosts[name].update(given)


def variable_files(folder: str, kind: str, name: str) -> List[Record]:
    """The variables of a group or a host: of the first file of its name, or of all files of such a folder."""
    if "/" in name or name in ("", ".", ".."):
        return []
    start = os.path.join(folder, kind, name)
    first = next((start + suffix for suffix in SUFFIXES if os.path.exists(start + suffix)), None)
    if first is None:
        return []
    return [variables_in(path) for path in (files_below(first) if os.path.isdir(first) else [first])]


def files_below(folder: str, levels: int = 0) -> List[str]:
    """The files of a folder of variables, and of the folders in it, in the order of their names."""
    if levels > MOST_LEVELS:
        raise Problem(Place(folder), f"more than {MOST_LEVELS} folders inside one another")
    found: List[str] = []
    for name in sorted(os.listdir(folder)):
        path, suffix = os.path.join(folder, name), os.path.splitext(name)[1]
        if name.startswith(".") or name.endswith("~"):
            continue
        if os.path.isdir(path) and not suffix:
            found += files_below(path, levels + 1)
        elif os.path.isfile(path) and suffix in SUFFIXES:
            found.append(path)
    return found


def variables_in(path: str) -> Record:
    node = read_file(path)
    if is_nothing(node) or is_text(node) and node.value.startswith("$ANSIBLE_VAULT"):
        return {}
    if not isinstance(node, Mapping):
        raise Problem(node.place, "a mapping of variables is wanted")
    return as_values(node)
