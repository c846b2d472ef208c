# SPDX-License-Identifier: MIT OR Apache-2.0
# Takes inventories in YAML and JSON: Ansible's own form with groups inside one another, and that of programs.
from __future__ import annotations

from typing import TYPE_CHECKING, List, Optional, Tuple

from .inventory_names import NameFault, host_names
from .nodes import Mapping, Node, Record, Scalar, Sequence, as_value, as_values, is_nothing, is_text
from .problems import Place, Problem

if TYPE_CHECKING:
    from .inventory import Inventory


def is_listed(node: Mapping) -> bool:
    """Whether it has the form of `ansible-inventory --list`: groups that list names."""
    return "_meta" in node or any(isinstance(part, Sequence) or isinstance(part, Mapping) and any(
        isinstance(part.get(key), Sequence) for key in ("hosts", "children")) for part in node.pairs.values())


def take_listed(inventory: "Inventory", value: Record) -> None:
    for name, group in value.items():
        if name == "_meta":
            continue
        group = {"hosts": group} if isinstance(group, list) else group
        if not isinstance(group, dict):
            raise Problem(None, f"the group '{name}' of the inventory is neither a list nor a mapping")
        inventory.add_hosts(name, names_in(group, "hosts", name))
        inventory.group(name)["vars"].update(mapping_in(group, "vars", name))
        for child in names_in(group, "children", name):
            inventory.add_child(name, child)
    hosts = mapping_in(mapping_in(value, "_meta", "_meta"), "hostvars", "_meta")
    for host in hosts:
        inventory.hosts.setdefault(host, {}).update(mapping_in(hosts, host, "hostvars"))


def names_in(group: Record, key: str, name: str) -> List[str]:
    """The texts of a list, of nothing none."""
    found = group.get(key) or []
    names = [one for one in found if isinstance(one, str)] if isinstance(found, list) else None
    if names is None or names != found:
        raise Problem(None, f"`{key}` of '{name}' in the inventory is no list of names")
    return names


def mapping_in(group: Record, key: str, name: str) -> Record:
    found = group.get(key) or {}
    if not isinstance(found, dict):
        raise Problem(None, f"`{key}` of '{name}' in the inventory is no mapping")
    return found


def take_groups(inventory: "Inventory", node: Mapping) -> None:
    """Ansible's own YAML form: groups inside one another, hosts as keys."""
    for name, group in node.pairs.items():
        take_group(inventory, name, group)


def take_group(inventory: "Inventory", name: str, node: Node) -> None:
    inventory.group(name)
    if is_nothing(node):
        return
    if not isinstance(node, Mapping):
        raise Problem(node.place, f"the group '{name}' is no mapping")
    for pattern, given in pairs_of(node.get("hosts"), "hosts"):
        take_hosts(inventory, name, pattern, given, node.place)
    for variable, value in pairs_of(node.get("vars"), "vars"):
        inventory.group(name)["vars"][variable] = as_value(value)
    for child, group in pairs_of(node.get("children"), "children"):
        if name != "all":
            inventory.add_child(name, child)
        take_group(inventory, child, group)


def take_hosts(inventory: "Inventory", group: str, pattern: str, given: Node, place: Place) -> None:
    try:
        names, port = host_names(pattern)
    except NameFault as error:
        raise Problem(place, str(error)) from None
    if not isinstance(given, Mapping) and as_value(given):
        raise Problem(given.place, f"the variables of '{pattern}' are no mapping")
    for name in names:
        inventory.add_host(group, name, port)
        inventory.hosts[name].update(as_values(given) if isinstance(given, Mapping) else {})


def pairs_of(node: Optional[Node], what: str) -> List[Tuple[str, Node]]:
    if node is None or is_nothing(node):
        return []
    if is_text(node):
        return [(node.value, Scalar(None, node.place))]
    if not isinstance(node, Mapping):
        raise Problem(node.place, f"`{what}` is a mapping in an inventory of this form")
    return list(node.pairs.items())
