# SPDX-License-Identifier: MIT OR Apache-2.0
# The inventory of a book: groups, hosts and their variables, in the one form that the program reads.
from __future__ import annotations

import os
from typing import Dict, Iterable, Iterator, List, Optional, Set, Tuple, TypedDict

from .nodes import Record, Value, has_template

BASE = ("all", "ungrouped")


class Group(TypedDict):
    """The hosts and the groups that a group lists, and its own variables."""

    hosts: List[str]
    vars: Record
    children: List[str]


class Inventory:
    """Groups, variables of groups and of hosts, as `ansible-inventory --list` has them."""

    def __init__(self) -> None:
        self.groups: Dict[str, Group] = {}
        self.hosts: Dict[str, Record] = {}  # a name to its variables
        self.listed: Set[Tuple[str, str]] = set()  # the hosts and the children that groups list, each with its group
        self.unsettled: Dict[str, str] = {}  # variables of which it isn't known which place wins, with the reason

    def group(self, name: str) -> Group:
        return self.groups.setdefault(name, {"hosts": [], "vars": {}, "children": []})

    def add_hosts(self, group: str, names: Iterable[str]) -> None:
        for name in names:
            self.add_host(group, name)

    def add_host(self, group: str, name: str, port: Optional[int] = None) -> None:
        """Adds a host to a group; a port counts where the host is new."""
        if name not in self.hosts:
            self.hosts[name] = {"ansible_port": port} if port else {}
        self.add_to(self.group(group)["hosts"], group, f"host {name}", name)

    def add_child(self, group: str, child: str) -> None:
        self.add_to(self.group(group)["children"], group, f"group {child}", child)

    def add_to(self, names: List[str], group: str, key: str, name: str) -> None:
        if (group, key) not in self.listed:
            self.listed.add((group, key))
            names.append(name)

    def take_out_of_ungrouped(self) -> None:
        """A host that another group lists is no longer one of `ungrouped`; one of `all` alone is."""
        grouped = {host for name, group in self.groups.items() if name not in BASE for host in group["hosts"]}
        if "ungrouped" in self.groups:
            hosts = self.groups["ungrouped"]["hosts"]
            self.groups["ungrouped"]["hosts"] = [host for host in hosts if host not in grouped]

    def below_itself(self) -> List[Tuple[str, str]]:
        """The parents and children of a ring of groups, where there is one."""
        is_done: Dict[str, bool] = {}
        for start in self.groups:
            path = [(start, iter(self.children_of(start)))] if start not in is_done else []
            while path:
                is_done.setdefault(path[-1][0], False)
                child = next(path[-1][1], None)
                if child is None:
                    is_done[path.pop()[0]] = True
                elif child not in is_done:
                    path.append((child, iter(self.children_of(child))))
                elif not is_done[child]:
                    names = [name for name, _ in path]
                    ring = names[names.index(child):]
                    return list(zip(ring, [*ring[1:], child]))
        return []

    def children_of(self, name: str) -> List[str]:
        return self.groups[name]["children"] if name in self.groups else []

    def json(self) -> Dict[str, object]:
        groups: Dict[str, Dict[str, object]] = {
            name: {key: part for key, part in group.items() if part or key == "hosts"}
            for name, group in self.groups.items()}
        groups.setdefault("all", {"hosts": []})
        listed = {host for group in self.groups.values() for host in group["hosts"]}
        alone = [host for host in self.hosts if host not in listed]
        if alone:
            before = self.groups["ungrouped"]["hosts"] if "ungrouped" in self.groups else []
            groups.setdefault("ungrouped", {})["hosts"] = [*before, *alone]
        return {**groups, "_meta": {"hostvars": {host: given for host, given in self.hosts.items() if given}}}

    def all_hosts(self) -> List[str]:
        """The hosts in the order in which the groups list them."""
        listed = [host for name in sorted(self.groups) for host in self.groups[name]["hosts"]]
        return list(dict.fromkeys([*listed, *self.hosts]))

    def hosts_of(self, name: str) -> List[str]:
        """The hosts of a group with those of its children, each group once, or of a host itself."""
        if name == "all":
            return self.all_hosts()
        if name not in self.groups:
            return [name] if name in self.hosts else []
        found: Dict[str, None] = {}
        seen, waiting = set(), [name]
        while waiting:
            one = waiting.pop()
            if one in self.groups and one not in seen:
                seen.add(one)
                found.update(dict.fromkeys(self.groups[one]["hosts"]))
                waiting += reversed(self.groups[one]["children"])
        return list(found)

    def variables(self) -> Iterator[Tuple[str, Value]]:
        for group in self.groups.values():
            yield from group["vars"].items()
        for given in self.hosts.values():
            yield from given.items()

    def names(self) -> Set[str]:
        return {name for name, _ in self.variables()}

    def all_have(self, name: str) -> bool:
        """Whether each host has a variable, by itself or by a group."""
        having = {host for group, parts in self.groups.items() if name in parts["vars"]
                  for host in self.hosts_of(group)}
        return all(host in having or name in given for host, given in self.hosts.items())

    def opaque_names(self) -> Dict[str, str]:
        """Variables that the program may not read, with the reason."""
        return {name: f"the inventory's '{name}' holds a template or a decimal number"
                for name, value in self.variables() if is_opaque(value)} | self.unsettled


def is_opaque(value: Value) -> bool:
    if isinstance(value, dict):
        return any(is_opaque(part) for part in value.values())
    if isinstance(value, list):
        return any(is_opaque(item) for item in value)
    if isinstance(value, str):
        return has_template(value)
    return isinstance(value, float) or isinstance(value, int) and not -2**63 <= value < 2**63
