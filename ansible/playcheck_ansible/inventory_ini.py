# SPDX-License-Identifier: MIT OR Apache-2.0
# Reads inventories in Ansible's INI form: hosts, groups, children and variables, each fault told by its line.
from __future__ import annotations

import re
import warnings
from typing import TYPE_CHECKING, Dict, List, NoReturn, Optional, Tuple

from .inventory_names import NameFault, host_names
from .inventory_values import value_of, words_of
from .problems import Place, Problem

if TYPE_CHECKING:
    from .inventory import Inventory
    from .nodes import Value

SECTION = re.compile(r"\[([^:\]\s]+)(?::(\w+))?\]\s*(?:#.*)?")
GROUP = re.compile(r"([^:\]\s]+)\s*(?:#.*)?")
ALWAYS = ("all", "ungrouped")
MOST_GROUPS = 1024
MOST_HOSTS = 1024
PRIORITY = "ansible_group_priority"
COMMENTS = (";", "#")


def lines_of(data: bytes, path: str) -> List[str]:
    """The lines of a file as Ansible counts them; those that are comments needn't be UTF-8."""
    if data.startswith(b"\xef\xbb\xbf"):
        raise Problem(Place(path, 1, 1), "a mark of the order of bytes, which Ansible takes for a part of a word")
    try:
        return data.decode("utf-8").splitlines()
    except UnicodeDecodeError:
        return [decoded(line, Place(path, number, 1)) for number, line in enumerate(data.splitlines(), 1)]


def decoded(line: bytes, place: Place) -> str:
    try:
        return "" if line.startswith((b";", b"#")) else line.decode("utf-8")
    except UnicodeDecodeError:
        raise Problem(place, "this line isn't UTF-8") from None


def read_ini(inventory: "Inventory", path: str, data: bytes) -> bool:
    """Adds what a file has, and says whether it has anything."""
    reader = Reader(inventory, path)
    with warnings.catch_warnings():
        warnings.simplefilter("ignore")  # those of Python about values that are no literals
        for number, line in enumerate(lines_of(data, path), 1):
            line = line.strip()
            if line and not line.startswith(COMMENTS):
                reader.take(line, number)
    reader.end()
    return reader.has_anything


class Reader:
    """Takes the lines of a file one by one."""

    def __init__(self, inventory: "Inventory", path: str) -> None:
        self.inventory, self.path = inventory, path
        self.group, self.kind = "ungrouped", "hosts"
        self.number = 0
        self.has_anything = False
        self.awaited: Dict[str, Tuple[int, List[str]]] = {}  # a group to the line and the parents that name it
        self.awaited_by_vars: Dict[str, int] = {}  # a group to the line of its variables
        self.edges: Dict[Tuple[str, str], int] = {}  # a parent and its child to the line that names both

    def fault(self, what: str, number: int = 0) -> NoReturn:
        raise Problem(Place(self.path, number or self.number, 1), what)

    def take(self, line: str, number: int) -> None:
        self.number = number
        self.has_anything = True
        section = SECTION.fullmatch(line)
        if section:
            self.begin(section[1], section[2] or "hosts")
        elif line.startswith("[") and line.endswith("]"):
            self.fault(f"{line} is no section: a name without blanks, and perhaps `:vars` or `:children`")
        elif self.kind == "hosts":
            self.take_hosts(line)
        elif self.kind == "vars":
            self.take_variable(line)
        else:
            self.take_child(line)

    def is_there(self, group: str) -> bool:
        return group in ALWAYS or group in self.inventory.groups

    def begin(self, group: str, kind: str) -> None:
        """A section: its group is there from now on, but variables alone don't declare it."""
        if kind not in ("hosts", "vars", "children"):
            self.fault(f"the section [{group}:{kind}] has an unknown kind: `vars` and `children` are known")
        self.group, self.kind = group, kind
        if not self.is_there(group):
            if kind == "vars" and group not in self.awaited:
                self.awaited_by_vars[group] = self.number
            self.inventory.group(group)
            if len(self.inventory.groups) > MOST_GROUPS:
                self.fault(f"more than {MOST_GROUPS:,} groups")
        if kind != "vars":
            line, parents = self.awaited.pop(group, (0, []))
            for parent in parents:
                self.add_child(parent, group, line)
            self.awaited_by_vars.pop(group, None)

    def take_hosts(self, line: str) -> None:
        try:
            words = words_of(line)
            names, port = host_names(words[0])
            variables = [self.assigned(word) for word in words[1:]]
        except NameFault as error:
            self.fault(str(error))
        except ValueError as error:
            self.fault(f"this host can't be read: {error}")
        if words[0].strip().endswith(":") and port is None:
            self.fault(f"{words[0]} ends in `:`, which stands before a port")
        for name in names:
            if not name or name.strip() == "---":
                self.fault("a host without a name" if not name else "`---` begins a file in YAML, not in INI")
            self.add_host(name, port)
            for variable, value in variables:
                self.set_variable(name, variable, value)

    def assigned(self, word: str) -> Tuple[str, Value]:
        name, sign, value = word.partition("=")
        if not sign:
            self.fault(f"a variable as name=value is wanted, not {word}")
        return name, value_of(value)

    def add_host(self, name: str, port: Optional[int]) -> None:
        self.inventory.add_host(self.group, name, port)
        if len(self.inventory.hosts) > MOST_HOSTS:
            self.fault(f"more than {MOST_HOSTS:,} hosts")

    def set_variable(self, owner: str, name: str, value: Value) -> None:
        """A variable of a group of this name, or else of a host."""
        if not self.is_there(owner):
            self.inventory.hosts[owner][name] = value
            return
        if name == PRIORITY:
            value = self.priority(value)
        self.inventory.group(owner)["vars"][name] = value

    def priority(self, value: Value) -> int:
        try:
            if isinstance(value, (int, float, str)):
                return int(value)
        except (ValueError, OverflowError):
            pass
        self.fault(f"`{PRIORITY}` is no whole number")

    def take_variable(self, line: str) -> None:
        name, sign, text = line.partition("=")
        if not sign:
            self.fault(f"a variable as name=value is wanted, not {line}")
        try:
            self.set_variable(self.group, name.strip(), value_of(text.strip()))
        except ValueError as error:
            self.fault(f"this variable can't be read: {error}")

    def take_child(self, line: str) -> None:
        found = GROUP.fullmatch(line)
        if not found:
            self.fault(f"the name of a group is wanted, not {line}")
        child = found[1]
        if self.is_there(child):
            self.add_child(self.group, child, self.number)
        else:
            self.awaited.setdefault(child, (self.number, []))[1].append(self.group)

    def add_child(self, parent: str, child: str, line: int) -> None:
        if child == "all" or child == parent:
            self.fault(f"the group '{child}' is put below itself", line)
        if (parent, child) not in self.edges:
            self.edges[parent, child] = line
            self.inventory.add_child(parent, child)

    def end(self) -> None:
        """What was named and never declared, and groups that lie below themselves."""
        left = [(line, f"[{parents[-1]}:children] names the group '{child}', which no section declares")
                for child, (line, parents) in self.awaited.items()]
        left += [(line, f"[{group}:vars] is of a group that no section declares")
                 for group, line in self.awaited_by_vars.items()]
        if left:
            line, what = min(left)
            self.fault(what, line)
        below = self.inventory.below_itself()
        if below:
            lines = [self.edges[edge] for edge in below if edge in self.edges]
            self.fault(f"the group '{below[0][0]}' is put below itself", max(lines, default=1))
