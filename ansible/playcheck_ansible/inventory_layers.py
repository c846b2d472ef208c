# SPDX-License-Identifier: MIT OR Apache-2.0
# Variables of groups by Ansible's layers: the inventory's own below all files, those of `all` below those of other groups.
from __future__ import annotations

from typing import TYPE_CHECKING, Dict, List, Optional, Set, Tuple

from .nodes import Value
from .precedence import Source

if TYPE_CHECKING:
    from .inventory import Inventory

# So many answers are worked out, and so many written at hosts; past that a name isn't judged.
MOST_ASKED = 1_000_000
MOST_WRITTEN = 65_536
PRIORITY = "ansible_group_priority"

Values = Dict[str, Value]


class Layers:
    """What gives the groups of an inventory their variables, and which of it wins on a host."""

    def __init__(self, inventory: Inventory) -> None:
        self.inventory = inventory
        self.given: Dict[Tuple[Source, str], Values] = {
            (Source.INVENTORY_GROUPS, name): dict(group["vars"]) for name, group in inventory.groups.items()}

    def add(self, is_of_book: bool, group: str, given: Values) -> None:
        """Notes a file of group_vars, beside the inventory or beside the book."""
        all_files = Source.BOOK_ALL_FILES if is_of_book else Source.INVENTORY_ALL_FILES
        group_files = Source.BOOK_GROUP_FILES if is_of_book else Source.INVENTORY_GROUP_FILES
        source = all_files if group == "all" else group_files
        self.given.setdefault((source, group), {}).update(given)

    def settle(self) -> None:
        """Writes at the hosts what the order of the groups alone would give otherwise."""
        names = self.contested()
        if not names:
            return
        depths, parents = self.tree()
        sorts: Dict[Tuple[str, ...], List[str]] = {}  # hosts by the groups that they are in
        for host in self.inventory.hosts:
            sorts.setdefault(self.groups_of(host, parents), []).append(host)
        if len(sorts) * len(names) > MOST_ASKED:
            self.give_up(names)
            return
        written = 0
        for groups, hosts in sorts.items():
            for name in sorted(names):
                real, shown = self.real(name, groups, depths), self.shown(name, groups, depths)
                written += len(hosts) if real is not shown else 0
                if written > MOST_WRITTEN:
                    self.give_up({name})
                elif real is not None and real is not shown:
                    for host in hosts:
                        self.inventory.hosts[host].setdefault(name, real[name])

    def give_up(self, names: Set[str]) -> None:
        for name in names:
            self.inventory.unsettled[name] = f"too many groups of the inventory give '{name}'"

    def contested(self) -> Set[str]:
        """Names that several places give to groups."""
        seen: Set[str] = set()
        found: Set[str] = set()
        for values in self.given.values():
            found |= seen & set(values)
            seen |= set(values)
        return found - {PRIORITY}

    def tree(self) -> Tuple[Dict[str, int], Dict[str, List[str]]]:
        """How deep each group lies below `all`, and the groups that have it as a child."""
        parents: Dict[str, List[str]] = {name: [] for name in self.inventory.groups}
        for name, group in self.inventory.groups.items():
            for child in group["children"] if name != "all" else ():
                parents.setdefault(child, []).append(name)
        depths = {"all": 0, **dict.fromkeys(parents.keys() - {"all"}, 1)}
        for _ in parents:  # a group is deeper than each of its parents; a circle, which the program refuses, ends too
            deeper = {name: max([depths[name], *(depths[parent] + 1 for parent in above)])
                      for name, above in parents.items() if name != "all"}
            if all(depths[name] == depth for name, depth in deeper.items()):
                break
            depths.update(deeper)
        return depths, parents

    def groups_of(self, host: str, parents: Dict[str, List[str]]) -> Tuple[str, ...]:
        waiting = [name for name, group in self.inventory.groups.items() if host in group["hosts"]]
        found: Set[str] = set()
        while waiting:
            name = waiting.pop()
            if name not in found:
                found.add(name)
                waiting += parents.get(name, [])
        return tuple(sorted(found - {"all"}))

    def real(self, name: str, groups: Tuple[str, ...], depths: Dict[str, int]) -> Optional[Values]:
        """What gives a name its value in Ansible."""
        ordered = sorted(groups, key=lambda group: (depths[group], self.priority(group), group))
        places = [(Source.INVENTORY_GROUPS, "all"), *((Source.INVENTORY_GROUPS, group) for group in ordered),
                  (Source.INVENTORY_ALL_FILES, "all"), (Source.BOOK_ALL_FILES, "all"),
                  *((Source.INVENTORY_GROUP_FILES, group) for group in ordered),
                  *((Source.BOOK_GROUP_FILES, group) for group in ordered)]
        return self.last(name, places)

    def shown(self, name: str, groups: Tuple[str, ...], depths: Dict[str, int]) -> Optional[Values]:
        """What does where each file is put into its group."""
        ordered = ["all", *sorted(groups, key=lambda group: (depths[group], group))]
        sources = (Source.INVENTORY_GROUPS, Source.INVENTORY_ALL_FILES, Source.INVENTORY_GROUP_FILES,
                   Source.BOOK_ALL_FILES, Source.BOOK_GROUP_FILES)
        return self.last(name, [(source, group) for group in ordered for source in sources])

    def last(self, name: str, places: List[Tuple[Source, str]]) -> Optional[Values]:
        found = [self.given[place] for place in places if name in self.given.get(place, ())]
        return found[-1] if found else None

    def priority(self, group: str) -> int:
        value = self.given.get((Source.INVENTORY_GROUPS, group), {}).get(PRIORITY, 1)
        return int(value) if isinstance(value, (int, str)) and str(value).lstrip("-").isdigit() else 1
