# SPDX-License-Identifier: MIT OR Apache-2.0
# What a book gives to its tasks: names, the places where they are given, and the blocks round a task.
from __future__ import annotations

from collections import deque
from graphlib import CycleError, TopologicalSorter
from typing import TYPE_CHECKING, Dict, Iterable, List, Optional, Set, Tuple, Union

from .books import Block, Book, Holder, Play, Step, Task, steps_below
from .documented_facts import DOCUMENTED
from .names import KNOWN, given_names, mentioned, names_of_vars
from .nodes import Mapping, Node

if TYPE_CHECKING:
    from .inventory import Inventory
    from .problems import Place


class Scope:
    def __init__(self, book: Book, inventory: Inventory) -> None:
        self.book, self.inventory = book, inventory
        self.outside = inventory.names()
        self.plays = book.read_plays()
        self.tasks = book.tasks()
        self.given_names: Optional[Set[str]] = None
        # A task or a block to the blocks round it, the innermost first, and its play.
        self.holders: Dict[int, List[Union[Play, Block]]] = {}
        for play in self.plays:
            for section in play.sections.values():
                self.hold(section, [play])

    def hold(self, steps: Iterable[Step], holders: List[Play | Block]) -> None:
        for step in steps:
            self.holders[id(step)] = holders
            if isinstance(step, Block):
                for part in step.parts.values():
                    self.hold(part, [step, *holders])

    def play_of(self, task: Task) -> Play:
        found = self.holders[id(task)][-1]
        assert isinstance(found, Play), "round all steps is their play"
        return found

    def blocks_round(self, task: Task) -> List[Block]:
        return [holder for holder in self.holders.get(id(task), []) if isinstance(holder, Block)]

    def is_in(self, task: Task, block: Block, part: str) -> bool:
        """Whether a task stands in a part of a block, however deep."""
        return any(step is task for step in steps_below(block.parts.get(part, [])))

    def given(self) -> Set[str]:
        """All names that the book gives."""
        if self.given_names is None:
            self.given_names = set().union(*(given_names(task) for task in self.tasks),
                                           *(names_of_vars(holder.words) for play in self.plays
                                             for holder in play.holders()))
        return self.given_names

    def names_in_scope(self, task: Holder) -> Set[str]:
        """All names that anything gives to a task, a block or a play; `item` in a loop alone."""
        names = set().union(self.outside, KNOWN, DOCUMENTED, *(given_names(one) for one in self.tasks),
                            *(names_of_vars(holder.words) for holder in [task, *self.holders.get(id(task), [])]))
        return names if "loop" in task.words else names - {"item"}

    def giver(self, name: str) -> Optional[Task]:
        """The first task that gives a name."""
        return next((task for task in self.tasks if name in given_names(task)), None)

    def condition(self, task: Task) -> Optional[Node]:
        """The condition of a task, or of the innermost block round it that has one."""
        found = [one.words.get("when") for one in [task, *self.holders.get(id(task), [])] if "when" in one.words]
        return found[0] if found else None

    def place_of_name(self, name: str) -> Optional[Place]:
        """Where a name is given first: by a task, else by `vars`."""
        giver = self.giver(name)
        if giver is not None:
            return giver.place
        for holder in (holder for play in self.plays for holder in play.holders()):
            given = holder.words.get("vars")
            if isinstance(given, Mapping) and name in given:
                return given.place_of(name)
        return None

    def cycle(self) -> List[Tuple[str, Place]]:
        """Names of `vars` that name each other in a circle, with their places, the first one again at the end."""
        places: Dict[str, Place] = {}
        reads: Dict[str, List[str]] = {}
        for given in (holder.words.get("vars") for play in self.plays for holder in play.holders()):
            if isinstance(given, Mapping):
                places.update({name: given.place_of(name) for name in given.pairs})
                reads.update({name: sorted(mentioned(Mapping({"vars": node}, node.place)))
                              for name, node in given.pairs.items()})
        known = {name: [one for one in read if one in reads] for name, read in reads.items()}
        try:
            TopologicalSorter(known).prepare()
        except CycleError as fault:
            circle = set(fault.args[1])
            start = next(name for name in reads if name in circle)
            return [(name, places[name]) for name in path_back(start, known)]
        return []


def path_back(start: str, reads: Dict[str, List[str]]) -> List[str]:
    """The shortest way along names that are read from a name in a circle back to it."""
    waiting = deque([start])
    before: Dict[str, str] = {}
    while start not in before:
        last = waiting.popleft()
        for name in reads[last]:
            if name not in before:
                before[name] = last
                waiting.append(name)
    path = [start, before[start]]
    while path[-1] != start:
        path.append(before[path[-1]])
    return path[::-1]
