# SPDX-License-Identifier: MIT OR Apache-2.0
# Which of the places that give a name its value wins: Ansible's 22 sources in their order, and what of them a task sees.
from __future__ import annotations

from enum import IntEnum
from typing import TYPE_CHECKING, Iterable, List, Mapping, NamedTuple, Optional, Tuple

if TYPE_CHECKING:
    from .nodes import Node, Pairs


class Source(IntEnum):
    """Ansible's sources of variables: a later one wins over an earlier one."""

    COMMAND_LINE = 1  # as `-u`: they give no names
    ROLE_DEFAULTS = 2
    INVENTORY_GROUPS = 3
    INVENTORY_ALL_FILES = 4  # group_vars/all beside the inventory
    BOOK_ALL_FILES = 5  # group_vars/all beside the book
    INVENTORY_GROUP_FILES = 6
    BOOK_GROUP_FILES = 7
    INVENTORY_HOSTS = 8
    INVENTORY_HOST_FILES = 9
    BOOK_HOST_FILES = 10
    FACTS = 11
    PLAY = 12
    PROMPTS = 13
    VARS_FILES = 14
    ROLE = 15  # vars/main.yml of a role, and the `vars` beside its name
    BLOCK = 16  # of all blocks, imports and includes round a task
    TASK = 17
    INCLUDE_VARS = 18
    SET = 19  # by `set_fact` and `register`
    ROLE_PARAMETERS = 20  # what stands beside a role's name and is no keyword
    INCLUDE_PARAMETERS = 21  # `vars` of an include
    EXTRA = 22


class Given(NamedTuple):
    """What one place gives: its source, where it stands among others of that source, and its names."""

    source: Source
    pairs: Mapping[str, Node]
    step: int = 0  # of one source the later ones win: 0 for the whole play, then for the role, then for its own

    @property
    def rank(self) -> Tuple[Source, int]:
        return self.source, self.step


# Steps of one source.
OF_PLAY, OF_NEEDED, OF_ROLE = range(3)


def in_order(given: Iterable[Given]) -> List[Given]:
    """The weakest first; of one rank those that stand further out."""
    return sorted(given, key=lambda one: one.rank)


def winner(name: str, given: Iterable[Given]) -> Optional[Given]:
    """What gives a name its value, of places that are in order."""
    found = None
    for one in given:
        if name in one.pairs:
            found = one
    return found


def values_of(given: Iterable[Given]) -> Pairs:
    """Each name with the value that wins."""
    found: Pairs = {}
    for one in in_order(given):
        found.update(one.pairs)
    return found
