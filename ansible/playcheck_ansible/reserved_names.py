# SPDX-License-Identifier: MIT OR Apache-2.0
# Names that Jinja, Python and Ansible have themselves: what a book gives under one of them isn't what its tasks read.
from __future__ import annotations

import re
from typing import TYPE_CHECKING, Dict, Iterable, Iterator, Set

from .books import Block, Book, Play, Task, steps_below
from .names import KNOWN, given_names, names_of_vars
from .nodes import Mapping, has_template, is_text
from .problems import Mistake, Place
from .tokens import NAME

if TYPE_CHECKING:
    from .inventory import Inventory

# Globals of templates: they are there where nothing sets the name. tests/reserved_names_checks.py compares these lists.
GLOBALS = frozenset("cycler dict joiner lipsum lookup namespace now q query range self undef".split())
# What Ansible sets over everything that a book, an inventory and `-e` give; the last three are there for each host.
SET_OVER = frozenset("""ansible_check_mode ansible_collection_name ansible_config_file ansible_dependent_role_names
ansible_diff_mode ansible_forks ansible_index_var ansible_inventory_sources ansible_limit ansible_loop ansible_loop_var
ansible_parent_role_names ansible_parent_role_paths ansible_play_batch ansible_play_hosts ansible_play_hosts_all
ansible_play_name ansible_play_role_names ansible_playbook_python ansible_role_name ansible_role_names ansible_run_tags
ansible_search_path ansible_skip_tags ansible_verbosity ansible_version environment groups hostvars omit play_hosts
playbook_dir role_name role_names role_path role_uuid vars ansible_delegated_vars inventory_dir inventory_file
inventory_hostname_short""".split())
# Python's keywords, which Ansible takes for no variable.
KEYWORDS = frozenset("""False None True and as assert async await break class continue def del elif else except finally
for from global if import in is lambda nonlocal not or pass raise return try while with yield""".split())


def lose_reserved(book: Book, inventory: Inventory, extra: Iterable[str]) -> None:
    """What anything gives under a name that Ansible has itself is lost: its readers aren't judged."""
    plays = book.read_plays()
    given: Set[str] = {*inventory.names(), *extra}
    for play in plays:
        for step in play.holders():
            given |= names_of_vars(step.words) | (given_names(step) if isinstance(step, Task) else set())
    for play in plays:
        for name in given & GLOBALS:
            play.lost[name] = f"'{name}' is a name that templates have themselves"
        for name in (given & SET_OVER) - KNOWN:
            play.lost[name] = f"'{name}' is a name that Ansible sets itself"


def mistaken_names(book: Book) -> None:
    """Notes the names that Ansible refuses as names of variables, each at a task that meets it."""
    for play in book.read_plays():
        for step in play.holders():
            note_mistakes(step)


def note_mistakes(step: Play | Block | Task) -> None:
    tasks = [step] if isinstance(step, Task) else tasks_in(step)
    first = next(iter(tasks), None)
    if first is not None:
        first.judging.mistakes += [Mistake("A-name", place, f"'{name}' is no name of a variable{why(name)}")
                           for name, place in names_in(step).items() if not is_name(name)]


def tasks_in(holder: Play | Block) -> Iterator[Task]:
    steps = holder.steps() if isinstance(holder, Play) else steps_below([holder])
    return (step for step in steps if isinstance(step, Task))


def names_in(step: Play | Block | Task) -> Dict[str, Place]:
    """The names that a play, a block or a task gives by its own words."""
    found: Dict[str, Place] = {}
    for key in ("vars", "set_fact"):
        node = step.written.get("vars") if key == "vars" else step.words.get(key) if isinstance(step, Task) else None
        found.update({name: node.place_of(name) for name in node.pairs} if isinstance(node, Mapping) else {})
    register = step.words.get("register") if isinstance(step, Task) else None
    if is_text(register):
        found[register.value] = register.place
    return found


def is_name(name: str) -> bool:
    return has_template(name) or NAME.fullmatch(name) is not None and name not in KEYWORDS


def why(name: str) -> str:
    return " for Ansible: it is a word of Python" if name in KEYWORDS else " for Ansible"
