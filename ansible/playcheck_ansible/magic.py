# SPDX-License-Identifier: MIT OR Apache-2.0
# Names that Ansible itself gives: those whose kind is known become variables of the inventory or of a play.
from __future__ import annotations

import os
import re
from typing import TYPE_CHECKING, Callable, Dict, Iterable, Iterator, List, Set

from .books import Book, Holder, Play, Raw, Task, steps_below
from .documented_facts import DOCUMENTED
from .names import MAGIC, mentioned
from .nodes import Mapping, Record, Scalar, pairs_in, texts_of

if TYPE_CHECKING:
    from .inventory import Inventory

# What holds in a run without options for it, on each host; the versions and the number of forks stand for any.
ALWAYS: Record = {
    "ansible_check_mode": False, "ansible_diff_mode": False, "ansible_verbosity": 0, "ansible_forks": 5,
    "ansible_playbook_python": "/usr/bin/python3",
    "ansible_version": {"full": "2.14.0", "string": "2.14.0", "major": 2, "minor": 14, "revision": 0},
}
# Lists of all hosts of a play.
HOSTS = ("ansible_play_hosts", "ansible_play_hosts_all", "play_hosts")
# What a play's tasks see and `hostvars` doesn't: a host is reached under its own name where nothing else is given.
OF_PLAY = {"ansible_host": "{{ inventory_hostname }}{{ '' }}", "ansible_ssh_host": "{{ inventory_hostname }}{{ '' }}",
           "ansible_connection": "ssh"}
# Words that are evaluated before a task is executed.
EARLY = ("loop", "delegate_to", "throttle", "run_once")
# Variables of the inventory, or of the command line, that say how a host is reached: nothing else gives them.
GIVEN = re.compile(r"ansible_(?:(?:ssh_)?(?:user|pass|password|port|private_key_file|common_args|extra_args)|network_os"
                   r"|become(?:_\w+)?|python_interpreter|shell_type|limit|(?:winrm|httpapi|netconf)_\w+)")
# Keywords that give some of them too.
KEYWORDS = {"remote_user": "user", "port": "port"}
NAMES = re.compile(r"\b(?:ansible_\w+|play_hosts|playbook_dir|inventory_hostname_short)\b")


def magic_variables(book: Book, inventory: Inventory, tags: Iterable[str] = (), skip_tags: Iterable[str] = ()) -> None:
    """Gives the names that the book reads and that nothing else gives; those with a known value get that."""
    plays = book.read_plays()
    read = {name for play in plays for holder in play.holders() for name in names_in(holder)} - given_in(plays)
    known: Record = {
        **ALWAYS, **dict.fromkeys(HOSTS, [*inventory.all_hosts()]),
        "ansible_run_tags": [*tags] or ["all"], "ansible_skip_tags": [*skip_tags],
        "playbook_dir": os.path.dirname(os.path.abspath(book.file))}
    names = inventory.names()
    missing = {name: value for name, value in known.items() if name in read and name not in names}
    if missing:
        inventory.group("all")["vars"].update(missing)
    if "inventory_hostname_short" in read:
        for host, variables in inventory.hosts.items():
            variables.setdefault("inventory_hostname_short", host.partition(".")[0])
    connections = {name for name in OF_PLAY if name in read and not inventory.all_have(name)}
    for play in plays:
        leave_early_readers(play, connections)
        give_connections(play, connections)


def names_in(holder: Holder) -> Iterator[str]:
    for node in [*holder.words.pairs.values(), *holder.evaluated]:
        for text in texts_of(node):
            yield from NAMES.findall(text.value)


def given_in(plays: List[Play]) -> Set[str]:
    """Names that `vars` or `set_fact` of a book give."""
    return {name for play in plays for holder in play.holders() for key in ("vars", "set_fact")
            for name in pairs_in(holder.words.get(key))}


def leave_early_readers(play: Play, names: "set[str]") -> None:
    """Leaves what reads such a name in a word that is evaluated before its task is executed: it isn't there yet."""
    read = names | readers_in_vars(play, names) if names else set()
    for step in play.steps() if read else ():
        if isinstance(step, Raw):
            continue
        early = {key: node for words in (step.words, step.written) for key, node in words.pairs.items() if key in EARLY}
        found = sorted(mentioned(Mapping(early, step.place)) & read)
        for task in steps_below([step]) if found else ():
            if isinstance(task, Task):
                task.leave(f"it reads '{found[0]}' where only what the inventory gives is there")


def readers_in_vars(play: Play, names: "set[str]") -> "set[str]":
    """The names of `vars` whose values read one of these names, also by way of each other."""
    reads: Dict[str, Set[str]] = {}
    for holder in play.holders():
        for name, node in pairs_in(holder.words.get("vars")).items():
            reads.setdefault(name, set()).update(mentioned(Mapping({"vars": node}, node.place)))
    found: "set[str]" = set()
    new = set(names)
    while new:
        new = {name for name, read in reads.items() if read & new} - found
        found |= new
    return found


def give_connections(play: Play, names: Set[str]) -> None:
    given = play.words.get("vars")
    if names and (given is None or isinstance(given, Mapping)):
        merged = given.copy() if given is not None else Mapping({}, play.place)
        for name in sorted(names):
            merged.put(name, Scalar(OF_PLAY[name], play.place, OF_PLAY[name]))
        play.words.put("vars", merged)


def outside_names(book: Book) -> Callable[[str], bool]:
    """Answers whether a name is one that Ansible gives and the profile lacks."""
    keywords = {word for play in book.read_plays() for holder in play.holders()
                for word in KEYWORDS if word in holder.written}
    may_gather = any(is_gathering(play) for play in book.read_plays())
    by_keyword = {f"ansible_{way}{KEYWORDS[word]}" for word in keywords for way in ("", "ssh_")}

    def is_outside(name: str) -> bool:
        is_given = name in DOCUMENTED or GIVEN.fullmatch(name) is not None and name not in by_keyword
        return name in MAGIC or name in by_keyword or name.startswith("ansible_") and may_gather and not is_given

    return is_outside


def is_gathering(play: Play) -> bool:
    """Whether facts may be set that the book doesn't show: by gathering, or by a task that isn't judged."""
    node = play.words.get("gather_facts")
    return not isinstance(node, Scalar) or node.value is not False or any(
        task.module() == "setup" or task.judging.reason for task in play.tasks())
