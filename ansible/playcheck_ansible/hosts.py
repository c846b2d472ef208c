# SPDX-License-Identifier: MIT OR Apache-2.0
# Patterns of hosts that the profile lacks are put in as the hosts that they name; and Ansible's own localhost.
from __future__ import annotations

import fnmatch
import re
from typing import TYPE_CHECKING, Dict, List, Match, Optional

from .inventory import BASE, Inventory
from .inventory_names import LONGEST
from .matching import SlowPattern, matching
from .nodes import as_node, has_template, texts_of

if TYPE_CHECKING:
    from .books import Play

LOCAL = ("localhost", "127.0.0.1", "::1")
NO_HOSTS = "playcheck_no_hosts"
NO_MATCH = "no host of the inventory is of the play's `hosts`, so Ansible passes it over"


def host_patterns(play: Play, inventory: Inventory, added: List[str], is_given: bool) -> None:
    """Names the hosts of a pattern with `!`, `&`, `*`, `~` or a range, and of `all` where a localhost was added.

    A play without a host isn't judged, but where no inventory is given.
    """
    node = play.words.get("hosts")
    texts = [text.value for text in texts_of(node)]
    if node is None or not texts or any(has_template(text) for text in texts):
        return
    words = [word for text in texts for word in divided(text)]
    hides_local = added and not set(words) & set(LOCAL) and set(words) & {"all", "ungrouped"}
    is_pattern = any(re.search(r"[!&*~\[?]", word) for word in words)
    if not (hides_local or is_pattern or is_given):
        return
    try:
        found = matched(words, inventory, added)
    except SlowPattern as slow:
        play.reason = play.reason or str(slow)
        play.words.put("hosts", as_node("all", node.place))
        return
    if found is None:
        return
    if not found:
        play.has_no_host = True
        play.reason = play.reason or NO_MATCH
        play.words.put("hosts", as_node(empty_group(inventory), node.place))
    elif hides_local or is_pattern:
        play.words.put("hosts", as_node(found, node.place))


def empty_group(inventory: Inventory) -> str:
    """A group without hosts, in which a play stands that has none."""
    there = next((name for name in inventory.groups if name not in BASE and not inventory.hosts_of(name)), NO_HOSTS)
    inventory.group(there)
    return there


def divided(text: str) -> List[str]:
    """The words of a pattern: a colon in brackets is that of a range."""
    ends, begins, is_inside = [len(text)], [], False
    for mark in reversed(list(re.finditer(r"[\[\],:]", text))):
        if mark[0] in "[]":
            is_inside = mark[0] == "]"
        elif not is_inside:
            begins.append(mark.end())
            ends.append(mark.start())
    words = [text[begin:end].strip() for begin, end in zip([*begins, 0], ends)]
    return [word for word in reversed(words) if word]


def matched(words: List[str], inventory: Inventory, added: List[str]) -> Optional[List[str]]:
    """The hosts of a pattern by Ansible's rules, or None where a word of it names nothing."""
    words = list(dict.fromkeys(words))
    hosts: Dict[str, None] = {}  # in their order
    first = [word for word in words if word[0] not in "!&"] or ["all"]
    for word in first:
        some = of_word(word, inventory, added)
        if some is None:
            return None
        hosts.update(dict.fromkeys(some))
    for sign in "&!":
        for word in (word[1:].strip() for word in words if word[0] == sign):
            some = of_word(word, inventory, added)
            if some is None:
                return None
            named = set(some)
            hosts = {host: None for host in hosts if (host in named) == (sign == "&")}
    return list(hosts)


def of_word(word: str, inventory: Inventory, added: List[str]) -> Optional[List[str]]:
    match = re.fullmatch(r"(.+)\[(-?\d+)(?:(:)(-?\d*))?\]", word)
    if match:
        some = of_word(match[1], inventory, added)
        return None if some is None else ranged(some, match)
    if word in ("all", "*"):
        return [host for host in inventory.all_hosts() if host not in added]
    if word == "ungrouped":
        grouped = {host for name in inventory.groups if name not in ("all", "ungrouped")
                   for host in inventory.groups[name]["hosts"]}
        return [host for host in inventory.all_hosts() if host not in added and host not in grouped]
    if word.startswith("~") or re.search(r"[*?\[]", word):
        return of_glob(word, inventory, added)
    if word in inventory.hosts or word in inventory.groups:
        return inventory.hosts_of(word)
    return None


def of_glob(word: str, inventory: Inventory, added: List[str]) -> Optional[List[str]]:
    """The hosts of a pattern with signs, or None where it is none or longer than any name."""
    if len(word) > LONGEST:
        return None
    names = tuple(name for name in (*inventory.groups, *inventory.hosts) if name not in added)
    if word.startswith("~"):
        fitting = matching(word[1:], names)
    else:
        pattern = re.compile(fnmatch.translate(word))
        fitting = [name for name in names if pattern.match(name)]
    if fitting is None:
        return None
    return list(dict.fromkeys(host for name in fitting for host in inventory.hosts_of(name)))


def ranged(hosts: List[str], match: Match[str]) -> List[str]:
    """The part of a list that `[1]`, `[0:3]` or `[1:]` names; its end is of it."""
    first = int(match[2])
    if not match[3]:
        return hosts[first:first + 1] if first >= 0 else hosts[first:][:1]
    last = int(match[4]) if match[4] else -1
    return hosts[first:last + 1 if last != -1 else None]


def with_localhost(inventory: Inventory, plays: List[Play]) -> List[str]:
    """Adds the localhost that Ansible has of itself, where a play names it and the inventory lacks it."""
    named = {word for play in plays
             for text in texts_of(play.words.get("hosts")) for word in divided(text.value)}
    missing = [name for name in LOCAL if name in named and name not in inventory.hosts
               and name not in inventory.groups]
    for name in missing:
        inventory.hosts[name] = {}
    return missing
