# SPDX-License-Identifier: MIT OR Apache-2.0
# Which names a task's texts mention, and which it gives: by their letters alone, so rather too many than too few.
from __future__ import annotations

import re
from functools import lru_cache
from typing import TYPE_CHECKING, Iterable, Iterator, Optional, Set, Tuple

from .expressions import read_once
from .nodes import Mapping, Node, Text, is_text, texts_of
from .templates import template_spans

if TYPE_CHECKING:
    from .books import Task

CONDITIONS = ("when", "changed_when", "failed_when", "until")
FACTS = ("ansible_hostname", "ansible_system", "ansible_os_family", "ansible_distribution", "ansible_processor_vcpus",
         "ansible_memtotal_mb")
KNOWN = {"inventory_hostname", "groups", "group_names", "hostvars", "ansible_play_batch", "item",
         "ansible_failed_result", "ansible_facts", *FACTS}
GRAMMAR = {"and", "or", "not", "in", "is", "true", "false", "True", "False", "none", "None", "if", "else", "default",
           "length", "join", "defined", "undefined", "failed", "succeeded", "changed", "skipped"}
# Names that Ansible itself gives and the profile lacks, beside all that begin with `ansible_`.
MAGIC = {"playbook_dir", "role_path", "role_name", "inventory_dir", "inventory_file", "play_hosts", "omit", "vars",
         "environment", "inventory_hostname_short", "lookup", "query", "q", "now", "range", "undef"}

# An expression, and the text in which it stands.
Read = Tuple[str, Text]


def expressions_in(text: str) -> Tuple[str, ...]:
    """The expressions of a template's text."""
    return expressions_of_template(text) if "{" in text else ()


# Each pass asks for them anew.
@lru_cache(4096)
def expressions_of_template(text: str) -> Tuple[str, ...]:
    return tuple(text[start + 2:end - 2] for start, end in template_spans(text))


def read_places(words: Mapping, evaluated: Iterable[Node] = ()) -> Iterator[Read]:
    """Each expression of a task's words, with the node in which it stands."""
    for key, node in words.pairs.items():
        if key == "assert" and isinstance(node, Mapping):
            for name, part in node.pairs.items():
                yield from expressions_of(part, name == "that")
        elif key not in ("name", "notify", "listen", "register"):
            yield from expressions_of(node, key in CONDITIONS)
    for node in evaluated:
        yield from expressions_of(node, False)


def expressions_of(node: Optional[Node], is_condition: bool) -> Iterator[Read]:
    for text in texts_of(node):
        yield from [(text.value, text)] if is_condition else templates_in(text)


def templates_in(text: Text) -> Iterator[Read]:
    return ((expression, text) for expression in expressions_in(text.value))


def outside_node(node: Node, is_condition: bool = False) -> Tuple[str, Optional[Text]]:
    """The first such form in a node's expressions, and the text in which it stands."""
    for text in texts_of(node):
        if not is_condition and "{%" in text.value:
            return "`{% .. %}`", text
        for expression in [text.value] if is_condition else expressions_in(text.value):
            what = read_once(expression).form
            if what:
                return what, text
    return "", None


def mentioned(words: Mapping, evaluated: Iterable[Node] = ()) -> Set[str]:
    """All names that a task's texts mention; a field of `ansible_facts` is named as the fact itself."""
    names: Set[str] = set()
    for expression, _ in read_places(words, evaluated):
        names |= read_once(expression).mentioned
    return names


def given_names(task: Task) -> Set[str]:
    """The names that a task sets: its register, what `set_fact` sets, and what is known besides."""
    names = set(task.judging.sets)
    register = task.words.get("register")
    if is_text(register):
        names.add(register.value)
    for key in ("set_fact", "ansible.builtin.set_fact", "ansible.legacy.set_fact"):
        node = task.words.get(key)
        if isinstance(node, Mapping):
            names |= set(node.pairs)
        elif is_text(node):
            names |= {word.partition("=")[0] for word in node.value.split() if "=" in word}
    return names


def names_of_vars(words: Mapping) -> Set[str]:
    node = words.get("vars")
    return set(node.pairs) if isinstance(node, Mapping) else set()
