# SPDX-License-Identifier: MIT OR Apache-2.0
# Words whose values Ansible converts: a template in their place has to give a truth value, a number or a text.
from __future__ import annotations

import re
from dataclasses import replace
from typing import TYPE_CHECKING, Dict, Iterable, Tuple

from .nodes import Mapping, Node, Scalar, Sequence, Text, is_literal, is_nothing, is_text
from .tokens import NAME
from .values import FALSE_WORDS, TRUE_WORDS, is_whole, without_omit

if TYPE_CHECKING:
    from .known_values import Values

KINDS = {
    **dict.fromkeys(("become", "diff", "no_log", "check_mode", "ignore_errors", "run_once", "any_errors_fatal",
                     "gather_facts"), "bool"),
    **dict.fromkeys(("timeout", "port", "delay", "retries", "async", "poll", "throttle", "verbosity", "pause",
                     "max_fail_percentage"), "int"),
    "delegate_to": "text", "success_msg": "text",
}
# Words that take neither a list nor a mapping, those that take one text or a list, and the texts that a word may be.
TEXTS = ("become_exe", "become_flags", "become_method", "become_user", "connection", "debugger", "delegate_to",
         "remote_user")
LISTS: Dict[str, Tuple[type, ...]] = {"collections": (str,), "tags": (str, int)}
CHOICES = {"debugger": ("always", "never", "on_failed", "on_skipped", "on_unreachable", ""),
           "order": ("inventory", "sorted", "reverse_sorted", "reverse_inventory", "shuffle")}
# Asked before the condition of their task, and not for each item.
FIRST = ("throttle",)
# Expressions that the profile reads for values of the kind alone.
FORCED = {"bool": "not ({0})", "int": "({0}) < 1", "text": "[[{0}] | join, ({0}) | length] | length"}
PATH = re.compile(r"[A-Za-z_]\w*(?:\.[A-Za-z_]\w*)*")


def evaluated_word(key: str, node: Node) -> "list[Node]":
    """What is asked of a word that is passed over: its templates, and of a template that is all of it the kind too."""
    kind = KINDS.get(key)
    if not kind or not is_whole(node):
        return [node]
    node = without_omit(node, kind) if "omit" in node.value else node
    asked: "list[Node]" = [replace(node, wanted=kind, is_first=key in FIRST)]
    inside = bare(node)
    if key == "delegate_to" and PATH.fullmatch(inside) and inside.partition(".")[0] != "item":
        # Where it isn't there, this is told at the task's own time; what it is, before its condition.
        text = f"{{{{ {inside} | default('') }}}}"
        asked.append(replace(node, value=text, wanted=kind, is_first=True))
    return asked


def wrong_word(key: str, node: Node) -> str:
    """Why the value of a word can't be judged: a literal of another kind, or a template within a text."""
    if key in TEXTS and not isinstance(node, Scalar):
        return f"`{key}` is no text"
    if key in LISTS and not is_list_of_texts(node, key):
        return f"`{key}` is no list of texts"
    if key in CHOICES and is_text(node) and is_literal(node) and node.value not in CHOICES[key]:
        return f"`{key}` is none of Ansible's choices"
    kind = KINDS.get(key)
    if not kind or is_whole(node) or isinstance(node, Scalar) and node.value is None:
        return ""
    if kind == "text":
        return "" if is_text(node) or isinstance(node, (Mapping, Sequence)) else f"`{key}` is no text"
    what = "truth value" if kind == "bool" else "number"
    if not is_literal(node):
        return f"`{key}` is a text with a template, and perhaps no {what}"
    return "" if is_of_kind(node.value if isinstance(node, Scalar) else node, kind) else f"`{key}` is no {what}"


def is_list_of_texts(node: Node, key: str) -> bool:
    if isinstance(node, Sequence):
        return all(isinstance(item, Scalar) and isinstance(item.value, LISTS[key]) for item in node.items)
    return is_text(node) or key == "collections" and is_nothing(node)


def is_of_kind(value: object, kind: str) -> bool:
    """Whether Ansible converts a literal to the kind."""
    if kind == "text":
        return isinstance(value, str)
    if kind == "bool":
        return isinstance(value, bool) or str(value).lower() in (*TRUE_WORDS, *FALSE_WORDS)
    return isinstance(value, (bool, int, float)) or isinstance(value, str) and re.fullmatch(r"\s*[-+]?\d{1,18}\s*",
                                                                                            value) is not None


def bare(node: Text) -> str:
    """The expression of a template that is a whole text."""
    return node.value.strip()[2:-2].strip()


def forced(nodes: Iterable[Node], values: Values) -> "list[Node]":
    """What is asked, so that a value of another kind is refused; literals that Ansible converts are of the kind."""
    found: "list[Node]" = []
    for node in nodes:
        if isinstance(node, Scalar) and node.wanted and is_whole(node):
            known = values.known(bare(node)) if NAME.fullmatch(bare(node)) else None
            if not known or not all(is_of_kind(value, node.wanted) for value in known):
                node = replace(node, value="{{ " + FORCED[node.wanted].format(bare(node)) + " }}")
        found.append(node)
    return found
