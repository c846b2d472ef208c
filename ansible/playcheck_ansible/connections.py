# SPDX-License-Identifier: MIT OR Apache-2.0
# Variables that say how a host is reached: Ansible converts some of them before each task, and fails where it can't.
from __future__ import annotations

from typing import TYPE_CHECKING

from .books import Block, Book, Play, Task
from .kinds import is_of_kind
from .nodes import Node, Scalar, Text, is_text, pairs_in
from .values import is_whole

if TYPE_CHECKING:
    from .inventory import Inventory

KINDS = {**dict.fromkeys(("ansible_port", "ansible_ssh_port", "ansible_timeout", "ansible_ssh_timeout"), "int"),
         "ansible_become": "bool"}
WHAT = {"int": "number", "bool": "truth value"}


def connection_variables(book: Book, inventory: Inventory) -> None:
    """Asks for the kinds of such variables where a book gives them; with a wrong one in the inventory nothing is judged."""
    wrong = next((name for name, value in inventory.variables()
                  if name in KINDS and value is not None and not is_of_kind(value, KINDS[name])), "")
    for play in book.read_plays():
        if wrong:
            play.reason = play.reason or f"the inventory's '{wrong}' is no {WHAT[KINDS[wrong]]}"
        for holder in play.holders():
            ask_given(holder)


def ask_given(step: Play | Block | Task) -> None:
    for key in ("vars", "set_fact"):
        for name, part in pairs_in(step.words.get(key)).items():
            if name in KINDS:
                step.evaluated += asked_value(part, KINDS[name])
    register = step.words.get("register") if isinstance(step, Task) else None
    if isinstance(step, Task) and is_text(register) and register.value in KINDS:
        step.leave(f"a result is no {WHAT[KINDS[register.value]]}", register.place)


def asked_value(node: Node, kind: str) -> "list[Node]":
    """What makes the program refuse a value of another kind: a literal is asked as a text."""
    if isinstance(node, Scalar) and not is_text(node):
        return [] if node.value is None or is_of_kind(node.value, kind) else [asked_text(node, str(node.value), kind)]
    if not isinstance(node, Scalar):
        return [asked_text(node, "", kind)]
    if is_whole(node):
        return [Scalar(node.value, node.place, node.text, wanted=kind)]
    return [] if is_of_kind(node.value, kind) else [asked_text(node, "", kind)]


def asked_text(node: Node, text: str, kind: str) -> Text:
    return Scalar("{{ '' }}", node.place, text, wanted=kind)
