# SPDX-License-Identifier: MIT OR Apache-2.0
# Changes the expressions in a task's or a play's words, wherever they stand; places stay.
from __future__ import annotations

from dataclasses import replace
from typing import Callable, Iterable

from .names import CONDITIONS
from .nodes import Mapping, Node, Sequence, is_text
from .templates import with_templates

# What is made of an expression.
Change = Callable[[str], str]
NO_TEMPLATES = ("name", "notify", "listen", "register")


def rewrite_words(words: Mapping, change: Change, but: Iterable[str] = ()) -> None:
    """Gives each expression of the words to `change`, and puts what that answers in its place."""
    for key, node in words.pairs.items():
        if key in CONDITIONS:
            words.pairs[key] = changed(node, change)
        elif key == "assert" and isinstance(node, Mapping):
            words.pairs[key] = changed_assert(node, change)
        elif key not in NO_TEMPLATES and key not in but:
            words.pairs[key] = changed_texts(node, change)


def changed_assert(node: Mapping, change: Change) -> Mapping:
    pairs = {name: changed(part, change) if name == "that" else changed_texts(part, change)
             for name, part in node.pairs.items()}
    return Mapping(pairs, node.place, node.keys)


def changed_texts(node: Node, change: Change) -> Node:
    """The node with each expression in its templates changed."""
    return changed(node, lambda text: with_templates(text, change) if "{{" in text else text)


def changed(node: Node, change: Change) -> Node:
    """The node with each of its texts changed; itself where none is."""
    if isinstance(node, Mapping):
        pairs = {key: changed(part, change) for key, part in node.pairs.items()}
        is_same = all(pairs[key] is part for key, part in node.pairs.items())
        return node if is_same else Mapping(pairs, node.place, node.keys)
    if isinstance(node, Sequence):
        items = [changed(item, change) for item in node.items]
        is_same = all(item is before for item, before in zip(items, node.items))
        return node if is_same else Sequence(items, node.place)
    text = change(node.value) if is_text(node) else None
    return node if text is None or text == node.value else replace(node, value=text)
