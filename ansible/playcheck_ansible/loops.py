# SPDX-License-Identifier: MIT OR Apache-2.0
# The passes over loops: `with_dict`, `with_list` and `with_items`, a loop variable with a name of its own, labels.
from __future__ import annotations

import re
from typing import TYPE_CHECKING, List, Optional

from .expressions import read_once
from .kinds import evaluated_word, wrong_word
from .names import GRAMMAR, KNOWN, MAGIC, expressions_of, given_names, mentioned, names_of_vars, read_places
from .nodes import Mapping, Node, Sequence, as_node, has_template, is_text, items_or_one, pairs_in, texts_of
from .rewriting import Change, changed_texts, rewrite_words
from .tokens import VARIABLE
from .values import is_whole

if TYPE_CHECKING:
    from .books import Task


def dict_loops(task: Task) -> None:
    """`with_dict` of literal mappings is a list of their pairs."""
    node = task.words.get("with_dict")
    dicts = [one for one in items_or_one(node) if isinstance(one, Mapping)]
    if node is None or len(dicts) < len(items_or_one(node)):
        return
    if any(has_template(key) for one in dicts for key in one.pairs):
        return
    items: List[Node] = [as_node({"key": key, "value": part}, one.place_of(key))
                         for one in dicts for key, part in one.pairs.items()]
    task.words.put("loop", Sequence(items, node.place))
    task.words.take("with_dict")


def loop_variables(task: Task) -> None:
    """A loop variable with a name of its own is `item`, where nothing else of the task has one of the two names."""
    control = task.words.get("loop_control")
    named = control.get("loop_var") if isinstance(control, Mapping) else None
    if named is None:
        return
    lists = [key for key in task.words.pairs if key == "loop" or key.startswith("with_")]
    if lists and not (is_text(named) and named.value == "item"):
        reason = loop_variable_bar(task, named, lists)
        if reason or not is_text(named):
            task.leave(f"`loop_var`: {reason}", named.place)
            return
        rewrite_words(task.words, renaming(named.value), lists)
        task.evaluated = [changed_texts(node, renaming(named.value)) for node in task.evaluated]
    changed = task.words["loop_control"]
    others = {key: node for key, node in pairs_in(changed).items() if key != "loop_var"}
    task.words.put("loop_control", Mapping(others, changed.place))


def loop_variable_bar(task: Task, named: Node, lists: List[str]) -> str:
    """Why a loop variable can't be `item`; nothing where it can."""
    if not is_text(named) or not VARIABLE.fullmatch(named.value):
        return "it isn't a name"
    name = named.value
    if name in KNOWN | GRAMMAR | MAGIC or name.startswith("ansible_"):
        return f"'{name}' is a name that Ansible gives"
    both = {name, "item"}
    of_list = [expression for key in lists for expression, _ in expressions_of(task.words.get(key), False)]
    others = given_names(task) | names_of_vars(task.words) | task.judging.outer_names
    if both & set().union(others, *(read_once(expression).names for expression in of_list)):
        return f"'{name}' or 'item' is used elsewhere too"
    inside = Mapping({key: part for key, part in task.words.pairs.items() if key not in lists}, task.place)
    if "item" in mentioned(inside, task.evaluated):
        return "'item' is read too"
    texts = [text.value for node in [*task.words.pairs.values(), *task.evaluated] for text in texts_of(node)]
    notified = [text.value for text in texts_of(task.words.get("notify"))]
    if any("{%" in text for text in texts) or any(name in text for text in notified):
        return "it may be read where it can't be followed"
    if any(is_hidden(name, expression) for expression, _ in read_places(inside, task.evaluated)):
        return "it may be read where it can't be followed"
    return ""


def is_hidden(name: str, expression: str) -> bool:
    """Whether an expression may name a variable otherwise than by a plain read of it."""
    one = read_once(expression)
    by_text = any(word in expression for word in ("vars", "lookup", "query"))
    return by_text and any(name in token.text for token in one.texts) or name in one.keywords


def renaming(name: str) -> Change:
    """A change of expressions: each read of the name becomes one of `item`."""

    def change(expression: str) -> str:
        one = read_once(expression)
        return one.replaced([(token, "item") for token in one.reads if token.text == name])

    return change


def loops(task: Task) -> None:
    """`with_list`, and `with_items` one level flat, are `loop`; a label of `loop_control` is asked."""
    if "with_list" in task.words:
        task.words.put("loop", task.words.pairs.pop("with_list"))
    node = task.words.take("with_items")
    if node is not None:
        flat = flat_items(node)
        if flat is None:
            task.leave("`with_items` with a list in a template beside others", node.place)
            return
        task.words.put("loop", flat)
    for key in task.words.pairs:
        if key.startswith("with_"):
            task.leave(f"`{key}`", task.words.keys.get(key))
            return
    control = task.words.take("loop_control")
    if control is None:
        return
    if not isinstance(control, Mapping) or set(control.pairs) - {"label", "pause"}:
        task.leave("`loop_control` with more than `label`, `loop_var` and `pause`", control.place)
        return
    for key, node in control.pairs.items():
        wrong = wrong_word(key, node)
        if wrong:
            task.leave(wrong, node.place)
        task.evaluated += evaluated_word(key, node)


def flat_items(node: Node) -> Optional[Node]:
    """The items of `with_items`, or None where a template among them may be a list."""
    if not isinstance(node, Sequence):
        return node
    if len(node.items) == 1 and is_whole(node.items[0]):
        return node.items[0]
    items = []
    for item in node.items:
        if isinstance(item, Sequence):
            items += item.items
        elif is_whole(item):
            return None
        else:
            items.append(item)
    return Sequence(items, node.place)
