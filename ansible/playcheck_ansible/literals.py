# SPDX-License-Identifier: MIT OR Apache-2.0
# The passes over expressions: `bool` and `default(.., true)` where all values of a name are known, and stand_ins.py.
from __future__ import annotations

import re
from typing import TYPE_CHECKING, Iterable, Set

from .books import Book, Holder, Task
from .expressions import read_once
from .finite import Finite, has_plain_items
from .kinds import forced
from .known_defaults import plain_defaults, plain_truths
from .known_values import Values
from .names import Read, read_places
from .nodes import Scalar, Text
from .rewriting import Change, changed_texts, rewrite_words
from .stand_ins import rewritten, stand_ins

if TYPE_CHECKING:
    from .inventory import Inventory


def run_literal_passes(book: Book, inventory: Inventory) -> None:
    values = Values(book, inventory)
    for play in book.read_plays():
        for holder in play.holders():
            Expressions(holder, values).rewrite()


class Expressions:
    """The expressions of a play or a step: changes them, and marks the texts of which one has another value since."""

    def __init__(self, holder: Holder, values: Values) -> None:
        self.holder, self.values = holder, values
        self.finite = Finite(values, has_plain_items(holder))
        self.inexact: Set[str] = set()

    def rewrite(self) -> None:
        holder = self.holder
        if "debug" in holder.words:
            holder.words.put("debug", changed_texts(holder.words["debug"], self.change_asked))
        rewrite_words(holder.words, self.change)
        holder.evaluated = [changed_texts(node, self.change_asked) for node in forced(holder.evaluated, self.values)]
        if isinstance(holder, Task) and holder.judging.ignore_condition is not None:
            holder.judging.ignore_condition = ignored(holder, holder.judging.ignore_condition, self.change)
            self.mark([(holder.judging.ignore_condition.value, holder.judging.ignore_condition)])
        self.mark(read_places(holder.words, holder.evaluated))

    def change(self, expression: str) -> str:
        return self.written(plain_defaults(plain_truths(expression, self.values), self.values), False)

    def change_asked(self, expression: str) -> str:
        return self.written(self.change(expression), True)

    def written(self, expression: str, is_loose: bool) -> str:
        new, is_exact = rewritten(expression, is_loose, self.finite)
        if new == expression and isinstance(self.holder, Task) and "int" in expression \
                and rewritten(expression, is_loose)[0] != expression:
            self.holder.leave("`int` of what may be the text `inf`, of which it makes no number")
        if not is_exact or self.inexact and bare(expression) in self.inexact:
            self.inexact.add(bare(new))
        return new

    def mark(self, places: Iterable[Read]) -> None:
        for expression, text in places if self.inexact else ():
            text.stand_ins += bare(expression) in self.inexact


def bare(expression: str) -> str:
    """An expression without the braces round it."""
    inside = re.fullmatch(r"\s*\{\{(.*)\}\}\s*", expression, re.S)
    return (inside[1] if inside else expression).strip()


def ignored(task: Task, node: Text, change: Change) -> Text:
    """A template in the place of `ignore_errors` has to be a condition of the profile."""
    condition = Scalar(change(f"({node.value}) | bool"), node.place, node.text)
    what = read_once(condition.value).form
    if what or "item" in read_once(node.value).names:
        task.leave(f"`ignore_errors` with {what or '`item`'}", node.place)
    return condition


EXPRESSION_PASSES = (plain_truths, plain_defaults, stand_ins)
