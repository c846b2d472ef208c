# SPDX-License-Identifier: MIT OR Apache-2.0
# Which tasks a run takes by their tags, as Ansible has it: the others are left out of the book, and counted.
from __future__ import annotations

from typing import FrozenSet, Iterable, List

from .books import PARTS, SECTIONS, Block, Book, Raw, Step, Task, steps_below
from .nodes import Mapping, Scalar, as_node, has_template, items_or_one

UNTAGGED = frozenset(["untagged"])


class Chosen:
    """The tags that a run is asked for, and those that it passes by."""

    def __init__(self, only: Iterable[str] = (), skip: Iterable[str] = ()) -> None:
        self.only, self.skip = set(only) or {"all"}, set(skip)
        self.left_out: List[Task] = []
        self.includes: List[Block] = []  # those that are put in place: a run of Ansible counts each as a task

    def takes(self, tags: FrozenSet[str]) -> bool:
        """Whether a task with these tags is run: Ansible's own rules, in their order."""
        tags = tags or UNTAGGED
        is_plain = "never" not in tags
        taken = ("always" in tags or "all" in self.only and is_plain or tags & self.only
                 or "tagged" in self.only and tags != UNTAGGED and is_plain)
        if "all" in self.skip:
            return bool(taken) and "always" in tags and "always" not in self.skip
        return bool(taken) and not tags & self.skip and not ("tagged" in self.skip and tags != UNTAGGED)

    def is_unsure(self, tags: FrozenSet[str]) -> bool:
        """Whether a template among the tags may decide: without options it is taken as no `never`."""
        return (self.only != {"all"} or bool(self.skip)) and any(map(has_template, tags))

    def kept(self, steps: List[Step], outer: FrozenSet[str]) -> List[Step]:
        """The steps that are run, each with the tags round it; a block in which nothing is left is none."""
        found: List[Step] = []
        for step in steps:
            if isinstance(step, Raw):
                found.append(step)
                continue
            tags = outer | tags_of(step.words)
            if isinstance(step, Block):
                found += self.kept_block(step, tags, outer)
            elif self.is_unsure(tags):
                step.leave("its tags hold a template")
                found.append(step)
            elif self.takes(tags):
                found.append(step)
            else:
                self.left_out.append(step)
        return found

    def kept_block(self, block: Block, tags: FrozenSet[str], outer: FrozenSet[str]) -> List[Step]:
        if block.is_include and not self.takes(tags):
            self.left_out += [step for step in steps_below([block]) if isinstance(step, Task)]
            return []
        for part in PARTS:
            if part in block.parts:
                block.parts[part] = self.kept(block.parts[part], outer if block.is_include else tags)
        self.includes += [block] * block.is_include
        if block.is_include and not block.evaluated and not set(block.words.pairs) - {"name", "tags"}:
            return block.parts["block"]
        return [block] if any(block.parts.values()) else []


def leave_out(book: Book, only: Iterable[str] = (), skip: Iterable[str] = ()) -> None:
    """Takes the tasks out that a run with these tags passes by; handlers are run whatever tags they have."""
    chosen = Chosen(only, skip)
    for play in book.plays:
        if isinstance(play, Raw):
            continue
        tags = tags_of(play.words)
        for section in SECTIONS:
            if section in play.sections:
                play.sections[section] = chosen.kept(play.sections[section], tags)
        if not chosen.takes(frozenset(["always"])):
            play.words.put("gather_facts", as_node(False, play.place))
    book.left_out, book.includes = chosen.left_out, chosen.includes


def tags_of(words: Mapping) -> FrozenSet[str]:
    """The tags of a play, a block or a task: a list, or a text with commas."""
    items = items_or_one(words.get("tags"))
    texts = [str(item.value) for item in items if isinstance(item, Scalar) and item.value is not None]
    return frozenset(word.strip() for text in texts for word in ([text] if has_template(text) else text.split(",")))
