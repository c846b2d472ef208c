# SPDX-License-Identifier: MIT OR Apache-2.0
# Handlers that a role brings only where it is included: what notifies one earlier, or perhaps earlier, isn't judged.
from .books import SECTIONS, Block, Play, Raw, Task
from .nodes import has_template, texts_of


class Inclusions:
    """The roles of a play that have been included for certain where a task stands."""

    def __init__(self, play: Play) -> None:
        self.bringers: "dict[str, set[str]]" = {}  # a handler's name or topic to the folders of the roles that bring it
        handlers = [step for step in play.sections.get("handlers", []) if isinstance(step, Task)]
        for handler in handlers:
            for topic in topics_of(handler):
                self.bringers.setdefault(topic, set()).add(handler.comes_with)

    def walk(self, steps: "list[Block | Task | Raw]", known: "set[str]", may_be_passed: bool) -> "set[str]":
        """Leaves the tasks that notify too early; answers what is known behind the steps."""
        for step in steps:
            if isinstance(step, Task):
                self.ask(step, known)
            elif isinstance(step, Block):
                is_conditional = may_be_passed or "when" in step.words
                inside = self.walk_block(step, known | {step.folder} if step.folder else known, is_conditional)
                known = known if is_conditional else known | inside
        return known

    def walk_block(self, block: Block, known: "set[str]", may_be_passed: bool) -> "set[str]":
        """What is known behind a block: with a `rescue`, its tasks may have been left before they included anything."""
        behind = self.walk(block.parts.get("block", []), known, may_be_passed)
        self.walk(block.parts.get("rescue", []), known, may_be_passed)
        always = self.walk(block.parts.get("always", []), known, may_be_passed)
        return always if block.parts.get("rescue") else behind | always

    def ask(self, task: Task, known: "set[str]") -> None:
        node = task.words.get("notify")
        for text in texts_of(node) if node is not None else ():
            bringers = self.bringers.get(text.value)
            if bringers and "" not in bringers and not bringers & known:
                task.leave(f"it may notify '{text.value}' before the role that has it is included", text.place)


def topics_of(handler: "Block | Task | Raw") -> "list[str]":
    """The names by which a handler is notified."""
    if not isinstance(handler, Task):
        return []
    listened = handler.words.get("listen")
    texts = [text.value for text in texts_of(listened)] if listened is not None else []
    return [text for text in [handler.name, *texts] if text and not has_template(text)]


def leave_early_notifiers(play: Play) -> None:
    """Leaves the tasks that may notify a handler of an `include_role` before that has run."""
    inclusions = Inclusions(play)
    if not any(inclusions.bringers.values()):
        return
    known: "set[str]" = set()
    for section in SECTIONS:
        known = inclusions.walk(play.sections.get(section, []), known, False)
    inclusions.walk(play.sections.get("handlers", []), set(), False)
