# SPDX-License-Identifier: MIT OR Apache-2.0
# Counts the lines of a book as docs/REFUSALS.md says, prints its JSON, and keeps what each line is.
from __future__ import annotations

from dataclasses import dataclass, field
from typing import TYPE_CHECKING, Iterable, List, Optional, Tuple, Union

from .books import PARTS, SECTIONS, Block, Book, Holder, Play, Raw, Step, Task
from .nodes import (Mapping, Node, Pairs, Record, Scalar, Sequence, Text, Value, as_value, has_template, is_text,
                    texts_of)

if TYPE_CHECKING:
    from .problems import Place


@dataclass
class Line:
    kind: str  # play, facts, block, task, handler, asked (what a task's words ask), condition (of an include)
    play: Optional[Play]
    step: Optional[Union[Play, Step]] = None
    nodes: Tuple[Node, ...] = ()  # what of the files is printed in it

    @property
    def source(self) -> Holder | Raw:
        found = self.step or self.play
        assert found is not None, "a line is of a step or of a play"
        return found

    @property
    def place(self) -> Place:
        return self.source.place

    @property
    def name(self) -> str:
        return self.source.name

    @property
    def handlers(self) -> List[Step]:
        """Those of its play."""
        return self.play.sections.get("handlers", []) if self.play is not None else []

    def stand_ins(self) -> List[Text]:
        """The texts that are printed in it with other values than those of the files."""
        return [text for node in self.nodes for text in texts_of(node) if text.stand_ins]


@dataclass
class Numbered:
    """A book as the program reads it, and its lines: number n stands at lines[n]."""

    json: Value
    lines: List[Optional[Line]]

    def line(self, number: int) -> Optional[Line]:
        return self.lines[number] if 0 < number < len(self.lines) else None


class Printer:
    def __init__(self, unjudged_module: str) -> None:
        self.unjudged_module = unjudged_module
        self.lines: List[Optional[Line]] = [None]
        self.conditions = 0

    def book(self, book: Book) -> Numbered:
        if book.node is not None:
            return Numbered(as_value(book.node), self.lines)
        plays = [self.play(play) for play in book.plays]
        return Numbered(plays, self.lines)

    def part(self, play: Play, tasks: Iterable[Task]) -> Numbered:
        """A book of some tasks of a play alone, in the order of their lines."""
        self.lines.append(Line("play", play))
        printed: Record = {"hosts": "all"}
        for section, are_handlers in (("tasks", False), ("handlers", True)):
            steps: List[Step] = [task for task in tasks if task.is_handler == are_handlers]
            if steps:
                printed[section] = self.steps(steps, play)
        return Numbered([printed], self.lines)

    def play(self, play: Play | Raw) -> Value:
        if isinstance(play, Raw):
            self.lines.append(Line("play", None, play))
            return as_value(play.node)
        self.lines.append(Line("play", play, nodes=(play.words,)))
        printed = {key: as_value(part) for key, part in play.words.pairs.items()}
        if printed.get("gather_facts") is True:
            self.lines.append(Line("facts", play))
        asked = self.facts(play, play.facts if printed.get("gather_facts") is True else [])
        asked += self.evaluations(play, play.evaluated, {}, play)
        for section in SECTIONS:
            steps = play.sections.get(section)
            if steps or (asked and section == "tasks"):
                printed[section] = asked + self.steps(steps or [], play)
                asked = []
        handlers = play.sections.get("handlers")
        if handlers:
            printed["handlers"] = self.steps(handlers, play)
        return printed

    def steps(self, steps: List[Step], play: Play) -> List[Value]:
        printed = []
        for step in steps:
            if isinstance(step, Block):
                printed += self.included(step, play) if is_asked_once(step) else [self.block(step, play)]
            elif isinstance(step, Task):
                printed += self.task(step, play)
            else:
                self.lines.append(Line("task", play, step))
                printed.append(as_value(step.node))
        return printed

    def included(self, block: Block, play: Play) -> List[Value]:
        """An include whose condition is asked before its tasks: where it is false, its block is left at its start."""
        given = block.words.get("vars")
        if given is not None:
            self.lines.append(Line("block", play, block, (given,)))
            return [{"vars": as_value(given), "block": self.included_steps(block, play)}]
        return self.included_steps(block, play)

    def included_steps(self, block: Block, play: Play) -> List[Value]:
        self.conditions += 1
        name = f"playcheck_include_{self.conditions}"
        condition = block.words["when"]
        self.lines.append(Line("condition", play, block, (condition,)))
        conditions = " and ".join(f"({text.value})" for text in texts_of(condition))
        first: Record = {"set_fact": {name: "{{ " + conditions + " }}"}}
        pairs = {key: part for key, part in block.words.pairs.items() if key not in ("when", "vars")}
        leave: Record = {"fail": {"msg": "the condition is false"}, "when": f"not {name}"}
        inner = self.block(block, play, Mapping(pairs, block.place), leave)
        self.lines.append(Line("condition", play, block))
        return [first, {**inner, "rescue": [{"fail": {"msg": "a task failed"}, "when": name}]}]

    def block(self, block: Block, play: Play, words: Optional[Mapping] = None,
              first: Optional[Record] = None) -> Record:
        words = words or block.words
        self.lines.append(Line("block", play, block, (words,)))
        printed = {key: as_value(part) for key, part in words.pairs.items() if key not in PARTS}
        if first:
            self.lines.append(Line("condition", play, block))
        asked: List[Value] = [first] if first else []
        asked += self.evaluations(block, block.evaluated, {}, play)
        for part in PARTS:
            steps = block.parts.get(part)
            if steps is None:
                continue
            printed[part] = asked + self.steps(steps, play)
            asked = []
        return printed

    def task(self, task: Task, play: Play) -> List[Value]:
        kind = "handler" if task.is_handler else "task"
        scope = {key: task.words[key] for key in ("when", "loop", "vars") if key in task.words}
        judging = task.judging
        asked = [] if judging.reason and not judging.asks_templates else self.evaluations_of(task, scope, play)
        if judging.reason:
            self.lines.append(Line(kind, play, task))
            return [*asked, self.unjudged(task, play)]
        self.lines.append(Line(kind, play, task, (task.words,)))
        return [*asked, {key: as_value(part) for key, part in task.words.pairs.items()},
                *self.not_ignored(task, play), *self.facts(play, task.judging.facts)]

    def evaluations_of(self, task: Task, scope: Pairs, play: Play) -> List[Value]:
        """What the words of a task ask: some before its condition, the others under it and in its loop."""
        first = [node for node in task.evaluated if is_first(node)]
        own = {key: node for key, node in scope.items() if key == "vars"}
        others = [node for node in task.evaluated if not is_first(node)]
        return self.evaluations(task, first, own, play) + self.evaluations(task, others, scope, play)

    def facts(self, play: Play, tasks: List[Value]) -> List[Value]:
        """What sets documented facts behind the task that gathers them."""
        self.lines += [Line("facts", play)] * len(tasks)
        return list(tasks)

    def not_ignored(self, task: Task, play: Play) -> List[Value]:
        """Behind a task whose `ignore_errors` is a template: where that is false, the host may end here."""
        if task.judging.ignore_condition is None:
            return []
        given = {"vars": task.words["vars"]} if "vars" in task.words else {}
        self.lines.append(Line("asked", play, task, (task.judging.ignore_condition, *given.values())))
        words = {key: as_value(node) for key, node in given.items()}
        return [{"fail": {"msg": "the task failed"}, "when": f"not ({task.judging.ignore_condition.value})", **words}]

    def evaluations(self, source: Holder, values: Iterable[Node], scope: Pairs, play: Play) -> List[Value]:
        """A message of the templates that stand in words which are passed over, so that they are asked."""
        texts = [text for value in values for text in texts_of(value) if has_template(text.value)]
        if not texts:
            return []
        self.lines.append(Line("asked", play, source, (*texts, *scope.values())))
        words = {key: as_value(node) for key, node in scope.items()}
        return [{"debug": {"msg": [text.value for text in texts]}, **words}]

    def unjudged(self, task: Task, play: Play) -> Record:
        """A call that may change or fail, in the place of a task that isn't judged."""
        printed: Record = {self.unjudged_module: None}
        name = task.words.get("name")
        if is_text(name) and not (task.is_handler and has_template(name.value)):
            printed["name"] = name.value
        listened = texts_of(task.words.get("listen"))
        topics: List[Value] = [text.value for text in listened if not has_template(text.value)]
        if task.is_handler and topics:
            printed["listen"] = topics
        ignores = task.words.get("ignore_errors")
        if isinstance(ignores, Scalar) and ignores.value is True and task.judging.ignore_condition is None:
            printed["ignore_errors"] = True
        notified: List[Value] = [*self.notified(task, play)]
        if notified:
            printed["notify"] = notified
        return printed

    def notified(self, task: Task, play: Play) -> List[str]:
        written = task.words.get("notify")
        texts = [text.value for text in texts_of(written)] if written is not None else []
        texts = [*texts, *task.judging.notified]
        if task.judging.notifies_any or any(has_template(text) for text in texts):
            texts = [text for text in texts if not has_template(text)] + later_handlers(task, play)
        return list(dict.fromkeys(texts))


def is_first(node: Node) -> bool:
    return isinstance(node, Scalar) and node.is_first


def is_asked_once(block: Block) -> bool:
    """Whether the condition of a block is that of an include which can stand before it."""
    return block.is_asked_once and bool(texts_of(block.words.get("when") or Sequence([], block.place)))


def later_handlers(task: Task, play: Play) -> List[str]:
    """The names of the handlers that a task may notify: of a handler those that stand behind it."""
    handlers = play.sections.get("handlers", [])
    at = next((index for index, handler in enumerate(handlers) if handler is task), -1)
    return [handler.name for handler in handlers[at + 1:] if handler.name]
