# SPDX-License-Identifier: MIT OR Apache-2.0
# Which tasks aren't judged, and why: what the passes left, and what reads of these.
from __future__ import annotations

from typing import TYPE_CHECKING, Dict, List, Optional, Set

from .books import Block, Book, Note, Play, Task, is_module, steps_below
from .documented_facts import DOCUMENTED
from .expressions import read_once
from .magic import outside_names
from .modules import SETS_UNKNOWN, Modules
from .names import FACTS, KNOWN, given_names, mentioned, names_of_vars, outside_node, read_places
from .nodes import Mapping, is_text, pairs_in
from .scope import Scope

if TYPE_CHECKING:
    from .inventory import Inventory

CUT = "refused: "


class Taint(Scope):
    """Leaves each task that reads what a task which isn't judged gives."""

    def __init__(self, book: Book, modules: Modules, inventory: Inventory) -> None:
        super().__init__(book, inventory)
        self.modules = modules
        self.opaque = inventory.opaque_names()
        self.is_outside = outside_names(book)
        self.reads = {id(task): names_read(task) for task in self.tasks}
        # What isn't asked beside tasks: words of plays and blocks, and files of variables, with their places.
        self.notes: List[Note] = [note for play in self.plays for note in play.unread_files]

    def static_marks(self) -> None:
        given_by_vars: Set[str] = set().union(*(names_of_vars(holder.words) for play in self.plays
                                                for holder in play.holders()))
        for play in self.plays:
            for holder in play.containers():
                lose_outside(holder)
        for task in self.tasks:
            leave_outside(task)
            twice = (given_names(task) & given_by_vars) - KNOWN
            if twice:
                name = sorted(twice)[0]
                task.leave(f"'{name}' is set here and given by `vars`; which of them counts isn't modelled")
            module = task.module()
            if task.judging.reason and module in SETS_UNKNOWN:
                task.judging.sets_unknown = True
        for play in self.plays:
            leave_handlers(play)

    def spread(self) -> None:
        """Leaves each task that reads what a task which isn't judged gives, and so on."""
        while True:
            tainted = self.tainted()
            marked = False
            for task in self.tasks:
                if not task.judging.reason or task.judging.asks_templates:
                    marked = self.mark(task, tainted) or marked
            if not marked:
                self.drop_asked(tainted)
                self.drop_conditions(tainted)
                return

    def mark(self, task: Task, tainted: Dict[str, str]) -> bool:
        for name in sorted(self.reads[id(task)]):
            if name in tainted or self.is_outside_fact(name):
                task.leave(f"it reads '{name}': {tainted.get(name, 'a name that the profile lacks')}")
                task.judging.asks_templates = False
                return True
        return False

    def is_outside_fact(self, name: str) -> bool:
        is_known = name in KNOWN or name in self.outside or name in self.given()
        return not is_known and self.is_outside(name)

    def tainted(self) -> Dict[str, str]:
        """The names that may hold what isn't judged, each with the reason."""
        tainted = dict(self.opaque)
        for play in self.plays:
            tainted.update(play.lost)
            for block in play.blocks():
                tainted.update(block.lost)
                self.taint_passed(block, tainted)
        for task in self.tasks:
            if task.judging.reason:
                for name in given_names(task):
                    tainted.setdefault(name, f"it is set on line {task.place.line}, which isn't judged")
        self.taint_forgotten(tainted)
        for play in self.plays:
            self.taint_lost(play, tainted)
        self.taint_vars(tainted)
        return tainted

    def taint_forgotten(self, tainted: Dict[str, str]) -> None:
        """What tasks set may be gone where hosts that failed come back, or facts are cleared."""
        for task in [task for task in self.tasks if task.judging.forgets]:
            for name in {*FACTS, *DOCUMENTED, "ansible_facts"}.union(*(given_names(one) for one in self.tasks)):
                tainted.setdefault(name, f"it may be gone behind line {task.place.line}")

    def taint_passed(self, block: Block, tainted: Dict[str, str]) -> None:
        """An include under a condition runs whole or sets nothing; the tasks of a block are skipped one by one."""
        for step in steps_below([block]) if is_passed(block) else ():
            for name in given_names(step) if isinstance(step, Task) else ():
                tainted.setdefault(name, f"it is set by an include on line {block.place.line} that may be passed")

    def taint_lost(self, play: Play, tainted: Dict[str, str]) -> None:
        """What a play sets behind the place at which a host may leave it, and what an unjudged play gathers."""
        tasks = play.tasks()
        ends = [index for index, task in enumerate(tasks) if task.judging.ends_host]
        if ends:
            for task in tasks[ends[0]:]:
                for name in given_names(task):
                    tainted.setdefault(name, f"it is set behind line {tasks[ends[0]].place.line}, which ends the play")
        if play.reason and not play.has_no_host:
            for name in (*FACTS, *DOCUMENTED, "ansible_facts"):
                tainted.setdefault(name, f"the play on line {play.place.line} isn't judged")

    def taint_vars(self, tainted: Dict[str, str]) -> None:
        """Names of `vars` whose values mention such a name hold it too."""
        values = [(name, mentioned(Mapping({"vars": node}, node.place)))
                  for play in self.plays for holder in play.holders()
                  for name, node in pairs_in(holder.words.get("vars")).items()]
        marked = True
        while marked:
            marked = False
            for name, read in values:
                bad = sorted(one for one in read if one in tainted or self.is_outside_fact(one))
                if name not in tainted and bad:
                    why = tainted.get(bad[0], "which the profile lacks")
                    tainted[name] = f"its value reads '{bad[0]}': {why}"
                    marked = True

    def drop_conditions(self, tainted: Dict[str, str]) -> None:
        """A block whose condition can't be judged leaves all its tasks."""
        for block in (block for play in self.plays for block in play.blocks() if "when" in block.words):
            read = mentioned(Mapping({"when": block.words["when"]}, block.place))
            bad = sorted(name for name in read if name in tainted or self.is_outside_fact(name))
            if bad:
                self.leave_block(block, f"its block's condition reads '{bad[0]}'")
                self.spread()
                return

    def drop_asked(self, tainted: Dict[str, str]) -> None:
        """Words of plays and blocks that read what isn't judged aren't asked, and this is said."""
        holders = [holder for play in self.plays for holder in play.containers()]
        for holder, node in [(holder, node) for holder in holders for node in holder.evaluated]:
            read = mentioned(Mapping({"vars": node}, node.place))
            bad = sorted(name for name in read if name in tainted or self.is_outside_fact(name))
            if bad:
                holder.evaluated = [other for other in holder.evaluated if other is not node]
                self.notes.append((node.place, f"this word isn't asked: it reads '{bad[0]}'"))

    def leave_block(self, block: Block, reason: str) -> None:
        block.words.take("when")
        block.evaluated = []
        for step in steps_below([block]):
            if isinstance(step, Task):
                step.leave(reason, block.place)


def is_passed(block: Block) -> bool:
    return block.is_include and not block.is_asked_once and "when" in block.words


def names_read(task: Task) -> Set[str]:
    """The names that a task reads; of an unknown module those of the texts that are asked."""
    words = task.words
    if task.judging.asks_templates:
        words = Mapping({key: part for key, part in words.pairs.items() if not is_module(key)}, words.place)
    return mentioned(words, task.evaluated)


def leave_outside(task: Task) -> None:
    """Leaves a task with a form that shows at once to lie outside the profile."""
    if task.judging.reason:
        return
    for expression, text in read_places(task.words, task.evaluated):
        what = read_once(expression).form
        if what:
            task.leave(f"{what}, which the profile lacks", text.place)
            return


def lose_outside(holder: Play | Block) -> None:
    """Takes the values out of the `vars` of a play or a block that have such a form."""
    given = pairs_in(holder.words.get("vars"))
    for name, node in list(given.items()):
        what, text = outside_node(node)
        if text is not None:
            del given[name]
            holder.lost[name] = f"its value on line {text.place.line} has {what}, which the profile lacks"


def leave_handlers(play: Play, tasks: Optional[List[Task]] = None) -> None:
    """Where a flush isn't judged, neither is a handler that it may run."""
    some = tasks if tasks is not None else play.tasks()
    flushes = [task for task in some if task.judging.reason and is_flush(task)]
    for handler in play.tasks() if flushes else []:
        if handler.is_handler:
            handler.leave(f"the flush on line {flushes[0].place.line} isn't judged")


def is_flush(task: Task) -> bool:
    node = task.words.get("meta")
    return is_text(node) and node.value.strip() == "flush_handlers"
