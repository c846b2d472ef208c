# SPDX-License-Identifier: MIT OR Apache-2.0
# Asks the program about a book until it answers about the flow: each form outside the profile leaves its task.
from __future__ import annotations

import re
from typing import TYPE_CHECKING, Callable, List, Optional, Set, Tuple

from .books import Block, Book, Play, Task
from .documented_facts import DOCUMENTED
from .expressions import read_once
from .inclusion import topics_of
from .lines import Line, Numbered, Printer
from .modules import CHANGES_FLOW, PROFILE, SETS_UNKNOWN, Modules
from .names import FACTS, names_of_vars, read_places
from .nodes import Mapping, Node, Scalar, Sequence, as_node, has_template, pairs_in, texts_of
from .problems import Mistake, Place
from .taint import CUT, Taint, leave_handlers
from .unreadable_tasks import leave_unreadable
from .wording import nearest

if TYPE_CHECKING:
    from .inventory import Inventory
    from .program import Answer, Asker
    from .reports import Finding
    from .skipping import Skips

RESULT_FIELDS = {"changed", "failed", "skipped", "skip_reason", "msg", "results"}
MOST_REFUSALS = 50  # for each the program is asked anew
# Codes of a form that the profile lacks; the other P codes are mistakes in Ansible too.
FORM_CODES = ("P03", "P04", "P06", "P07")
# From so many of them on, the other tasks are asked in small books, and not one question of the whole book for each.
MANY_FORMS = 8
FORM_REASONS = {
    "P03": "a word that the profile lacks",
    "P04": "a value that hasn't the form which the profile wants",
    "P06": "a module that is neither built in nor declared",
    "P07": "an expression that the profile lacks",
}


# What makes a finding of a refusal, and of what the front end sees itself.
MakesFinding = Callable[["Answer", Optional[Line], "Settler"], "Finding"]
MakesOwnFinding = Callable[[Mistake, Line], "Finding"]


class Settler(Taint):
    """Asks the program until it answers about the flow: each form outside the profile leaves its task."""

    def __init__(self, book: Book, modules: Modules, inventory: Inventory, asker: Asker,
                 skips: Skips) -> None:
        super().__init__(book, modules, inventory)
        self.asker, self.skips = asker, skips
        self.findings: List[Tuple[Optional[Line], Finding]] = []
        for play in self.plays:
            if play.reason:
                self.strip(play)
        self.static_marks()

    def ask(self) -> Answer:
        self.spread()
        self.numbered = Printer(self.modules.unjudged_name()).book(self.book)
        self.answer = self.asker.ask(self.numbered.json)
        return self.answer

    def ask_part(self, play: Play, tasks: List[Task]) -> Tuple[Numbered, Answer]:
        """What the program says of some tasks of a play alone."""
        numbered = Printer(self.modules.unjudged_name()).part(play, tasks)
        return numbered, self.asker.ask(numbered.json)

    def settle(self, finding: MakesFinding, go_on: bool = False) -> None:
        """Asks until the answer is about the flow; `finding` makes one of a refusal, with `go_on` its task is left."""
        forms = refusals = 0
        for _ in range(2 * len(self.tasks) + 3 * len(self.plays) + 8):
            answer = self.ask()
            if not answer.code:
                return
            if self.is_left(answer, self.line(answer)):
                forms += answer.code in FORM_CODES
                if forms == MANY_FORMS:
                    leave_unreadable(self.numbered.lines[answer.line:], self.ask_part, self.is_left)
                    forms = 0
                continue
            refusals += 1
            if not self.is_passed(answer, finding(answer, self.line(answer), self), go_on, refusals == MOST_REFUSALS):
                return

    def is_passed(self, answer: Answer, found: Finding, go_on: bool, is_last: bool) -> bool:
        """Keeps a finding, and says whether the program is asked for the next one; the last one isn't silenced."""
        line = self.line(answer)
        self.findings.append((line, found))
        skip = self.skips.take(found, line)
        if not go_on and not skip:
            return False
        found.is_end = is_last or not self.cut(answer)
        if is_last:
            what = f"the program is asked for {MOST_REFUSALS} refusals at most, and there may be more"
            self.notes.append((Place(self.book.file), what))
        if not found.is_end:
            found.skip = skip
        elif skip:
            self.skips.refuse(found)
        return not found.is_end

    def take_mistakes(self, finding: MakesOwnFinding) -> None:
        """Makes findings of what documentation shows, and cuts these tasks, before the program is asked."""
        for task in self.tasks:
            play = self.play_of(task)
            if task.judging.mistakes and not play.reason:
                line = Line("handler" if task.is_handler else "task", play, task)
                found = [finding(mistake, line) for mistake in task.judging.mistakes]
                for one in found:
                    one.skip = self.skips.take(one, line)
                self.findings += [(line, one) for one in found]
                task.judging.reason, task.judging.reason_place = f"{CUT}{task.judging.mistakes[0].code}", task.place
                task.judging.asks_templates = False

    def line(self, answer: Answer) -> Optional[Line]:
        return self.numbered.line(answer.line)

    def is_left(self, answer: Answer, line: Optional[Line]) -> bool:
        """Whether the refusal is of a form outside the profile, whose task isn't judged from now on."""
        if line is None or line.play is None:
            return False
        step = line.step
        reason = self.reason(answer, line)
        if not reason:
            return False
        if answer.code == "V05" and isinstance(step, Task):
            return left_notifier(step, line.play, reason)
        holder = line.source
        if line.kind == "asked" and isinstance(holder, (Play, Block)):
            self.notes.append((holder.evaluated[0].place, f"words of the {holder_kind(holder)} aren't asked: {reason}"))
            holder.evaluated = []
            return True
        if isinstance(step, Task) and step.judging.asks_templates:
            step.judging.asks_templates = False
            return True
        if isinstance(step, Task) and not step.judging.reason:
            step.leave(reason)
            step.judging.sets_unknown = step.module() in SETS_UNKNOWN
            if step.module() == "meta":
                leave_handlers(line.play, [step])
            return True
        if isinstance(step, Block) and ("when" in step.words or "vars" in step.words or step.evaluated):
            return self.left_block(step, reason)
        if step is line.play or step is None:
            return self.left_play(line.play, answer.code, reason)
        return False

    def left_block(self, block: Block, reason: str) -> bool:
        for name in names_of_vars(block.words):
            block.lost[name] = f"the `vars` of the block on line {block.place.line} aren't judged"
        block.words.take("vars")
        block.words.take("ignore_errors")
        self.leave_block(block, reason)
        return True

    def left_play(self, play: Play, code: str, reason: str) -> bool:
        if code in ("P07", "P04") and self.lost_by_probing(play):
            return True
        if play.reason:
            return False
        play.reason = reason
        self.strip(play)
        return True

    def strip(self, play: Play) -> None:
        """Leaves all tasks of a play, and of its words and those of its blocks what they need to stand."""
        for holder in play.containers():
            for name in names_of_vars(holder.words):
                holder.lost[name] = f"the play on line {play.place.line} isn't judged"
            for key in list(holder.words.pairs):
                if key not in ("hosts", "name"):
                    holder.words.take(key)
            holder.evaluated = []
        for task in play.tasks():
            task.leave(play.reason)
            task.judging.asks_templates = False

    def lost_by_probing(self, play: Play) -> bool:
        """Takes out the values of `vars` that the program can't read, each asked alone."""
        found = False
        given = pairs_in(play.words.get("vars"))
        hosts = play.words.get("hosts") or as_node("all", play.place)
        for name, node in list(given.items()):
            if not any(has_template(text.value) for text in texts_of(node)):
                continue
            probe = Play(Mapping({"hosts": hosts, "vars": Mapping({name: node}, node.place)}, play.place),
                         play.place, {})
            if self.asker.ask([Printer("").play(probe)]).code in ("P07", "P04"):
                del given[name]
                play.lost[name] = f"its value on line {node.place.line} has a form that the profile lacks"
                found = True
        return found

    def reason(self, answer: Answer, line: Line) -> str:
        """Why what the program refuses lies outside the profile; empty where it is a finding."""
        if answer.code in FORM_CODES:
            return FORM_REASONS[answer.code]
        task, play = line.step, line.play
        if not isinstance(task, Task) or play is None:
            return "the play names groups that the book makes" if answer.code == "V06" and self.makes_groups() else ""
        if answer.code == "V07":
            return outside_parameter(task, self.modules)
        if answer.code == "V03":
            return self.undocumented_field(task)
        if answer.code == "V01":
            from .hints import culprit  # read where it is wanted: an accepted book has no finding

            known = self.names_in_scope(task) - self.ungathered()
            found = culprit(task, known)
            if found and found.name != "item" and self.may_be_set_elsewhere(task, play):
                near = nearest(found.name, known)
                meant = f". Did you mean '{near}'?" if near else ""
                return f"it reads '{found.name}', which may come from what isn't judged{meant}"
        if answer.code == "V05" and any(step.judging.sets_unknown and step.judging.reason for step in play.tasks()):
            return "what it notifies may stand in what isn't judged"
        if answer.code == "V06" and self.makes_groups():
            return "it names a group or a host that the book may make"
        return ""

    def ungathered(self) -> Set[str]:
        """The facts, where nothing that is known of the book gathers any."""
        words = [play.words.get("gather_facts") for play in self.plays]
        is_gathered = any(isinstance(node, Scalar) and node.value is True for node in words)
        is_called = any(task.module() == "setup" for task in self.tasks)
        return set() if is_gathered or is_called else {*FACTS, *DOCUMENTED}

    def undocumented_field(self, task: Task) -> str:
        """Whether a task reads a field that its module's documentation gives no kind."""
        for expression, _ in read_places(task.words, task.evaluated):
            for name, field in read_once(expression).fields:
                giver = self.giver(name)
                known = self.modules.documented.get(giver.module() or "") if giver is not None else None
                if known is not None and field not in known.fields | RESULT_FIELDS:
                    return f"it reads '{name}.{field}', of which the module's documentation gives no kind"
        return ""

    def makes_groups(self) -> bool:
        return any(task.module() in ("add_host", "group_by") for task in self.tasks)

    def may_be_set_elsewhere(self, task: Task, play: Play) -> bool:
        """Whether something that isn't judged may set names that a task reads: before it, or for its whole play."""
        behind = False
        for one in self.tasks:
            behind = behind or one is task
            is_wide = one.is_handler or self.play_of(one) is play and "include_role" in one.words
            if one.judging.reason and one.judging.sets_unknown and (not behind or is_wide):
                return True
        return bool(play.unread_files)

    def cut(self, answer: Answer) -> bool:
        """Leaves a refused task, so that the next finding is told; whether there was one to leave."""
        line = self.line(answer)
        task = line.step if line is not None else None
        if not isinstance(task, Task) or task.judging.reason and not task.judging.asks_templates:
            return False
        task.judging.asks_templates = False
        task.leave(f"{CUT}{answer.code}")
        if answer.code in ("V05", "V12"):
            task.words.take("notify")
        return True


def left_notifier(task: Task, play: Play, reason: str) -> bool:
    """Leaves a task that may notify what isn't judged: the call in its place notifies the handlers that are known."""
    known: Set[str] = set().union(*map(topics_of, play.sections.get("handlers", [])))
    node = task.words.get("notify")
    kept: List[Node] = [text for text in texts_of(node) if text.value in known or has_template(text.value)]
    others = [name for name in task.judging.notified if name in known]
    is_less = node is not None and len(kept) < len(texts_of(node)) or len(others) < len(task.judging.notified)
    if node is not None:
        task.words.put("notify", Sequence(kept, node.place))
    task.judging.notified = others
    task.leave(reason)
    return is_less


def holder_kind(holder: Play | Block) -> str:
    return "play" if isinstance(holder, Play) else "block"


def outside_parameter(task: Task, modules: Modules) -> str:
    """Of a refused parameter: whether Ansible's own module has it, and the profile's table not."""
    module = task.module()
    node = task.words.get(module) if module else None
    if module is None or not isinstance(node, Mapping):
        return ""
    if module == "assert":
        return "a condition that the profile lacks" if not set(node.pairs) - set(PROFILE[module]) else ""
    further = modules.passed_over.get(module, set()) | CHANGES_FLOW.get(module, set())
    names = [name for name in node.pairs if name in further]
    if module in ("command", "shell") and "argv" in node:
        names.append("argv")
    return f"the parameter `{names[0]}` of {module}, which the profile lacks" if names else ""
