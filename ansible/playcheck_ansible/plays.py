# SPDX-License-Identifier: MIT OR Apache-2.0
# The passes over plays and blocks: as those over tasks, see passes.py.
from __future__ import annotations

import re
from typing import TYPE_CHECKING, Callable, Iterable, List, Match, Optional, Set, Tuple

from .books import SECTIONS, Block, Book, Play, Raw, Task, steps_below
from .flow_words import FLOW, PASSED
from .gathering import gathered_by_tasks, gathered_facts
from .inclusion import leave_early_notifiers
from .kinds import FIRST, evaluated_word, wrong_word
from .names import mentioned, names_of_vars
from .nodes import (Mapping, Node, Pairs, Scalar, Sequence, as_node, has_template, is_literal, is_nothing, is_text,
                    items_or_one, pairs_in)
from .null_rc import leave_readers_of_null
from .outlived import leave_readers_of_items, note_outlived
from .passes import TRUTHS, run_passes, without_braces
from .tokens import VARIABLE
from .values import as_bool, as_int

if TYPE_CHECKING:
    from .modules import Modules

PLAY_PASSED = (*PASSED, "gather_subset", "gather_timeout", "fact_path", "order", "module_defaults")
PLAY_FLOW = tuple(word for word in FLOW if word != "module_defaults")
LOOKED_UP = re.compile(r"\{\{\s*([A-Za-z_]\w*)\s*(?:\|\s*default\(\s*(?:'([^']*)'|\"([^\"]*)\")\s*(?:,\s*[Tt]rue\s*)?\)"
                       r"\s*)?\}\}")
STRATEGIES = {"debug": "linear", "ansible.builtin.linear": "linear", "ansible.builtin.free": "free",
              "ansible.builtin.debug": "linear"}


def run_book_passes(book: Book, modules: Modules, extra: Pairs) -> None:
    """All passes over a book: its plays, their blocks and their tasks."""
    for play in book.read_plays():
        for of_words, of_extra in PLAY_ROUNDS:
            for one in of_words:
                one(play)
            for other in of_extra:
                other(play, extra)
        note_outer_names(play)
        leave_tagged(play)
        note_outlived(play)
        for step in play.steps():
            if isinstance(step, Block):
                block_words(step, extra)
            elif isinstance(step, Task):
                take_extra(step.words, extra)
                run_passes(step, modules)
        gathered_by_tasks(play)
        leave_early_notifiers(play)
        if play.reason:
            leave_all(play.tasks(), play.reason)
    leave_readers_of_items(book)
    leave_readers_of_null(book)


def note_outer_names(play: Play) -> None:
    """Tells the tasks with `vars` or a loop variable of their own which names are mentioned round them."""
    tasks = [task for task in play.tasks() if "loop_control" in task.words or "vars" in task.words]
    if tasks:
        names: Set[str] = set().union(*(mentioned(holder.words, holder.evaluated) for holder in play.containers()))
        for task in tasks:
            task.judging.outer_names = names


def leave_tagged(play: Play) -> None:
    """Leaves what has a template among its tags that reads more than the play gives: tags are evaluated for no host."""
    known = names_of_vars(play.words)
    for step in play.steps():
        tags = step.words.get("tags") if not isinstance(step, Raw) else None
        if tags is not None and mentioned(Mapping({"tags": tags}, step.place)) - known:
            leave_all([task for task in steps_below([step]) if isinstance(task, Task)], "its tags read what a host has")


def leave_all(tasks: Iterable[Task], reason: str) -> None:
    for task in tasks:
        task.leave(reason)


def empty_sections(play: Play) -> None:
    """A word without a value is none, and truth values, numbers and strategies are what Ansible makes of them."""
    words = play.words
    for key in (*SECTIONS, "handlers", "vars", "vars_files", "roles", "name", "gather_facts", "serial", "strategy"):
        if key in words and is_nothing(words.get(key)):
            words.take(key)
    for key in TRUTHS:
        if key in words:
            words.put(key, as_bool(words[key]))
    strategy = words.get("strategy")
    if is_text(strategy) and strategy.value in STRATEGIES:
        words.put("strategy", as_node(STRATEGIES[strategy.value], strategy.place))
    if "serial" in words:
        words.put("serial", counts(words["serial"]))
    plain_name(words)


def plain_name(words: Mapping) -> None:
    """A number as a name is a text; what is no single value is none."""
    name = words.get("name")
    if isinstance(name, Scalar) and not isinstance(name.value, str):
        words.put("name", as_node(name.text, name.place))
    elif name is not None and not isinstance(name, Scalar):
        words.take("name")


def counts(node: Node) -> Node:
    if isinstance(node, Sequence):
        return Sequence([as_int(item) for item in node.items], node.place)
    return as_int(node)


def prompted_variables(play: Play, extra: Pairs) -> None:
    """A variable that is asked for at the start is a text: its value isn't known."""
    play.words.take("vars_prompt")
    play.prompted -= set(extra)


def extra_variables(play: Play, extra: Pairs) -> None:
    """Variables of the command line win over all others: they stand at the play, and nowhere below it."""
    take_extra(play.words, extra)
    if not extra:
        return
    given = play.words.get("vars")
    merged = given.copy() if isinstance(given, Mapping) else Mapping({}, play.place)
    for name, node in extra.items():
        merged.put(name, node)
    play.words.put("vars", merged)


def take_extra(words: Mapping, extra: Pairs) -> None:
    given = words.get("vars")
    if isinstance(given, Mapping) and any(name in extra for name in given.pairs):
        kept = given.copy()
        for name in extra:
            kept.take(name)
        words.put("vars", kept)


def named_hosts(play: Play, extra: Pairs) -> None:
    """A name of hosts that the command line gives is put in; another template leaves the play."""
    node = play.words.get("hosts")
    if node is None:
        return
    found = [looked_up(text, play, extra) for text in items_or_one(node)]
    if any(is_text(text) and has_template(text.value) for text in found):
        play.reason = play.reason or "the play's `hosts` are a template"
        play.words.put("hosts", as_node("all", node.place))
    else:
        play.words.put("hosts", Sequence(found, node.place) if isinstance(node, Sequence) else found[0])


def looked_up(node: Node, play: Play, extra: Pairs) -> Node:
    if not is_text(node):
        return node
    known = {**pairs_in(play.words.get("vars")), **extra}

    def value(match: Match[str]) -> str:
        text = known.get(match[1])
        if is_text(text) and not has_template(text.value):
            return text.value
        default = match[2] if match[2] is not None else match[3]
        return default if default is not None and match[1] not in known else match[0]

    return Scalar(LOOKED_UP.sub(value, node.value), node.place, node.text)


def play_words(play: Play) -> None:
    """As of tasks: what changes the flow leaves all tasks of the play, the rest is asked and passed over."""
    flow = {word: play.words.take(word) for word in PLAY_FLOW}
    bars = [word for word, node in flow.items() if is_on(node, word, play)]
    play.evaluated += [node for node in flow.values() if node is not None]
    wrong = [wrong_word(word, node) for word, node in flow.items() if node is not None and wrong_word(word, node)]
    if bars or wrong:
        play.reason = play.reason or (f"`{bars[0]}` of the play changes the flow" if bars else wrong[0])
    for word in PLAY_PASSED:
        node = play.words.take(word)
        if word == "module_defaults" and node is not None and not is_nothing(node):
            play.reason = play.reason or "`module_defaults` give parameters"
        elif word == "order" and node is not None and "serial" in play.words:
            play.reason = play.reason or "`order` decides which hosts are in a batch"
        elif node is not None and wrong_word(word, node):
            play.reason = play.reason or wrong_word(word, node)
        elif node is not None:
            play.evaluated += evaluated_word(word, node)
    lost_variables(play)


def is_on(node: Optional[Node], word: str, play: Play) -> bool:
    """Whether a word that changes the flow does so here: where nothing is rescued, a play's end is a host's end."""
    if node is None or isinstance(node, Scalar) and node.value in (False, None):
        return False
    if word in ("any_errors_fatal", "max_fail_percentage"):
        forced = play.words.get("force_handlers")
        parts = any({"rescue", "always"} & set(block.parts) for block in play.blocks())
        return parts or (isinstance(forced, Scalar) and forced.value is True)
    return True


def lost_variables(holder: Play | Block) -> None:
    """Variables that the profile can't have: a name that no expression reads, a decimal number."""
    given = holder.words.get("vars")
    if not isinstance(given, Mapping):
        return
    kept = given.copy()
    for name, node in given.pairs.items():
        if not VARIABLE.fullmatch(name):
            kept.take(name)
        elif has_decimal(node):
            kept.take(name)
            holder.lost[name] = f"'{name}' holds a decimal number"
    holder.words.put("vars", kept)


def has_decimal(node: Node) -> bool:
    if isinstance(node, Mapping):
        return any(has_decimal(part) for part in node.pairs.values())
    if isinstance(node, Sequence):
        return any(has_decimal(item) for item in node.items)
    return isinstance(node.value, float) or isinstance(node.value, int) and not -2**63 <= node.value < 2**63


def block_words(block: Block, extra: Pairs) -> None:
    """The words of a block, as of a play; what it notifies its tasks notify."""
    words = block.words
    take_extra(words, extra)
    for key in ("when", "vars", "name", "ignore_errors"):
        if key in words and is_nothing(words.get(key)):
            words.take(key)
    if "ignore_errors" in words:
        words.put("ignore_errors", as_bool(words["ignore_errors"]))
    if "when" in words:
        words.put("when", without_braces(words["when"]))
    plain_name(words)
    below = [step for step in steps_below([block]) if isinstance(step, Task)]
    if "when" in words:
        for task in below:
            task.judging.is_below_condition = True
    once = words.take("run_once")
    for task in below:
        if once is not None and "run_once" not in task.words:
            task.words.put("run_once", as_bool(once))
    for word in FLOW:
        node = words.take(word)
        if node is not None and not (isinstance(node, Scalar) and node.value in (False, None)):
            leave_all(below, f"`{word}` of its block changes the flow")
    for word in PASSED:
        node = words.take(word)
        if node is not None:
            ask_below(block, word, node, below)
    notify_below(words.take("notify"), below)
    lost_variables(block)


def ask_below(block: Block, word: str, node: Node, tasks: List[Task]) -> None:
    """Asks a word of a block, at its start; of one that Ansible asks before each condition that may be too late."""
    wrong = wrong_word(word, node)
    is_late = word in FIRST and not is_literal(node) and any(task.judging.is_below_condition for task in tasks)
    if wrong or is_late:
        leave_all(tasks, wrong or f"`{word}` is asked before the condition of its block")
    else:
        block.evaluated += evaluated_word(word, node)


def notify_below(node: Optional[Node], tasks: List[Task]) -> None:
    """What a block notifies each of its tasks does, beside what it notifies itself."""
    if node is None:
        return
    for task in tasks:
        own = task.words.get("notify")
        task.words.put("notify", Sequence([*items_or_one(own), *items_or_one(node)], node.place))


# In this order: by turns those that read a play's words alone, and those that ask for the command line's variables.
PLAY_ROUNDS: Tuple[Tuple[Tuple[Callable[[Play], None], ...], Tuple[Callable[[Play, Pairs], None], ...]], ...] = (
    ((empty_sections,), (prompted_variables, extra_variables, named_hosts)),
    ((gathered_facts, play_words), ()),
)
