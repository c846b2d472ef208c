# SPDX-License-Identifier: MIT OR Apache-2.0
# The passes over a task: each takes what Ansible has and the profile lacks, and writes it as the profile has it.
# docs/FROM_ANSIBLE.md says of each why it keeps the meaning.
from __future__ import annotations

from typing import Callable, Tuple

from .arguments import merged_args, messages, name_value_texts, parameters
from .books import Task, is_module
from .flow_words import flow_words, pass_over, passed_words
from .kinds import evaluated_word
from .loops import dict_loops, loop_variables, loops
from .mistakes import documented_values
from .modules import CORE, SETS_UNKNOWN, UNKNOWN, Modules, short_name
from .names import mentioned
from .nodes import Mapping, Node, Scalar, Sequence, as_node, has_template, is_nothing, is_text, texts_of
from .values import as_bool, as_int, converted, is_whole
from .wording import nearest

TRUTHS = ("ignore_errors", "run_once", "any_errors_fatal", "ignore_unreachable", "delegate_facts", "check_mode",
          "gather_facts", "force_handlers")
MOST_RETRIES = 255
ENDS = ("end_host", "end_play", "end_batch", "end_role")
NO_FLOW = ("noop", "reset_connection")
# A name of so few letters is near to too many.
SHORT = 5


def run_passes(task: Task, modules: Modules) -> None:
    """All passes over a task, in their order; where one finds a form outside the profile the rest is left."""
    for of_words, of_modules in ROUNDS:
        for one in of_words:
            if not task.judging.reason:
                one(task)
        for other in of_modules:
            if not task.judging.reason:
                other(task, modules)


def plain_keywords(task: Task) -> None:
    """`yes`, numbers as texts and nothing at all, as Ansible takes them for keywords."""
    words = task.words
    for key in TRUTHS:
        if key in words:
            words.put(key, as_bool(words[key]))
    if "retries" in words:
        words.put("retries", as_int(words["retries"]))
        if "until" not in words:
            pass_over(task, "retries")
        else:
            bounded_retries(task)
    ignores = words.get("ignore_errors")
    if is_whole(ignores) and not task.is_handler:
        task.evaluated += evaluated_word("ignore_errors", ignores)
        task.judging.ignore_condition = Scalar(ignores.value.strip()[2:-2].strip(), ignores.place, ignores.text)
        words.put("ignore_errors", as_node(True, ignores.place))
    for key in ("name", "register"):
        node = words.get(key)
        if isinstance(node, Scalar) and isinstance(node.value, (int, float)):
            words.put(key, as_node(node.text, node.place))
    for key in ("when", "vars", "notify", "loop", "changed_when", "failed_when", "name", "args"):
        if key in words and is_nothing(words.get(key)):
            words.take(key)


def bounded_retries(task: Task) -> None:
    """More tries than the profile has are as many as it has, and a template is any number: the verdict has no bound."""
    node = task.words["retries"]
    number = node.value if isinstance(node, Scalar) and isinstance(node.value, int) else None
    if is_whole(node) or number is not None and number > MOST_RETRIES:
        task.judging.has_no_bound = True
        task.words.put("retries", as_node(MOST_RETRIES, node.place))
        if number is None:
            task.evaluated += evaluated_word("retries", node)


def plain_conditions(task: Task) -> None:
    """A condition in braces is the expression itself."""
    for key in ("when", "changed_when", "failed_when", "until"):
        if key in task.words:
            task.words.put(key, without_braces(task.words[key]))


def without_braces(node: Node) -> Node:
    if isinstance(node, Sequence):
        return Sequence([without_braces(item) for item in node.items], node.place)
    if is_whole(node):
        return Scalar(node.value.strip()[2:-2].strip(), node.place, node.text)
    return node


def action_words(task: Task) -> None:
    """`action` and `local_action` with a module's name become that module."""
    for key in ("action", "local_action"):
        node = task.words.take(key)
        if node is None:
            continue
        module = node.get("module") if isinstance(node, Mapping) else None
        arguments: Node
        if is_text(node):
            name, _, text = node.value.strip().partition(" ")
            arguments = as_node(text.strip() or None, node.place)
        elif isinstance(node, Mapping) and is_text(module):
            name, copied = module.value, node.copy()
            copied.take("module")
            arguments = copied
        else:
            task.leave(f"`{key}` without a module's name", node.place)
            return
        if has_template(name):
            task.leave(f"`{key}` with a template as the module's name", node.place)
            return
        task.words.put(name, arguments)


def plain_module_names(task: Task, modules: Modules) -> None:
    """A built-in module with its collection's name is the same; a short name is looked for in the collections first."""
    for key in [key for key in task.words.pairs if is_module(key)]:
        longer = [f"{one}.{key}" for one in task.collections if "." not in key]
        name = next((one for one in longer if one in modules.written), short_name(key))
        name = modules.written.get(name, name)
        if name != key:
            node, place = task.words.pairs.pop(key), task.words.keys.get(key)
            task.words.put(name, node)
            task.words.keys[name] = place or node.place


def unread_vars(task: Task) -> None:
    """A name of a task's `vars` that holds `omit` and that nothing reads is dropped: it is never evaluated."""
    given = task.words.get("vars")
    if not isinstance(given, Mapping):
        return
    kept = given.copy()
    for name, node in given.pairs.items():
        if not any("omit" in text.value for text in texts_of(node)):
            continue
        others = Mapping({**task.words.pairs, "vars": without(kept, name)}, task.place)
        if name not in mentioned(others, task.evaluated) | task.judging.outer_names:
            kept.take(name)
    task.words.put("vars", kept)
    if not kept.pairs:
        task.words.take("vars")


def without(words: Mapping, name: str) -> Mapping:
    return Mapping({key: part for key, part in words.pairs.items() if key != name}, words.place)


def known_module(task: Task, modules: Modules) -> None:
    """A task with another module than those of the profile and of the signatures isn't judged; its texts are asked."""
    keys = [key for key in task.words.pairs if is_module(key)]
    if len(keys) != 1 or modules.has(keys[0]):
        return
    module, node = keys[0], task.words[keys[0]]
    why = modules.unknown.get(module, modules.unasked)
    told = f"the module `{module}` is neither built in nor declared{': ' * bool(why)}{why}{meant(module, modules)}"
    task.leave(told, task.words.keys.get(module) or node.place)
    if not task.is_handler and module not in SETS_UNKNOWN:
        task.judging.asks_templates = True
        task.evaluated += [converted(text, "omitted") for text in texts_of(node)]


def meant(module: str, modules: Modules) -> str:
    """The module that a name may mean: one that isn't declared only where ansible-doc doesn't know the name."""
    is_sought = modules.unknown.get(module) == UNKNOWN
    names = {*modules.parameters, *modules.written, *(CORE if is_sought else ())}
    near = nearest(module, names) if is_sought or len(module) > SHORT else ""
    return f". Did you mean '{near}'?" if near else ""


def meta_actions(task: Task) -> None:
    """Of `meta` the profile has `flush_handlers`; `noop` and `reset_connection` do nothing to the flow."""
    node = task.words.get("meta")
    if not is_text(node):
        return
    word = node.value.strip()
    if word in NO_FLOW:
        task.words.take("meta")
        task.words.put("debug", as_node({"msg": ""}, node.place))
    elif word != "flush_handlers":
        task.judging.ends_host = word in ENDS
        task.judging.sets_unknown = not task.judging.ends_host
        task.judging.forgets = word in ("clear_facts", "clear_host_errors")
        task.leave(f"`meta: {word}`", node.place)
    elif "when" in task.words:
        task.leave("`meta: flush_handlers` with a condition", node.place)
    else:
        for key in list(task.words.pairs):
            if key not in ("meta", "name"):
                task.words.take(key)


# In this order: by turns those that read a task's words alone, and those that ask what is known of modules.
ROUNDS: Tuple[Tuple[Tuple[Callable[[Task], None], ...], Tuple[Callable[[Task, Modules], None], ...]], ...] = (
    ((plain_keywords, plain_conditions, action_words), (plain_module_names,)),
    ((flow_words,), (name_value_texts,)),
    ((merged_args, passed_words, messages, unread_vars, dict_loops, loop_variables, loops), (known_module,)),
    ((meta_actions,), (documented_values, parameters)),
)
