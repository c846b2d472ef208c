# SPDX-License-Identifier: MIT OR Apache-2.0
# The passes over the arguments of a task's module: one text taken apart, other names, values of the declared kinds.
from __future__ import annotations

import re
from typing import TYPE_CHECKING, Dict, List

from .kinds import evaluated_word, wrong_word
from .modules import CHANGES_FLOW, FREE_FORM, FREE_TEXTS, Modules
from .nodes import (Mapping, Record, Scalar, Sequence, as_node, as_value, has_template, is_literal, is_nothing, is_text,
                    texts_of)
from .values import arguments_of, as_bool, converted, is_whole

if TYPE_CHECKING:
    from .books import Task

EMPTY: Record = {"text": "", "bool": False, "int": 0, "list": [], "ints": []}
PATH = re.compile(r"[A-Za-z_][\w.'\"\[\]]*")


def name_value_texts(task: Task, modules: Modules) -> None:
    """`copy: src=a dest=b` becomes the object with these parameters."""
    module = task.module()
    node = task.words.get(module) if module else None
    if module is None or not is_text(node) or module in FREE_FORM or module == "meta" or not modules.has(module):
        return
    known = modules.documented.get(module)
    if known is not None and known.name in FREE_TEXTS:
        task.words.put(module, Mapping({FREE_TEXTS[known.name]: node}, node.place))
        return
    found = arguments_of(node.value)
    if found:
        task.words.put(module, as_node(found, node.place))


def merged_args(task: Task) -> None:
    """`args` are parameters of the module; those that stand at the module itself win."""
    given = task.words.take("args")
    module = task.module()
    if given is None or module is None:
        return
    if not isinstance(given, Mapping):
        task.leave("`args` that is no mapping", given.place)
        return
    own = task.words.get(module)
    merged = given.copy()
    if is_text(own) and module in FREE_FORM:
        merged.put("cmd", own)
    elif isinstance(own, Mapping):
        for key, part in own.pairs.items():
            merged.put(key, part)
    elif own is not None and not is_nothing(own):
        task.leave("`args` beside arguments that are one text", given.place)
        return
    task.words.put(module, merged)


def messages(task: Task) -> None:
    """`debug: var` shows what it names, and says so where that isn't there; empty messages are Ansible's own."""
    node = task.words.get("debug")
    if node is not None and (is_nothing(node) or isinstance(node, Mapping)):
        task.words.put("debug", shown(task, node if isinstance(node, Mapping) else Mapping({}, node.place)))
    node = task.words.get("fail")
    if node is not None and (is_nothing(node) or isinstance(node, Mapping) and "msg" not in node):
        told = node.copy() if isinstance(node, Mapping) else Mapping({}, node.place)
        told.put("msg", as_node("Failed as requested from task", node.place))
        task.words.put("fail", told)


def shown(task: Task, node: Mapping) -> Mapping:
    node = node.copy()
    verbosity = node.take("verbosity")
    if verbosity is not None and "register" in task.words:
        task.leave("`verbosity` decides what is registered", verbosity.place)
    elif verbosity is not None and wrong_word("verbosity", verbosity):
        task.leave(wrong_word("verbosity", verbosity), verbosity.place)
    elif verbosity is not None:
        task.evaluated += evaluated_word("verbosity", verbosity)
    name = node.take("var")
    if name is not None and "msg" in node:
        task.leave("`debug` with both `msg` and `var`", name.place)
        return node
    if name is None:
        if "msg" not in node:
            node.put("msg", as_node("Hello world!", node.place))
        return node
    if is_text(name) and not has_template(name.value):
        name = Scalar("{{ " + read_if_there(name.value.strip()) + " }}", name.place, name.text)
    node.put("msg", name)
    return node


def read_if_there(text: str) -> str:
    """An expression that reads a path of any kind where it is there; any other expression as it is."""
    return f"{text} is defined and [{text}] | length == 1" if PATH.fullmatch(text) else text


def parameters(task: Task, modules: Modules) -> None:
    """Other names of a parameter, parameters that change nothing in the shape of an answer, and values' kinds."""
    module = task.module()
    node = task.words.get(module) if module else None
    if module is None or not isinstance(node, Mapping):
        return
    node = node.copy()
    task.words.put(module, node)
    for name in list(node.pairs):
        if name in CHANGES_FLOW.get(module, ()):
            task.leave(f"the parameter `{name}` of {module} decides what it gives", node.keys.get(name))
            return
    if module == "set_fact":
        facts(node, task)
        return
    argv = node.get("argv")
    if module in FREE_FORM and isinstance(argv, Sequence):
        node.take("argv")
        words = [str(as_value(item)) for item in argv.items]
        node.put("cmd", as_node(" ".join(words), node.place))
    rename(node, modules.aliases.get(module, {}))
    if module == "assert":
        assert_messages(node, task)
    passed = {*modules.passed_over.get(module, ()), *modules.undocumented(module, node.pairs)}
    if module in modules.open:
        passed = {*passed, *node.pairs} - set(modules.parameters[module])
    pass_over_parameters(task, node, sorted(passed))
    for name, kind in modules.parameters.get(module, {}).items():
        given = node.get(name)
        if given is None:
            continue
        if module in modules.documented and not task.is_handler and is_whole(given):
            # Ansible converts whatever the template gives: what is asked is that it gives anything.
            task.evaluated.append(converted(given, "omitted"))
            node.put(name, as_node(EMPTY.get(kind, ""), given.place))
        elif module != "assert":
            node.put(name, converted(given, kind, name))


def assert_messages(node: Mapping, task: Task) -> None:
    """The messages of `assert` are texts, or lists of texts, which Ansible doesn't convert."""
    for name in ("fail_msg", "success_msg"):
        part = node.get(name)
        if isinstance(part, Sequence) and all(is_text(item) for item in part.items):
            node.take(name)
            task.evaluated += [one for item in part.items for one in evaluated_word("success_msg", item)]
        elif name == "success_msg" and part is not None and not is_nothing(part):
            node.take(name)
            if not is_text(part):
                task.leave("`success_msg` is no text", part.place)
            task.evaluated += evaluated_word(name, part)
        elif part is not None and is_nothing(part):
            node.take(name)


def rename(node: Mapping, names: Dict[str, str]) -> None:
    for name, other in names.items():
        if name in node and other not in node:
            place = node.keys.get(name)
            node.put(other, node.pairs.pop(name))
            node.keys[other] = place or node.place


def pass_over_parameters(task: Task, node: Mapping, names: List[str]) -> None:
    for name in names:
        part = node.take(name)
        if part is None:
            continue
        if task.is_handler and not is_literal(part):
            task.leave(f"the parameter `{name}` of a handler holds a template", part.place)
        else:
            task.evaluated += [converted(text, "omitted") for text in texts_of(part)]


def facts(node: Mapping, task: Task) -> None:
    """Ansible makes truth values of these words in `set_fact`, and `cacheable` keeps facts for later runs."""
    cacheable = node.take("cacheable")
    if cacheable is not None:
        task.evaluated.append(cacheable)
    for name, part in node.pairs.items():
        if is_text(part) and part.value.lower() in ("yes", "no", "true", "false"):
            node.put(name, as_bool(part))
