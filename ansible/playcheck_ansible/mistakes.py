# SPDX-License-Identifier: MIT OR Apache-2.0
# Mistakes that Ansible's own documentation of a module shows, before the program is asked: in literal values alone.
from __future__ import annotations

from dataclasses import dataclass
from typing import TYPE_CHECKING, Dict, Iterator, List

from .nodes import Atom, Mapping, Node, Scalar, as_value, has_template, is_nothing, is_text, items_or_one
from .problems import Mistake
from .values import FALSE_WORDS, TRUE_WORDS, as_int, as_list
from .wording import nearest

if TYPE_CHECKING:
    from .books import Task
    from .modules import Choices, Documented, Modules

MOST_CHOICES = 12
BACK = {"True": TRUE_WORDS, "False": FALSE_WORDS}


def documented_values(task: Task, modules: Modules) -> None:
    """What the documentation of a task's module forbids: values, missing parameters, a parameter by two names."""
    module = task.module()
    known = modules.documented.get(module) if module else None
    if module is None or known is None:
        return
    node, place = task.words[module], task.words.keys.get(module) or task.place
    if is_nothing(node):
        node = Mapping({}, place)
    if not isinstance(node, Mapping):
        return
    given: Dict[str, List[str]] = {}  # the parameters, each with the names by which it is given
    for name in node.pairs:
        given.setdefault(modules.aliases[module].get(name, name), []).append(name)
    for option in known.required:
        if option not in given:
            task.judging.mistakes.append(Mistake("A-required", place, f"`{option}` of {known.name} is missing"))
    for option, names in given.items():
        if len(names) > 1:
            place = node.keys.get(names[1]) or node.place
            told = f"`{names[0]}` and `{names[1]}` of {known.name} are one"
            task.judging.mistakes.append(Mistake("A-alias", place, told))
        for name in names:
            if option in known.choices:
                is_list = modules.parameters[module].get(option) in ("list", "ints")
                value = as_list(node[name]) if is_list else node[name]
                task.judging.mistakes += wrong_choices(value, name, known, known.choices[option])


def wrong_choices(node: Node, name: str, known: Documented, choices: Choices) -> Iterator[Mistake]:
    """The values of a parameter that are literal and none of its choices."""
    for value in values_of(node):
        if not is_choice(value, choices):
            word = str(value.value)
            near = nearest(word, [choice for choice in choices if isinstance(choice, str)])
            meant = f" Did you mean '{near}'?" if near else ""
            listed = " ".join(map(str, choices[:MOST_CHOICES])) + (" .." if len(choices) > MOST_CHOICES else "")
            told = f"'{word}' is no choice of `{name}` of {known.name}.{meant} Choices: {listed}"
            yield Mistake("A-choice", value.place, told)


def values_of(node: Node) -> List[Scalar[Atom]]:
    """The single values of a parameter: of a list its items."""
    return [item for item in items_or_one(node) if isinstance(item, Scalar)]


def is_choice(node: Scalar[Atom], choices: Choices) -> bool:
    """Whether a value may be one of the choices, as Ansible converts it to their kind: a template may be any."""
    if not choices or is_nothing(node) or is_text(node) and has_template(node.value):
        return True
    if isinstance(choices[0], int):
        number = as_value(as_int(node))
        return isinstance(number, bool) or not isinstance(number, int) or number in choices
    text = str(node.value)
    # YAML makes truth values of words as `yes`: Ansible takes the one choice that is such a word.
    return text in choices or len(set(BACK.get(text, ())) & set(choices)) == 1
