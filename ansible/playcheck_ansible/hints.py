# SPDX-License-Identifier: MIT OR Apache-2.0
# Where in a task a refusal points to, what it is about, and what may have been meant: by the texts, after the answer.
from __future__ import annotations

import re
from dataclasses import dataclass
from typing import TYPE_CHECKING, Iterable, List, Optional, Set, Tuple

from .book_hints import (earlier_handler, entered_before, judged_by_others, other_host, second_handler, unknown_host,
                         unknown_hosts)
from .books import TASK_WORDS, Block, Holder, Play, Raw, Task, is_module
from .documented_facts import DOCUMENTED
from .expressions import read_once
from .modules import PROFILE
from .names import CONDITIONS, FACTS, GRAMMAR, Read, given_names, names_of_vars, read_places
from .nodes import Mapping, Node, Scalar, Text, texts_of
from .problems import Place
from .wording import Hint, named, nearest, shown, where

if TYPE_CHECKING:
    from .lines import Line
    from .program import Answer
    from .settling import Settler

GUARD = r"\s*(?:is\s+(?:not\s+)?(?:defined|undefined)|\|\s*default)"
DEFAULTED = re.compile(r"\s*([A-Za-z_][\w.]*)\s*\|\s*default\([^()]*\)\s*")
MOST_NAMES = 12
# Those facts that an answer of `setup` needn't have.
PERHAPS_FACTS = FACTS[2:]


@dataclass
class Culprit:
    name: str
    place: Place


def culprit(task: Task, known: Set[str]) -> Optional[Culprit]:
    """The first name that a task reads without a guard and that is set nowhere."""
    places = list(read_places(task.words, task.evaluated))
    return culprit_in([place for place in places if place[1].is_first], known) or \
        culprit_in([place for place in places if not place[1].is_first], known)


def culprit_in(places: List[Read], known: Set[str]) -> Optional[Culprit]:
    for expression, node in places:
        for name in [token.text for token in read_once(expression).reads]:
            if name not in known and name not in GRAMMAR and not is_guarded(name, places):
                return Culprit(name, node.place)
    return None


def is_guarded(name: str, places: List[Read]) -> bool:
    guard = re.compile(rf"\b{re.escape(name)}{GUARD}")
    return any(guard.search(expression) for expression, _ in places)


def first_text(task: Task) -> Optional[Text]:
    """The first text that holds an expression."""
    for _, node in read_places(task.words, task.evaluated):
        if node.place.line:
            return node
    return None


def key_place(task: Task, keys: Iterable[str]) -> Optional[Place]:
    for key in keys:
        node = task.written.get(key)
        if node is not None:
            return node.place
    return None


def module_place(task: Task) -> Place:
    """Where the arguments of a task's module stand."""
    keys = [key for key in task.written.pairs if key.split(".")[-1] == (task.module() or "").split(".")[-1]]
    node = task.written.get(keys[0]) if keys else None
    return node.place if node is not None else task.place


def hint(answer: Answer, line: Optional[Line], settler: Settler) -> Hint:
    """The place, the detail and the help of a refusal."""
    if line is None:
        return Hint(Place(settler.book.file))
    step = line.step
    if not isinstance(step, Task):
        return of_holder(answer, line.source, line, settler)
    maker = {"V01": unset, "V03": missing, "V04": wrong_kind, "V05": unheard, "V07": parameter, "V08": reserved,
             "V10": chain, "V02": other_host, "P05": several, "P09": second_handler, "V06": unknown_host,
             "V09": judged_by_others, "V12": earlier_handler}.get(answer.code)
    found = maker(step, line, settler) if maker else None
    return found or Hint(key_place(step, DEFAULT_KEYS.get(answer.code, ())) or module_place(step))


DEFAULT_KEYS = {"V09": ("changed_when", "failed_when", "until"), "V12": ("notify",), "P09": ("name",)}


def of_holder(answer: Answer, holder: Holder | Raw, line: Line, settler: Settler) -> Hint:
    if answer.code == "V10":
        return chain(holder, line, settler) or Hint(holder.place)
    if answer.code == "V06" and isinstance(holder, Play) and "hosts" in holder.words:
        return unknown_hosts(holder, settler)
    if line.kind == "condition" and isinstance(holder, Block) and "when" in holder.words:
        return Hint(holder.words["when"].place)
    if line.kind == "asked" and isinstance(holder, (Play, Block)) and holder.evaluated:
        return of_words(answer, holder, settler)
    return Hint(holder.place)


def of_words(answer: Answer, holder: Play | Block, settler: Settler) -> Hint:
    """Of the words of a play or a block that are passed over."""
    places = list(read_places(Mapping({}, holder.place), holder.evaluated))
    names = settler.names_in_scope(holder)
    found = culprit_in(places, names) if answer.code == "V01" else None
    return nowhere(found, names, settler) if found else Hint(places[0][1].place if places else holder.place)


def unset(task: Task, line: Line, settler: Settler) -> Optional[Hint]:
    names = settler.names_in_scope(task)
    found = culprit(task, names)
    if not found:
        return reading_hint(task, line, settler)
    if found.name == "item":
        return Hint(found.place, "'item' is set in a loop only; this task has none")
    if found.name in settler.given():
        place = where(settler.place_of_name(found.name), found.place)
        return Hint(found.place, f"'{found.name}' isn't set here: `vars` give it elsewhere{place}")
    return nowhere(found, names, settler)


def nowhere(found: Culprit, names: Set[str], settler: Settler) -> Hint:
    """A name that nothing sets, and the one that may be meant."""
    near = nearest(found.name, names - GRAMMAR)
    meant = f". Did you mean '{near}'{where(settler.place_of_name(near), found.place)}?" if near else ""
    return Hint(found.place, f"'{found.name}' is set nowhere: not in this book, not in the inventory{meant}")


def reading_hint(task: Task, line: Line, settler: Settler) -> Optional[Hint]:
    """A name that is set on some ways alone."""
    for expression, node in read_places(task.words, task.evaluated):
        for name in [token.text for token in read_once(expression).reads]:
            if name in PERHAPS_FACTS or name in DOCUMENTED and name not in settler.given():
                return Hint(node.place, f"'{name}' is a fact that is perhaps missing",
                            f"Guard: when: {name} is defined, or {name} | default('')")
            giver = settler.giver(name)
            if giver is not None and giver is not task:
                told = (entered_before(name, node, task, giver, settler)
                        or f"'{name}' is set by {named(giver, node.place)}, which some way to here passes by")
                return Hint(node.place, told, f"Guard: when: {name} is defined")
    first = first_text(task)
    return Hint(first.place) if first is not None else None


def missing(task: Task, line: Line, settler: Settler) -> Optional[Hint]:
    for expression, node in read_places(task.words, task.evaluated):
        for path in read_once(expression).fields:
            giver = settler.giver(path[0])
            if giver is not None:
                return missing_of(path, node, giver, settler)
    first = first_text(task)
    return Hint(first.place) if first is not None else None


def missing_of(path: Tuple[str, str], node: Node, giver: Task, settler: Settler) -> Hint:
    text = ".".join(path)
    by = named(giver, node.place)
    when = settler.condition(giver)
    if when is None:
        return Hint(node.place, f"'{text}' isn't always in the answer of {by}",
                    f"Guard: when: {text} is defined, or {text} | default('')")
    return Hint(node.place, f"'{text}' is missing where {by} was skipped (its when: {shown(when)})",
                f"Guard: when: {path[0]} is not skipped, or {text} | default('')")


WANTED = {"bool": "a truth value", "int": "a whole number", "text": "a text"}


def wrong_kind(task: Task, line: Line, settler: Settler) -> Optional[Hint]:
    wanted = [node for node in line.nodes if isinstance(node, Scalar) and node.wanted] if line.kind == "asked" else []
    if len(wanted) == 1:
        return Hint(wanted[0].place, f"{WANTED[wanted[0].wanted]} is wanted here")
    for key in CONDITIONS:
        node = task.words.get(key)
        if node is not None and texts_of(node) and all(re.fullmatch(r"[\w.]+", text.value) for text in texts_of(node)):
            name = shown(node)
            return Hint(key_place(task, (key,)) or node.place, f"{key}: '{name}' may be no truth value",
                        f"Write a comparison, as {name} == '..' or {name} | length > 0")
    for expression, node in read_places(task.words, task.evaluated):
        found = DEFAULTED.fullmatch(expression)
        if found:
            return Hint(node.place, f"'{found[1]}' and its default may be of two kinds")
    first = first_text(task)
    return Hint(first.place) if first is not None else None


def unheard(task: Task, line: Line, settler: Settler) -> Optional[Hint]:
    handlers = [one for one in line.handlers if isinstance(one, Task)]
    known = {one.name: one for one in handlers}
    for one in handlers:
        if "listen" in one.words:
            known.update({text.value: one for text in texts_of(one.words.get("listen"))})
    for text in texts_of(task.words.get("notify")):
        if text.value not in known:
            near = nearest(text.value, known)
            meant = f". Did you mean '{near}'{where(known[near].place, text.place)}?" if near else ""
            return Hint(text.place, f"no handler of the name '{text.value}'{meant}")
    return None


def parameter(task: Task, line: Line, settler: Settler) -> Optional[Hint]:
    module = task.module()
    node = task.words.get(module) if module else None
    known = set(settler.modules.parameters.get(module or "", {}))
    if module is None or not isinstance(node, Mapping) or not known:
        return None
    documented = settler.modules.documented.get(module)
    called = documented.name if documented is not None else module
    listed = " ".join(sorted(known)[:MOST_NAMES])
    unknown = next((name for name in node.pairs if name not in known), None)
    if unknown is None:
        return Hint(node.place, f"a parameter of {called} that has to be there is missing. Known: {listed}")
    near = nearest(unknown, known)
    meant = f" Did you mean '{near}'?" if near else ""
    place = node.keys.get(unknown) or node.place
    return Hint(place, f"{called} has no parameter '{unknown}'.{meant} Known: {listed}")


def reserved(task: Task, line: Line, settler: Settler) -> Optional[Hint]:
    node = task.written.get("register") or task.written.get("vars") or task.written.get(task.module() or "")
    names = given_names(task) | names_of_vars(task.words)
    detail = f"'{sorted(names)[0]}'" if len(names) == 1 else ""
    return Hint(node.place, detail) if node is not None else None


def chain(task: Holder | Raw, line: Line, settler: Settler) -> Optional[Hint]:
    found = settler.cycle()
    if not found:
        return None
    lines = [str(place.line) for _, place in found[:-1]]
    told = f"line{'s' if len(lines) > 1 else ''} {', '.join(lines)}"
    return Hint(found[0][1], f"vars go round: {' -> '.join(name for name, _ in found)} ({told})")


def several(task: Task, line: Line, settler: Settler) -> Optional[Hint]:
    found = [key for key in task.words.pairs if is_module(key)]
    for key in found:
        near = nearest(key, TASK_WORDS)
        if near and key not in PROFILE:
            return Hint(task.words.keys.get(key) or task.place, f"'{key}' is no keyword. Did you mean '{near}'?")
    return Hint(task.place, f"modules: {', '.join(found) or 'none'}")
