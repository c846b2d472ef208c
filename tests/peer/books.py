# SPDX-License-Identifier: MIT OR Apache-2.0
# Random books of everyday flow, and the inventory that several of them share.
from __future__ import annotations

import random
from typing import Any, Dict, List, Tuple

from .scope import Scope
from .tasks import TaskMaker

Json = Dict[str, Any]
HOSTS = ("h1", "h2", "h3")
POOL: "Dict[str, Tuple[str, List[Any]]]" = {
    "port": ("int", [80, 81, 443]), "mode": ("text", ["fast", "slow", ""]), "enabled": ("bool", [True, False]),
    "flags": ("list", [["a", "b"], [], ["web", "c"]]), "answer": ("text", ["yes", "no"]),
}


WORDS: "List[Tuple[str, List[Any], float]]" = [
    ("serial", [1, 2, "50%"], 0.15), ("strategy", ["free"], 0.12), ("force_handlers", [True], 0.15),
    ("any_errors_fatal", [True], 0.05)]


def inventory(source: random.Random) -> "Tuple[Json, Dict[str, Tuple[str, bool]]]":
    """An inventory of one to three hosts, and what it gives: kinds, and whether all hosts have it."""
    hosts = HOSTS[:source.choice([1, 2, 2, 3])]
    given: Dict[str, Json] = {host: {} for host in hosts}
    known = {}
    for name, (kind, values) in POOL.items():
        if source.random() < 0.7:
            some = [host for host in hosts if source.random() < 0.75]
            for host in some:
                given[host][name] = source.choice(values)
            if some:
                known[name] = (kind, len(some) == len(hosts))
    web = {host: None for host in hosts if source.random() < 0.6} or {hosts[0]: None}
    return {"all": {"hosts": given, "children": {"web": {"hosts": web}}}}, known


def play(source: random.Random, maker: TaskMaker) -> Json:
    made: Json = {"name": "P", "hosts": source.choice(["all", "all", "web"]), "gather_facts": False}
    for word, values, share in WORDS:
        if source.random() < share and not (maker.scope.is_exact and word == "any_errors_fatal"):
            made[word] = source.choice(values)
    maker.handlers = ["H1", "H2"][:source.choice([0, 1, 2])]
    if source.random() < 0.3:
        made["vars"] = {f"v{maker.number()}": "t"}
        maker.scope.variables.update({name: ("text", True) for name in made["vars"]})
    names = list(maker.handlers)
    made["tasks"] = maker.tasks(source.choice([3, 4, 5]))
    maker.handlers, maker.role_handlers, maker.scope.is_late = [], [], True
    made["handlers"] = [{**source.choice([maker.message, maker.call])(2), "name": name} for name in names]
    maker.scope.is_late = False
    return made


def book(seed: int, known: "Dict[str, Tuple[str, bool]]") -> Json:
    """The files of a book, by name; each second one is such that its recap can be compared."""
    source = random.Random(seed)
    is_exact = seed % 2 == 1
    scope = Scope(source, 0.02 if is_exact else source.choice([0.02, 0.08, 0.25]), dict(known), is_exact=is_exact)
    maker = TaskMaker(source, scope)
    plays = [play(source, maker)]
    if source.random() < 0.25:
        scope.is_late = True
        plays.append(play(source, maker))
    return {**maker.files, "book.yml": plays}
