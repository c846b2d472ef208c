# SPDX-License-Identifier: MIT OR Apache-2.0
# Makes a book smaller as long as it is accepted and a run with the same answers still breaks its promise.
from __future__ import annotations

import copy
import re
from pathlib import Path
from typing import Any, Dict, Iterator

import yaml

from .front_end import check
from .precedence import write
from .recaps import is_comparable
from .runs import Ansible

Json = Dict[str, Any]
MOST_TRIES = 150


def smaller(files: Json) -> Iterator[Json]:
    """The files with one part of a list or one word of a mapping left out."""
    for name in files:
        if name != "book.yml":
            yield {other: content for other, content in files.items() if other != name}
        for path in paths(files[name]):
            made = copy.deepcopy(files)
            inside = made[name]
            for step in path[:-1]:
                inside = inside[step]
            del inside[path[-1]]
            yield made


def paths(node: Any, before: "tuple[Any, ...]" = ()) -> "Iterator[tuple[Any, ...]]":
    """The places of what may be left out: large parts first."""
    steps = list(node) if isinstance(node, dict) else list(range(len(node))) if isinstance(node, list) else []
    for step in steps:
        if step not in ("name", "hosts", "gather_facts"):
            yield (*before, step)
    for step in steps:
        yield from paths(node[step], (*before, step))


def sort_of(told: str) -> str:
    """What a message says, without its names, numbers and places."""
    return re.sub(r"'[^']*'|\"[^\"]*\"|\(.*?\)|\d+|/\S+", "", told.partition(": ")[2])[:50]


def is_broken(ansible: Ansible, folder: Path, files: Json, answers: Json, sort: str) -> bool:
    """Whether it is accepted, and a run breaks its promise in the same way."""
    from .flow import trouble

    place = folder / "small"
    write(place, files)
    try:
        verdict, = check(["small/book.yml"], folder)
    except (RuntimeError, ValueError):
        return False
    if not verdict.is_accepted:
        return False
    broken = trouble(ansible, place, verdict, answers, verdict.is_whole and is_comparable(place))
    return bool(broken) and sort_of(broken) == sort


def smallest(ansible: Ansible, folder: Path, files: Json, answers: Json, told: str) -> str:
    """The files of the smallest book that was found, as YAML."""
    tries, found = 0, True
    while found:
        found = False
        for made in smaller(files):
            tries += 1
            if tries > MOST_TRIES:
                break
            if is_broken(ansible, folder, made, answers, sort_of(told)):
                files, found = made, True
                break
    return "".join(f"--- {name}\n{yaml.safe_dump(content, sort_keys=False)}" for name, content in files.items())
