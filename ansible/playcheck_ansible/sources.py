# SPDX-License-Identifier: MIT OR Apache-2.0
# Parameters that the text of a module or of its action plugin has and its documentation lacks.
from __future__ import annotations

import ast
from functools import lru_cache
from pathlib import Path
from typing import FrozenSet, Iterator, List, Set, Tuple

MOST_BYTES = 4_194_304
# What the description of an argument may have.
WORDS = {"type", "default", "required", "choices", "aliases", "no_log", "elements", "options", "fallback",
         "removed_in_version", "removed_at_date", "removed_from_collection", "apply_defaults", "deprecated_aliases"}


@lru_cache(256)
def arguments_in(path: str) -> FrozenSet[str]:
    """The arguments that the text of a module describes, or that of the action plugin of its name beside it."""
    file = Path(path)
    action = file.parent.parent / "action" / file.name
    return arguments_of(file) | arguments_of(action)


def arguments_of(file: Path) -> FrozenSet[str]:
    try:
        if file.stat().st_size > MOST_BYTES:
            return frozenset()
        tree = ast.parse(file.read_bytes())
    except (OSError, ValueError, SyntaxError, RecursionError):
        return frozenset()
    found: Set[str] = set()
    waiting: List[ast.AST] = [tree]
    while waiting:
        node = waiting.pop()
        described = {name: value for name, value in pairs_of(node) if is_description(value)}
        found |= set(described)
        inside = set(map(id, described.values()))  # the arguments inside of one aren't the module's
        waiting += [child for child in children_of(node) if id(child) not in inside]
    return frozenset(found)


def pairs_of(node: ast.AST) -> Iterator[Tuple[str, ast.expr]]:
    """The names of a call as `dict(..)`, of a `{..}` or an assignment to a field, with their values."""
    if isinstance(node, ast.Call):
        yield from ((one.arg, one.value) for one in node.keywords if one.arg)
    elif isinstance(node, ast.Dict):
        yield from ((key.value, value) for key, value in zip(node.keys, node.values)
                    if isinstance(key, ast.Constant) and isinstance(key.value, str))
    elif isinstance(node, ast.Assign) and isinstance(node.targets[0], ast.Subscript):
        key = node.targets[0].slice
        if isinstance(key, ast.Constant) and isinstance(key.value, str):
            yield key.value, node.value


def children_of(node: ast.AST) -> Iterator[ast.AST]:
    for child in ast.iter_child_nodes(node):
        yield child.value if isinstance(child, ast.keyword) else child


def is_description(node: ast.expr) -> bool:
    """Whether a value describes an argument: a `dict(type=..)` or a `{"type": ..}`."""
    names = {name for name, _ in pairs_of(node)}
    is_dict = isinstance(node, ast.Dict) or isinstance(node, ast.Call) and getattr(node.func, "id", "") == "dict"
    return is_dict and bool(names) and names <= WORDS
