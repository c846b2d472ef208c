# SPDX-License-Identifier: MIT OR Apache-2.0
# Which paths hold no text as `inf`: of those Ansible's filter `int` makes no number, and fails.
from __future__ import annotations

import re
from typing import TYPE_CHECKING, Callable, Iterator, NamedTuple

from .books import Block, Play, Task
from .literal_operands import is_plain
from .nodes import Sequence, Value, as_value, has_template, is_literal

if TYPE_CHECKING:
    from .known_values import Values

# Fields of results that are numbers or truth values, or texts of digits.
NUMBERS = frozenset("""atime attempts changed ctime elapsed examined exists failed gid isdir islnk isreg matched mode
mtime rc size skipped status uid""".split())
ROOT = re.compile(r"[A-Za-z_]\w*")
WHOLE_PATH = re.compile(r"\s*\{\{\s*([A-Za-z_][\w.]*)\s*\}\}\s*")
# A template whose value is a number.
NUMBER = re.compile(r"\s*\{\{[^{}]*\|\s*(?:int|length|count)\s*\}\}\s*")
DEEPEST = 8
# Answers whether `int` takes what a path holds.
IsFinite = Callable[[str], bool]


class Finite(NamedTuple):
    """Answers whether `int` takes what a path holds, in a task with these values of names."""

    values: Values
    has_plain_items: bool

    def __call__(self, path: str, depth: int = 0) -> bool:
        root = ROOT.match(path)
        if root is None or depth > DEEPEST:
            return False
        name = root[0]
        if name.startswith("ansible_"):
            return name != "ansible_failed_result"
        if name == "item":
            return self.has_plain_items
        known = self.values.known(name)
        if known is not None:
            return all(map(is_plain, texts_in(known)))
        if path[len(name):] and re.split(r"\W+", path.rstrip("]'\""))[-1] in NUMBERS:
            return True
        written = self.values.written.get(name)
        return written is not None and bool(written) and all(self.takes(value, depth) for value in written)

    def takes(self, value: Value, depth: int) -> bool:
        if not isinstance(value, str) or not has_template(value):
            return value is not None and all(map(is_plain, texts_in(value)))
        path = WHOLE_PATH.fullmatch(value)
        return NUMBER.fullmatch(value) is not None or path is not None and self(path[1], depth + 1)


def texts_in(value: Value) -> Iterator[str]:
    waiting = [value]
    while waiting:
        one = waiting.pop()
        if isinstance(one, str):
            yield one
        elif isinstance(one, (list, dict)):
            waiting += one.values() if isinstance(one, dict) else one


def has_plain_items(holder: Play | Block | Task) -> bool:
    """Whether a task's loop is a literal list of values that `int` takes."""
    node = holder.words.get("loop") if isinstance(holder, Task) else None
    return isinstance(node, Sequence) and is_literal(node) and all(map(is_plain, texts_in(as_value(node))))
