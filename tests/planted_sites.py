# SPDX-License-Identifier: MIT OR Apache-2.0
# What planted.py can make of a file: one bug, as an edit of its text, by the language of the file.
from dataclasses import dataclass
from pathlib import Path
from typing import Callable, List

import planted_python
import planted_shell
from planted_edit import Edit


@dataclass(frozen=True)
class Bug:
    """An edit of a file of the tree, and what tells it apart from all others: the line, before and after."""

    file: str
    line: int
    sort: str
    before: str
    after: str
    text: str  # of the whole file with the bug

    def key(self) -> List[str]:
        return [self.file, self.before, self.after]

    def told(self) -> str:
        return f"{self.file}:{self.line}: {self.sort}\n  - {self.before}\n  + {self.after}"


def lines_of(text: str, start: int, end: int) -> str:
    """The lines that the places stand in, without blanks around them."""
    first, last = text.rfind("\n", 0, start) + 1, text.find("\n", end)
    return " ".join(text[first : last if last >= 0 else None].split())


def bugs_of(top: Path, file: str) -> List[Bug]:
    """All that can be planted there, in the order of the file; an edit that no program reads isn't one."""
    text = (top / file).read_text(encoding="utf-8")
    language = planted_python if file.endswith(".py") or text.startswith("#!/usr/bin/env python") else planted_shell
    sites: Callable[[str], List[Edit]] = language.edits
    found = []
    for edit in sorted(set(sites(text))):
        whole = text[: edit.start] + edit.new + text[edit.end :]
        before = lines_of(text, edit.start, edit.end)
        after = lines_of(whole, edit.start, edit.start + len(edit.new))
        if before != after:
            found.append(Bug(file, text.count("\n", 0, edit.start) + 1, edit.sort, before, after, whole))
    return found


def is_read(bug: Bug) -> bool:
    """Whether a program reads the file with the bug at all."""
    reads: Callable[[str], bool] = (planted_python if bug.file.endswith(".py") else planted_shell).is_read
    return reads(bug.text)
