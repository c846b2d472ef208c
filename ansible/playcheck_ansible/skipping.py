# SPDX-License-Identifier: MIT OR Apache-2.0
# Which findings are silenced: by comments at the ends of lines, and by a baseline.
from __future__ import annotations

import re
from bisect import bisect_left, bisect_right
from dataclasses import dataclass, field
from typing import TYPE_CHECKING, Dict, List, Optional, Set, Tuple

import yaml

from .baselines import key_of
from .codes import OWN_TITLES, TITLES
from .positions import read_text, texts_in
from .problems import Place, Problem
from .reports import Skip, Unjudged

if TYPE_CHECKING:
    from .baselines import Baseline
    from .books import Book, Task
    from .lines import Line
    from .reports import Finding

MARK = re.compile(r"(?<!\S)#[ \t]*playcheck:")
FORM = "# playcheck: skip V03 (why)"
SHOWN = 40  # letters of a code that isn't one


@dataclass
class Comment:
    place: Place
    codes: Tuple[str, ...] = ()
    reason: str = ""
    wrong: str = ""  # why it isn't taken
    used: Set[str] = field(default_factory=set)  # the codes of which it has silenced a finding


def comment_of(place: Place, words: str) -> Comment:
    """What a comment says behind `playcheck:`."""
    before, _, behind = words.strip().partition("(")
    word, *others = before.split(None, 1) or [""]
    codes = tuple(code.strip() for code in " ".join(others).split(","))
    reason = behind[:-1].strip() if behind.endswith(")") else ""
    if word != "skip" or codes == ("",):
        return Comment(place, wrong=f"this isn't taken: `{FORM}` is wanted")
    for code in codes:
        if code not in TITLES and code not in OWN_TITLES:
            return Comment(place, wrong=f"this isn't taken: there is no code '{code[:SHOWN]}'")
    if not reason:
        return Comment(place, wrong=f"this isn't taken: a reason in parentheses is wanted, as in `{FORM}`")
    return Comment(place, codes, reason)


def comments_in(text: str, path: str) -> Dict[int, Comment]:
    """The comments of a file, each by its line: what stands in a text of the file is none."""
    if "playcheck:" not in text:
        return {}
    lines = text.splitlines()
    found = [(number, mark.start(), mark.end()) for number, line in enumerate(lines) for mark in MARK.finditer(line)]
    starts = [(number, start) for number, start, _ in found]
    in_texts: Set[int] = set()
    for first, last in texts_in(text) if found else ():
        in_texts.update(range(bisect_left(starts, first), bisect_left(starts, last)))
    comments: Dict[int, Comment] = {}
    for at, (number, start, end) in enumerate(found):
        if at not in in_texts and number + 1 not in comments:
            comments[number + 1] = comment_of(Place(path, number + 1, start + 1), lines[number][end:])
    return comments


class Skips:
    """The comments of the files of a book, and what is left of a baseline."""

    def __init__(self, baseline: Baseline) -> None:
        self.files: Dict[str, Dict[int, Comment]] = {}
        self.baseline = dict(baseline)
        self.notes: List[Unjudged] = []

    def comments(self, path: str) -> Dict[int, Comment]:
        if path not in self.files:
            try:
                self.files[path] = comments_in(read_text(path), path)
            except (Problem, yaml.YAMLError):
                self.files[path] = {}  # such as -e, which is no file
        return self.files[path]

    def take(self, found: Finding, line: Optional[Line]) -> Optional[Skip]:
        """What silences a finding: a comment at its line or at the first line of its task, or else the baseline."""
        for place in (found.place, line.place if line is not None else found.place):
            comment = self.comments(place.file).get(place.line)
            if comment is not None and found.code in comment.codes:
                comment.used.add(found.code)
                return Skip("comment", comment.reason)
        key = key_of(found)
        if not self.baseline.get(key):
            return None
        self.baseline[key] -= 1
        return Skip("baseline")

    def refuse(self, found: Finding) -> None:
        """Says that a finding counts which is to be silenced."""
        self.notes.append(Unjudged(found.place, "", f"{found.code} isn't skipped here: nothing behind it would be judged"))

    def tell(self, book: Book, is_whole: bool) -> None:
        """Says which comments aren't taken; where all findings are known, also which of them silence nothing."""
        starts = starts_of(book)
        for path in sorted({book.file, *starts, *self.files}):
            for comment in self.comments(path).values():
                needless = [code for code in comment.codes if code not in comment.used]
                if comment.wrong:
                    self.notes.append(Unjudged(comment.place, "", comment.wrong))
                elif needless and is_whole and is_judged(starts.get(path, []), comment.place.line):
                    self.notes.append(Unjudged(comment.place, "", f"nothing to skip here: {', '.join(needless)}"))


def starts_of(book: Book) -> Dict[str, List[Tuple[int, bool]]]:
    """By file the first lines of the tasks, and whether each is judged whole: one that is refused isn't."""
    starts: Dict[str, List[Tuple[int, bool]]] = {}
    left = [(task, False) for task in book.left_out]
    for task, judged in (*left, *((task, not task.judging.reason) for task in book.tasks())):
        starts.setdefault(task.place.file, []).append((task.place.line, judged))
    return {path: sorted(found) for path, found in starts.items()}


def is_judged(starts: List[Tuple[int, bool]], line: int) -> bool:
    """Whether the task that a line belongs to is judged whole; a line before all tasks belongs to none."""
    at = bisect_right(starts, (line, True))
    return not at or starts[at - 1][1]
