# SPDX-License-Identifier: MIT OR Apache-2.0
# What is said of a finding and of a book, in every format; names that are near to one; lines in brackets.
from __future__ import annotations

import re
from dataclasses import dataclass
from typing import TYPE_CHECKING, Iterable, List, Optional

from .nodes import Node, texts_of
from .printing import line_of

if TYPE_CHECKING:
    from .books import Task
    from .problems import Place
    from .reports import Finding, Report, Unjudged


# Places in texts, which move with lines that are put in before them.
MOVING = re.compile(r"lines? \d+(?:, \d+)*|:\d+(?::\d+)?")


def without_lines(text: str) -> str:
    return MOVING.sub("", text)


def message_of(finding: Finding) -> str:
    """`task 'Show version', host web1: a field that is perhaps missing: ..`."""
    who = f"{finding.kind} '{finding.name}'" if finding.name else finding.kind
    who = ", ".join(part for part in (who, f"host {finding.host}" if finding.host else "") if part)
    parts = [part for part in (who, finding.title, finding.detail) if part]
    return line_of(": ".join(parts))


def count_of(report: Report) -> str:
    left_out = f", {report.left_out} left out by tags" if report.left_out else ""
    return f"{report.judged} of {report.tasks} tasks judged{left_out}"


def verdict_of(report: Report) -> str:
    """The last line on a book; `accepted` never stands without the count."""
    return f"{line_of(report.book)}: {outcome_of(report)}"


def outcome_of(report: Report) -> str:
    if report.is_unread:
        return "can't be read"
    skipped = f", {number_of(report.skipped)} skipped" if report.skipped else ""
    if report.findings:
        return f"refused, {number_of(report.findings)}, {count_of(report)}{skipped}"
    if report.is_refused:
        return f"refused by --strict, {count_of(report)}{skipped}"
    if report.is_empty:
        return f"{report.verdict}, {count_of(report)}{skipped}"
    if report.has_too_few:
        return f"accepted, {count_of(report)}{skipped}: fewer than {report.min_judged} % (--min-judged)"
    budget = f", at most {report.budget} module calls" if report.is_whole and report.has_bound else ""
    return f"accepted, {count_of(report)}{budget}{skipped}"


def number_of(findings: List[Finding]) -> str:
    return "1 finding" if len(findings) == 1 else f"{len(findings)} findings"


def skipped_of(finding: Finding) -> str:
    """What is said of a silenced finding, where a format has it."""
    assert finding.skip is not None, "it is silenced"
    return f"skipped by {finding.skip.by}" + (f": {line_of(finding.skip.reason)}" if finding.skip.reason else "")


def not_judged_of(one: Unjudged) -> str:
    """What is said of a task that isn't judged."""
    return line_of(f"{one.kind} '{one.name}': {one.reason}" if one.name else one.reason)


@dataclass
class Hint:
    place: Place
    detail: str = ""
    help: str = ""


def shown(node: Node) -> str:
    return ", ".join(str(text.value) for text in texts_of(node))


def where(place: Optional[Place], beside: Place) -> str:
    """In brackets the line of a place, with its file where that is another one than the finding's."""
    if place is None or not place.line:
        return ""
    return f" (line {place.line})" if place.file == beside.file else f" ({place.file}:{place.line})"


def named(task: Task, beside: Place) -> str:
    """A task by its name, or else by its module, with its line."""
    return f"'{task.name or task.module()}'{where(task.place, beside)}"


def distance(one: str, other: str, most: int) -> int:
    """The edit distance of two words, swapped neighbours counted as one edit; `most + 1` where it is more."""
    if abs(len(one) - len(other)) > most:
        return most + 1
    before: List[int] = []
    row = list(range(len(other) + 1))
    for i, letter in enumerate(one, 1):
        new = [i]
        for j, against in enumerate(other, 1):
            cost = min(row[j] + 1, new[j - 1] + 1, row[j - 1] + (letter != against))
            if i > 1 and j > 1 and letter == other[j - 2] and one[i - 2] == against:
                cost = min(cost, before[j - 2] + 1)
            new.append(cost)
        before, row = row, new
    return min(row[-1], most + 1)


def nearest(word: str, names: Iterable[str]) -> str:
    """The name that is nearest to a word, where one is near."""
    most = 1 if len(word) < 5 else 2
    scored = sorted((distance(word.lower(), name.lower(), most), name) for name in names if name != word)
    return scored[0][1] if scored and scored[0][0] <= most else ""
