# SPDX-License-Identifier: MIT OR Apache-2.0
# What a check comes to: findings, what isn't judged, and the report on a book.
from __future__ import annotations

from dataclasses import dataclass, field
from typing import TYPE_CHECKING, List, NamedTuple, Optional

if TYPE_CHECKING:
    from .problems import Place

REFUSED, TOO_FEW, UNREAD = 1, 5, 64


class Skip(NamedTuple):
    """What silences a finding."""

    by: str  # comment or baseline
    reason: str = ""


@dataclass
class Finding:
    code: str
    title: str
    place: Place
    host: str = ""
    name: str = ""
    play: str = ""
    kind: str = ""
    detail: str = ""
    help: str = ""
    number: int = 0
    skip: Optional[Skip] = None
    is_end: bool = False  # behind it the program isn't asked any more, though it should be


@dataclass
class Unjudged:
    place: Place
    name: str
    reason: str
    kind: str = "task"


@dataclass
class Report:
    book: str
    findings: List[Finding] = field(default_factory=list)
    skipped: List[Finding] = field(default_factory=list)  # those that are silenced
    skip_notes: List[Unjudged] = field(default_factory=list)  # comments that silence nothing
    unjudged: List[Unjudged] = field(default_factory=list)
    notes: List[Unjudged] = field(default_factory=list)  # words of plays and blocks that weren't asked
    tasks: int = 0
    judged: int = 0
    left_out: int = 0  # tasks that a run passes by, by their tags
    budget: int = 0
    has_bound: bool = True  # the budget is one: no task is tried more often than the profile has it
    is_strict: bool = False  # what isn't judged is refused
    is_unread: bool = False  # a file of a folder that can't be read: its finding says why
    min_judged: int = 0  # the percentage of the tasks that has to be judged

    @property
    def is_whole(self) -> bool:
        return self.judged == self.tasks and not self.notes

    def to_keep(self) -> List[Finding]:
        """The findings that a baseline is to silence."""
        known = [one for one in self.skipped if one.skip is not None and one.skip.by == "baseline"]
        return [*known, *(one for one in self.findings if not one.is_end)]

    @property
    def is_refused(self) -> bool:
        return not self.is_unread and (bool(self.findings) or self.is_strict and not self.is_whole)

    @property
    def is_empty(self) -> bool:
        """Nothing is refused since nothing is judged; a book without tasks has nothing to judge."""
        return not self.is_refused and self.tasks > 0 and self.judged == 0

    @property
    def is_accepted(self) -> bool:
        return not (self.is_unread or self.is_refused or self.is_empty)

    @property
    def has_too_few(self) -> bool:
        """Of an accepted book fewer tasks are judged than `--min-judged` wants."""
        return self.is_accepted and self.judged * 100 < self.tasks * self.min_judged

    @property
    def verdict(self) -> str:
        if self.is_unread:
            return "unread"
        return "refused" if self.is_refused else "not judged" if self.is_empty else "accepted"

    @property
    def status(self) -> int:
        if self.is_refused or self.is_unread:
            return REFUSED if self.is_refused else UNREAD
        return TOO_FEW if self.is_empty or self.has_too_few else 0
