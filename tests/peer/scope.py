# SPDX-License-Identifier: MIT OR Apache-2.0
# What a random book knows where a task stands: names with their kinds, and the guards that make a read of them safe.
from __future__ import annotations

import random
from dataclasses import dataclass, field
from typing import Dict, Iterator, List, Optional, Tuple

from .vocabulary import DEFAULTS, FIELDS, LOOSE, TESTS, VALUES


@dataclass(frozen=True)
class Register:
    """The result of a task: of which module, and whether it may be skipped, failed, or a loop's."""

    module: str
    may_skip: bool
    may_fail: bool
    is_loop: bool


@dataclass(frozen=True)
class Read:
    """An expression, its kind, and what has to hold where it is read; empty where it always can be."""

    text: str
    kind: str
    guard: str = ""


@dataclass
class Scope:
    source: random.Random
    risk: float  # how often a guard is left out, or a name is one that nothing gives
    variables: Dict[str, Tuple[str, bool]] = field(default_factory=dict)
    registers: Dict[str, Register] = field(default_factory=dict)
    item: List[Tuple[str, str]] = field(default_factory=list)
    is_exact: bool = False  # of forms that a converted book has as they are: its recap is that of Ansible
    is_late: bool = False  # in a handler or behind a rescue: what was set may be missing

    def chance(self, share: float) -> bool:
        return self.source.random() < share

    def is_risky(self) -> bool:
        return self.chance(self.risk)

    def reads(self) -> Iterator[Read]:
        for name, (kind, sure) in self.variables.items():
            yield Read(name, kind, "" if sure and not self.is_late else f"{name} is defined")
        for name, one in self.registers.items():
            yield from self.reads_of(name, one)
        for suffix, kind in self.item:
            yield Read(f"item{suffix}", kind)
        if self.is_risky():
            yield Read("nothing_gives_it", "text", self.source.choice(["nothing_gives_it is defined", ""]))

    def reads_of(self, name: str, one: Register) -> Iterator[Read]:
        late = f"{name} is defined" if self.is_late else ""
        yield Read(name, "result", late)
        yield Read(f"{name}.changed", "bool", late)
        for part in FIELDS[one.module] if not one.is_loop else ():
            path = f"{name}.{part.path}"
            is_sure = part.is_sure and not one.may_skip and (part.is_in_failure or not one.may_fail)
            yield Read(path, part.kind, "" if is_sure and not self.is_late else f"{path} is defined")

    def read(self, *kinds: str) -> Optional[Read]:
        found = [one for one in self.reads() if not kinds or one.kind in kinds]
        return self.source.choice(found) if found else None

    def guarded(self, *kinds: str) -> Read:
        """Something to read; now and then without its guard, or with a default in its place."""
        found = self.read(*kinds) or Read("'q'", "text")
        if found.guard and found.kind in DEFAULTS and self.chance(0.2):
            return Read(f"({found.text} | default({DEFAULTS[found.kind]}))", found.kind)
        return Read(found.text, found.kind, "" if self.is_risky() else found.guard)

    def has(self, form: str) -> bool:
        return not (self.is_exact and form in LOOSE)

    def form(self, forms: List[str]) -> str:
        return self.source.choice([one for one in forms if self.has(one)])

    def condition(self, *kinds: str) -> str:
        found = self.guarded(*(kinds or tuple(TESTS)))
        text = self.form(TESTS[found.kind]).replace("{}", found.text)
        text = f"{found.guard} and {text}" if found.guard else text
        if self.chance(0.2):
            other = self.guarded("bool", "int")
            second = self.form(TESTS[other.kind]).replace("{}", other.text)
            second = f"{other.guard} and {second}" if other.guard else second
            text = f"({text}) {self.source.choice(['and', 'or'])} ({second})"
        return text

    def value(self) -> Read:
        found = self.guarded(*VALUES)
        form, kind = self.source.choice([one for one in VALUES[found.kind] if self.has(one[0])])
        return Read(form.replace("{}", found.text), kind, found.guard)

    def template(self) -> Read:
        """A text with a template in it."""
        found = self.value()
        form = self.source.choice(["x {{ # }}", "{{ # }} y", "{{ # }}-{{ inventory_hostname }}"])
        return Read(form.replace("#", found.text), "text", found.guard)
