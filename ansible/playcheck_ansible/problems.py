# SPDX-License-Identifier: MIT OR Apache-2.0
# What goes wrong before a verdict: a file that can't be read, a form that can't be put into JSON.
from __future__ import annotations

from typing import NamedTuple, Optional


class Place(NamedTuple):
    """A place of a file; lines and columns are counted from 1, and line 0 is the whole file."""

    file: str
    line: int = 0
    column: int = 0

    def __str__(self) -> str:
        return f"{self.file}:{self.line}:{self.column}" if self.line else self.file


class Problem(Exception):
    """Told on standard error as `playcheck-ansible: FILE:LINE:COL: what`."""

    def __init__(self, place: Optional[Place], what: str, status: int = 64) -> None:
        super().__init__(f"{place}: {what}" if place else what)
        self.place, self.what, self.status = place, what, status


class Mistake(NamedTuple):
    """What the front end refuses itself."""

    code: str
    place: Place
    detail: str
