# SPDX-License-Identifier: MIT OR Apache-2.0
# An edit of a text.
from dataclasses import dataclass


@dataclass(frozen=True, order=True)
class Edit:
    """What stands between two places of a text is another text."""

    start: int
    end: int
    new: str
    sort: str  # of the bug that it makes
