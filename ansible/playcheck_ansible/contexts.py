# SPDX-License-Identifier: MIT OR Apache-2.0
# Where steps stand while they are read, the roles that are put in place, and how many files.
from __future__ import annotations

from dataclasses import dataclass, field
from typing import TYPE_CHECKING, Dict, List, Tuple

from .problems import Place, Problem

if TYPE_CHECKING:
    from .nodes import Mapping, Node, Pairs
    from .precedence import Source

MOST_FILES = 1000


class Count:
    """How many files were put in place: where each names the next one twice they would double each time."""

    def __init__(self) -> None:
        self.files = 0

    def add(self, place: Place) -> None:
        self.files += 1
        if self.files > MOST_FILES:
            raise Problem(place, f"more than {MOST_FILES:,} files are put in place")


@dataclass(eq=False)
class Role:
    name: str
    folder: str
    words: Mapping  # what stands beside its name
    defaults: Pairs = field(default_factory=dict)
    variables: Pairs = field(default_factory=dict)
    tasks: List[Node] = field(default_factory=list)  # nodes
    tasks_file: str = ""
    handlers: List[Node] = field(default_factory=list)
    handlers_file: str = ""
    needs: List[Node] = field(default_factory=list)  # nodes of the roles that run before it
    needed: List[Role] = field(default_factory=list)  # those that were put in place
    beside: Pairs = field(default_factory=dict)  # the `vars` beside its name
    parameters: Pairs = field(default_factory=dict)  # what else stands there and is no keyword
    around: Tuple[Mapping, ...] = ()  # the words of what stands round it, its own last


@dataclass(eq=False)
class Context:
    """Where steps stand: the file, the play, and the files that are open."""

    file: str
    book_folder: str
    play: str
    count: Count
    role_folder: str = ""
    around: Tuple[Mapping, ...] = ()  # the words of blocks, imports and roles round it
    is_handlers: bool = False
    is_late: bool = False  # in what is read while the play runs: an include
    open: Tuple[str, ...] = ()
    # Those of the play that were put in place, with whether all see them.
    roles: List[Tuple[Role, bool]] = field(default_factory=list)
    listed: List[Role] = field(default_factory=list)  # those that the play itself names
    imported: List[Role] = field(default_factory=list)  # those that it imports at its start
    # Names that roles give from some task on, with the source and the reason.
    late: Dict[str, Tuple[Source, str]] = field(default_factory=dict)
