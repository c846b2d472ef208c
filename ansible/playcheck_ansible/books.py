# SPDX-License-Identifier: MIT OR Apache-2.0
# A book as plays, blocks and tasks: what its nodes are, whatever file they stand in.
from __future__ import annotations

from dataclasses import dataclass, field
from typing import TYPE_CHECKING, Dict, Iterable, Iterator, List, Optional, Set, Tuple, Union

from .nodes import Mapping, Node, Scalar, Sequence, Text, Value, is_nothing
from .problems import Mistake, Place

if TYPE_CHECKING:
    from .precedence import Given, Source

# A place, and what is said of it.
Note = Tuple[Place, str]
SECTIONS = ("pre_tasks", "tasks", "post_tasks")
PARTS = ("block", "rescue", "always")
# Words of a task, of the profile and left out: any other key is a module.
TASK_WORDS = {
    "name", "when", "changed_when", "failed_when", "until", "loop", "register", "vars", "notify", "retries",
    "ignore_errors", "listen", "action", "any_errors_fatal", "args", "async", "become", "become_exe", "become_flags",
    "become_method", "become_user", "check_mode", "collections", "connection", "debugger", "delay", "delegate_facts",
    "delegate_to", "diff", "environment", "ignore_unreachable", "local_action", "loop_control", "module_defaults",
    "no_log", "poll", "port", "remote_user", "run_once", "tags", "throttle", "timeout",
}


@dataclass(eq=False)
class Judging:
    """What the passes find out about a task: why it isn't judged, and what it may do beside what its words show."""

    reason: str = ""  # why it isn't judged
    reason_place: Optional[Place] = None
    asks_templates: bool = False  # its templates are asked though it isn't judged
    sets: Set[str] = field(default_factory=set)  # names that it sets beside those that it shows
    sets_unknown: bool = False  # it may set names that the book doesn't show
    notified: List[str] = field(default_factory=list)  # handlers that it notifies beside those that it shows
    notifies_any: bool = False
    forgets: bool = False  # it may bring hosts back that failed, or take variables away
    ends_host: bool = False  # it may end the play for a host that goes on with the next one
    outer_names: Set[str] = field(default_factory=set)  # those that `vars` and words round it mention
    mistakes: List[Mistake] = field(default_factory=list)  # what the documentation of its module forbids
    is_below_condition: bool = False  # a block round it has a condition
    ignore_condition: Optional[Text] = None  # a template in the place of `ignore_errors`
    facts: List[Value] = field(default_factory=list)  # what sets the documented facts that it gathers
    has_no_bound: bool = False  # how often it is tried isn't known, or more often than the profile has it
    is_outlived: bool = False  # where it fails its host's play may go on: it is ignored or rescued, or more always runs
    is_free: bool = False  # hosts run it in no order


@dataclass
class Task:
    words: Mapping
    place: Place
    play: str = ""
    is_handler: bool = False
    evaluated: List[Node] = field(default_factory=list)  # values of words that are passed over: templates are asked
    collections: List[str] = field(default_factory=list)  # those in which a short name of its module is looked for
    comes_with: str = ""  # of a handler: the folder of the role whose inclusion makes it known
    folder: str = ""  # of a handler: that of its role
    judging: Judging = field(default_factory=Judging)

    def __post_init__(self) -> None:
        self.written = self.words.copy()

    @property
    def name(self) -> str:
        return name_in(self.written.get("name"))

    def leave(self, reason: str, place: Optional[Place] = None) -> None:
        """Says that it isn't judged; the first reason counts."""
        if not self.judging.reason:
            self.judging.reason, self.judging.reason_place = reason, place or self.place

    def module(self) -> Optional[str]:
        """The key that is its module, or None where there is none or several."""
        found = [key for key in self.words.pairs if is_module(key)]
        return found[0] if len(found) == 1 else None


@dataclass
class Block:
    words: Mapping
    place: Place
    parts: Dict[str, List[Step]]  # block, rescue, always to their steps
    evaluated: List[Node] = field(default_factory=list)
    given: List[Given] = field(default_factory=list)  # what it gives to the tasks in it, beside `vars` of its own
    is_role: bool = False  # the collections of its play aren't its
    is_include: bool = False  # it has tags of its own, and where its condition is false it sets nothing
    is_asked_once: bool = False  # an include whose condition is asked before its tasks, and not by each of them
    lost: Dict[str, str] = field(default_factory=dict)  # names of `vars` that the profile can't have, with the reason
    folder: str = ""  # of the role that it stands for

    def __post_init__(self) -> None:
        self.written = self.words.copy()

    @property
    def name(self) -> str:
        return name_in(self.written.get("name"))


@dataclass
class Raw:
    """What isn't a task or a block: printed as it is, for the program to refuse."""

    node: Node
    name = ""

    @property
    def place(self) -> Place:
        return self.node.place


@dataclass
class Play:
    words: Mapping
    place: Place
    sections: Dict[str, List[Step]]  # pre_tasks, tasks, post_tasks, handlers to their steps
    evaluated: List[Node] = field(default_factory=list)
    reason: str = ""  # why none of its tasks is judged
    has_no_host: bool = False  # the inventory has no host of its `hosts`
    given: List[Given] = field(default_factory=list)  # what all of its tasks are given, with the sources
    # Names that roles give from some task on, with their source and the reason.
    late: Dict[str, Tuple[Source, str]] = field(default_factory=dict)
    unread_files: List[Note] = field(default_factory=list)  # files of variables that couldn't be read
    lost: Dict[str, str] = field(default_factory=dict)  # names of `vars` that the profile can't have, with the reason
    prompted: Set[str] = field(default_factory=set)  # names whose values are asked for at the start
    facts: List[Value] = field(default_factory=list)  # what sets the documented facts that it gathers

    def __post_init__(self) -> None:
        self.written = self.words.copy()

    @property
    def name(self) -> str:
        return name_in(self.written.get("name") or self.written.get("hosts"))

    def steps(self) -> Iterator[Step]:
        """All steps, in the order in which they are counted."""
        for section in (*SECTIONS, "handlers"):
            yield from steps_below(self.sections.get(section, []))

    def tasks(self) -> List[Task]:
        return [step for step in self.steps() if isinstance(step, Task)]

    def blocks(self) -> List[Block]:
        return [step for step in self.steps() if isinstance(step, Block)]

    def containers(self) -> List[Union[Play, Block]]:
        """The play itself, and all its blocks in the order in which they are counted."""
        return [self, *self.blocks()]

    def holders(self) -> List[Holder]:
        """The play itself, and all its blocks and tasks in the order in which they are counted."""
        return [self, *(step for step in self.steps() if not isinstance(step, Raw))]


Step = Union[Task, Block, Raw]
Holder = Union[Play, Block, Task]


@dataclass
class Book:
    file: str
    plays: List[Union[Play, Raw]]
    node: Optional[Node] = None  # the book itself, where it is no list
    left_out: List[Task] = field(default_factory=list)  # tasks that a run passes by, by their tags
    includes: List[Block] = field(default_factory=list)  # the blocks that stand for includes

    def read_plays(self) -> List[Play]:
        """Its plays, without what isn't one."""
        return [play for play in self.plays if isinstance(play, Play)]

    def tasks(self) -> List[Task]:
        return [task for play in self.read_plays() for task in play.tasks()]


def name_in(node: Optional[Node]) -> str:
    return str(node.value) if isinstance(node, Scalar) and node.value is not None else ""


def steps_below(steps: Iterable[Step]) -> Iterator[Step]:
    for step in steps:
        yield step
        if isinstance(step, Block):
            for part in PARTS:
                yield from steps_below(step.parts.get(part, []))


def is_module(key: str) -> bool:
    return key not in TASK_WORDS and key[:5] != "with_"


def items_of(node: Optional[Node]) -> Optional[List[Node]]:
    """The items of a list; of nothing none; None where it is something else."""
    if node is None or is_nothing(node):
        return []
    return node.items if isinstance(node, Sequence) else None
