# SPDX-License-Identifier: MIT OR Apache-2.0
# Writes the variables of a play where its tasks see them as Ansible has it: at the play, at blocks, and where these would
# show a task another value than Ansible does, at the task itself.
from __future__ import annotations

from typing import TYPE_CHECKING, Dict, Iterable, Iterator, List, NamedTuple, Optional, Set, Tuple

from .books import SECTIONS, Block, Play, Raw, Task
from .names import mentioned
from .nodes import Mapping, Node, Sequence, as_node, as_value, is_text, items_or_one
from .precedence import OF_PLAY, Given, Source, in_order, values_of, winner

if TYPE_CHECKING:
    from .inventory import Inventory

# So many names a task may read by way of `vars`, and so many values are written at tasks.
MOST_NAMES = 1000
MOST_VALUES = 100_000


class Around(NamedTuple):
    """What is round a task: all that gives it names, in Ansible's order, and what is written, the outermost first."""

    given: Tuple[Given, ...]
    written: Tuple[Dict[str, Node], ...]

    def inside(self, given: Iterable[Given], written: Dict[str, Node]) -> Around:
        return Around(tuple(in_order([*self.given, *given])), (*self.written, written))

    def shown(self, name: str) -> Optional[Node]:
        """The value that a task reads by what is written."""
        return next((pairs[name] for pairs in reversed(self.written) if name in pairs), None)

    def real(self, name: str) -> Optional[Given]:
        return winner(name, self.given)


def own_pairs(words: Mapping) -> Dict[str, Node]:
    """The `vars` of a play, a block or a task; a list of mappings is one."""
    node = words.get("vars")
    parts = items_or_one(node)
    return {name: part for one in parts if isinstance(one, Mapping) for name, part in one.pairs.items()}


def prompts_of(play: Play) -> Dict[str, Node]:
    """A name that is asked for is a text."""
    node = play.words.get("vars_prompt")
    items = node.items if isinstance(node, Sequence) else []
    names = [item.get("name") for item in items if isinstance(item, Mapping)]
    return {name.value: as_node("", name.place) for name in names if is_text(name)}


class Variables:
    """The variables of a play, placed."""

    def __init__(self, play: Play, inventory: Inventory) -> None:
        self.play, self.inventory, self.in_inventory = play, inventory, inventory.names()
        self.at_roles: Dict[str, List[Around]] = {}  # a role's folder to what is round its tasks, each time
        self.values = 0  # how many were written at tasks
        given = [Given(Source.PLAY, own_pairs(play.words)), Given(Source.PROMPTS, prompts_of(play)), *play.given]
        self.all_given = [*given, *self.below(play.steps())]
        self.reads: Dict[str, Set[str]] = {}
        self.in_conditions: Set[str] = set()  # names that conditions of blocks read
        self.contested: Set[str] = set(play.late)
        self.place_play(given)

    def below(self, steps: Iterable[Block | Task | Raw]) -> Iterator[Given]:
        for step in steps:
            if not isinstance(step, Raw):
                yield from given_by(step)

    def place_play(self, given: List[Given]) -> None:
        seen: Set[str] = set()
        for one in self.all_given:
            self.contested |= seen & set(one.pairs)
            seen |= set(one.pairs)
        around = Around((), ()).inside(given, {})
        written = {name: node for name, node in values_of(given).items() if not self.is_beaten(name, around, self.play)}
        self.play.prompted = {name for name, one in ((name, around.real(name)) for name in written)
                              if one is not None and one.source == Source.PROMPTS}
        write(self.play, written)
        around = around._replace(written=(written,))
        for section in SECTIONS:
            self.walk(self.play.sections.get(section, []), around)
        self.walk(self.play.sections.get("handlers", []), around)

    def is_beaten(self, name: str, around: Around, holder: Play | Block) -> bool:
        """Whether the inventory gives a name for which a role has but a default."""
        real = around.real(name)
        if real is None or real.source != Source.ROLE_DEFAULTS or name not in self.in_inventory:
            return False
        if not self.inventory.all_have(name):
            holder.lost[name] = f"the inventory gives '{name}' to some hosts, and a role to the others"
        return True

    def walk(self, steps: List[Block | Task | Raw], around: Around) -> None:
        for step in steps:
            if isinstance(step, Block):
                self.place_block(step, around)
            elif isinstance(step, Task) and step.folder:
                self.place_handler(step, around)
            elif isinstance(step, Task):
                self.place_task(step, around.inside(given_by(step), own_pairs(step.words)))

    def place_block(self, block: Block, outer: Around) -> None:
        given = list(given_by(block))
        inside = outer.inside(given, {})
        written = {name: node for name, node in values_of(given).items()
                   if outer.shown(name) is not node and not self.is_beaten(name, inside, block)}
        write(block, written)
        inside = inside._replace(written=(*outer.written, written))
        if block.folder:
            self.at_roles.setdefault(block.folder, []).append(inside)
        for part in block.parts.values():
            self.walk(part, inside)

    def place_handler(self, handler: Task, outer: Around) -> None:
        """A handler of a role sees what its role's tasks see, though it stands at the end of the play."""
        arounds = [one._replace(written=outer.written) for one in self.at_roles.get(handler.folder, [outer])]
        own, pairs = list(given_by(handler)), own_pairs(handler.words)
        names = self.names_read(handler)
        for other in arounds[1:]:
            for name in names:
                if not is_same(other.real(name), arounds[0].real(name), name):
                    handler.leave(f"its role is named with other values of '{name}'")
        self.place_task(handler, arounds[0].inside(own, pairs), names)

    def place_task(self, task: Task, around: Around, of_handler: Optional[Set[str]] = None) -> None:
        """Writes at the task what it reads and would read otherwise."""
        if task.judging.reason or of_handler is None and not self.contested:
            return
        names = of_handler if of_handler is not None else self.names_read(task) & self.contested
        added: Dict[str, Node] = {}
        for name in sorted(names):
            real, shown = around.real(name), around.shown(name)
            if self.is_late(name, real):
                task.leave(f"it reads '{name}': {self.play.late[name][1]}")
            elif real is None and shown is not None:
                task.leave(f"it reads '{name}', which a role gives that others need, and not its own tasks")
            elif real is not None and real.pairs[name] is not shown and not self.is_beaten(name, around, self.play):
                added[name] = real.pairs[name]
        if added:
            self.add(task, added)

    def is_late(self, name: str, real: Optional[Given]) -> bool:
        """Whether what a role gives from some task on may win: a default doesn't over the inventory."""
        if name not in self.play.late:
            return False
        source = self.play.late[name][0]
        is_beaten = source == Source.ROLE_DEFAULTS and name in self.in_inventory and self.inventory.all_have(name)
        return not is_beaten and (real is None or real.rank <= (source, OF_PLAY))

    def add(self, task: Task, added: Dict[str, Node]) -> None:
        self.values += sum(map(size, added.values()))
        given = task.words.get("vars")
        if self.values > MOST_VALUES or not (given is None or isinstance(given, Mapping)):
            task.leave("it reads names that several places give")
            return
        merged = given.copy() if given is not None else Mapping({}, task.place)
        for name, node in added.items():
            merged.put(name, node)
        task.words.put("vars", merged)

    def names_read(self, task: Task) -> Set[str]:
        """All names that a task reads, also by way of other names."""
        if not self.reads:
            for one in self.all_given:
                for name, node in one.pairs.items():
                    self.reads.setdefault(name, set()).update(mentioned(Mapping({"vars": node}, task.place)))
            for block in self.play.blocks():
                if "when" in block.words:
                    self.in_conditions |= mentioned(Mapping({"when": block.words["when"]}, block.place))
        waiting = [mentioned(task.words), self.in_conditions]
        found: Set[str] = set()
        while waiting and len(found) <= MOST_NAMES:
            new = waiting.pop() - found
            found |= new
            waiting += [self.reads[name] for name in new if name in self.reads]
        if len(found) > MOST_NAMES:
            task.leave(f"it reads more than {MOST_NAMES:,} names")
        return found


def given_by(step: Block | Task) -> Iterator[Given]:
    yield Given(Source.BLOCK if isinstance(step, Block) else Source.TASK, own_pairs(step.words))
    if isinstance(step, Block):
        yield from step.given


def write(holder: Play | Block, written: Dict[str, Node]) -> None:
    """Puts the variables of a play or a block, with the places of those of its own."""
    own = holder.words.get("vars")
    if written or isinstance(own, (Mapping, Sequence)):
        keys = own.keys if isinstance(own, Mapping) else {}
        merged = Mapping({}, own.place if own is not None else holder.place, dict(keys))
        for name, node in written.items():
            merged.put(name, node)
        holder.words.put("vars", merged)


def is_same(one: Optional[Given], other: Optional[Given], name: str) -> bool:
    if one is None or other is None:
        return one is other
    return as_value(one.pairs[name]) == as_value(other.pairs[name])


def size(node: Node) -> int:
    """How many values a value holds."""
    count, waiting = 0, [node]
    while waiting:
        one = waiting.pop()
        count += 1
        if isinstance(one, Mapping):
            waiting += one.pairs.values()
        elif isinstance(one, Sequence):
            waiting += one.items
    return count


def put_variables(play: Play, inventory: Inventory) -> None:
    """Places the variables of a play: what it, its blocks, its roles, files and includes give."""
    Variables(play, inventory)
