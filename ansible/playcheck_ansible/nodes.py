# SPDX-License-Identifier: MIT OR Apache-2.0
# The values of a YAML file, each with its place.
from __future__ import annotations

from dataclasses import dataclass, field
from typing import (TYPE_CHECKING, Dict, Generic, List, Mapping as Keyed, Optional, Sequence as Listed, Set, TypeVar,
                    Union, overload)

if TYPE_CHECKING:
    from typing_extensions import TypeGuard

    from .problems import Place

Atom = Union[None, bool, int, float, str]
A = TypeVar("A", bound=Atom, covariant=True)


@dataclass
class Scalar(Generic[A]):
    value: A
    place: Place
    text: str = ""  # as it is written
    is_quoted: bool = False
    stand_ins: int = 0  # how many of its expressions have other values than those that are written
    wanted: str = ""  # the kind that the word which it is the value of has to have
    is_first: bool = False  # it is asked before the condition of its task


@dataclass
class Sequence:
    items: List[Node]
    place: Place


@dataclass
class Mapping:
    pairs: Pairs  # a key to its value, in the order of the file
    place: Place
    keys: Dict[str, Place] = field(default_factory=dict)  # a key to its place
    merged: Set[str] = field(default_factory=set)  # the keys that came by `<<`: those of its own may follow

    def copy(self) -> Mapping:
        return Mapping(dict(self.pairs), self.place, dict(self.keys))

    def get(self, key: str) -> Optional[Node]:
        return self.pairs.get(key)

    def __getitem__(self, key: str) -> Node:
        return self.pairs[key]

    def put(self, key: str, node: Node) -> None:
        self.pairs[key] = node
        self.keys.setdefault(key, node.place)

    def take(self, key: str) -> Optional[Node]:
        return self.pairs.pop(key, None)

    def place_of(self, key: str) -> Place:
        """Where a key of its own stands, or else the value."""
        return self.keys.get(key) or self.pairs[key].place

    def __contains__(self, key: object) -> bool:
        return key in self.pairs


Text = Scalar[str]
Node = Union[Scalar[Atom], Sequence, Mapping]
Pairs = Dict[str, Node]
# A value that stands in no file: as JSON has it, and as it is made of nodes too.
Value = Union[Atom, List["Value"], Dict[str, "Value"]]
Record = Dict[str, Value]
Parts = Union[Atom, Node, Listed["Parts"], Keyed[str, "Parts"]]


@overload
def as_node(value: Keyed[str, Parts], place: Place) -> Mapping: ...


@overload
def as_node(value: Parts, place: Place) -> Node: ...


def as_node(value: Parts, place: Place) -> Node:
    """The node of a plain value that no file holds, at the place for which it was made."""
    if isinstance(value, (Scalar, Sequence, Mapping)):
        return value
    if value is None or isinstance(value, (bool, int, float, str)):
        return Scalar(value, place, "" if value is None else str(value))
    if isinstance(value, dict):
        return Mapping({key: as_node(part, place) for key, part in value.items()}, place, dict.fromkeys(value, place))
    return Sequence([as_node(item, place) for item in value], place)


def as_value(node: Node) -> Value:
    if isinstance(node, Mapping):
        return as_values(node)
    if isinstance(node, Sequence):
        return [as_value(item) for item in node.items]
    return node.value


def as_values(node: Mapping) -> Record:
    return {key: as_value(part) for key, part in node.pairs.items()}


def is_text(node: Optional[Node]) -> TypeGuard[Text]:
    return isinstance(node, Scalar) and isinstance(node.value, str)


def is_nothing(node: Optional[Node]) -> bool:
    return isinstance(node, Scalar) and node.value is None


def items_or_one(node: Optional[Node]) -> List[Node]:
    """The items of a list; of what is none itself."""
    return node.items if isinstance(node, Sequence) else [node] if node is not None else []


def pairs_in(node: Optional[Node]) -> Pairs:
    """The pairs of a mapping; of what is none none."""
    return node.pairs if isinstance(node, Mapping) else {}


def has_template(text: str) -> bool:
    return "{{" in text or "{%" in text or "{#" in text


def texts_of(node: Optional[Node]) -> List[Text]:
    """Each text in the node that isn't a key, with its place, in the order of the file."""
    if isinstance(node, Scalar):
        return [node] if is_text(node) else []
    found: List[Text] = []
    waiting: List[Optional[Node]] = [node]
    while waiting:
        one = waiting.pop()
        if isinstance(one, Mapping):
            waiting += reversed(one.pairs.values())
        elif isinstance(one, Sequence):
            waiting += reversed(one.items)
        elif is_text(one):
            found.append(one)
    return found


def is_literal(node: Node) -> bool:
    return not any(has_template(text.value) for text in texts_of(node))
