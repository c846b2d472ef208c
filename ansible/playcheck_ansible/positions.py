# SPDX-License-Identifier: MIT OR Apache-2.0
# Reads a YAML file into nodes with places, within bounds: no tag makes an object, and no alias explodes.
from __future__ import annotations

import errno
import os
import re
import stat
from typing import Dict, Iterator, List, Optional, Tuple, Union

import yaml

from .nodes import Atom, Mapping, Node, Scalar, Sequence, has_template, is_text
from .problems import Place, Problem

MOST_BYTES = 4_194_304
MOST_NODES = 400_000
MOST_LEVELS = 64
MOST_DIGITS = 16_384  # of a number to the base 2
MOST_PARTS = 2_500  # of a number to the base 60
PREFIX = "tag:yaml.org,2002:"
LOADER = getattr(yaml, "CSafeLoader", yaml.SafeLoader)
KNOWN_TAGS = ("!vault", "!vault-encrypted", "!unsafe", "tag:yaml.org,2002:str")
PLAIN_TEXT = re.compile(r"^[A-Za-z_/{][A-Za-z0-9_/ .,:{}'-]*$")
SURROGATE = re.compile("[\ud800-\udfff]")
# What whoever started this process has opened for it, which may be a pipe.
OWN_PIPES = ("/dev/fd/", "/dev/stdin", "/proc/self/fd/")
WORDS = {"yes", "no", "on", "off", "true", "false", "null"}


def read_bytes(path: str) -> bytes:
    try:
        with open(path, "rb", opener=opened) as file:
            data = file.read(MOST_BYTES + 1)
    except OSError as error:
        raise Problem(Place(path), error.strerror or str(error)) from None
    except ValueError:
        raise Problem(Place(repr(path)), "no file can have such a name") from None
    if len(data) > MOST_BYTES:
        raise Problem(Place(path), f"the file has more than {MOST_BYTES:,} bytes")
    return data


def opened(path: str, flags: int) -> int:
    """Opens a file without waiting for it: a pipe that has a name may never be written, and a device never end."""
    number = os.open(path, flags | os.O_NONBLOCK)
    kind = os.fstat(number).st_mode
    if stat.S_ISREG(kind) or path.startswith(OWN_PIPES):
        os.set_blocking(number, True)
        return number
    os.close(number)
    if stat.S_ISDIR(kind):
        raise OSError(errno.EISDIR, os.strerror(errno.EISDIR))
    raise OSError(errno.EINVAL, "this is a pipe or a device, and no file")


def read_text(path: str) -> str:
    return text_in(read_bytes(path), path)


def text_in(data: bytes, path: str) -> str:
    try:
        return data.decode("utf-8-sig")
    except UnicodeDecodeError as error:
        line = data.count(b"\n", 0, error.start) + 1
        column = error.start - data.rfind(b"\n", 0, error.start)
        raise Problem(Place(path, line, column), f"byte {error.start} isn't UTF-8") from None


def read_file(path: str) -> Node:
    """The one document of a YAML file; an empty file is null."""
    return node_of(read_text(path), path)


def node_of(text: str, path: str) -> Node:
    try:
        return Composer(text, path).document()
    except yaml.MarkedYAMLError as error:
        mark = error.problem_mark or error.context_mark
        raise Problem(place_of(mark, path), f"this is no YAML: {error.problem or error.context}") from None
    except yaml.reader.ReaderError as error:
        raise Problem(place_at(text, error.position, path), f"this is no YAML: {error.reason}") from None
    except yaml.YAMLError as error:
        raise Problem(Place(path), f"this is no YAML: {error}") from None
    except (ValueError, OverflowError) as error:
        raise Problem(Place(path), f"a value can't be read: {error}") from None


def texts_in(text: str) -> Iterator[Tuple[Tuple[int, int], Tuple[int, int]]]:
    """Where the single values of a file begin and end; behind the sign of one in lines of its own may stand a comment."""
    events: Iterator[yaml.Event] = yaml.parse(text, Loader=LOADER)
    for event in events:
        if isinstance(event, yaml.ScalarEvent):
            start = (event.start_mark.line, event.start_mark.column)
            yield (start[0] + 1, 0) if event.style in ("|", ">") else start, (event.end_mark.line, event.end_mark.column)


def place_of(mark: Optional[yaml.Mark], path: str) -> Place:
    return Place(path, mark.line + 1, mark.column + 1) if mark else Place(path)


def place_at(text: str, position: object, path: str) -> Place:
    position = position if isinstance(position, int) else 0
    return Place(path, text.count("\n", 0, position) + 1, position - text.rfind("\n", 0, position))


class Opened:
    """A list or a mapping that isn't ended; how many nodes came before it, and the key whose value is awaited."""

    def __init__(self, node: Union[Sequence, Mapping], anchor: Optional[str], before: int) -> None:
        self.node, self.anchor, self.before = node, anchor, before
        self.key: Optional[Tuple[str, Place]] = None


class Composer:
    """Puts nodes together from the parser's events, without recursion over the file."""

    def __init__(self, text: str, path: str) -> None:
        self.path = path
        self.events: Iterator[yaml.Event] = yaml.parse(text, Loader=LOADER)
        self.resolver = yaml.resolver.Resolver()
        self.constructor = yaml.constructor.SafeConstructor()
        self.anchors: Dict[str, Tuple[Optional[Node], int]] = {}  # a name to its node and the number of nodes in it
        self.nodes = 0
        self.open: List[Opened] = []  # the lists and mappings that aren't ended

    def document(self) -> Node:
        found: Optional[Node] = None
        documents = 0
        for event in self.events:
            node = self.ended(event)
            if node is not None and self.open:
                self.put(node)
            elif node is not None:
                found = node
            elif isinstance(event, yaml.CollectionStartEvent):
                self.begin(event)
            elif isinstance(event, yaml.DocumentStartEvent):
                documents += 1
                if documents > 1:
                    raise Problem(self.place(event), "a second document; one is wanted")
        return found if found is not None else Scalar(None, Place(self.path, 1, 1))

    def ended(self, event: yaml.Event) -> Optional[Node]:
        """The value that an event gives or ends."""
        if isinstance(event, yaml.ScalarEvent):
            return self.single(event)
        if isinstance(event, (yaml.MappingEndEvent, yaml.SequenceEndEvent)):
            return self.end()
        return self.alias(event) if isinstance(event, yaml.AliasEvent) else None

    def place(self, event: yaml.Event) -> Place:
        mark = event.start_mark
        return Place(self.path, mark.line + 1, mark.column + 1)

    def end(self) -> Node:
        """The list or the mapping that ends."""
        last = self.open.pop()
        self.keep(last.anchor, last.node, self.nodes - last.before)
        return last.node

    def single(self, event: yaml.ScalarEvent) -> Scalar[Atom]:
        """A single value."""
        self.count(1, event)
        node = self.scalar(event)
        self.keep(event.anchor, node, 1)
        return node

    def begin(self, event: yaml.CollectionStartEvent) -> None:
        self.count(1, event)
        if len(self.open) >= MOST_LEVELS:
            raise Problem(self.place(event), f"more than {MOST_LEVELS} lists and mappings inside one another")
        wanted = "map" if isinstance(event, yaml.MappingStartEvent) else "seq"
        if event.tag and event.tag != PREFIX + wanted:
            raise Problem(self.place(event), f"the tag {short_tag(event.tag)} isn't read")
        place = self.place(event)
        node: Union[Sequence, Mapping] = Mapping({}, place) if wanted == "map" else Sequence([], place)
        if event.anchor:
            self.anchors[event.anchor] = (None, 0)
        self.open.append(Opened(node, event.anchor, self.nodes - 1))

    def keep(self, anchor: Optional[str], node: Node, nodes: int) -> None:
        if anchor:
            self.anchors[anchor] = (node, nodes)

    def alias(self, event: yaml.AliasEvent) -> Node:
        if event.anchor not in self.anchors:
            raise Problem(self.place(event), f"nothing is anchored as &{event.anchor}")
        node, nodes = self.anchors[event.anchor]
        if node is None:
            raise Problem(self.place(event), f"the alias *{event.anchor} stands in what it names: a cycle")
        self.count(nodes, event)
        return node

    def count(self, nodes: int, event: yaml.Event) -> None:
        self.nodes += nodes
        if self.nodes > MOST_NODES:
            raise Problem(self.place(event), f"more than {MOST_NODES:,} values, with what its aliases stand for")

    def put(self, node: Node) -> None:
        last = self.open[-1]
        if isinstance(last.node, Sequence):
            last.node.items.append(node)
        elif last.key is None:
            last.key = self.key(node)
        else:
            key, last.key = last.key, None
            self.put_pair(last.node, key, node)

    def key(self, node: Node) -> Tuple[str, Place]:
        if isinstance(node, Scalar) and node.text == "<<" and not node.is_quoted:
            return ("<<", node.place)
        if not is_text(node):
            shown = node.text if isinstance(node, Scalar) else "a list or a mapping"
            raise Problem(node.place, f"a key that is no text: {shown or 'null'}; write it with quotes")
        return (node.value, node.place)

    def put_pair(self, mapping: Mapping, key: Tuple[str, Place], node: Node) -> None:
        name, place = key
        if name == "<<":
            self.merge(mapping, node)
            return
        if name in mapping.pairs and name not in mapping.merged:
            raise Problem(place, f"the key '{name}' stands here twice, first on line {mapping.keys[name].line}")
        mapping.merged.discard(name)
        mapping.pairs[name] = node
        mapping.keys[name] = place

    def merge(self, mapping: Mapping, node: Node) -> None:
        others = node.items if isinstance(node, Sequence) else [node]
        for other in others:
            if not isinstance(other, Mapping):
                raise Problem(node.place, "`<<` takes a mapping or a list of mappings")
            for name, part in other.pairs.items():
                if name not in mapping.pairs:
                    mapping.pairs[name] = part
                    mapping.keys[name] = other.keys.get(name, other.place)
                    mapping.merged.add(name)

    def scalar(self, event: yaml.ScalarEvent) -> Scalar[Atom]:
        place, text = self.place(event), event.value
        if not text.isascii() and SURROGATE.search(text):
            raise Problem(place, "half of a surrogate pair, which is no text")
        is_quoted = bool(event.style)
        if event.tag is None or event.tag == "!":
            if is_quoted or (PLAIN_TEXT.match(text) and text.lower() not in WORDS):
                return Scalar(text, place, text, is_quoted)
            tag: str = self.resolver.resolve(yaml.ScalarNode, text, event.implicit)
            return Scalar(self.value(tag, text, place), place, text)
        return self.tagged(event.tag, text, place)

    def tagged(self, tag: str, text: str, place: Place) -> Scalar[Atom]:
        if tag == "!unsafe" and has_template(text):
            return Scalar("{{ '" + escaped(text) + "' }}", place, text, True)
        if tag in KNOWN_TAGS:
            return Scalar(text, place, text, True)
        if tag.startswith(PREFIX) and tag[len(PREFIX):] in ("int", "bool", "null", "float"):
            return Scalar(self.value(tag, text, place), place, text)
        raise Problem(place, f"the tag {short_tag(tag)} isn't read")

    def value(self, tag: str, text: str, place: Place) -> Atom:
        kind = tag[len(PREFIX):]
        node = yaml.ScalarNode(tag, text)
        try:
            if kind == "int":
                if is_too_long(text):
                    raise ValueError
                number = self.constructor.construct_yaml_int(node)
                str(number)  # a ValueError where it has more digits than Python writes
                return number
            if kind == "float":
                return self.constructor.construct_yaml_float(node)
            if kind == "bool":
                return self.constructor.construct_yaml_bool(node)
        except (ValueError, KeyError, IndexError):
            raise Problem(place, f"'{text[:40]}' is no {kind}") from None
        return None if kind == "null" else text


def is_too_long(text: str) -> bool:
    """Whether a whole number has more digits than Python writes: to read it takes the longer, the more it has."""
    digits = text.replace("_", "")
    return len(digits) > MOST_DIGITS or digits.count(":") > MOST_PARTS


def escaped(text: str) -> str:
    """The letters of a text as an expression writes them."""
    for letter, written in (("\\", "\\\\"), ("'", "\\'"), ("\n", "\\n"), ("\t", "\\t")):
        text = text.replace(letter, written)
    return text


def short_tag(tag: str) -> str:
    return "!!" + tag[len(PREFIX):] if tag.startswith(PREFIX) else tag
