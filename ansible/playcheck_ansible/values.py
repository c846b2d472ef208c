# SPDX-License-Identifier: MIT OR Apache-2.0
# Values as Ansible converts them to the kind that a module declares, and `name=value` texts taken apart.
from __future__ import annotations

import codecs
import json
import re
from typing import TYPE_CHECKING, Dict, List, Optional

from .nodes import Mapping, Node, Scalar, Sequence, Text, Value, as_node, as_value, has_template, is_literal, is_text

if TYPE_CHECKING:
    from typing_extensions import TypeGuard

# Texts that Ansible takes for truth values: of keywords and parameters, and of its filter `bool`.
TRUE_WORDS = ("yes", "on", "1", "true", "t", "y")
FALSE_WORDS = ("no", "off", "0", "false", "f", "n")
TRUE_FOR_FILTER = ("yes", "on", "1", "true")
WHOLE = re.compile(r"\s*\{\{(?:(?!\}\}).)*\}\}\s*", re.S)
OMITTED = re.compile(r"(\|\s*default\()\s*omit\s*(?:,\s*[Tt]rue\s*)?\)(\s*\}\})")
# What stands for a parameter that `default(omit)` leaves out.
INSTEAD = {"ints": "[]", "omitted": "''", "text": "''", "bool": "false", "list": "[]", "int": "0"}
BRACES = (("{{", "}}"), ("{%", "%}"), ("{#", "#}"))
GAP_AND_TOKEN = re.compile(r"([ \n]?)([^ \n]*)")
QUOTE = re.compile(r"""(?<!\\)["']""")
ESCAPE = re.compile(r"""\\(?:U[a-fA-F0-9]{8}|u[a-fA-F0-9]{4}|x[a-fA-F0-9]{2}|N\{[^}]+\}|[\\'"abfnrtv])""")


def is_whole(node: Optional[Node]) -> TypeGuard[Text]:
    """Whether a node is a text that is one template."""
    return is_text(node) and WHOLE.fullmatch(node.value) is not None


def is_true(value: Value) -> bool:
    """What Ansible's filter `bool` makes of a value: any other text is false."""
    return value if isinstance(value, bool) else str(value).lower() in TRUE_FOR_FILTER


def split_words(text: str) -> Optional[List[str]]:
    """The words of a text as Ansible splits it: at blanks and ends of lines, but for those in quotes and in braces.

    None where a quote or a brace isn't closed, which Ansible refuses.
    """
    words: List[List[str]] = []  # each with its pieces
    quote, depths = "", [0] * len(BRACES)
    for gap, token in GAP_AND_TOKEN.findall(text):
        if token == "\\" and not quote:
            continue
        is_inside = quote or any(depths)
        quote = quote_behind(token, quote)
        depths = depths_behind(token, depths) if "{" in token or "}" in token else depths
        if is_inside:
            words[-1] += [gap, token]
        elif token:
            words.append([token])
    return None if quote or any(depths) else ["".join(word) for word in words]


def quote_behind(token: str, quote: str) -> str:
    """The quote that is open behind a token, of the one that is open before it."""
    for letter in QUOTE.findall(token):
        quote = "" if letter == quote else quote or letter
    return quote


def depths_behind(token: str, depths: List[int]) -> List[int]:
    """How many braces of each sort are open behind a token, of those that are open before it."""
    return [max(depth + token.count(opening) - token.count(closing), 0)
            for depth, (opening, closing) in zip(depths, BRACES)]


def unescaped(text: str) -> str:
    """A text with the letters that its escapes mean; a ValueError where one means none."""
    text = ESCAPE.sub(lambda found: codecs.decode(found[0], "unicode-escape"), text)
    text.encode()  # refuses half of a surrogate pair
    return text


def unquoted(text: str) -> str:
    if len(text) > 1 and text[0] == text[-1] and text[0] in "'\"" and text[-2] != "\\":
        return text[1:-1]
    return text


def arguments_of(text: str) -> Optional[Dict[str, str]]:
    """The pairs of a `name=value` text, or None where a word of it is no such pair."""
    found = {}
    for word in split_words(text) or ():
        try:
            name, equals, value = unescaped(word).partition("=")
        except ValueError:
            return None
        name = name.strip()
        if not equals or not re.fullmatch(r"[A-Za-z_][\w-]*", name):
            return None
        found[name] = unquoted(value.strip())
    return found or None


def converted(node: Node, kind: str, name: str = '') -> Node:
    """The node as a value of the kind, where Ansible converts it so; else as it is."""
    if is_text(node) and "omit" in node.value and kind in INSTEAD:
        node = without_omit(node, kind)
    if kind == "text":
        return as_text(node, name)
    if kind == "bool":
        return as_bool(node)
    if kind == "int":
        return as_int(node)
    if kind == "ints":
        return as_ints(node)
    return as_list(node) if kind == "list" else node


def without_omit(node: Text, kind: str) -> Text:
    text = OMITTED.sub(lambda found: f"{found[1]}{INSTEAD[kind]}){found[2]}", node.value)
    return Scalar(text, node.place, text)


def as_text(node: Node, name: str) -> Node:
    if isinstance(node, (Mapping, Sequence)):
        if name == "content" and is_literal(node):
            return as_node(json.dumps(as_value(node)), node.place)
        return node
    if is_text(node):
        return whole_as_text(node)
    if node.value is None:
        return node
    # A mode keeps the digits that are written: YAML reads 0644 as a number to the base 8.
    text = node.text if name == "mode" and isinstance(node.value, int) else str(node.value)
    return Scalar(text, node.place, node.text)


def whole_as_text(node: Text) -> Text:
    """A template that is the whole text would keep its value's kind; with an empty part behind it it is a text."""
    if not WHOLE.fullmatch(node.value):
        return node
    return Scalar(node.value.strip() + "{{ '' }}", node.place, node.text)


def as_bool(node: Node) -> Node:
    if not isinstance(node, Scalar) or isinstance(node.value, bool) or node.value is None:
        return node
    word = str(node.value).lower()
    if word in TRUE_WORDS or word in FALSE_WORDS:
        return Scalar(word in TRUE_WORDS, node.place, node.text)
    return node


def as_int(node: Node) -> Node:
    if is_text(node) and re.fullmatch(r"\s*[-+]?\d{1,18}\s*", node.value):
        return Scalar(int(node.value), node.place, node.text)
    return node


def as_list(node: Node) -> Node:
    if is_text(node):
        if WHOLE.fullmatch(node.value):
            return node
        words = node.value.split(",") if not has_template(node.value) else [node.value]
        return Sequence([Scalar(word.strip(), node.place, word) for word in words], node.place)
    if isinstance(node, Scalar) and isinstance(node.value, (int, float)):
        return Sequence([Scalar(str(node.value), node.place, node.text)], node.place)
    if isinstance(node, Sequence):
        return Sequence([as_text(item, "") if isinstance(item, Scalar) else item for item in node.items], node.place)
    return node


def as_ints(node: Node) -> Node:
    """A list of whole numbers, of one number or of a text with commas too."""
    found = as_list(node)
    if not isinstance(found, Sequence):
        return found
    return Sequence([as_int(item) if isinstance(item, Scalar) else item for item in found.items], found.place)
