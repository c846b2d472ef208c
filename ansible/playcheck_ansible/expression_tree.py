# SPDX-License-Identifier: MIT OR Apache-2.0
# Expressions as trees: what Jinja reads in a text, as far as the profile's forms and what stands for others want it.
from __future__ import annotations

from typing import Tuple, Union


class Literal:
    """A number with its sign, or a text with its quotes."""

    def __init__(self, kind: str, written: str) -> None:
        self.kind, self.written = kind, written


class Items:
    """A list."""

    def __init__(self, parts: Tuple[Tree, ...]) -> None:
        self.parts = parts


class Field:
    def __init__(self, name: str) -> None:
        self.name = name


class Index:
    """What stands in brackets: the kind of its token, and what is written."""

    def __init__(self, kind: str, written: str) -> None:
        self.kind, self.written = kind, written


class Method:
    def __init__(self, name: str, arguments: Tuple[Tree, ...]) -> None:
        self.name, self.arguments = name, arguments


class Path:
    """A name, and the steps behind it."""

    def __init__(self, name: str, steps: Tuple[Union[Field, Index, Method], ...]) -> None:
        self.name, self.steps = name, steps


class Lookup:
    def __init__(self, arguments: Tuple[Tree, ...]) -> None:
        self.arguments = arguments


class Filter:
    """A filter with its arguments, the named ones without their names."""

    def __init__(self, name: str, arguments: Tuple[Tree, ...]) -> None:
        self.name, self.arguments = name, arguments


class Test:
    def __init__(self, name: str, arguments: Tuple[Tree, ...], is_denied: bool) -> None:
        self.name, self.arguments, self.is_denied = name, arguments, is_denied


class Operations:
    """An operand, and the filters and tests behind it, the first one first."""

    def __init__(self, operand: Tree, behind: Tuple[Union[Filter, Test], ...]) -> None:
        self.operand, self.behind = operand, behind


class Calculation:
    """An operand, and the signs of arithmetic with the operands behind it."""

    def __init__(self, first: Tree, others: Tuple[Tuple[str, Tree], ...]) -> None:
        self.first, self.others = first, others


class Comparison:
    def __init__(self, left: Tree, sign: str, right: Tree) -> None:
        self.left, self.sign, self.right = left, sign, right


class Denial:
    def __init__(self, of: Tree) -> None:
        self.of = of


class Chain:
    """What `and` or `or` stands between."""

    def __init__(self, word: str, parts: Tuple[Tree, ...]) -> None:
        self.word, self.parts = word, parts


class Choice:
    """An inline `if`."""

    def __init__(self, condition: Tree, one: Tree, other: Tree) -> None:
        self.condition, self.one, self.other = condition, one, other


Tree = Union[Literal, Items, Path, Lookup, Operations, Calculation, Comparison, Denial, Chain, Choice]
