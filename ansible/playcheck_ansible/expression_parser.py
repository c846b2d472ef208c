# SPDX-License-Identifier: MIT OR Apache-2.0
# Makes the tree of an expression out of its tokens.
from __future__ import annotations

from typing import Callable, List, Tuple, Union

from .expression_tree import (Calculation, Chain, Choice, Comparison, Denial, Field, Filter, Index, Items, Literal,
                              Lookup, Method, Operations, Path, Test, Tree)
from .tokens import Token

LITERALS = ("text", "int", "float")
COMPARISONS = ("==", "!=", "<", "<=", ">", ">=", "in")
# How tightly signs of arithmetic bind.
LEVELS = {**dict.fromkeys("+-", 0), "~": 1, **dict.fromkeys(("*", "/", "//", "%"), 2)}
DEEPEST = 24
END = Token("end", "", 0, 0)


class Unfit(Exception):
    """The expression has something that is left as it is written."""


class Parser:
    """A parser by descent; what it can't read is Unfit."""

    def __init__(self, tokens: Tuple[Token, ...]) -> None:
        self.tokens = (*tokens, END, END)
        self.at = self.depth = 0
        self.word = self.tokens[0].text  # of the next token

    def take(self, *words: str) -> str:
        """The text of the next token, where it is one of these words."""
        return self.next().text if self.word in words else ""

    def next(self) -> Token:
        token = self.tokens[self.at]
        if token.kind in ("end", "other", "open"):
            raise Unfit
        self.at += 1
        self.word = self.tokens[self.at].text
        return token

    def skip(self, count: int) -> None:
        for _ in range(count):
            self.next()

    def want(self, word: str) -> None:
        if not self.take(word):
            raise Unfit

    def whole(self) -> Tree:
        tree = self.choice()
        if self.tokens[self.at].kind != "end":
            raise Unfit
        return tree

    def deeper(self, below: Callable[[], Tree]) -> Tree:
        """A part inside another one: what nests too deep stays as it is."""
        if self.depth >= DEEPEST:
            raise Unfit
        self.depth += 1
        tree = below()
        self.depth -= 1
        return tree

    def choice(self) -> Tree:
        one = self.deeper(self.alternatives)
        if not self.take("if"):
            return one
        condition = self.alternatives()
        self.want("else")
        return Choice(condition, one, self.deeper(self.choice))

    def alternatives(self) -> Tree:
        return self.chain("or", self.conjunction)

    def conjunction(self) -> Tree:
        return self.chain("and", self.negation)

    def chain(self, word: str, below: Callable[[], Tree]) -> Tree:
        parts = [below()]
        while self.take(word):
            parts.append(below())
        return parts[0] if len(parts) == 1 else Chain(word, tuple(parts))

    def negation(self) -> Tree:
        return Denial(self.deeper(self.negation)) if self.take("not") else self.relation()

    def relation(self) -> Tree:
        left = self.calculation()
        sign = self.take(*COMPARISONS)
        if self.word == "not" and self.tokens[self.at + 1].text == "in":
            self.skip(2)
            sign = "not in"
        return Comparison(left, sign, self.calculation()) if sign else left

    def calculation(self, loosest: int = 0) -> Tree:
        """Operands, and between them signs that bind as tightly as this or more tightly."""
        left = self.operand()
        while LEVELS.get(self.word, -1) >= loosest:
            level = LEVELS[self.word]
            others: List[Tuple[str, Tree]] = []
            while LEVELS.get(self.word, -1) == level:
                others.append((self.next().text, self.calculation(level + 1)))
            left = Calculation(left, tuple(others))
        return left

    def operand(self) -> Tree:
        first = self.plain()
        behind: List[Union[Filter, Test]] = []
        while self.word in ("|", "is"):
            behind.append(self.filter() if self.next().text == "|" else self.test())
        return Operations(first, tuple(behind)) if behind else first

    def filter(self) -> Filter:
        return Filter(self.next().text, self.arguments() if self.word == "(" else ())

    def test(self) -> Test:
        is_denied = bool(self.take("not"))
        return Test(self.next().text, self.arguments() if self.word == "(" else (), is_denied)

    def plain(self) -> Tree:
        token = self.next()
        if token.kind in LITERALS:
            return Literal(token.kind, token.text)
        if token.text == "-" and self.tokens[self.at].kind == "int":
            return Literal("int", "-" + self.next().text)
        if token.text == "(":
            tree = self.choice()
            self.want(")")
            return tree
        if token.text == "[":
            return Items(self.listed("]"))
        if token.kind != "name" or token.text in ("if", "else"):
            raise Unfit
        if token.text in ("lookup", "query"):
            return Lookup(self.arguments() if self.word == "(" else ())
        return self.path(token.text)

    def listed(self, end: str) -> Tuple[Tree, ...]:
        """What commas stand between; the names of arguments are passed over."""
        parts: List[Tree] = []
        while not self.take(end):
            if end == ")" and self.tokens[self.at].kind == "name" and self.tokens[self.at + 1].text == "=":
                self.skip(2)
            parts.append(self.choice())
            if self.word != end:
                self.want(",")
        return tuple(parts)

    def arguments(self) -> Tuple[Tree, ...]:
        self.want("(")
        return self.listed(")")

    def path(self, name: str) -> Path:
        steps: List[Union[Field, Index, Method]] = []
        while self.word in (".", "["):
            steps.append(self.field() if self.next().text == "." else self.index())
        if self.word == "(":
            raise Unfit
        return Path(name, tuple(steps))

    def field(self) -> Union[Field, Method]:
        token = self.next()
        if token.kind != "name":
            raise Unfit
        return Method(token.text, self.arguments()) if self.word == "(" else Field(token.text)

    def index(self) -> Index:
        token = self.next()
        written = token.text + self.next().text if token.text == "-" else token.text
        self.want("]")
        return Index(token.kind, written)
