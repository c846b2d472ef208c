# SPDX-License-Identifier: MIT OR Apache-2.0
# The one reader of expressions: each is read once, and what is asked of it is kept.
from __future__ import annotations

import re
from functools import cached_property, lru_cache
from typing import TYPE_CHECKING, FrozenSet, List, Optional, Tuple

from .expression_parser import Parser, Unfit
from .forms import SUSPECT, outside_form
from .tokens import NAME, Token, tokens_of

if TYPE_CHECKING:
    from .expression_tree import Tree

READ = re.compile(r"(?<![A-Za-z0-9_.])(?<!\.\s)[A-Za-z_][A-Za-z0-9_]*")
QUOTE = re.compile("['\"]")
# What reads variables whose names may stand in a text.
BY_TEXT = ("hostvars", "vars", "lookup")
FACT = re.compile(r"\bansible_facts\s*(?:\.\s*|\[\s*['\"])([A-Za-z_]\w*)")


class Expression:
    """An expression: its tokens, its tree, and what shows in them."""

    def __init__(self, text: str) -> None:
        self.text = text

    @cached_property
    def tokens(self) -> Tuple[Token, ...]:
        return tokens_of(self.text)

    @cached_property
    def texts(self) -> List[Token]:
        return [token for token in self.tokens if token.kind == "text"] if QUOTE.search(self.text) else []

    @cached_property
    def reads(self) -> List[Token]:
        """The names that aren't steps of a path: rather too many than too few, those of filters and tests too."""
        return [token for number, token in enumerate(self.tokens) if token.kind == "name" and not (
            number and is_part(token, self.tokens[number - 1]))]

    @cached_property
    def names(self) -> FrozenSet[str]:
        """The names that it may read; those in its texts too where it reads other hosts."""
        if any(word in self.text for word in BY_TEXT):
            return frozenset(NAME.findall(self.text))
        # Most expressions have no texts, and no more is asked of them: this takes less time than their tokens.
        return frozenset(token.text for token in self.reads) if QUOTE.search(self.text) else \
            frozenset(READ.findall(self.text))

    @cached_property
    def tree(self) -> Optional[Tree]:
        """What Jinja reads in it; None where that isn't followed."""
        try:
            return Parser(self.tokens).whole()
        except Unfit:
            return None

    @cached_property
    def keywords(self) -> FrozenSet[str]:
        """The names of arguments."""
        return frozenset(token.text for token, behind in zip(self.tokens, self.tokens[1:])
                         if token.kind == "name" and behind.text == "=")

    @cached_property
    def mentioned(self) -> FrozenSet[str]:
        """Its names, and a field of `ansible_facts` as the fact itself."""
        if "ansible_facts" not in self.text:
            return self.names
        return self.names | {f"ansible_{name.removeprefix('ansible_')}" for name in FACT.findall(self.text)}

    @cached_property
    def fields(self) -> List[Tuple[str, str]]:
        """Each name that is read with the field behind it."""
        found = []
        places = {token.start: number for number, token in enumerate(self.tokens)}
        for token in self.reads:
            behind = self.tokens[places[token.start] + 1:places[token.start] + 3]
            if len(behind) == 2 and behind[0].text == "." and behind[1].kind == "name":
                found.append((token.text, behind[1].text))
        return found

    @cached_property
    def form(self) -> str:
        """What it has that the profile lacks, where that shows at once; else nothing."""
        return outside_form(self.tokens) if SUSPECT.search(self.text) else ""

    @cached_property
    def bare(self) -> str:
        """It with its texts blanked."""
        return self.replaced([(token, " " * (token.end - token.start)) for token in self.texts])

    def replaced(self, changes: List[Tuple[Token, str]]) -> str:
        """It with some tokens, in their order, written otherwise."""
        parts, at = [], 0
        for token, text in changes:
            parts += [self.text[at:token.start], text]
            at = token.end
        return "".join([*parts, self.text[at:]])


def is_part(name: Token, before: Token) -> bool:
    """Whether a name is a step of a path, or the rest of what begins as a number."""
    return before.text == "." or before.kind in ("int", "float") and before.end == name.start


# Each pass asks for them anew, and one text stands in many tasks.
@lru_cache(4096)
def read_once(text: str) -> Expression:
    return Expression(text)
