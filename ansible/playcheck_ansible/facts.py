# SPDX-License-Identifier: MIT OR Apache-2.0
# With `--trust-facts`: facts that are perhaps there are taken as there wherever facts are gathered.
from __future__ import annotations

import re
from typing import TYPE_CHECKING, Match

from .expressions import read_once
from .rewriting import rewrite_words

if TYPE_CHECKING:
    from .books import Book

TEXTS = ("os_family", "distribution")
NUMBERS = ("processor_vcpus", "memtotal_mb")
# The default is never taken where the fact is there; it reads a fact that is always there where any was gathered.
INSTEAD = {**dict.fromkeys(TEXTS, "ansible_system"), **dict.fromkeys(NUMBERS, "ansible_system | length")}
NAMES = "|".join(INSTEAD)
# A fact by itself or as a field of `ansible_facts`; with a test or a default behind it it is guarded already.
FACT = re.compile(rf"(?<![\w.])(?:ansible_facts\.|ansible_facts\['|ansible_)({NAMES})('\])?(?![\w.\[])"
                  r"(?!\s*(?:is\s+(?:not\s+)?(?:un)?defined|\|\s*default))")
# A fact may stand in brackets as a text.
INDEX = re.compile(r"'\w+'")


def trust_facts(book: Book) -> None:
    for play in book.read_plays():
        for holder in play.holders():
            rewrite_words(holder.words, trusted)


def trusted(expression: str) -> str:
    """An expression with each fact read with a default, but for what stands in its texts."""
    parts, at = [], 0
    for token in read_once(expression).texts:
        around = expression[token.start - 1:token.start] + expression[token.end:token.end + 1]
        if around != "[]" or not INDEX.fullmatch(token.text):
            parts += [FACT.sub(with_default, expression[at:token.start]), token.text]
            at = token.end
    return "".join([*parts, FACT.sub(with_default, expression[at:])])


def with_default(found: Match[str]) -> str:
    return f"({found[0]} | default({INSTEAD[found[1]]}))"
