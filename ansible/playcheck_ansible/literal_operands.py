# SPDX-License-Identifier: MIT OR Apache-2.0
# Literal operands with which an operation can't work: patterns, replacements, separators and signs.
import re

from .parts import Part, is_pattern

# What `version` compares by.
SIGNS = ("==", "=", "eq", "<", "lt", "<=", "le", ">", "gt", ">=", "ge", "!=", "<>", "ne")
# A text of which `int` makes a number or zero; others may stand for what has no end.
ENDLESS = re.compile(r"\s*[-+]?(?:inf|nan|\d[\d_]*\.?\d*e)", re.I)
MOST_DIGITS = 300


def text_of(word: str) -> str:
    """The value of a text as an expression writes it, with its quotes."""
    try:
        return word[1:-1].encode("ascii", "backslashreplace").decode("unicode-escape")
    except UnicodeDecodeError:
        return word[1:-1]


def is_plain(text: str) -> bool:
    """Whether `int` takes a text without an error."""
    return not ENDLESS.match(text) and len(text) < MOST_DIGITS


def is_separator(given: "list[Part]") -> bool:
    """Whether a text can be divided at the first argument: an empty one is an error."""
    return bool(given) and given[0].literal is not None and given[0].literal[0] != ""


def is_replacement(given: "list[Part]") -> bool:
    """Whether a pattern and what stands for it are literals, and the one has the groups that the other names."""
    if len(given) < 2:
        return False
    pattern, replacement = (part.literal[0] if part.literal else None for part in given[:2])
    if not isinstance(pattern, str) or not isinstance(replacement, str):
        return False
    try:
        re.sub(pattern, replacement, "")
    except (re.error, IndexError):
        return False
    return True


def is_comparison(given: "list[Part]") -> bool:
    """Whether `version` is given another version, and a sign that it knows."""
    if len(given) == 1:
        return True
    return len(given) == 2 and given[1].literal is not None and given[1].literal[0] in SIGNS


def guarded(part: Part, text: str) -> Part:
    """A test that is false where there is nothing to test."""
    return Part(f"({part.text} is defined and {text})" if part.is_path else f"({text})", "bool")
