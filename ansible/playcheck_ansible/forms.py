# SPDX-License-Identifier: MIT OR Apache-2.0
# Forms that no expression of the profile has, as far as the tokens show them; the program is asked about all others.
from __future__ import annotations

import re
from typing import Callable, Dict, Tuple

from .tokens import Token

FILTERS = ("default", "length", "join")
TESTS = ("not", "defined", "undefined", "failed", "succeeded", "changed", "skipped")
WORDS = ("and", "or", "not", "in", "is")
ARITHMETIC = ("+", "*", "**", "/", "//", "%", "~")
VALUES = ("name", "int", "float")
# What each of these forms has a sign of.
SUSPECT = re.compile(r"[|(\[+*/%~]|\bi[sf]\b")
# What stands round the tokens of an expression.
EDGE = Token("end", "", -1, -1)

Tokens = Tuple[Token, ...]


def outside_form(tokens: Tokens) -> str:
    """What an expression has that the profile lacks; else nothing. In the place of a text may stand any value."""
    bare = (*(token for token in tokens if token.kind != "text"), EDGE, EDGE)
    found: Dict[int, str] = {}
    for at, token in enumerate(bare):
        for rank in RANKS.get(token.text, OF_NAMES if token.kind == "name" else ()):
            told = "" if rank in found else FORMS[rank](bare, at)
            if told:
                found[rank] = told
    return found[min(found)] if found else ""


def is_beside(one: Token, other: Token) -> bool:
    """Whether nothing stands between two tokens."""
    return one.end == other.start


def before(tokens: Tokens, at: int) -> Token:
    return tokens[at - 1] if at else EDGE


def a_filter(tokens: Tokens, at: int) -> str:
    name = tokens[at + 1]
    return f"the filter `{name.text}`" if name.kind == "name" and name.text not in FILTERS else ""


def a_test(tokens: Tokens, at: int) -> str:
    name = tokens[at + 2] if tokens[at + 1].text == "not" and tokens[at + 2].text not in TESTS else tokens[at + 1]
    return f"the test `{name.text}`" if name.kind == "name" and name.text not in TESTS else ""


def a_method(tokens: Tokens, at: int) -> str:
    dot, name, bracket = tokens[at:at + 3]
    is_call = name.kind == "name" and is_beside(dot, name) and bracket.text == "(" and is_beside(name, bracket)
    return f"the call `.{name.text}()`" if is_call else ""


def an_index(tokens: Tokens, at: int) -> str:
    """An index that is no text, but for hosts and groups."""
    first, last = tokens[at], before(tokens, at)
    is_step = is_beside(last, first) and (last.kind in VALUES or last.text in (".", "]"))
    if first.kind != "name" or first.text in ("hostvars", "groups") or is_step:
        return ""
    at += 1
    while tokens[at].kind != "end" and is_beside(tokens[at - 1], tokens[at]):
        if tokens[at].text == "." and tokens[at + 1].kind in ("name", "int") and is_beside(tokens[at], tokens[at + 1]) \
                or tokens[at].text == "[" and tokens[at + 1].text == "]":
            at += 2
            continue
        return index_in(tokens, at)
    return ""


def index_in(tokens: Tokens, at: int) -> str:
    """The number or the name that stands alone in brackets."""
    if tokens[at].text != "[":
        return ""
    sign = "-" if tokens[at + 1].text == "-" else ""
    at += 2 if sign else 1
    is_index = tokens[at].kind == "int" or tokens[at].kind == "name" and not sign
    return f"the index `[{sign}{tokens[at].text}]`" if is_index and tokens[at + 1].text == "]" else ""


def a_second_default(tokens: Tokens, at: int) -> str:
    name, opening = tokens[at + 1:at + 3]
    if name.text != "default" or opening.text != "(" or not is_beside(name, opening):
        return ""
    bracket = next((token.text for token in tokens[at + 3:] if token.text in ("(", ")", ",")), "")
    return "`default` with a second value" if bracket == "," else ""


def a_choice(tokens: Tokens, at: int) -> str:
    word, last, behind = tokens[at], before(tokens, at), tokens[at + 1]
    is_step = is_beside(last, word) and (last.kind in VALUES or last.text == ".")
    is_choice = (behind.kind in VALUES or behind.text == "(") and not is_beside(word, behind)
    return "an inline `if`" if word.start and is_choice and not is_step else ""


def arithmetic(tokens: Tokens, at: int) -> str:
    sign, last = tokens[at], before(tokens, at)
    return f"arithmetic (`{sign.text[0]}`)" if last.kind in VALUES or last.text in (")", "]") else ""


def a_call(tokens: Tokens, at: int) -> str:
    name, last = tokens[at], before(tokens, at)
    is_call = name.kind == "name" and name.text not in WORDS and tokens[at + 1].text == "(" \
        and is_beside(name, tokens[at + 1])
    is_step = last.text == "|" or is_beside(last, name) and (last.kind in VALUES or last.text == ".")
    return f"the call `{name.text}()`" if is_call and not is_step else ""


# In this order they are told.
FORMS: Tuple[Callable[[Tokens, int], str], ...] = (
    a_filter, a_test, a_method, an_index, a_second_default, a_choice, arithmetic, a_call)
# Which of them may begin with a token of this text, or with any other name.
RANKS = {"|": (0, 4), ".": (2,), "is": (1, 3, 7), "if": (3, 5, 7), **dict.fromkeys(ARITHMETIC, (6,))}
OF_NAMES = (3, 7)
