# SPDX-License-Identifier: MIT OR Apache-2.0
# The tokens of an expression, with their places in it: each letter but blanks is of one of them.
from __future__ import annotations

import re
from functools import lru_cache
from typing import List, NamedTuple, Tuple

NAME = re.compile(r"[A-Za-z_][A-Za-z0-9_]*")
# One that the profile has for a variable, a parameter or a field.
VARIABLE = re.compile(r"[A-Za-z_][A-Za-z0-9_]{0,127}")
TEXTS = {"'": r"'(?:[^'\\]|\\.)*'", '"': r'"(?:[^"\\]|\\.)*"'}
REST = (r"(?P<float>\d+\.\d+)|(?P<int>\d+)|(?P<name>[A-Za-z_]\w*)"
        r"|(?P<sign>==|!=|<=|>=|//|\*\*|[-+*/%~<>=()\[\].,|])|(?P<other>\S)")


class Token(NamedTuple):
    kind: str  # text, float, int, name, sign; open, a quote that isn't closed; or other: what no expression has
    text: str  # as it is written
    start: int
    end: int


@lru_cache(None)
def lexer(quotes: str) -> re.Pattern[str]:
    """The tokens of an expression in which these quotes may be closed."""
    texts = "|".join(TEXTS[quote] for quote in quotes)
    return re.compile(f"(?P<text>{texts})|(?P<open>[{quotes}])|{REST}" if quotes else REST, re.S)


def tokens_of(expression: str) -> Tuple[Token, ...]:
    """All tokens. Where a quote isn't closed, no later one of its kind is."""
    found: List[Token] = []
    quotes, at = "'\"", 0
    while at < len(expression):
        for match in lexer(quotes).finditer(expression, at):
            # As Token(..) does, without a call of Python in between: a check makes so many of them.
            found.append(tuple.__new__(Token, (match.lastgroup or "", match[0], match.start(), match.end())))
            if match.lastgroup == "open":
                quotes = quotes.replace(match[0], "")
                break
        else:
            break
        at = found[-1].end
    return tuple(found)
