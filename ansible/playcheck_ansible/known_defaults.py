# SPDX-License-Identifier: MIT OR Apache-2.0
# The passes over reads of names whose values are all known: `bool`, and `default` that stands for what is false too.
from __future__ import annotations

import re
from typing import TYPE_CHECKING, Callable, Iterator, List, NamedTuple, Optional, Tuple

from .expressions import read_once
from .tokens import Token
from .values import is_true

if TYPE_CHECKING:
    from .known_values import KnownValues
    from .nodes import Atom

QUOTED_TRUE, QUOTED_FALSE = "'true'", "'false'"
WORDS = {"true": True, "True": True, "false": False, "False": False}
END = Token("end", "", -1, -1)
# What goes on with the value of a filter.
GOES_ON = ("|", ".", "[", "(")


class Found(NamedTuple):
    """A name that is read, with the default behind it where it has one."""

    name: str
    default: Optional[str]  # as it is written
    takes_falsy: bool  # the default stands for what is empty or false too
    first: int  # the number of the token of the name
    behind: int  # and of the one behind all of it


def plain_truths(expression: str, values: KnownValues) -> str:
    """`x | bool` is `x` where each value that `x` may have is a truth value, and a comparison where each is a text."""
    if "bool" not in expression:
        return expression
    return replaced(expression, with_bool, lambda found: truth(found, values))


def truth(found: Found, values: KnownValues) -> Optional[str]:
    known, default = values.known(found.name), None
    if found.default is None and found.name in WORDS:
        return found.name
    if found.default is not None:
        written = literal(found.default)
        default = None if written is None else is_true(written)
        if default is None or found.takes_falsy and default and not all(known or ()):
            return None
    if known is None or not known and default is None:
        return None
    if all(isinstance(value, bool) for value in known):
        return found.name + default_text(default, "true", "false")
    if all(isinstance(value, str) for value in known):
        words = sorted({"true", *(str(value) for value in known if is_true(value))})
        listed = ", ".join(f"'{word}'" for word in words)
        return f"({found.name}{default_text(default, QUOTED_TRUE, QUOTED_FALSE)} in [{listed}])"
    return None


def default_text(default: Optional[bool], when_true: str, when_false: str) -> str:
    return "" if default is None else f" | default({when_true if default else when_false})"


def plain_defaults(expression: str, values: KnownValues) -> str:
    """`default(x, true)` is `default(x)` where no value that stands before it may be empty or false."""
    if "default" not in expression:
        return expression
    return replaced(expression, with_default, lambda found: unconditional(found, values))


def unconditional(found: Found, values: KnownValues) -> Optional[str]:
    known = values.known(found.name)
    if not found.takes_falsy or known is None or not all(known):
        return None
    return f"{found.name} | default({found.default})"


def replaced(expression: str, find: Callable[[str, Tuple[Token, ...], int], Optional[Found]],
             change: Callable[[Found], Optional[str]]) -> str:
    """The expression with what is found in it replaced, where `change` answers something."""
    tokens = read_once(expression).tokens
    parts: List[str] = []
    at = 0
    for found in all_found(expression, find):
        new = change(found)
        if new is not None:
            parts += [expression[at:tokens[found.first].start], new]
            at = tokens[found.behind - 1].end
    return "".join([*parts, expression[at:]])


def all_found(expression: str, find: Callable[[str, Tuple[Token, ...], int], Optional[Found]]) -> Iterator[Found]:
    """What is found at the names of an expression, each behind the one before."""
    one = read_once(expression)
    numbers = {token.start: number for number, token in enumerate(one.tokens)}
    tokens = (*one.tokens, END, END, END, END)
    behind = 0
    for number in [numbers[token.start] for token in one.reads]:
        before = tokens[number - 1] if number else END
        is_part = before.text in (")", "]") and before.end == tokens[number].start
        found = find(expression, tokens, number) if number >= behind and not is_part else None
        if found is not None:
            behind = found.behind
            yield found


def with_default(expression: str, tokens: Tuple[Token, ...], first: int) -> Optional[Found]:
    """A name with a default without calls in it."""
    name, opening = tokens[first], tokens[first + 3]
    is_default = [token.text for token in tokens[first + 1:first + 4]] == ["|", "default", "("]
    if not is_default or tokens[first + 2].end != opening.start:
        return None
    end = first + 4
    while tokens[end].kind != "end" and tokens[end].text not in ("(", ")", ","):
        end += 1
    written = expression[opening.end:tokens[end].start].strip()
    if tokens[end].text == ")":
        return Found(name.text, written, False, first, end + 1)
    words = [token.text for token in tokens[end:end + 5]]
    words = [*words[:1], *words[3:]] if words[1:3] == ["boolean", "="] else words[:3]
    if words[0] != "," or words[1:] not in (["true", ")"], ["True", ")"]):
        return None
    return Found(name.text, written, True, first, next(
        number for number in range(end, len(tokens)) if tokens[number].text == ")") + 1)


def with_bool(expression: str, tokens: Tuple[Token, ...], first: int) -> Optional[Found]:
    """A name, perhaps with a default, and the filter `bool` behind it, whose value nothing goes on with."""
    found = with_default(expression, tokens, first) or Found(tokens[first].text, None, False, first, first + 1)
    bar, word, opening, closing = tokens[found.behind:found.behind + 4]
    if (bar.text, word.text) != ("|", "bool"):
        return None
    is_call = (opening.text, closing.text) == ("(", ")") and word.end == opening.start
    behind = found.behind + (4 if is_call else 2)
    return None if tokens[behind].text in GOES_ON else found._replace(behind=behind)


def literal(text: str) -> Atom:
    """The value of a literal as an expression writes it, or None where it is something else."""
    if text in WORDS:
        return WORDS[text]
    if re.fullmatch(r"-?\d{1,18}", text):
        return int(text)
    quoted = re.fullmatch(r"'([^'\\]*)'|\"([^\"\\]*)\"", text)
    return (quoted[1] if quoted[1] is not None else quoted[2]) if quoted else None
