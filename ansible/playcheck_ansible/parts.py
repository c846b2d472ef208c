# SPDX-License-Identifier: MIT OR Apache-2.0
# Parts of an expression as the profile writes them; what it can't write by a part of the same kind that reads the same.
from __future__ import annotations

import re
from dataclasses import dataclass, replace
from typing import Iterable, List, Optional, Tuple, Union

from .expression_parser import Unfit
from .values import TRUE_FOR_FILTER, is_true

# How tightly the profile binds: what stands in a looser part is put into parentheses.
OR, AND, NOT, RELATION, OPERAND, PLAIN = range(6)

Literal = Union[None, bool, int, float, str]


@dataclass(eq=False)
class Part:
    text: Optional[str]  # None where the profile has no such value
    kind: str = ""  # bool, int, text, float or split (a text that was divided) where it is known
    level: int = PLAIN
    reads: Tuple[str, ...] = ()  # what is read in its place
    is_path: bool = False
    default: Optional[Tuple[Part, Part]] = None  # of a path with a default: the path and the default
    literal: Optional[Tuple[Literal]] = None  # its value in a tuple of one, where it is a literal

    def at(self, level: int) -> str:
        """Its text where one of this level is wanted."""
        if self.text is None:
            raise Unfit
        return self.text if self.level >= level else f"({self.text})"

    def read(self) -> Tuple[str, ...]:
        """What has to be readable where it is."""
        return () if self.literal else self.reads or (self.at(OR),)


def all_read(parts: Iterable[Part]) -> Tuple[str, ...]:
    return tuple(dict.fromkeys(text for part in parts for text in part.read()))


def as_text(part: Part) -> Tuple[str, ...]:
    """What is read of a part that has to be a text: it has a length, and it can be joined."""
    if part.kind == "text":
        return part.read()
    plain = part.at(OPERAND)
    return () if part.literal else (f"{plain} | length", f"[{plain}] | join")


def literal_part(value: Literal, text: str, kind: str) -> Part:
    return Part(text, kind, PLAIN, literal=(value,))


def chained(words: str, parts: List[Part], level: int) -> Part:
    """Parts with `and` or `or` between them."""
    return Part(f" {words} ".join(part.at(level + 1) for part in parts), "bool", level)


def denied(part: Part) -> Part:
    return Part(f"not {part.at(NOT)}", "bool", NOT)


def written_ways(words: Iterable[str]) -> List[str]:
    """The words with each letter small or large, as many as there are."""
    found = []
    for word in words:
        ways = [""]
        for letter in word:
            ways = [way + one for way in ways for one in sorted({letter.upper(), letter})]
        found += ways
    return found


TRUE_TEXTS = "[" + ", ".join(f"'{word}'" for word in written_ways(TRUE_FOR_FILTER)) + "]"


def is_pattern(part: Part) -> bool:
    """Whether a part is a literal regular expression."""
    found = part.literal[0] if part.literal else None
    if not isinstance(found, str):
        return False
    try:
        re.compile(found)
    except re.error:
        return False
    return True


class Writer:
    """Writes parts, and knows whether all of them have the values of what was read."""

    def __init__(self) -> None:
        self.is_exact = True

    def stand_in(self, kind: str, reads: Iterable[str]) -> Part:
        """A part of a kind that reads what the real one reads: its value is another, and no verdict hangs on it."""
        self.is_exact = False
        listed = f"[{', '.join(reads)}] | length"
        text = {"int": f"({listed})", "text": f"([{listed}] | join)", "bool": f"({listed} == 1)"}.get(kind)
        return Part(text, kind, PLAIN, tuple(reads))

    def truth(self, part: Part) -> Part:
        """`x | bool`: a truth value is itself, and of all others 1 and these texts are true."""
        if part.kind == "bool":
            return part
        if part.literal:
            return literal_part(is_true(part.literal[0]), str(is_true(part.literal[0])).lower(), "bool")
        if part.kind in ("text", "int", "float", "split"):
            return self.stand_in("bool", part.read())
        if part.default and part.default[1].literal:
            path, default = part.default
            inside = self.truth(path).text
            return Part(f"({path.text} is undefined or {inside})" if default.literal and is_true(default.literal[0])
                        else f"({path.text} is defined and {inside})", "bool")
        plain = part.at(OPERAND)
        return Part(f"({plain} == true or {plain} == 1 or {plain} in {TRUE_TEXTS})", "bool")

    def defaulted(self, part: Part, default: Part, takes_falsy: bool) -> Part:
        """`default`; where it also stands for what is false, only its kind is known, if the two have the same."""
        if not takes_falsy:
            if part.text is None or part.reads:
                return part
            found = Part(f"{part.at(OPERAND)} | default({default.at(OR)})", "", OPERAND)
            return replace(found, default=(part, default)) if part.is_path else found
        reads = (f"{part.at(OPERAND)} | default({default.at(OR)})",) if part.is_path else part.read()
        both = (*reads, *default.read())
        return self.stand_in(part.kind, both) if part.kind == default.kind else Part(None, "", PLAIN, both)

    def chosen(self, condition: Part, one: Part, other: Part) -> Part:
        """An inline `if`: only the part that is chosen is read."""
        yes, no = condition.at(AND), f"not {condition.at(NOT)}"
        if one.kind == other.kind == "bool":
            return Part(f"({yes} and {one.at(NOT)} or {no} and {other.at(NOT)})", "bool")
        both = [f"[{', '.join(part.read())}] | length == 1" for part in (one, other)]
        reads = (f"{yes} and {both[0]} or {no} and {both[1]}",)
        return self.stand_in(one.kind, reads) if one.kind == other.kind else Part(None, "", PLAIN, reads)

    def compared(self, left: Part, sign: str, right: Part) -> Part:
        """A comparison: of whatever the profile can't write, it is a truth value where Ansible can compare it."""
        if left.text is not None and right.text is not None and not {"float"} & {left.kind, right.kind}:
            return Part(f"{left.at(OPERAND)} {sign} {right.at(OPERAND)}", "bool", RELATION)
        kinds = {left.kind, right.kind}
        is_total = sign in ("==", "!=") or kinds <= {"int", "float"} or sign.endswith("in") and kinds == {"text"}
        if not is_total:
            raise Unfit
        return self.stand_in("bool", all_read([left, right]))

    def calculated(self, left: Part, sign: str, right: Part) -> Part:
        """Arithmetic of numbers whose kinds are known, and texts put together."""
        kinds = {left.kind, right.kind}
        both = all_read([left, right])
        if sign == "~" or sign == "+" and kinds == {"text"}:
            return self.stand_in("text", both)
        divisor = right.literal[0] if right.literal else 0
        if not kinds <= {"int", "float"} or sign in ("/", "//", "%") and not divisor:
            raise Unfit
        return self.stand_in("int" if kinds == {"int"} and sign != "/" else "float", both)
