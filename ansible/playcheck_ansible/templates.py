# SPDX-License-Identifier: MIT OR Apache-2.0
# Where the templates of a text stand, found in one way along it, however many braces are opened and never closed.
from __future__ import annotations

import re
from typing import Callable, Iterator, Tuple

OPENING = re.compile(r"\{[{%]")
CLOSING = {"{{": "}}", "{%": "%}"}


def template_spans(text: str, signs: Tuple[str, ...] = tuple(CLOSING)) -> Iterator[Tuple[int, int]]:
    """Where each template begins and ends, with its braces; `signs` are those with which it may begin."""
    last = {sign: text.rfind(CLOSING[sign]) for sign in signs}
    opening = OPENING.search(text)
    while opening:
        start, inside = opening.span()
        is_closed = last.get(opening[0], -1) >= inside
        end = text.find(CLOSING[opening[0]], inside) + 2 if is_closed else start + 1
        if is_closed:
            yield start, end
        opening = OPENING.search(text, end)


def with_templates(text: str, change: Callable[[str], str]) -> str:
    """The text with each `{{ .. }}` of it changed."""
    parts, at = [], 0
    for start, end in template_spans(text, ("{{",)):
        parts += [text[at:start], change(text[start:end])]
        at = end
    return "".join([*parts, text[at:]])
