# SPDX-License-Identifier: MIT OR Apache-2.0
# Words and values of inventories in INI: a line divided as a shell does, and values that Python's literals write.
from __future__ import annotations

import ast
import re
from typing import TYPE_CHECKING, List, Match

if TYPE_CHECKING:
    from .nodes import Value

MOST_LEVELS = 30
# In the place of a value that no JSON has: a decimal number, which is held and not read.
OPAQUE = 0.5
BLANKS = re.compile(r"[ \t\r\n]+")
PIECES = re.compile(r"""'(?P<single>[^']*)'|"(?P<double>(?:[^"\\]|\\.)*)"|\\(?P<escaped>.)|"""
                    r"""(?P<plain>[^ \t\r\n'"\\#]+)""", re.S)
ESCAPED = re.compile(r"""\\(["\\])""")
SURROGATE = re.compile("[\ud800-\udfff]")

def words_of(line: str) -> List[str]:
    """The words of a line, without a comment; a ValueError where a quote isn't closed."""
    words: List[str] = []
    at = 0
    while at < len(line):
        blank = BLANKS.match(line, at)
        at = blank.end() if blank else at
        if at == len(line) or line[at] == "#":
            break
        word: List[str] = []
        while at < len(line) and line[at] not in " \t\r\n#":
            piece = PIECES.match(line, at)
            if piece is None:
                raise ValueError("a quote isn't closed" if line[at] in "'\"" else "nothing follows the last \\")
            word.append(text_of(piece))
            at = piece.end()
        words.append("".join(word))
    return words


def text_of(piece: "re.Match[str]") -> str:
    kind = piece.lastgroup or ""
    return ESCAPED.sub(r"\1", piece[kind]) if kind == "double" else piece[kind]


def value_of(text: str) -> Value:
    """A value as Python writes it; any other text is itself. A ValueError where Ansible can't read it either."""
    try:
        found = ast.literal_eval(text)
    except (ValueError, SyntaxError):
        return text
    except TypeError as error:
        raise ValueError(f"a value can't be made: {error}") from None
    except (RecursionError, MemoryError):
        raise ValueError("a value nests too deep") from None
    return plain_of(found.decode() if isinstance(found, bytes) else found, 0)


def plain_of(found: object, levels: int) -> Value:
    """A value as JSON has it; what it can't have is held as a value that isn't read."""
    if found is None or isinstance(found, (bool, int)):
        return found if not isinstance(found, int) or found.bit_length() < 4096 else OPAQUE
    if isinstance(found, str):
        return OPAQUE if SURROGATE.search(found) else found
    if isinstance(found, float):
        return found if abs(found) < float("inf") else OPAQUE
    if levels >= MOST_LEVELS:
        return OPAQUE
    if isinstance(found, (list, tuple)):
        return [plain_of(item, levels + 1) for item in found]
    if isinstance(found, dict) and all(isinstance(key, str) for key in found):
        return {key: plain_of(item, levels + 1) for key, item in found.items()}
    return OPAQUE
