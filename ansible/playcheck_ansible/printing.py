# SPDX-License-Identifier: MIT OR Apache-2.0
# How names that come from files are written: none moves a cursor, ends a line or gives a command to a reader.
import json
import re
import sys

# Control characters of C0 and C1, ends of lines, marks that turn the order of letters, and halves of pairs.
UNSAFE = re.compile("[\x00-\x1f\x7f-\x9f\u061c\u200e\u200f\u2028-\u202e\u2066-\u2069\ud800-\udfff]")
SHORT = {"\n": "\\n", "\r": "\\r", "\t": "\\t"}
# What GitHub's runner takes for a command: two colons at the start of a line, and `##[` anywhere.
COMMAND = re.compile(r"^(\s*):(?=:)|##(?=\[)")


def printable(text: str) -> str:
    """A text in one line, with what isn't shown as a letter written as `\\x1b`, `\\u202e` or `\\n`."""
    return UNSAFE.sub(lambda found: written(found[0]), text)


def written(letter: str) -> str:
    code = ord(letter)
    return SHORT.get(letter) or (f"\\x{code:02x}" if code < 256 else f"\\u{code:04x}")


def line_of(text: str) -> str:
    """A line of output with names in it: in one line, and no command to a runner of pipelines."""
    return COMMAND.sub(lambda found: f"{found[1]}\\x3a" if found[1] is not None else "#\\x23", printable(text))


def json_of(value: object) -> str:
    """A value as JSON, whose letters are ASCII: names stay what they are for who reads it."""
    return json.dumps(value, indent=2).replace("##[", "#\\u0023[") + "\n"


def told(what: object) -> None:
    """Says on standard error, in one line, what isn't part of a report."""
    sys.stderr.write(line_of(f"playcheck-ansible: {what}") + "\n")
