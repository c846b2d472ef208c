# SPDX-License-Identifier: MIT OR Apache-2.0
# What random books are made of: modules with their fields, texts, and expressions by the kind of what they are about.
from __future__ import annotations

from dataclasses import dataclass
from typing import Dict, List, Tuple

TEXTS = ("", "a", "b", "alpha beta", "yes", "no", "42", "7", "k=v", "a,b", "web", "inf")


@dataclass(frozen=True)
class Field:
    """A field of an answer: its path, its kind, and whether good and failed answers always have it."""

    path: str
    kind: str
    is_sure: bool
    is_in_failure: bool = False


def output() -> Tuple[Field, ...]:
    return (Field("rc", "int", True, True), Field("stdout", "text", True, True), Field("stderr", "text", True, True),
            Field("stdout_lines", "list", True, True))


FIELDS: Dict[str, Tuple[Field, ...]] = {
    "command": output(), "shell": output(), "ping": (Field("ping", "text", True),),
    "stat": (Field("stat.exists", "bool", True), Field("stat.size", "int", False), Field("stat.mode", "text", False),
             Field("stat.isdir", "bool", False)),
    "copy": (Field("dest", "text", True),),
    "file": (Field("path", "text", False), Field("state", "text", False)),
    "service": (Field("name", "text", True), Field("state", "text", False), Field("enabled", "bool", False)),
}
# Conditions about an expression of a kind; `{}` stands for it.
TESTS: Dict[str, List[str]] = {
    "int": ["{} == 0", "{} != 0", "{} > 1", "{} in [0, 2]", "{} <= 80", "{} is defined", "({} + 1) > 2", "{} | bool"],
    "text": ["{} == 'a'", "'a' in {}", "{} | length > 0", "{} != ''", "{} in ['a', 'yes']", "{} | lower == 'a'",
             "{}.startswith('a')", "{} is match('a')", "{} is search('b')", "{} | bool", "{} | int > 3", "{} is string",
             "{}.split(',')[0] == 'a'", "{} | default('', true) == 'a'", "{} | regex_replace('a', 'b') == 'b'"],
    "list": ["'a' in {}", "{} | length > 0", "{} | count == 2", "{} | join(',') == 'a,b'"],
    "bool": ["{}", "not {}", "{} | bool", "{} == true", "{} is true"],
    "result": ["{} is succeeded", "{} is failed", "{} is changed", "{} is skipped", "{} is not skipped",
               "{} is defined"],
}
# Values that are made of an expression of a kind, with their own kinds.
VALUES: Dict[str, List[Tuple[str, str]]] = {
    "int": [("{}", "int"), ("{} + 1", "int"), ("{} | string", "text"), ("10 - {}", "int"), ("{} // 2", "int")],
    "text": [("{}", "text"), ("{} | upper", "text"), ("{} ~ 'x'", "text"), ("{} | trim", "text"),
             ("{} | length", "int"), ("{} | replace('a', 'b')", "text"), ("{} | quote", "text"),
             ("{} | default('z', true)", "text"),
             ("{} | int", "int")],
    "list": [("{} | length", "int"), ("{} | join(',')", "text")],
    "bool": [("{}", "bool"), ("{} | ternary('a', 'b')", "text"), ("'p' if {} else 'q'", "text")],
    "result": [("{} is succeeded", "bool"), ("{}.changed", "bool")],
}
# Those for which other expressions stand in a converted book, that compute other values.
LOOSE = {"({} + 1) > 2", "{} | lower == 'a'", "{}.startswith('a')", "{} is match('a')", "{} is search('b')", "{} | int > 3",
         "{}.split(',')[0] == 'a'", "{} | default('', true) == 'a'", "{} | regex_replace('a', 'b') == 'b'", "{} is string",
         "{} + 1", "{} | string", "10 - {}", "{} // 2", "{} | upper", "{} ~ 'x'", "{} | trim", "{} | replace('a', 'b')",
         "{} | quote", "{} | default('z', true)", "{} | int", "{} | ternary('a', 'b')", "'p' if {} else 'q'"}
# Arguments of modules; `{}` stands for a text with templates.
ARGUMENTS: Dict[str, object] = {
    "command": "{}", "shell": "{}", "ping": None, "stat": {"path": "{}"}, "copy": {"dest": "/d", "content": "{}"},
    "file": {"path": "{}", "state": "directory"}, "service": {"name": "{}", "state": "restarted"},
}
DEFAULTS = {"int": "0", "text": "''", "list": "[]", "bool": "false"}
