# SPDX-License-Identifier: MIT OR Apache-2.0
# Bugs for scripts of a shell, by forms of their texts.
import re
import subprocess
from typing import Callable, Dict, Iterator, List, Tuple, Union

from planted_edit import Edit

Made = Union[str, Callable[["re.Match[str]"], str]]

OTHER_TEST = {"x": "e", "e": "x", "f": "e", "d": "e", "L": "e", "r": "e", "z": "n", "n": "z", "eq": "ne", "ne": "eq",
              "gt": "ge", "ge": "gt", "lt": "le", "le": "lt", "nt": "ot"}
# The sort of a bug, where it can be, and what it is made to.
FORMS: List[Tuple[str, str, Made]] = [
    ("and for or", r"\|\|", "&&"),
    ("or for and", r"&&", "||"),
    ("another test", r"(?<= -)(?:x|e|f|d|L|r|z|n|eq|ne|gt|ge|lt|le|nt)(?= )", lambda found: OTHER_TEST[found[0]]),
    ("not", r"(?<=\[ )! ", ""),
    ("not", r"(?<=\[ )(?=[-\"])", "! "),
    ("not", r"(?<=\bif )(?!! )", "! "),
    ("not", r"(?<=\bif )! ", ""),
    ("not", r"(?<=&& )! (?=\w)", ""),
    ("unequal", r"(?<= )=(?= )", "!="),
    ("equal", r"(?<= )!=(?= )", "="),
    ("a number more", r"(?<![\w$.{/\\%-])\d+(?![\w./>&])", lambda found: str(int(found[0]) + 1)),
    ("a number less", r"(?<![\w$.{/\\%-])[1-9]\d*(?![\w./>&])", lambda found: str(int(found[0]) - 1)),
    ("the other truth", r"\btrue\b", "false"),
    ("the other truth", r"\bfalse\b", "true"),
    ("an option less", r"(?<!\[) --?[\w-]*(?=[ )\n])", ""),
    ("an output elsewhere", r" ?(?:2>/dev/null|>/dev/null|>&2|2>&1|</dev/null)", ""),
    ("the shorter match", r"%%|##", lambda found: found[0][0]),
    ("a default less", r"(?<=\w)[-+]\w*(?=\})", ""),
    ("no way out", r" (?:\|\||&&) (?:return|exit)(?: \d+)?", ""),
    ("no way out", r"^ *(?:exit|return)(?: \d+)?(?=$| ;;)", ":"),
    ("a word less", r"(?<= )[\w$][\w$./-]*(?=[ \n])", ""),
    ("a word less", r"(?<= )\"\$[\w{}]+\"(?=[ \n;)])", ""),
    ("another text", r"(?<=[\w.'%])(?<!\$0)\"(?=[ \n;)])", 'X"'),
    ("a command less", r"(?m)^ *\S.*$", ":"),
    ("an end less", r"(?<=\S) \| [^|)]*(?=[\n)])", ""),
]
VARIABLE = re.compile(r"\$(\w+)|\$\{(\w+)")
FUNCTION = re.compile(r"(?m)^(\w+)\(\) \{$")


def code_of(text: str) -> str:
    """The text with blanks in the place of comments, and of lines that only keep names to a function."""
    return re.sub(r"(?m)^\s*#(?!!).*$|^#!.*$|(?<= )# .*$|^\s*local [\w ]+$", lambda found: " " * len(found[0]), text)


def edits(text: str) -> List[Edit]:
    code = code_of(text)
    found = [edit for form in FORMS for edit in by_form(code, *form)]
    return [*found, *other_variables(code)]


def by_form(code: str, sort: str, form: str, made: Made) -> Iterator[Edit]:
    for found in re.finditer(form, code, re.M):
        start = found.start() + len(found[0]) - len(found[0].lstrip()) if sort == "a command less" else found.start()
        new = found.expand(made) if isinstance(made, str) else made(found)
        if not (sort == "a command less" and is_of_several(code, found) or sort == "a word less" and is_kept(code, found)):
            yield Edit(start, found.end(), new, sort)


def is_kept(code: str, found: "re.Match[str]") -> bool:
    """Whether a word is a name that is kept to a function, and no more."""
    return code[code.rfind("\n", 0, found.start()) + 1 :].lstrip().startswith("local ")


def is_of_several(code: str, found: "re.Match[str]") -> bool:
    """Whether a command goes on in another line, or comes from the one before."""
    ends = ("\\", "&&", "||", "|")
    return found[0].rstrip().endswith(ends) or code[: found.start()].rstrip("\n").endswith(ends)


def other_variables(code: str) -> Iterator[Edit]:
    """The next variable of the script in the place of one."""
    names = sorted({found[1] or found[2] for found in VARIABLE.finditer(code)})
    after: Dict[str, str] = dict(zip(names, [*names[1:], *names[:1]]))
    for found in VARIABLE.finditer(code):
        group = 1 if found[1] else 2
        if after[found[group]] != found[group]:
            yield Edit(found.start(group), found.end(group), after[found[group]], "another variable")


def is_read(text: str) -> bool:
    shell = "sh" if text.startswith("#!/bin/sh") else "bash"
    return subprocess.run([shell, "-n"], input=text.encode(), capture_output=True, check=False).returncode == 0
