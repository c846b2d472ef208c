# SPDX-License-Identifier: MIT OR Apache-2.0
# The books of a command line, those of folders too; a file of a folder that can't be read isn't passed over.
from __future__ import annotations

import os
import re
from dataclasses import dataclass, field
from typing import Iterator, List

from .limits import ALLOWANCE
from .nodes import Mapping, Node, Sequence
from .positions import read_bytes, read_file
from .problems import Place, Problem
from .reports import Finding, Report

SUFFIXES = (".yml", ".yaml", ".json")
UNREAD_CODE = "unread"
# What a playbook is called; the hook of pre-commit takes the same names.
BOOK_NAME = re.compile(r"(^|/)(site|playbook[^/]*|playbooks/[^/]+)\.ya?ml$")
# A list begins, and a key that only a playbook has in its items.
ITEM = re.compile(rb"\s*(?:-(?:\s|$)|\[)")
BOOK_KEY = re.compile(rb"""(?:^|[-{,])[ \t]*["']?(?:hosts|[\w.]*import_playbook)["']?[ \t]*:""", re.M)
NO_CONTENT = (b"#", b"---", b"%")


@dataclass
class Named:
    """What the words of a command line name."""

    books: List[str] = field(default_factory=list)
    unread: List[Report] = field(default_factory=list)  # of files and folders in folders that can't be read
    bare: List[str] = field(default_factory=list)  # folders without a book


def named_books(paths: List[str]) -> Named:
    named = Named()
    for path in paths:
        if not os.path.isdir(path):
            named.books.append(path)
            continue
        before = len(named.books) + len(named.unread)
        for file in files_of(path, named):
            ALLOWANCE.begin()
            try:
                if is_book(read_file(file)):
                    named.books.append(file)
            except Problem as problem:
                if may_be_book(file):
                    named.unread.append(unread_report(file, "a file that can't be read", problem))
        if len(named.books) + len(named.unread) == before:
            named.bare.append(path)
    return named


def files_of(path: str, named: Named) -> Iterator[str]:
    """The files of a folder that may be YAML or JSON; folders in it that can't be listed are put down."""
    def put_down(error: OSError) -> None:
        folder = str(error.filename)
        problem = Problem(Place(folder), error.strerror or str(error))
        named.unread.append(unread_report(folder, "a folder that can't be read", problem))

    for folder, inner, files in os.walk(path, onerror=put_down):
        inner[:] = sorted(name for name in inner if not name.startswith("."))
        yield from (os.path.join(folder, name) for name in sorted(files) if name.endswith(SUFFIXES))


def is_book(node: Node) -> bool:
    """Whether a file is a playbook: a list with an item that has `hosts` or `import_playbook`."""
    items = node.items if isinstance(node, Sequence) else []
    return any(isinstance(item, Mapping) and ("hosts" in item or any(key.endswith("import_playbook")
               for key in item.pairs)) for item in items)


def may_be_book(path: str) -> bool:
    """Whether a file that can't be read is named like a playbook, or has the letters of one."""
    if BOOK_NAME.search(path):
        return True
    try:
        text = read_bytes(path).lstrip(b"\xef\xbb\xbf\xfe\xff").replace(b"\0", b"")
    except Problem:
        return False
    lines = (line for line in text.splitlines() if line.strip() and not line.lstrip().startswith(NO_CONTENT))
    return ITEM.match(next(lines, b"")) is not None and BOOK_KEY.search(text) is not None


def unread_report(path: str, title: str, problem: Problem) -> Report:
    return Report(path, [Finding(UNREAD_CODE, title, problem.place or Place(path), detail=problem.what)], is_unread=True)
