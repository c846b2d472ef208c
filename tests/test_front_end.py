# SPDX-License-Identifier: MIT OR Apache-2.0
# Gives pytest each quick check of the front end by its name, as `pytest tests/test_front_end.py -k 'pass_tags or argv'`.
import os
from pathlib import Path
from typing import Callable, Iterable, List, Tuple

import pytest
from ansible_checks import SEARCHES, SLOW, SMALL, hostile, transcripts, wrong_hostile, wrong_transcript
from ansible_rows import ROWS, Row, said, wrong_rows
from ansible_tools import TOP, fork_commands

QUICK = [search for search in SEARCHES if search not in SLOW and search is not wrong_rows]
COMMANDS = list(transcripts())
HOSTILE = [one for one in hostile() if len(one[1]) < SMALL]


@pytest.fixture(scope="session", autouse=True)
def _program() -> None:
    """The program that PLAYCHECK names, or else the ready one; commands of the front end run in forks."""
    os.environ.setdefault("PLAYCHECK", str(TOP / "dist" / "playcheck"))
    fork_commands()


def names_of(commands: Iterable[Tuple[Path, List[str], object, object, int]]) -> List[str]:
    return [f"{folder.name}: {' '.join(words)}" for folder, words, *_ in commands]


@pytest.mark.parametrize("search", QUICK, ids=[search.__name__ for search in QUICK])
def test_search(search: Callable[[], Iterable[str]]) -> None:
    assert list(search()) == []


@pytest.mark.parametrize("row", ROWS, ids=[row.title for row in ROWS])
def test_row(row: Row) -> None:
    assert said(row) == row.wanted


@pytest.mark.parametrize("command", COMMANDS, ids=names_of(COMMANDS))
def test_transcript(command: Tuple[Path, List[str], List[str], List[str], int]) -> None:
    assert wrong_transcript(*command) == ""


@pytest.mark.parametrize("book", HOSTILE, ids=[name for name, *_ in HOSTILE])
def test_hostile(book: Tuple[str, object, str, int]) -> None:
    assert wrong_hostile(*book) == ""
