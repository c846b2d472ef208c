# SPDX-License-Identifier: MIT OR Apache-2.0
# Compares the front end with real Ansible on random books: python3 tests/peer_checks.py PROGRAM [--seed N] [--books N].
import argparse
import os
import random
import sys
import tempfile
from pathlib import Path
from typing import Any, Dict, Iterator, List, Tuple

from ansible_tools import fork_commands
from peer.runs import Ansible, interpreter

Json = Dict[str, Any]
PARTS = ("flow", "precedence", "words")
# So many books of each part, in some minutes.
BOOKS = 100
TOGETHER = 20


def flow(ansible: Ansible, folder: Path, seed: int, books: int, counts: Dict[str, int]) -> Iterator[str]:
    from peer.books import book, inventory
    from peer.flow import wrong_books

    def made(number: int) -> "Tuple[Json, List[Json]]":
        hosts, known = inventory(random.Random(number))
        return hosts, [book(number * 1000 + one, known) for one in range(min(TOGETHER, books))]

    yield from wrong_books(ansible, folder, range(seed, seed + -(-books // TOGETHER)), made, counts)


def precedence(ansible: Ansible, folder: Path, seed: int, books: int, counts: Dict[str, int]) -> Iterator[str]:
    from peer.precedence import wrong_projects

    yield from wrong_projects(ansible, folder, range(seed, seed + books))
    counts["projects"] = books


def words(ansible: Ansible, folder: Path, seed: int, books: int, counts: Dict[str, int]) -> Iterator[str]:
    from peer.flow import wrong_books
    from peer.words import HOSTS, Words, installed, lost_names

    names = installed(interpreter())
    yield from lost_names(names)
    maker = Words(names)

    def made(number: int) -> "Tuple[Json, List[Json]]":
        return HOSTS, [maker.book(number * 1000 + one) for one in range(min(TOGETHER, books))]

    yield from wrong_books(ansible, folder, range(seed, seed + -(-books // TOGETHER)), made, counts)


def main() -> int:
    options = argparse.ArgumentParser()
    options.add_argument("program")
    options.add_argument("--seed", type=int, default=1)
    options.add_argument("--books", type=int, default=BOOKS, help="how many of each part")
    options.add_argument("--part", choices=PARTS, action="append")
    given = options.parse_args()
    fork_commands()
    python = interpreter()
    if not python:
        print("skipped: ansible-playbook isn't here")
        print("0 passed, 0 failed")
        return 0
    os.environ["PLAYCHECK"] = str(Path(given.program).resolve())
    makers = {"flow": flow, "precedence": precedence, "words": words}
    failed = passed = 0
    for part in given.part or PARTS:
        counts: Dict[str, int] = {}
        with tempfile.TemporaryDirectory(prefix="playcheck-peer-") as folder, Ansible(python) as ansible:
            wrong = 0
            for wrong, told in enumerate(makers[part](ansible, Path(folder), given.seed, given.books, counts), 1):
                print(f"FAILED: {part}: {told}", flush=True)
        failed += wrong
        passed += sum(counts.values()) - wrong
        print(f"({part}: {', '.join(f'{count} {what}' for what, count in sorted(counts.items()))})")
    print(f"{passed} passed, {failed} failed")
    return 1 if failed else 0


if __name__ == "__main__":
    sys.exit(main())
