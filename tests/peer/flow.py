# SPDX-License-Identifier: MIT OR Apache-2.0
# Random books: one that is accepted whole fails in no run of real Ansible but by its scripts, and keeps its budget.
from __future__ import annotations

import random
from pathlib import Path
from typing import Any, Callable, Dict, Iterator, List, Optional

from .answers import answers
from .front_end import Verdict, check
from .precedence import write
from .recaps import is_comparable, other_counts
from .runs import Ansible, Run

Json = Dict[str, Any]
TOGETHER = 20
RUNS = 4
# Rows of the table of differences in docs/LANGUAGE.md that make an accepted book fail in Ansible.
ROWS = ("has no attribute 'failed'", "object of type 'bool' has no len()", "'bool' is not iterable",
        "argument of type 'bool' is not iterable")


def broken_promise(verdict: Verdict, run: Run) -> str:
    """What a run shows of an accepted book that it shouldn't."""
    unjudged = verdict.unjudged()
    found = [told for told in run.unwritten()
             if told.partition(" on ")[0] not in unjudged and not any(row in told for row in ROWS)]
    if found and not (unjudged and found[0].startswith(": ")):
        return found[0]
    if verdict.is_whole and verdict.budget is not None and run.calls > verdict.budget:
        return f"{run.calls} calls, of at most {verdict.budget}"
    return ""


def trouble(ansible: Ansible, folder: Path, verdict: Verdict, given: Json, is_compared: bool) -> str:
    """What a run with these answers shows of an accepted book that it shouldn't; its recap too, where that is compared."""
    run = ansible.run(folder, given)
    broken = broken_promise(verdict, run)
    return broken or other_counts(folder, run, given) if is_compared else broken


def judged_book(ansible: Ansible, folder: Path, verdict: Verdict, hosts: List[str], seed: int,
                counts: "Dict[str, int]") -> "Optional[tuple[str, Json]]":
    """The first promise that a run breaks, or recap that differs, with the answers of that run."""
    source = random.Random(seed)
    is_compared = verdict.is_whole and is_comparable(folder)
    counts["of them with recaps"] = counts.get("of them with recaps", 0) + is_compared
    for number in range(RUNS if verdict.is_whole else 2):
        given = answers(source, hosts, number)
        broken = trouble(ansible, folder, verdict, given, is_compared)
        if broken:
            return broken, given
    return None


def wrong_books(ansible: Ansible, folder: Path, seeds: "range", made: "Callable[[int], tuple[Json, List[Json]]]",
                counts: "Dict[str, int]") -> Iterator[str]:
    """Broken promises of random books; `made` gives an inventory with some books for a seed."""
    from .shrinking import smallest  # read where it is wanted: few promises are broken

    for seed in seeds:
        hosts_file, books = made(seed)
        write(folder, {"hosts.yml": hosts_file, **{f"b{number}/{name}": content for number, files in enumerate(books)
                                                    for name, content in files.items()}})
        hosts = sorted(hosts_file["all"]["hosts"])
        verdicts = check([f"b{number}/book.yml" for number in range(len(books))], folder)
        for number, verdict in enumerate(verdicts):
            counts[verdict.report["verdict"]] = counts.get(verdict.report["verdict"], 0) + 1
            found = None
            if verdict.is_accepted:
                found = judged_book(ansible, folder / f"b{number}", verdict, hosts, seed, counts)
            if found:
                small = smallest(ansible, folder, books[number], found[1], found[0])
                yield f"seed {seed}, book {number}: {found[0]}\n{small}"
