# SPDX-License-Identifier: MIT OR Apache-2.0
# Recaps: a run of the converted book, with the answers that Ansible took, counts for each host what Ansible counts.
from __future__ import annotations

import json
from pathlib import Path
from typing import Any, Dict, Iterator, List

from .front_end import converted, run_converted
from .runs import Run

Json = Dict[str, Any]
# `gather_facts` is answered as `setup` is.
OTHER_NAMES = {"gather_facts": "setup"}


def taken(run: Run, answers: "Dict[str, List[Json]]") -> "Dict[str, List[Json]]":
    """The answers that each host took, in their order."""
    return {host: [row[OTHER_NAMES.get(name, name)] for name, row in zip(run.called.get(host, ()), rows)]
            for host, rows in answers.items()}


def is_comparable(folder: Path) -> bool:
    """Whether a run counts as Ansible's does: `convert` warns of nothing, and no row of the table of differences is met."""
    return not converted(folder) and not any(is_of_a_row(task) for task in steps(folder))


def is_of_a_row(task: Json) -> bool:
    """Whether `failed_when` is beside an `until`, or reads the `changed` that a `changed_when` gives."""
    reads = "changed" in str(task.get("failed_when"))
    return "failed_when" in task and ("until" in task or "changed_when" in task and reads)


def other_counts(folder: Path, run: Run, answers: "Dict[str, List[Json]]") -> str:
    """Where the recaps of both differ, host by host: a host without an event has no counts in Ansible's.

    A loop with an item that couldn't be reached is a row of the table of differences, and so is a batch without an
    active host where some had left before.
    """
    told_lost = any(answer.get("unreachable") for given in taken(run, answers).values() for answer in given)
    if told_lost and any("loop" in task for task in steps(folder)):
        return ""
    has_left = any(counts["failed"] or counts["unreachable"] for counts in run.recap.values())
    if has_left and any("serial" in play for play in steps(folder)):
        return ""
    found = run_converted(folder, taken(run, answers))
    told = [f"{host} {word} {found[host][word]} for {count}" for host in sorted(run.recap) if host in found
            for word, count in run.recap[host].items() if found[host].get(word, 0) != count]
    told += [f"{host} isn't told" for host in sorted(set(run.recap) - set(found))]
    return f"the recap is another one: {', '.join(told)}" if told else ""


def steps(folder: Path) -> "Iterator[Json]":
    """The plays, blocks and tasks of a converted book."""
    waiting: List[Any] = json.loads((folder / "converted" / "book.json").read_text(encoding="utf-8"))
    while waiting:
        step = waiting.pop()
        yield step
        waiting += [inner for part in step.values() if isinstance(part, list) for inner in part if isinstance(inner, dict)]
