# SPDX-License-Identifier: MIT OR Apache-2.0
# Writes what the program is asked: the book, the inventory and the signatures in JSON, and what each line is.
from __future__ import annotations

import contextlib
import json
import os
from typing import TYPE_CHECKING, Dict, Iterable, Iterator, List, Optional, Tuple

from .books import Play, Raw, Task
from .nodes import Node, Scalar, Text
from .problems import Place, Problem

if TYPE_CHECKING:
    from .inventory import Inventory
    from .lines import Line
    from .settling import Settler

# Words that change what a run does, and that a book is judged without; a `meta` that does nothing becomes a message.
UNPRINTED = ("run_once", "any_errors_fatal", "max_fail_percentage", "check_mode", "async", "vars_prompt", "meta")


def write_converted(folder: str, settler: Settler, inventory: Inventory) -> None:
    try:
        os.makedirs(folder, exist_ok=True)
        write(folder, "book.json", settler.numbered.json)
        write(folder, "inventory.json", inventory.json())
        write(folder, "signatures.json", settler.modules.signatures(settler.book))
        write(folder, "lines.json", [line_json(number, line) for number, line in enumerate(settler.numbered.lines)
                                     if line is not None])
    except OSError as error:
        raise Problem(Place(folder), error.strerror or str(error)) from None


def write(folder: str, name: str, value: object) -> None:
    """Writes a file anew and gives it its name then: a link of this name is no way to another file."""
    made = os.path.join(folder, f".{name}.{os.getpid()}")
    try:
        with open(made, "x", encoding="utf-8") as file:
            json.dump(value, file, indent=2)
            file.write("\n")
        os.replace(made, os.path.join(folder, name))
    except BaseException:
        with contextlib.suppress(FileNotFoundError):
            os.remove(made)
        raise


def line_json(number: int, line: Line) -> Dict[str, object]:
    """A counted line: what it is, where it stands, whether it is judged, and how many expressions have other values."""
    place, step = line.place, line.step
    reason = step.judging.reason if isinstance(step, Task) else step.reason if isinstance(step, Play) else ""
    return {"counted_line": number, "kind": line.kind, "file": place.file, "line": place.line, "column": place.column,
            "name": line.name, "play": line.play.name if line.play is not None else "",
            "not_judged": reason or None, "stand_ins": sum(by_text([line]).values())}


def by_text(lines: Iterable[Optional[Line]]) -> Dict[Tuple[Place, str], int]:
    """How many expressions of each text of the files have other values; a text may be printed more than once."""
    printed = (sorted(line.stand_ins(), key=place_of) for line in lines if line is not None)
    return {(text.place, text.text): text.stand_ins for texts in printed for text in texts}


def place_of(text: Text) -> Place:
    return text.place


def warnings_of(settler: Settler) -> Iterator[str]:
    """What is said of a book of which a run does something else than Ansible; of any other book nothing."""
    values, tasks = by_text(settler.numbered.lines), others(settler)
    end = ": this book is for check, and not for run"
    if values:
        count, (first, _) = sum(values.values()), next(iter(values))
        told = (f"1 expression stands for an operation that the profile lacks ({first})" if count == 1 else
                f"{count} expressions stand for operations that the profile lacks ({first} first)")
        yield f"{told}{end}"
    if tasks:
        one, several = f"1 task is another one ({tasks[0]})", f"{len(tasks)} tasks are others ({tasks[0]} first)"
        yield f"{one if len(tasks) == 1 else several} than in a run of Ansible{end}"


def others(settler: Settler) -> List[Place]:
    """The places of the tasks that a run doesn't count or doesn't run as Ansible does, each once."""
    lines = [line for line in settler.numbered.lines if line is not None and is_other(line)]
    return sorted({line.place for line in lines} | {block.place for block in settler.book.includes})


def is_other(line: Line) -> bool:
    """Whether another task stands beside that of a line, or for it, or a word that changes its run isn't printed."""
    if line.kind in ("asked", "condition"):
        return True
    source = line.source
    if isinstance(source, Raw):
        return False
    lost = [key for key, node in source.written.pairs.items()
            if key in UNPRINTED and key not in source.words and not is_off(node)]
    if isinstance(source, Task):
        judging = source.judging
        return bool(lost or judging.reason or judging.facts or judging.has_no_bound)
    return bool(lost or isinstance(source, Play) and (source.reason or source.facts))


def is_off(node: Node) -> bool:
    return isinstance(node, Scalar) and node.value in (False, None)
