# SPDX-License-Identifier: MIT OR Apache-2.0
# Asks the front end about books, and the program to run what it converts them to.
from __future__ import annotations

import json
import os
import re
import subprocess
from dataclasses import dataclass
from pathlib import Path
from typing import Any, Dict, List, Sequence, Set

from ansible_tools import run_tool

Json = Dict[str, Any]
COUNT = re.compile(r"(\S+) : (.*)")


@dataclass
class Verdict:
    """What the front end says of a book."""

    report: Dict[str, Any]

    @property
    def is_accepted(self) -> bool:
        """Nothing is refused, though perhaps nothing is judged."""
        return bool(self.report["verdict"] in ("accepted", "not judged"))

    @property
    def is_whole(self) -> bool:
        return self.is_accepted and bool(self.report["judged"] == self.report["tasks"]) and not self.report["not_asked"]

    @property
    def budget(self) -> "int | None":
        found = self.report.get("budget")
        return found if isinstance(found, int) else None

    def unjudged(self) -> Set[str]:
        return {one["name"] for one in self.report["not_judged"]}


def check(books: List[str], folder: Path, inventory: str = "hosts.yml", words: Sequence[str] = ()) -> List[Verdict]:
    """The verdicts on several books of one inventory; what can't be read is an error of the test."""
    done = run_tool(["check", "--no-lookup", "--format", "json", *words, *books, "-i", inventory], folder)
    if done.stderr:
        raise RuntimeError(f"{folder}: {done.stderr}")
    return [Verdict(report) for report in json.loads(done.stdout)["books"]]


def converted(folder: Path, inventory: str = "../hosts.yml") -> str:
    """Converts a book into a folder below its own; answers what is said of it."""
    done = run_tool(["convert", "--no-lookup", "book.yml", "-i", inventory, "-o", "converted"], folder)
    if done.returncode:
        raise RuntimeError(f"{folder}: {done.stderr}")
    return done.stderr


def run_converted(folder: Path, answers: Json) -> "Dict[str, Dict[str, int]]":
    """The recap of a run of the converted book with these answers of its hosts; empty where it can't be run."""
    made = folder / "converted"
    (made / "answers.json").write_text(json.dumps(answers), encoding="utf-8")
    words = [os.environ["PLAYCHECK"], "run", "book.json", "-i", "inventory.json", "-s", "signatures.json", "--answers",
             "answers.json", "-f", "1"]
    said = subprocess.run(words, cwd=made, capture_output=True, text=True, check=False).stdout
    found = [COUNT.fullmatch(line) for line in said.splitlines()]
    return {one[1]: {word: int(count) for word, count in (part.split("=") for part in one[2].split())}
            for one in found if one}
