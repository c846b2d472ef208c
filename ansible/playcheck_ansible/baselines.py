# SPDX-License-Identifier: MIT OR Apache-2.0
# Baselines: files of findings that are known, by what stays where lines move.
from __future__ import annotations

import json
import re
from typing import TYPE_CHECKING, Dict, List, Tuple

from .pipelines import path_of
from .positions import read_text
from .printing import json_of, told
from .problems import Place, Problem
from .wording import without_lines

if TYPE_CHECKING:
    from .reports import Finding, Report

# The path, the code, the names of the play and of the task, and what is said without its lines and hints.
Key = Tuple[str, ...]
Baseline = Dict[Key, int]  # how many findings of a book each silences
MEMBERS = ("path", "code", "play", "task", "message")
# What is said further, which hangs on other names than those of the finding.
FURTHER = re.compile(r"\.? (?:Did you mean|Known:|Choices:) .*", re.S)


def key_of(found: Finding) -> Key:
    message = without_lines(FURTHER.sub("", found.detail))
    return (path_of(found.place), found.code, found.play, found.name, message)


def read_baseline(path: str) -> Baseline:
    try:
        read = json.loads(read_text(path))
    except ValueError as error:
        raise Problem(Place(path), f"this is no JSON: {error}") from None
    findings = read.get("findings") if isinstance(read, dict) else None
    if not isinstance(findings, list):
        raise Problem(Place(path), "this is no baseline: an object with a list `findings` is wanted")
    baseline: Baseline = {}
    for number, one in enumerate(findings, 1):
        values = [one.get(name) for name in MEMBERS] if isinstance(one, dict) else [None]
        if not all(isinstance(value, str) for value in values):
            raise Problem(Place(path), f"finding {number} of the baseline lacks a text of {' '.join(MEMBERS)}")
        key = tuple(map(str, values))
        baseline[key] = baseline.get(key, 0) + 1
    return baseline


def write_baseline(path: str, reports: List[Report]) -> None:
    """Writes the findings of reports, but for those that comments silence; of each as many as a book has at most."""
    most: Baseline = {}
    for report in reports:
        counts: Baseline = {}
        for found in report.to_keep():
            counts[key_of(found)] = counts.get(key_of(found), 0) + 1
        most.update({key: max(count, most.get(key, 0)) for key, count in counts.items()})
    kept = [dict(zip(MEMBERS, key)) for key in sorted(most) for _ in range(most[key])]
    try:
        with open(path, "w", encoding="utf-8") as file:
            file.write(json_of({"findings": kept}))
    except (OSError, ValueError) as error:
        raise Problem(Place(path), f"the baseline can't be written: {getattr(error, 'strerror', None) or error}") from None
    for report in reports:
        for found in report.findings:
            if found.is_end:
                told(f"{found.place}: {found.code} isn't in the baseline: nothing behind it would be judged")
