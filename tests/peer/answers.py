# SPDX-License-Identifier: MIT OR Apache-2.0
# Random answers of modules, each of its own documented shape: good ones, failed ones, and hosts that can't be reached.
from __future__ import annotations

import random
from typing import Any, Dict, List, Sequence

from .vocabulary import FIELDS, TEXTS

Json = Dict[str, Any]
CALLS = 40
# How often a call fails, and how often its host can't be reached.
STYLES = ((0.0, 0.0), (0.5, 0.0), (0.2, 0.15), (0.9, 0.0), (0.3, 0.05), (0.0, 0.3))


def program_answer(source: random.Random, failed: bool) -> Json:
    stdout = source.choice(TEXTS) if source.random() < 0.7 else "a\nb"
    stderr = source.choice(TEXTS)
    return {"changed": source.random() < 0.7, "rc": source.choice([1, 2, 127]) if failed else 0, "stdout": stdout,
            "stderr": stderr, "stdout_lines": stdout.splitlines(), "stderr_lines": stderr.splitlines()}


def some(source: random.Random, **values: object) -> Json:
    return {name: value for name, value in values.items() if source.random() < 0.7}


def row(source: random.Random, failing: float, lost: float) -> Json:
    """An answer of each module: whichever is called takes its own."""
    names = [*FIELDS, "setup"]
    if source.random() < lost:
        return dict.fromkeys(names, {"unreachable": True})
    failed = source.random() < failing
    program = program_answer(source, failed)
    if failed:
        failure = {"failed": True, "changed": source.random() < 0.1, "msg": "SCRIPTED failure"}
        both = {**program, **failure}
        return {**dict.fromkeys(names, failure), "command": both, "shell": both}
    exists = source.random() < 0.6
    found = {"size": source.choice([0, 9]), "mode": "0644", "isdir": source.random() < 0.5, "isreg": False}
    facts = {"ansible_hostname": source.choice(TEXTS), "ansible_system": "Linux",
             **some(source, ansible_os_family="Debian", ansible_distribution="Debian", ansible_processor_vcpus=2,
                    ansible_memtotal_mb=100)}
    changed = {"changed": source.random() < 0.7}
    return {"command": program, "shell": program, "ping": {"ping": "pong", **changed},
            "stat": {"stat": {"exists": exists, **(found if exists and source.random() < 0.8 else {})}, **changed},
            "copy": {"dest": "/d", **changed},
            "file": {**changed, **some(source, path="/x", state=source.choice(TEXTS))},
            "service": {"name": "x", **changed, **some(source, state="started", enabled=True)},
            "setup": {"ansible_facts": facts}}


def answers(source: random.Random, hosts: Sequence[str], number: int) -> "Dict[str, List[Json]]":
    """A list of answers of each host; hosts differ in how often they fail."""
    failing, lost = STYLES[number % len(STYLES)]
    found = {}
    for host in hosts:
        weight = source.choice([0, 1, 1, 2])
        found[host] = [row(source, min(0.95, failing * weight), lost if weight else 0.0) for _ in range(CALLS)]
    return found
