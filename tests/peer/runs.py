# SPDX-License-Identifier: MIT OR Apache-2.0
# Asks real Ansible to run a book in a folder, and reads what happened there.
from __future__ import annotations

import json
import os
import shutil
import subprocess
import tempfile
from dataclasses import dataclass, field
from pathlib import Path
from typing import Any, Dict, List, Sequence

IN_ANSIBLE = Path(__file__).resolve().parent.parent / "in_ansible"
MODULES = ("command", "shell", "stat", "copy", "file", "service", "ping", "setup", "gather_facts")
Json = Dict[str, Any]
NAMES = {"failures": "failed"}  # in a recap as it is printed
# Messages of failures that a script or a book wrote itself.
WRITTEN = ("SCRIPTED", "WRITTEN", "Assertion failed", "One or more items failed", "Failed as requested")


@dataclass
class Run:
    """What a run came to."""

    status: int
    output: str
    events: List[Json] = field(default_factory=list)
    called: "Dict[str, List[str]]" = field(default_factory=dict)  # the modules that each host called

    @property
    def recap(self) -> "Dict[str, Dict[str, int]]":
        """The counts of each host that had an event, by the words that Ansible prints."""
        last = self.events[-1] if self.events else {}
        hosts: "Dict[str, Dict[str, int]]" = last["hosts"] if last.get("kind") == "recap" else {}
        return {host: {NAMES.get(word, word): count for word, count in counts.items()} for host, counts in hosts.items()}

    @property
    def calls(self) -> int:
        return sum(map(len, self.called.values()))

    def unwritten(self) -> List[str]:
        """The failures that no script wrote: task, host and message."""
        found = [f"{event['task']} on {event['host']}: {message}" for event in self.events
                 if event["kind"] == "failed" for message in unwritten_messages(event)]
        if self.status not in (0, 2, 4) or not self.recap:
            found.append(f": status {self.status}: {self.output.strip()[:400]}")
        return found


def unwritten_messages(event: Json) -> List[str]:
    return [message for message in event["messages"] if message and not message.startswith(WRITTEN)]


def interpreter() -> str:
    """The Python that runs Ansible, or nothing where that isn't installed."""
    program = shutil.which("ansible-playbook")
    if not program:
        return ""
    with open(program, "rb") as file:
        first = file.readline().decode(errors="replace").strip()
    return first[2:].split()[0] if first.startswith("#!") else ""


class Ansible:
    """One warm process of Ansible; each book is run in a fork of it."""

    def __init__(self, python: str) -> None:
        self.folder = tempfile.TemporaryDirectory(prefix="playcheck-peer-")
        base = Path(self.folder.name)
        for kind, name, names in (("action", "scripted", MODULES), ("callback", "peer_events", ("peer_events",))):
            (base / kind).mkdir()
            for one in names:
                shutil.copy(IN_ANSIBLE / "plugins" / f"{name}.py", base / kind / f"{one}.py")
        (base / "ansible.cfg").write_text("[defaults]\n", encoding="utf-8")
        words = {"CONFIG": base / "ansible.cfg", "RETRY_FILES_ENABLED": 0, "NOCOLOR": 1, "NOCOWS": 1,
                 "HOME": base / "home", "LOCAL_TEMP": base / "tmp", "STDOUT_CALLBACK": "peer_events",
                 "DEPRECATION_WARNINGS": 0,
                 "LOCALHOST_WARNING": 0, "INVENTORY_UNPARSED_WARNING": 0, "JINJA2_NATIVE": 0,
                 "ACTION_PLUGINS": base / "action", "CALLBACK_PLUGINS": base / "callback"}
        environment = {**os.environ, **{f"ANSIBLE_{word}": str(value) for word, value in words.items()},
                       "PYTHONDONTWRITEBYTECODE": "1", "LC_ALL": "C.UTF-8"}
        self.process = subprocess.Popen([python, str(IN_ANSIBLE / "warm.py")], stdin=subprocess.PIPE, stdout=subprocess.PIPE,
                                        text=True, env=environment)

    def __enter__(self) -> Ansible:
        return self

    def __exit__(self, *_: object) -> None:
        if self.process.stdin:
            self.process.stdin.close()
        self.process.wait()
        self.folder.cleanup()

    def run(self, folder: Path, answers: Json, inventory: str = "../hosts.yml", words: Sequence[str] = ()) -> Run:
        """Runs book.yml of a folder with these answers of its hosts."""
        for path in [*folder.glob("calls.*"), folder / "events.jsonl", folder / "output.txt"]:
            path.unlink(missing_ok=True)
        (folder / "answers.json").write_text(json.dumps(answers), encoding="utf-8")
        job = {"folder": str(folder), "inventory": inventory, "words": list(words)}
        assert self.process.stdin and self.process.stdout
        self.process.stdin.write(json.dumps(job) + "\n")
        self.process.stdin.flush()
        status = json.loads(self.process.stdout.readline())["status"]
        path = folder / "events.jsonl"
        events = [json.loads(line) for line in path.read_text(encoding="utf-8").splitlines()] if path.exists() else []
        called = {one.suffix[1:]: one.read_text(encoding="utf-8").split() for one in folder.glob("calls.*")}
        return Run(status, (folder / "output.txt").read_text(encoding="utf-8", errors="replace"), events, called)
