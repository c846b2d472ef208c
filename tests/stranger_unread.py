# SPDX-License-Identifier: MIT OR Apache-2.0
# An inventory that isn't read is never one without hosts, and a play without hosts is never judged.
import os
import subprocess
import tempfile
from pathlib import Path
from typing import Dict, Iterator, List, Tuple

from ansible_tools import run_tool
from stranger_ways import HOSTS

FAULTY = '- hosts: {0}\n  gather_facts: false\n  tasks:\n    - command: "rm -rf /srv/{{{{ nope }}}}"\n'
FAILS = "#!/bin/sh\necho no credentials >&2\nexit 1\n"
PRINTS = "#!/bin/sh\necho '{0}'\n"
ENDLESS = "#!/bin/sh\nexec yes\n"
CLOUD = "plugin: amazon.aws.aws_ec2\nregions: [eu-central-1]\n"
NOTHING = "this inventory has neither hosts nor groups"
# The files of each inventory (those of the name `x` may be run), what is told, and the status.
UNREAD: Dict[str, Tuple[Dict[str, str], str, int]] = {
    "good": (HOSTS, "site.yml: refused, 1 finding, 1 of 1 tasks judged", 1),
    "a fault in INI": ({"i": "[web]\nweb1 a b\n"}, "i:2:1: a variable as name=value is wanted, not a", 64),
    "a program": ({"x": FAILS}, "x: this inventory is a program, which isn't run", 64),
    "a plugin": ({"i/aws_ec2.yml": CLOUD}, "i/aws_ec2.yml: this inventory is for the plugin amazon.aws.aws_ec2", 64),
    "an empty folder": ({"i/.keep": ""}, f"i: {NOTHING}", 64),
    "an empty object": ({"i.json": "{}"}, f"i.json: {NOTHING}", 64),
    "an empty file": ({"i.yml": ""}, f"i.yml: {NOTHING}", 64),
    "an empty file without a suffix": ({"i": "# nothing\n"}, f"i: {NOTHING}", 64),
    "a folder of faults": ({"i/a.yml": HOSTS["hosts.yml"], "i/b": "web1 word\n"}, "i/b:1:1: a variable as", 64),
    "a list of no hosts": ({}, f",: {NOTHING}", 64),
    "an encrypted file": ({"i": "$ANSIBLE_VAULT;1.1;AES256\n6162\n"}, "i: this inventory is encrypted", 64),
    "a group without hosts": ({"i.yml": "all: {children: {web: }}\n"}, "site.yml: not judged, 0 of 1 tasks judged", 5),
}
# The same where programs and plugins may be run: what ansible-inventory says is told.
RUN: Dict[str, Tuple[Dict[str, str], str, int]] = {
    "a program that fails": ({"x": FAILS}, "x: ansible-inventory ended with status", 64),
    "a program without hosts": ({"x": PRINTS.format("{}")}, f"x: {NOTHING}", 64),
    "a program that prints no JSON": ({"x": PRINTS.format("[")}, "x: ansible-inventory ended with status", 64),
    "a program that never ends printing": ({"x": ENDLESS}, "x: ansible-inventory ", 64),
    "an unknown plugin": ({"i/nothing.yml": "plugin: no.such.plugin\n"}, "i: ansible-inventory ended with status", 64),
    "an empty folder": ({"i/.keep": ""}, "i: ", 64),
    "a program": ({"x": PRINTS.format('{"web": {"hosts": ["web1"]}, "_meta": {"hostvars": {}}}')},
                  "site.yml: refused, 1 finding, 1 of 1 tasks judged", 1),
    "a warning": ({"i/a": "[a-b]\nweb1\n"}, "i: ansible-inventory: [WARNING]: Invalid characters were found", 1),
}
PASSED_OVER = "not judged: no host of the inventory is of the play's `hosts`, so Ansible passes it over"
READS = "- hosts: web1\n  tasks: [{debug: {msg: '{{ ansible_system }}'}}]\n"
# A book, its options, and what it comes to.
PLAYS: Dict[str, Tuple[str, List[str], List[str]]] = {
    "a group without hosts": (FAULTY.format("db"), ["-i", "i.yml"], [PASSED_OVER, "not judged, 0 of 1 tasks judged"]),
    "strict": (FAULTY.format("db"), ["-i", "i.yml", "--strict"], ["refused by --strict, 0 of 1 tasks judged"]),
    "a pattern of no host": (FAULTY.format('"all:!web1"'), ["-i", "i.yml"], [PASSED_OVER, "0 of 1 tasks judged"]),
    "a pattern of no group": (FAULTY.format('"d*:!all"'), ["-i", "i.yml"], [PASSED_OVER, "0 of 1 tasks judged"]),
    "facts of another play": (FAULTY.format("db") + READS, ["-i", "i.yml"], ["accepted, 1 of 2 tasks judged"]),
    "an unknown group": (FAULTY.format("gone"), ["-i", "i.yml"], ["V06 play 'gone'", "refused, 1 finding"]),
    "without -i": (FAULTY.format("all"), [], ["accepted, 1 of 1 tasks judged, at most 0 module calls"]),
}


def checked(files: Dict[str, str], *words: str) -> "subprocess.CompletedProcess[str]":
    with tempfile.TemporaryDirectory() as folder:
        for name, text in files.items():
            path = Path(folder, name)
            path.parent.mkdir(exist_ok=True)
            path.write_text(text, encoding="utf-8")
            path.chmod(0o755 if path.name == "x" else 0o644)
        return run_tool(["check", "site.yml", *words], folder, given={"HOME": folder, "PATH": os.environ["PATH"]})


def wrong_table(table: Dict[str, Tuple[Dict[str, str], str, int]], *options: str) -> Iterator[str]:
    for name, (files, told, status) in table.items():
        inventory = next(iter(files), ",").split("/")[0]
        done = checked({"site.yml": FAULTY.format("all"), **files}, "-i", inventory, *options)
        if told not in done.stdout + done.stderr or done.returncode != status or "Traceback" in done.stderr:
            yield f"{name}: wanted {told!r} and status {status}, found {done}"


def wrong_unread() -> Iterator[str]:
    yield from wrong_table(UNREAD)


def wrong_run_inventories() -> Iterator[str]:
    yield from wrong_table(RUN, "--run-inventory")


def wrong_plays() -> Iterator[str]:
    for name, (book, words, wanted) in PLAYS.items():
        inventory = "all:\n  hosts: {web1: }\n  children: {db: }\n"
        done = checked({"site.yml": book, "i.yml": inventory}, *words)
        if not all(one in done.stdout for one in wanted) or done.stderr:
            yield f"{name}: wanted {wanted}, found {done}"
