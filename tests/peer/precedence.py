# SPDX-License-Identifier: MIT OR Apache-2.0
# Which value a name has: what real Ansible tells at each probe of a random project has to hold in the converted book.
from __future__ import annotations

import shutil
from pathlib import Path
from typing import Dict, Iterator

import yaml

from .runs import Ansible
from .front_end import check, converted, run_converted
from .projects import HOSTS, Project


def write(folder: Path, files: "Dict[str, object]") -> None:
    shutil.rmtree(folder, ignore_errors=True)
    for name, content in files.items():
        path = folder / name
        path.parent.mkdir(parents=True, exist_ok=True)
        path.write_text(yaml.safe_dump(content, sort_keys=False), encoding="utf-8")


def told_values(ansible: Ansible, folder: Path, seed: int) -> "Dict[str, Dict[str, str]]":
    """The values that Ansible tells on each host at each probe; empty where it doesn't run the project."""
    write(folder, Project(seed).files)
    run = ansible.run(folder / "b", {})
    told: "Dict[str, Dict[str, str]]" = {host: {} for host in HOSTS}
    for event in run.events if run.status == 0 else ():
        if event["kind"] == "ok" and str(event["task"]).rpartition(" : ")[2].startswith("P"):
            told[event["host"]][event["task"].rpartition(" : ")[2]] = str(event["message"])
    return told if run.status == 0 else {}


def wrong_values(ansible: Ansible, folder: Path, seed: int) -> Iterator[str]:
    """What is wrong of a project: that it isn't run, that it is refused, or that a value is another one."""
    told = told_values(ansible, folder, seed)
    if not told:
        yield f"project {seed}: Ansible doesn't run it: {(folder / 'b/output.txt').read_text(encoding='utf-8')[:300]}"
        return
    for host in HOSTS:
        write(folder, Project(seed, told[host]).files)
        verdict, = check(["book.yml"], folder / "b", "../hosts.yml")
        if not verdict.is_accepted:
            yield f"project {seed}: refused: {verdict.report['findings'][:1]}"
            continue
        converted(folder / "b")
        recap = run_converted(folder / "b", {}).get(host)
        skipped = verdict.unjudged()
        if verdict.is_whole and (recap is None or recap["ignored"] or recap["failed"]):
            yield f"project {seed}, {host}: a value is another one than {told[host]}: {recap}"
        elif not verdict.is_whole and recap and recap["ignored"] and not skipped:
            yield f"project {seed}, {host}: a value is another one than {told[host]}: {recap}"


def wrong_projects(ansible: Ansible, folder: Path, seeds: "range") -> Iterator[str]:
    for seed in seeds:
        yield from wrong_values(ansible, folder / "project", seed)
