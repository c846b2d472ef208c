# SPDX-License-Identifier: MIT OR Apache-2.0
# Tries what a gate rests on: nothing judged, too few tasks judged, and files of folders that can't be read.
import json
import os
import subprocess
import tempfile
import xml.etree.ElementTree as xml
from pathlib import Path
from typing import Dict, Iterator, List, Tuple, Union
from unittest.mock import patch

from ansible_tools import TOP, run_tool

Files = Dict[str, Union[str, bytes]]
PLAY = "- hosts: all\n  gather_facts: false\n"
UNKNOWN = "  - apt: {name: nginx}\n"
BOOKS: Files = {
    "good.yml": PLAY + "  tasks:\n  - ping:\n", "bare.yml": PLAY, "bad.yml": PLAY + "  tasks:\n  - debug: {msg: '{{ gone }}'}\n",
    "none.yml": PLAY + "  tasks:\n" + 3 * UNKNOWN, "some.yml": PLAY + "  tasks:\n  - ping:\n" + 3 * UNKNOWN,
    "tab.yml": "- hosts: all\n\ttasks: []\n",
}
NONE = "not judged, 0 of 3 tasks judged"
SOME = "accepted, 1 of 4 tasks judged"
FEW = f"{SOME}: fewer than 50 % (--min-judged)"
BARE = "bare.yml: accepted, 0 of 0 tasks judged, at most 0 module calls"
GOOD = "good.yml: accepted, 1 of 1 tasks judged, at most 1 module calls"
BAD = "bad.yml: refused, 1 finding, 1 of 1 tasks judged"
# The words of a check, its status, and the verdicts that it prints.
STATUSES: List[Tuple[str, int, List[str]]] = [
    ("none.yml", 5, [f"none.yml: {NONE}"]),
    ("bare.yml", 0, [BARE]),
    ("none.yml --tags gone", 0, ["none.yml: accepted, 0 of 0 tasks judged, 3 left out by tags, at most 0 module calls"]),
    ("some.yml", 0, [f"some.yml: {SOME}"]),
    ("none.yml good.yml", 5, [f"none.yml: {NONE}", GOOD]),
    ("none.yml bad.yml", 1, [f"none.yml: {NONE}", BAD]),
    ("none.yml tab.yml", 64, [f"none.yml: {NONE}"]),
    ("bad.yml tab.yml", 64, [BAD]),
    ("none.yml --strict", 1, ["none.yml: refused by --strict, 0 of 3 tasks judged"]),
    ("some.yml --min-judged 50", 5, [f"some.yml: {FEW}"]),
    ("some.yml --min-judged 26", 5, [f"some.yml: {SOME}: fewer than 26 % (--min-judged)"]),
    ("some.yml --min-judged 25", 0, [f"some.yml: {SOME}"]),
    ("none.yml --min-judged 0", 5, [f"none.yml: {NONE}"]),
    ("none.yml --min-judged 50", 5, [f"none.yml: {NONE}"]),
    ("good.yml bare.yml --min-judged 100", 0, [GOOD, BARE]),
    ("bad.yml some.yml --min-judged 50", 1, [BAD, f"some.yml: {FEW}"]),
    ("some.yml --min-judged 50 --strict", 1, ["some.yml: refused by --strict, 1 of 4 tasks judged"]),
    *((f"some.yml --min-judged {wrong}", 64, []) for wrong in ("101", "-1", "50%", "0.5", "1000", "x", "\u00b2")),
]
WHY = "the key '{}' stands here twice, first on line {}"
# Files of a folder that can't be read and are told: where, and why.
TOLD: Dict[str, Tuple[Union[str, bytes], str, str]] = {
    "tab.yml": (BOOKS["tab.yml"], "2:1", "this is no YAML: "),
    "twice.yml": ("- hosts: all\n  hosts: web\n", "2:3", WHY.format("hosts", 1)),
    "latin.yml": (b"- hosts: all\n  name: \xe9\n", "2:9", "byte 21 isn't UTF-8"),
    "wide.yaml": ("- hosts: all\n".encode("utf-16"), "1:1", "byte 0 isn't UTF-8"),
    "sub/flow.json": ('[{"hosts": "all", "hosts": "web"}]', "1:19", WHY.format("hosts", 1)),
    "imports.yml": ("- import_playbook: a.yml\n  import_playbook: b.yml\n", "2:3", WHY.format("import_playbook", 1)),
    "late.yml": ("# words\n---\n\n- name: x\n  hosts: all\n  name: y\n", "6:3", WHY.format("name", 4)),
    "site.yml": ("a: b\na: c\n", "2:1", WHY.format("a", 1)),
    "playbooks/any.yml": ("a: b\na: c\n", "2:1", WHY.format("a", 1)),
}
# Those that are no playbooks, and files and folders that are no part of it.
PASSED_OVER: Files = {
    "inventory.yml": "all:\n  hosts:\n    h1:\n  hosts:\n", "tasks.yml": "- ping:\n  ping:\n", "text.yml": "{{ a }}: {{\n",
    "dashes.yml": "---\nweb: {hosts: [}\n", "names.yml": "names:\n- hosts: x\n- [\n", "note.txt": "- hosts: [\n",
    ".hidden/site.yml": "a: b\na: c\n",
}


def checked(files: Files, *words: str) -> "subprocess.CompletedProcess[str]":
    with tempfile.TemporaryDirectory() as folder:
        Path(folder, "empty").mkdir()
        for name, text in files.items():
            path = Path(folder, name)
            path.parent.mkdir(parents=True, exist_ok=True)
            path.write_bytes(text.encode() if isinstance(text, str) else text)
        return run_tool(["check", *words, "-i", "h1,"], folder)


def wrong_statuses() -> Iterator[str]:
    """The word and the status of a book of which nothing or too little is judged, alone and beside others."""
    for words, status, wanted in STATUSES:
        done = checked(BOOKS, *words.split())
        verdicts = [line for line in done.stdout.splitlines() if " tasks judged" in line]
        if (done.returncode, verdicts) != (status, wanted) or (status == 64) != bool(done.stderr):
            yield f"{words}: wanted {status}, {wanted}, found {done}"


def wrong_folders() -> Iterator[str]:
    """A file of a folder that can't be read is told where it is named like a playbook or has the letters of one."""
    unread: Files = {f"all/{name}": text for name, (text, _, _) in TOLD.items()}
    done = checked({**unread, **{f"all/{name}": text for name, text in PASSED_OVER.items()}}, "all")
    said = [line for line in done.stdout.splitlines() if " unread " in line]
    heads = {f"all/{name}:{place}: unread a file that can't be read: {why}" for name, (_, place, why) in TOLD.items()}
    verdicts = {f"all/{name}: can't be read" for name in TOLD}
    if len(said) != len(heads) or not all(any(line.startswith(head) for line in said) for head in heads):
        yield f"a folder: wanted {heads}, found {done}"
    if done.returncode != 64 or done.stderr or not verdicts <= {*done.stdout.splitlines()}:
        yield f"a folder: {done}"
    for names, status in ((("good",), 64), (("none",), 64), (("bad",), 1), (("bad", "none"), 1)):
        done = checked({f"all/{name}.yml": BOOKS[f"{name}.yml"] for name in (*names, "tab")}, "all")
        if done.returncode != status or done.stderr or done.stdout.count(" tasks judged") != len(names):
            yield f"a folder with {names}: {done}"


def wrong_bare_folders() -> Iterator[str]:
    """A folder without a playbook is told, and what is named beside it is judged; one that can't be listed is a finding."""
    told = "playcheck-ansible: empty: no playbook is in this folder\n"
    for words, said in ((["empty"], ""), (["empty", "good.yml"], f"{GOOD}\n"), (["empty", "none.yml", "--format", "gitlab"], None)):
        done = checked(BOOKS, *words)
        if (done.returncode, done.stderr) != (64, told) or done.stdout != (done.stdout if said is None else said):
            yield f"{words}: {done}"
    from playcheck_ansible.folders import named_books

    with patch.object(os, "scandir", side_effect=PermissionError(13, "Permission denied", "shut")):
        named = named_books([str(TOP)])
    found = [(one.book, one.status, str(one.findings[0].place), one.findings[0].detail) for one in named.unread]
    if found != [("shut", 64, "shut", "Permission denied")] or named.books or named.bare:
        yield f"a folder that can't be listed: {named}"


def wrong_names() -> Iterator[str]:
    """The hook of pre-commit takes the files that are named like a playbook."""
    import yaml

    from playcheck_ansible.folders import BOOK_NAME

    for hook in yaml.safe_load((TOP / ".pre-commit-hooks.yaml").read_text(encoding="utf-8")):
        if hook["files"] != BOOK_NAME.pattern:
            yield f".pre-commit-hooks.yaml: {hook['files']}, folders.py: {BOOK_NAME.pattern}"


# What each format says of three books beside the tasks that aren't judged.
def said_json(text: str) -> object:
    return [(one["verdict"], one["status"], one["budget"], len(one["findings"])) for one in json.loads(text)["books"]]


def said_sarif(text: str) -> object:
    run = json.loads(text)["runs"][0]
    rules = [rule["id"] for rule in run["tool"]["driver"]["rules"]]
    return [rules, *((one["ruleId"], one["level"], one["message"]["text"],
                      one["locations"][0]["physicalLocation"]["artifactLocation"]["uri"])
                     for one in run["results"] if one["ruleId"] != "not-judged")]


def said_github(text: str) -> object:
    return [line for line in text.splitlines() if not line.startswith("::notice ")]


def said_gitlab(text: str) -> object:
    return [(one["check_name"], one["severity"], one["description"], one["location"]["path"])
            for one in json.loads(text) if one["check_name"] != "not-judged"]


def said_junit(text: str) -> object:
    return [(suite.get("name"), suite.get("failures"), [case[0].get("message") for case in suite.iter("testcase")
             if len(case) and case[0].tag == "failure"], sum(not len(case) for case in suite.iter("testcase")))
            for suite in xml.fromstring(text.partition("\n")[2])]


TAB = "a file that can't be read: " + WHY.format("hosts", 1)
SAID = {
    "json": (said_json, [("not judged", 5, None, 0), ("accepted", 5, None, 0), ("unread", 64, None, 1)]),
    "sarif": (said_sarif, [["unread", "not-judged", "too-few-judged"], ("too-few-judged", "error", NONE, "none.yml"),
                           ("too-few-judged", "error", FEW, "some.yml"), ("unread", "error", TAB, "all/twice.yml")]),
    "github": (said_github, [f"::error file=none.yml,title=too few judged::{NONE}", f"none.yml: {NONE}",
                             f"::error file=some.yml,title=too few judged::{FEW.replace('%', '%25')}", f"some.yml: {FEW}",
                             f"::error file=all/twice.yml,line=2,col=3,title=unread::{TAB}",
                             "all/twice.yml: can't be read"]),
    "gitlab": (said_gitlab, [("too-few-judged", "major", NONE, "none.yml"), ("too-few-judged", "major", FEW, "some.yml"),
                             ("unread", "critical", TAB, "all/twice.yml")]),
    "junit": (said_junit, [("none.yml", "1", [NONE], 0), ("some.yml", "1", [FEW], 0),
                           ("all/twice.yml", "1", [f"unread {TAB}"], 0)]),
}


def wrong_gate_formats() -> Iterator[str]:
    """In each format too few judged tasks and a file that can't be read are faults, and no book of them is accepted."""
    files: Files = {**BOOKS, "all/twice.yml": TOLD["twice.yml"][0]}
    for kind, (said, wanted) in SAID.items():
        done = checked(files, "none.yml", "some.yml", "all", "--min-judged", "50", "--format", kind)
        if (done.returncode, said(done.stdout), done.stderr) != (64, wanted, ""):
            yield f"{kind}: wanted {wanted}, found {said(done.stdout)}, {done}"
        done = checked(files, "good.yml", "--min-judged", "50", "--format", kind)
        if done.returncode or "few" in done.stdout or done.stderr:
            yield f"{kind}: {done}"


GATES = (wrong_statuses, wrong_folders, wrong_bare_folders, wrong_names, wrong_gate_formats)
