# SPDX-License-Identifier: MIT OR Apache-2.0
# Names of files, tasks, hosts and groups that would forge lines, move a cursor or give commands, in each format.
import json
import re
import subprocess
import tempfile
import xml.etree.ElementTree as xml
from pathlib import Path
from typing import Dict, Iterator, List, Tuple

from ansible_tools import TOOL, WAITED, run_tool
from stranger_ways import HOSTS

# As YAML writes it, as it is, and as it is printed.
TASK = ("\\e]0;title\\a\\e[31mred\\e[2J\\x9b31m\\rsite.yml: accepted, 9 of 9 tasks judged\\u202etrojan\\u2028x"
        "\\n::error file=x::injected\\n::add-mask::x\\n##[command]x %0A::stop-commands::t")
PRINTED = ("\\x1b]0;title\\x07\\x1b[31mred\\x1b[2J\\x9b31m\\rsite.yml: accepted, 9 of 9 tasks judged\\u202etrojan"
           "\\u2028x\\n::error file=x::injected\\n::add-mask::x\\n#\\x23[command]x %0A::stop-commands::t")
FILE = "a\n::error::x\x1b[31m\u202e,b:c%0Ad.yml"
FILE_PRINTED = "a\\n::error::x\\x1b[31m\\u202e,b:c%0Ad.yml"
PLAY = "- hosts: all\n  gather_facts: false\n  tasks:\n"
BOOK = (f'{PLAY}    - name: "{TASK}"\n      debug: {{msg: "{{{{ nope }}}}"}}\n'
        f'    - {{name: "{TASK}", no_such_module: }}\n')
REASON = "a variable that is perhaps undefined: 'nope' is set nowhere: not in this book, not in the inventory"
UNKNOWN = "the module `no_such_module` is neither built in nor declared: ansible-doc isn't installed"
FORMATS = ("text", "github", "gitlab", "junit", "sarif", "json")
# What may stand in no line but by the program itself.
RAW = re.compile("[\x00-\x08\x0b-\x1f\x7f-\x9f\u061c\u200e\u200f\u2028-\u202e\u2066-\u2069]")
OWN_COMMAND = re.compile(r"::(?:error|notice) file=[^:,]*,(?:line=\d+,col=\d+,)?title=[\w ]+::")


def checked(files: Dict[str, str], *words: str) -> "subprocess.CompletedProcess[str]":
    with tempfile.TemporaryDirectory() as folder:
        for name, text in {**HOSTS, **files}.items():
            path = Path(folder, name)
            path.parent.mkdir(exist_ok=True, parents=True)
            path.write_text(text, encoding="utf-8")
        return run_tool(["check", "--all", *words], folder)


def forged(done: "subprocess.CompletedProcess[str]") -> Iterator[str]:
    """What a terminal or a runner would take for something else in what is printed."""
    for line in [*done.stdout.split("\n"), *done.stderr.split("\n")]:
        if RAW.search(line) or "##[" in line or line.lstrip().startswith("::") and not OWN_COMMAND.match(line):
            yield repr(line)
    yield from (repr(line) for line in done.stderr.split("\n")[:-1] if not line.startswith("playcheck-ansible: "))


def wrong_tasks() -> Iterator[str]:
    """The names of two tasks, in each format."""
    for kind in FORMATS:
        done = checked({"site.yml": BOOK}, "site.yml", "-i", "hosts.yml", "--format", kind)
        texts = [f"task '{PRINTED}', host web1: {REASON}", f"task '{PRINTED}': {UNKNOWN}"]
        found = texts_in(done.stdout, kind)
        lost = [text for text in wanted_texts(kind, texts) if not any(text in one for one in found)]
        if lost or list(forged(done)):
            yield f"{kind}: lost {lost}, forged {list(forged(done))}, {done}"


def wanted_texts(kind: str, texts: List[str]) -> List[str]:
    if kind == "github":
        return [f"::error file=site.yml,line=5,col=20,title=V01::{texts[0]}".replace("%", "%25"), f"::{UNKNOWN}"]
    if kind == "sarif":
        return [texts[0], UNKNOWN]
    return [REASON, UNKNOWN] if kind == "json" else texts


def texts_in(said: str, kind: str) -> List[str]:
    """The texts of a report, as who reads its format gets them."""
    if kind == "gitlab":
        return [issue["description"] for issue in json.loads(said)]
    if kind == "sarif":
        return [result["message"]["text"] for result in json.loads(said)["runs"][0]["results"]]
    if kind == "junit":
        return [case.get("name", "") for case in xml.fromstring(said).iter("testcase")]
    if kind == "json":
        book, = json.loads(said)["books"]
        return [*(one["title"] + ": " + one["detail"] for one in book["findings"]),
                *(one["reason"] for one in book["not_judged"])]
    return said.split("\n")


def other_names() -> Iterator[Tuple[str, Dict[str, str], List[str], str]]:
    """Further names, the words of the check, and what is printed."""
    good, hosts = PLAY + "    - ping:\n", ["-i", "hosts.yml"]
    yield "a file", {FILE: BOOK}, [FILE, *hosts], f"{FILE_PRINTED}: refused, 1 finding, 1 of 2 tasks judged"
    yield "a folder", {f"p/{FILE}": good}, ["p", *hosts], f"p/{FILE_PRINTED}: accepted, 1 of 1 tasks judged"
    yield "a command", {"::error::x.yml": good}, ["::error::x.yml", *hosts], "\\x3a:error::x.yml: accepted, 1 of 1"
    yield "an older command", {"##[group]x.yml": good}, ["##[group]x.yml", *hosts], "#\\x23[group]x.yml: accepted"
    yield "no file", {}, ["no\n::error::x\x1b[31m", *hosts], "playcheck-ansible: no\\n::error::x\\x1b[31m: No such file"
    yield "bytes that are no letters", {}, ["no\udcff", *hosts], "playcheck-ansible: no\\udcff: No such file"
    yield "an import", {"site.yml": PLAY + '    - import_tasks: "a\\n::error::x\\e[31m.yml"\n'}, ["site.yml", *hosts], \
        "playcheck-ansible: site.yml:4:21: a\\n::error::x\\x1b[31m.yml isn't there"
    yield "hosts", {"site.yml": '- hosts: "w\\n::error::x\\e[31m"\n  tasks: [{ping: }]\n'}, ["site.yml", *hosts], \
        "play 'w\\n::error::x\\x1b[31m'"
    yield "a module", {"site.yml": PLAY + '    - {"x\\n::error::x": }\n'}, ["site.yml", *hosts], "`x\\n::error::x` is"
    yield "an inventory", {"site.yml": good, "i.yml": 'all: {hosts: {"w[\\n::error::x\\e[31m": }}\n'}, \
        ["site.yml", "-i", "i.yml"], "the range of w[\\n::error::x\\x1b[31m can't be read"
    yield "a group", {"site.yml": good, "i.ini": "[\x1b[31m:x]\n"}, ["site.yml", "-i", "i.ini"], \
        "the section [\\x1b[31m:x] has an unknown kind"
    yield "a word", {}, ["--format", "x\n::error::y\x1b[31m", "site.yml"], "playcheck-ansible: argument --format: "
    yield "a line that is shown", {"site.yml": PLAY + '    - debug: {msg: "\u202e\u200f ##[x]{{ nope }}"}\n'}, \
        ["site.yml", *hosts], '    4 |     - debug: {msg: "\\u202e\\u200f #\\x23[x]{{ nope }}"}'


def wrong_names() -> Iterator[str]:
    for name, files, words, told in other_names():
        for kind in ("text", "github"):
            done = checked(files, *words, *(["--format", kind] if "--format" not in words else []))
            is_shown = kind == "text" or name != "a line that is shown"
            if is_shown and told not in done.stdout + done.stderr or list(forged(done)):
                yield f"{name}, {kind}: wanted {told!r}, forged {list(forged(done))}, found {done}"


def wrong_locale() -> Iterator[str]:
    """Where the caller's letters are ASCII alone, others are written by their numbers."""
    with tempfile.TemporaryDirectory() as folder:
        Path(folder, "hosts.yml").write_text(HOSTS["hosts.yml"])
        book = PLAY + '    - {name: "gr\u00f6\u00dfe", debug: {msg: "{{ nope }}"}}\n'
        Path(folder, "site.yml").write_text(book, encoding="utf-8")
        done = subprocess.run(["env", "PYTHONIOENCODING=ascii", TOOL, "check", "site.yml", "-i", "hosts.yml"],
                              cwd=folder, capture_output=True, check=False, timeout=WAITED)
        if b"task 'gr\\xf6\\xdfe'" not in done.stdout or done.returncode != 1:
            yield f"letters: {done}"
