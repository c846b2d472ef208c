# SPDX-License-Identifier: MIT OR Apache-2.0
# Random words, names and operations: a task with one of them that is accepted fails in no run of real Ansible.
from __future__ import annotations

import json
import random
import subprocess
import sys
from pathlib import Path
from typing import Any, Dict, Iterator, List, Tuple

Json = Dict[str, Any]
HERE = Path(__file__).resolve().parent
IN_ANSIBLE = HERE.parent / "in_ansible"
# Names of each kind that the inventory gives, and one that a host alone has.
HOSTS: Json = {"all": {"hosts": {
    "h1": {"port": 80, "mode": "fast", "enabled": True, "answer": "yes", "seconds": "30", "flags": ["a"],
           "conf": {"a": 1}, "only": 1, "word": "true"},
    "h2": {"port": 81, "mode": "slow", "enabled": False, "answer": "no", "seconds": "4", "flags": [], "conf": {"a": 2},
           "word": "x"}}}}
VALUES = ("port", "mode", "enabled", "answer", "seconds", "flags", "conf", "conf.a", "only", "word", "r.stdout", "r.rc",
          "r.changed", "mode | bool", "seconds | int", "port | string", "port == 80", "only | default(1)", "nothing",
          "only | default(omit)", "r.stdout_lines", "ansible_host", "ansible_connection", "inventory_hostname", "item")
# Keywords of tasks as Ansible's documentation lists them, but for those whose value the scripted modules can't take.
WORDS = ("any_errors_fatal", "become", "become_exe", "become_flags", "become_method", "become_user", "changed_when",
         "check_mode", "collections", "debugger", "delay", "delegate_facts", "delegate_to", "diff", "environment",
         "failed_when", "ignore_errors",
         "ignore_unreachable", "no_log", "port", "remote_user", "retries", "run_once", "tags", "throttle", "timeout",
         "until", "when")
WORDS_OF_BLOCKS = ("become", "throttle", "timeout", "port", "delegate_to")
LITERALS = ("5", "soon", "yes", "no", 7, True, 0, "1", "", "inf", ["a"], {"a": "b"})
CONDITIONS = (None, None, None, "only is defined", False, "enabled", "mode == 'fast'")
OPERATIONS = ("{} | int", "{} | float | int", "{} | int + 1", "({} | int) > 3", "{} | bool", "{} | length",
              "{} | lower", "{}.split('')[0]", "{}.split(',')[0]", "{} | regex_replace('a', '\\\\1')",
              "{} | regex_replace('(a)', '\\\\1')", "{} is version('1', 'foo')", "{}.upper()", "{} | default('', true)",
              "{} ~ 'x'", "'a' in {}", "{} + 1", "{} | replace('a', 'b')", "{} | basename", "{} | ternary('a', 'b')",
              "{} > 3", "{} | join(',')", "{} | trim")


def installed(python: str) -> "Dict[str, List[str]]":
    """The names that Ansible's own Python tells."""
    command = [python, str(IN_ANSIBLE / "installed_names.py")]
    done = subprocess.run(command, capture_output=True, text=True, check=True, cwd="/")
    found: "Dict[str, List[str]]" = json.loads(done.stdout)
    return found


def lost_names(names: "Dict[str, List[str]]") -> Iterator[str]:
    """Names of the installed Ansible that the front end's lists lack."""
    sys.path.insert(0, str(HERE.parent.parent / "ansible"))
    from playcheck_ansible import names as profile
    from playcheck_ansible import modules, reserved_names, roles

    lists = {"globals": reserved_names.GLOBALS, "set_over": reserved_names.SET_OVER | profile.KNOWN,
             "keywords": reserved_names.KEYWORDS, "beside_roles": roles.ROLE_WORDS,
             "modules": {*modules.CORE, *modules.PROFILE, *modules.INCLUDES, "meta"}}
    for what, known in lists.items():
        lost = sorted(set(names[what]) - set(known))
        if lost:
            yield f"{what}: the front end's list lacks {' '.join(lost)}"


class Words:
    """Makes books of a call and one task that a word, a name or an operation may make fail."""

    def __init__(self, names: "Dict[str, List[str]]") -> None:
        self.names = names

    def book(self, seed: int) -> Json:
        source = random.Random(seed)
        call: Json = {"name": "T1", "command": "x", "register": "r"}
        make = source.choice([self.word, self.word, self.word, self.name, self.operation, self.message])
        steps, head = make(source)
        steps = [{"name": f"T{number + 2}", **step} for number, step in enumerate(steps)]
        return {"book.yml": [{"hosts": "all", "gather_facts": False, **head, "tasks": [call, *steps]}]}

    def given(self, source: random.Random) -> object:
        value = source.choice(VALUES)
        return source.choice([f"{{{{ {value} }}}}"] * 6 + [f"3{{{{ {value} }}}}", source.choice(LITERALS)])

    def word(self, source: random.Random) -> "Tuple[List[Json], Json]":
        word, value = source.choice(WORDS), self.given(source)
        task: Json = {"ping": None, word: value}
        condition = source.choice(CONDITIONS)
        if condition is not None and word != "when":
            task["when"] = condition
        if source.random() < 0.3 or "item" in str(value):
            task["loop"] = source.choice([["a", "b"], [1], f"{{{{ [{source.choice(VALUES[:-1])}] }}}}"])
            if source.random() < 0.3:
                task.update(loop=["one item, so that nothing is waited for"], loop_control={"pause": value})
        if word in ("until", "delay", "retries") or source.random() < 0.1:
            task.setdefault("register", "q")
            task.setdefault("until", "q is defined")
        where = source.random()
        if where < 0.15 and "item" not in str(value) and word in WORDS_OF_BLOCKS:
            inner = {key: part for key, part in task.items() if key != word}
            return [{"block": [{"name": "T9", **inner}], word: value}], {}
        return [task], {}

    def name(self, source: random.Random) -> "Tuple[List[Json], Json]":
        name = source.choice(self.names["globals"] + self.names["set_over"] + self.names["keywords"] + ["ansible_port"])
        value = source.choice(["prod", ["a"], 5, "{{ mode }}"])
        form = source.choice(["x {{ # }}", "{{ # | length }}", "{{ #.upper() }}", "{{ # + 1 }}"]).replace("#", name)
        read: Json = {"debug": {"msg": form}, **source.choice([{}, {"when": f"{name} is defined"}])}
        way = source.randrange(4)
        if way == 0:
            return [read], {"vars": {name: value}}
        if way == 1:
            return [{**read, "vars": {name: value}}], {}
        if way == 2:
            return [{"command": "x", "register": name, "when": source.choice(["enabled", True])}, read], {}
        return [{"set_fact": {name: value}, "when": source.choice(["mode == 'fast'", True])}, read], {}

    def operation(self, source: random.Random) -> "Tuple[List[Json], Json]":
        value = source.choice(VALUES[:-1])
        text = source.choice(OPERATIONS).replace("{}", value if "|" not in value and "=" not in value else f"({value})")
        if source.random() < 0.4:
            return [{"ping": None, "when": text}], {}
        return [{"debug": {"msg": f"x {{{{ {text} }}}}"}}], {}

    def message(self, source: random.Random) -> "Tuple[List[Json], Json]":
        word = source.choice(["fail_msg", "success_msg", "msg", "verbosity"])
        if word == "verbosity":
            return [{"debug": {"msg": "x", word: self.given(source)}}], {}
        return [{"assert": {"that": "port > 0", word: source.choice([self.given(source), [self.given(source)]])}}], {}
