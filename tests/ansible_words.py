# SPDX-License-Identifier: MIT OR Apache-2.0
# Tries that templates in each word of a task and in each parameter are asked: by a name that nothing sets.
import json
import tempfile
from pathlib import Path
from typing import Any, Dict, Iterator, List

from ansible_tools import run_tool

Json = Dict[str, Any]
GONE = "{{ gone }}"
UNSET = "V01"
MOST = 40  # tasks of a book; of one no more than 50 refusals are told
# The keywords of a task as Ansible's documentation lists them, but for those that no run evaluates where nothing reads
# them, and those that name the module itself: which are asked, and why a task with another isn't judged.
ASKED_WORDS = """async become become_exe become_flags become_method become_user changed_when check_mode collections
connection delay delegate_to diff environment failed_when ignore_errors loop no_log poll port remote_user retries
throttle timeout until when with_items with_list""".split()
LEFT_WORDS = {
    "any_errors_fatal": "`any_errors_fatal` changes the flow", "args": "`args` that is no mapping",
    "debugger": "`debugger` is a template", "delegate_facts": "`delegate_facts` changes the flow",
    "ignore_unreachable": "`ignore_unreachable` changes the flow",
    "loop_control": "`loop_control` with more than `label`, `loop_var` and `pause`",
    "module_defaults": "`module_defaults` changes the flow",
    "notify": "a value that hasn't the form which the profile wants",
    "run_once": "`run_once` changes the flow", "tags": "its tags read what a host has", "with_dict": "`with_dict`",
}
# The parameters of the modules as Ansible's documentation lists them, with their other names.
FILES = "attr attributes group mode owner selevel serole setype seuser unsafe_writes"
PROGRAM = "chdir cmd creates executable removes stdin stdin_add_newline strip_empty_ends warn"
PARAMETERS = {
    "assert": "fail_msg msg quiet success_msg", "command": PROGRAM + " expand_argument_vars",
    "copy": FILES + " backup checksum content decrypt dest directory_mode follow force local_follow remote_src src"
                    " validate",
    "debug": "msg verbosity", "fail": "msg",
    "file": FILES + " access_time access_time_format dest follow force modification_time modification_time_format name"
                    " path recurse src state",
    "ping": "data", "service": "args arguments enabled name pattern runlevel sleep state use", "setup": "gather_subset",
    "shell": PROGRAM,
    "stat": "attr attributes checksum checksum_algo checksum_algorithm dest follow get_attributes get_checksum get_md5"
            " get_mime mime mime-type mime_type name path",
}
LEFT_PARAMETERS = {
    "assert that": "an expression that the profile lacks",
    **{f"setup {name}": f"the parameter `{name}` of setup decides what it gives"
       for name in ("fact_path", "filter", "gather_timeout")},
}
# What a module has to be given, so that the parameter that is tried is the only fault of the task.
NEEDED = {"command": {"cmd": "x"}, "shell": {"cmd": "x"}, "stat": {"path": "/a"},
          "copy": {"dest": "/a", "content": "x"}, "file": {"path": "/a"}, "service": {"name": "a"},
          "debug": {"msg": "x"}, "assert": {"that": "1 == 1"}, "fail": {"msg": "x"}}
# Other names of parameters that have to be there.
INSTEAD = {"file": ("dest", "name"), "stat": ("dest", "name")}


def wanted_words() -> "Dict[str, str]":
    return {**dict.fromkeys(ASKED_WORDS, UNSET), **LEFT_WORDS}


def wanted_parameters() -> "Dict[str, str]":
    asked = {f"{module} {name}": UNSET for module, names in PARAMETERS.items() for name in names.split()}
    return {**asked, **LEFT_PARAMETERS}


def task_of_word(word: str) -> Json:
    return {"name": word, "command": "x", word: GONE}


def task_of_parameter(both: str) -> Json:
    module, name = both.split()
    needed = {} if name in INSTEAD.get(module, ()) else NEEDED.get(module, {})
    return {"name": both, module: {**needed, name: GONE}}


def told(tasks: List[Json]) -> "tuple[Dict[str, str], str]":
    """What is said of each task by its name: the code of its refusal, or why it isn't judged."""
    with tempfile.TemporaryDirectory() as folder:
        book = [{"hosts": "all", "gather_facts": False, "tasks": tasks}]
        Path(folder, "book.yml").write_text(json.dumps(book), encoding="utf-8")
        Path(folder, "hosts.yml").write_text("all: {hosts: {h1: }}\n", encoding="utf-8")
        done = run_tool(["check", "--all", "--format", "json", "book.yml", "-i", "hosts.yml"], folder)
    report, = json.loads(done.stdout)["books"]
    return {**{one["name"]: one["reason"] for one in report["not_judged"]},
            **{one["name"]: one["code"] for one in report["findings"]}}, done.stderr


def parts_of(tasks: List[Json]) -> Iterator[List[Json]]:
    """Books of fewer tasks than refusals are told of one."""
    for start in range(0, len(tasks), MOST):
        yield tasks[start:start + MOST]


def wrong_words() -> Iterator[str]:
    """Each of these tasks is refused for the name, or told as not judged for its own reason."""
    for wanted, make in ((wanted_words(), task_of_word), (wanted_parameters(), task_of_parameter)):
        found: "Dict[str, str]" = {}
        for part in parts_of([make(name) for name in wanted]):
            more, errors = told(part)
            found.update(more)
            if errors:
                yield f"words: {errors}"
        for name, what in wanted.items():
            if found.get(name) != what:
                yield f"words: {name}: wanted {what}, found {found.get(name)}"
