# SPDX-License-Identifier: MIT OR Apache-2.0
# Small books with what is said of each: rules that a change of one word of the front end would break unseen.
import json
import re
import tempfile
from dataclasses import dataclass, field
from pathlib import Path
from typing import Dict, List, Tuple

from ansible_tools import run_tool

HOSTS = """all: {hosts: {h1: {port: 80, flag: true, part: 0.5}, h2: {port: 81, flag: false, part: 0.5}}}
web: {hosts: {h1: }}
"""
PLAY = "- hosts: all\n  gather_facts: {}\n"
SIGNATURES = """[{"name": "own", "params": {"level": {"kind": "int", "required": false}},
"ok": {"changed": {"kind": "bool", "always": true}},
"failure": {"changed": {"kind": "bool", "always": true}, "msg": {"kind": "text", "always": true}}}]"""
PLACE = re.compile(r"^(\S+?):(\d+):\d+: ")


@dataclass
class Row:
    """A book's play, the words of the command, and the lines that are said, without columns and excerpts."""

    title: str
    tasks: str
    wanted: List[str]
    words: Tuple[str, ...] = ()
    head: str = ""
    files: Dict[str, str] = field(default_factory=dict)
    gathers: object = False  # as it is written


def tasks(*lines: str) -> str:
    return "  tasks:\n" + "".join(f"  - {line}\n" for line in lines)


def said(row: Row) -> List[str]:
    """The lines: `LINE: what` of the book, `FILE:LINE: what` of another file, and the verdict."""
    with tempfile.TemporaryDirectory() as folder:
        files = {"hosts.yml": HOSTS, "own.json": SIGNATURES, **row.files, 
                 "book.yml": PLAY.format(str(row.gathers).lower()) + row.head + row.tasks}
        for name, text in files.items():
            Path(folder, name).parent.mkdir(parents=True, exist_ok=True)
            Path(folder, name).write_text(text, encoding="utf-8")
        done = run_tool(["check", "book.yml", "-i", "hosts.yml", *row.words], folder)
    lines = [line for line in done.stdout.splitlines() if not line.startswith("  ")]
    lines = [PLACE.sub(r"\1:\2: ", line).replace("book.yml:", "", 1).strip() for line in lines]
    return [*lines, *(f"! {line}" for line in done.stderr.splitlines())]


HANDLER_OF_ROLE = {"roles/r/tasks/main.yml": "- ping:\n", "roles/r/handlers/main.yml": "- {name: RH, ping: }\n"}
NOT_JUDGED = "not judged: task '{}': {}"
UNSET = ("V01 task '{}', host h1: a variable that is perhaps undefined: '{}' is set nowhere: not in this book, not in "
         "the inventory")
UNKNOWN = "the module `{}` is neither built in nor declared: ansible-doc isn't installed"


def left(line: int, name: str, why: str) -> str:
    return f"{line}: " + NOT_JUDGED.format(name, why)


def unset(line: int, name: str, variable: str) -> str:
    return f"{line}: " + UNSET.format(name, variable)


def reads(name: str, line: int) -> str:
    return f"it reads '{name}': it is set on line {line}, which isn't judged"


WRONG_SIGNATURES = ["S02 the signatures have another form", "refused, 1 finding, 1 of 1 tasks judged"]


ROWS = [
    Row("an unknown module notifies a misspelt handler",
        tasks("{name: Install, apt: {name: nginx}, notify: Restart ngnix}")
        + "  handlers:\n  - {name: Restart nginx, ping: }\n",
        ["4: V05 task 'Install': a text that notifies nothing: no handler of the name 'Restart ngnix'. Did you mean "
         "'Restart nginx' (line 6)?", "refused, 1 finding, 1 of 2 tasks judged"], ("--all",)),
    Row("an include in a loop notifies for its tasks", tasks("{name: Many, include_tasks: one.yml, loop: [1, 2]}"),
        ["4: V05 task 'Many': a text that notifies nothing", "refused, 1 finding, 0 of 1 tasks judged"], ("--all",),
        files={"one.yml": "- {ping: , notify: Gone}\n"}),
    Row("a handler with an unknown module listens to its topic",
        tasks("{name: Call, command: x, notify: topic}")
        + "  handlers:\n  - {name: Restart, systemd: {name: a}, listen: topic}\n",
        ["6: not judged: handler 'Restart': " + UNKNOWN.format("systemd"), "accepted, 1 of 2 tasks judged"]),
    Row("an unjudged task reads another's result", tasks("{name: First, apt: {name: a}, register: r}",
                                                        '{name: Second, apt: {name: "{{ r.x }}"}}'),
        [left(4, "First", UNKNOWN.format("apt")), left(5, "Second", UNKNOWN.format("apt")),
        "not judged, 0 of 2 tasks judged"]),
    Row("a text of an unknown module has a form that the profile lacks",
        tasks('{name: Odd, apt: {name: "{{ [1] | map }}"}}'),
        [left(4, "Odd", UNKNOWN.format("apt")), "not judged, 0 of 1 tasks judged"]),
    Row("a block's condition reads what an unjudged task gives",
        tasks("{name: First, apt: {name: a}, register: r}", "{when: r.x, block: [{name: Inner, ping: }]}"),
        [left(4, "First", UNKNOWN.format("apt")), left(5, "Inner", "its block's condition reads 'r'"),
        "not judged, 0 of 2 tasks judged"]),
    Row("a template of nothing for a declared parameter", tasks('{name: Own, own: {level: "{{ gone }}"}}'),
        [unset(4, "Own", "gone"), "refused, 1 finding, 1 of 1 tasks judged"], ("-s", "own.json")),
    Row("a loop variable of its own, and a word that is passed over",
        tasks('{name: Named, ping: , loop: [1], loop_control: {loop_var: one}, become_user: "{{ gone }}"}'),
        [unset(4, "Named", "gone"), "refused, 1 finding, 1 of 1 tasks judged"]),
    Row("a template among the items of with_items", tasks('{name: Flat, ping: , with_items: ["{{ [1] }}", 2]}'),
        [left(4, "Flat", "`with_items` with a list in a template beside others"), "not judged, 0 of 1 tasks judged"]),
    Row("a loop over nothing", tasks("{name: None, ping: , loop: }"),
        ["accepted, 1 of 1 tasks judged, at most 2 module calls"]),
    Row("run_once in a loop with a register", tasks("{name: Once, ping: , loop: [1], run_once: true, register: r}"),
        [left(4, "Once", "`run_once` changes the flow"), "not judged, 0 of 1 tasks judged"]),
    Row("two retries on two hosts", tasks("{name: Twice, ping: , register: r, until: r is succeeded, retries: 2}"),
        ["accepted, 1 of 1 tasks judged, at most 6 module calls"]),
    Row("-e wins over a block and a task",
        tasks("{vars: {y: a}, block: [{name: Inner, ping: , when: y > 3, vars: {y: b}}]}"),
        ["accepted, 1 of 1 tasks judged, at most 2 module calls"], ("-e", "{\"y\": 5}")),
    Row("--skip-tags always leaves the facts out", tasks("{name: Read, debug: {msg: '{{ ansible_hostname }}'}}"),
        ["4: V01 task 'Read', host h1: a variable that is perhaps undefined",
        "refused, 1 finding, 1 of 1 tasks judged"],
        ("--skip-tags", "always"), gathers=True),
    Row("--skip-tags tagged", tasks("{command: x, register: r, tags: a}", "{name: Read, debug: {msg: '{{ r.rc }}'}}"),
        [unset(5, "Read", "r"), "refused, 1 finding, 1 of 1 tasks judged, 1 left out by tags"], ("--skip-tags",
        "tagged")),
    Row("--tags untagged", tasks("{command: x, register: r, tags: a}", "{name: Read, debug: {msg: '{{ r.rc }}'}}"),
        [unset(5, "Read", "r"), "refused, 1 finding, 1 of 1 tasks judged, 1 left out by tags"], ("--tags", "untagged")),
    Row("words of a play that are false", tasks("{name: Kept, ping: }"),
        ["accepted, 1 of 1 tasks judged, at most 2 module calls"],
        (), "  run_once: false\n  any_errors_fatal: false\n  ignore_unreachable: false\n  check_mode: false\n"),
    Row("a word of a block that changes the flow", tasks("{ignore_unreachable: true, block: [{name: Inner, ping: }]}"),
        [left(4, "Inner", "`ignore_unreachable` of its block changes the flow"), "not judged, 0 of 1 tasks judged"]),
    Row("a word that reads a decimal number", tasks("{name: Who, ping: , remote_user: '{{ part }}'}"),
        [left(4, "Who", "it reads 'part': the inventory's 'part' holds a template or a decimal number"),
        "not judged, 0 of 1 tasks judged"]),
    Row("bool of a name that a block gives as a text",
        tasks("{vars: {v: 'no'}, block: [{name: Inner, ping: , when: v | bool}]}",
            "{name: Outer, ping: , when: v | bool}"),
        ["accepted, 2 of 2 tasks judged, at most 4 module calls"], (), "  vars: {v: true}\n"),
    Row("set_fact of a text yes is a truth value, of on a text", tasks("set_fact: {a: 'yes', b: 'on', c: hello}",
              "{name: Truth, ping: , when: a}",
              "{name: Text, ping: , when: b == 'x' and b | length > 0}",
              "{name: Length, debug: {msg: '{{ a | length }}'}}"),
        ["7: V04 task 'Length', host h1: a value of the wrong kind", "refused, 1 finding, 4 of 4 tasks judged"]),
    Row("a template in a parameter of a handler", tasks("{name: Call, command: x, notify: H}") +
        "  handlers:\n  - {name: H, copy: {dest: /a, content: x, owner: '{{ port }}'}}\n",
        ["6: not judged: handler 'H': the parameter `owner` of a handler holds a template",
        "accepted, 1 of 2 tasks judged"]),
    Row("an unjudged task that is ignored, in a block whose rescue reads a register",
        tasks("{block: [{name: First, apt: {name: a}, ignore_errors: true}, {command: x, register: r}], "
              "rescue: [{name: Read, debug: {msg: '{{ r.rc }}'}}]}"),
        [left(4, "First", UNKNOWN.format("apt")), "accepted, 2 of 3 tasks judged"]),
    Row("ignore_errors without blanks", tasks("{name: Call, command: x, register: r, ignore_errors: '{{flag}}'}"),
        ["accepted, 1 of 1 tasks judged, at most 2 module calls"]),
    Row("ignore_errors of a name of the task",
        tasks("{name: Call, command: x, vars: {own: true}, ignore_errors: '{{ own }}'}"),
        ["accepted, 1 of 1 tasks judged, at most 2 module calls"]),
    Row("a role's variables are seen behind it",
        "  roles: [r]\n  post_tasks:\n  - {name: Read, debug: {msg: '{{ v }}'}}\n",
        ["accepted, 2 of 2 tasks judged, at most 2 module calls"], (), "",
        {"roles/r/tasks/main.yml": "- ping:\n", "roles/r/vars/main.yml": "v: a\n"}),
    Row("two roles that need each other", "  roles: [a]\n",
        ["roles/b/meta/main.yml:1: not judged: a role isn't put in place",
                                                           "accepted, 2 of 3 tasks judged"], (), "",
        {"roles/a/tasks/main.yml": "- ping:\n", "roles/a/meta/main.yml": "dependencies: [b]\n",
         "roles/b/tasks/main.yml": "- ping:\n", "roles/b/meta/main.yml": "dependencies: [a]\n"}),
    Row("an include with more in its text", tasks("{name: Inc, include_tasks: other.yml tags=x}"),
        [left(4, "Inc", "`include_tasks` with a name that is no literal text isn't put in place"),
        "not judged, 0 of 1 tasks judged"]),
    Row("fields of facts with --trust-facts",
        tasks("{name: Read, debug: {msg: '{{ ansible_env.HOME }} {{ ansible_env[\"HOME\"] }}'}}"),
        ["accepted, 1 of 1 tasks judged, at most 2 module calls"], ("--trust-facts",), gathers=True),
    Row("argv as a template", tasks("{name: Call, command: {argv: '{{ port }}'}}"),
        [left(4, "Call", "the parameter `argv` of command, which the profile lacks"), "not judged, 0 of 1 tasks judged"]),
    Row("handlers behind end_play", tasks("{command: x, notify: H}", "{name: End, meta: end_play}") +
        "  handlers:\n  - {name: H, ping: }\n", [left(5, "End", "`meta: end_play`"), "accepted, 2 of 3 tasks judged"]),
    Row("a task that is a number", tasks("5"), ["4: P02 task: no list of plays, or a play without `hosts`",
        "refused, 1 finding, 0 of 0 tasks judged"]),
    Row("a merge key and tags of scalars", tasks("&one {name: One, command: !!str 5, register: r}",
              "{<<: *one, name: Two, when: r.rc == 0}"),
        ["accepted, 2 of 2 tasks judged, at most 4 module calls"]),
    Row("a block with the name of a role's handler", "  roles: [r]\n  handlers:\n  - {name: H, block: [{ping: }]}\n",
        ["5: P03 block 'H': a keyword that the language lacks", "refused, 1 finding, 3 of 3 tasks judged"], (), "",
        {"roles/r/tasks/main.yml": "- {ping: , notify: H}\n", "roles/r/handlers/main.yml": "- {name: H, ping: }\n"}),
    *(Row(f"signatures with {what}", tasks("mine:"), WRONG_SIGNATURES, ("-s", "wrong.json", *words),
          files={"wrong.json": json.dumps([{"name": "mine", "params": {}, **further}])})
      for what, words, further in (
          ("documentation and no fields", ("--trust-returns",), {"ansible": {}}),
          ("documentation and a list of fields", ("--trust-returns",), {"ansible": {}, "ok": ["changed"]}),
          ("a field that isn't said to be there", (), {"ansible": {"name": "git"}, "ok": {"changed": {"kind": "bool"}}}))),
    Row("sections without a value, serial as a text, the strategy debug", "  tasks:\n  - ping:\n  post_tasks:\n  vars:\n",
        ["accepted, 1 of 1 tasks judged, at most 2 module calls"], (), "  serial: '1'\n  strategy: debug\n"),
    Row("a message that is a number", tasks("{name: Five, debug: 5}"),
        [left(4, "Five", "a value that hasn't the form which the profile wants"), "not judged, 0 of 1 tasks judged"]),
    Row("a role that isn't there may give what is read before it",
        "  pre_tasks:\n  - {name: Read, debug: {msg: '{{ v }}'}}\n  roles: [a]\n",
        [left(4, "Read", "it reads 'v', which may come from what isn't judged"),
         "roles/a/meta/main.yml:1: not judged: a role isn't put in place", "accepted, 1 of 3 tasks judged"], (), "",
        {"roles/a/tasks/main.yml": "- ping:\n", "roles/a/meta/main.yml": "dependencies: [gone]\n"}),
    Row("a collection that only lies beside the book", "  roles: [one.two.three]\n",
        ["3: not judged: a role isn't put in place", "not judged, 0 of 1 tasks judged"],
        files={"ansible_collections/one/two/roles/three/tasks/main.yml": "- ping:\n"}),
    Row("a role from another file of tasks", tasks("{include_role: {name: r, tasks_from: other}}"),
        ["accepted, 1 of 1 tasks judged, at most 2 module calls"],
        files={"roles/r/tasks/main.yml": "- command: x\n- command: x\n", "roles/r/tasks/other.yml": "- ping:\n"}),
    Row("a block's vars hold what an unjudged task gives",
        tasks("{name: First, apt: {name: a}, register: r}",
              "{vars: {v: '{{ r.x }}'}, block: [{name: Inner, ping: , when: v == 'a'}]}"),
        [left(4, "First", UNKNOWN.format("apt")), left(5, "Inner", "it reads 'v': its value " + reads("r", 4)[3:]),
         "not judged, 0 of 2 tasks judged"]),
    Row("a block's vars have a form that the profile lacks",
        tasks("{vars: {v: '{{ [1] | max }}'}, block: [{name: Inner, ping: , when: v == 1}]}"),
        [left(4, "Inner", "it reads 'v': its value on line 4 has the filter `max`, which the profile lacks"),
         "not judged, 0 of 1 tasks judged"]),
    Row("the place of a module without arguments", "  tasks:\n  - name: Bare\n    stat:\n",
        ["5: V07 task 'Bare': an unknown or missing parameter", "refused, 1 finding, 1 of 1 tasks judged"]),
    Row("ignore_errors that is a mapping", tasks("{name: Odd, ping: , ignore_errors: {a: b}}"),
        [left(4, "Odd", "a value that hasn't the form which the profile wants"), "not judged, 0 of 1 tasks judged"]),
    Row("variables of another group", tasks("{name: Number, ping: , when: y > 3}"),
        ["accepted, 1 of 1 tasks judged, at most 2 module calls"], (), "",
        {"hosts.yml": "web: {hosts: {h1: {y: 4}}}\nzdb: {hosts: {h2: }, vars: {y: 5}}\n", "group_vars/web.yml": "y: five\n"}),
    Row("a play that is a number", tasks("ping:") + "- 5\n", ["5: P02 play: no list of plays, or a play without `hosts`",
        "refused, 1 finding, 1 of 1 tasks judged"]),
    Row("a third handler notifies the second", tasks("{command: x, notify: c}") + "  handlers:\n  - {name: a, ping: }\n"
        "  - {name: b, ping: }\n  - {name: c, command: x, notify: b}\n",
        ["8: V12 handler 'c': a handler that notifies itself or an earlier one: what 'b' notifies stands before it "
         "(line 7)", "refused, 1 finding, 4 of 4 tasks judged"]),
    Row("a handler notifies that of a role before its include",
        tasks("{name: Call, command: x, notify: H}", "{include_role: {name: r}}") +
        "  handlers:\n  - {name: H, command: x, notify: RH}\n",
        ["7: not judged: handler 'H': it may notify 'RH' before the role that has it is included",
         "accepted, 3 of 4 tasks judged"], files=HANDLER_OF_ROLE),
    Row("a handler of a role has the condition round its import",
        tasks("{command: x, notify: RH}", "{meta: flush_handlers}", "{command: x, register: res}",
              "{when: res.rc == 0, block: [{import_role: {name: r}}]}"),
        ["7: V01 handler 'RH', host h1: a variable that is perhaps undefined: 'res' is set by 'command' (line 6), which "
         "some way to here passes by", "refused, 1 finding, 5 of 5 tasks judged"],
        files=HANDLER_OF_ROLE),
    Row("a word round a role's import changes its handlers",
        tasks("{command: x, notify: RH}", "{import_role: {name: r}, become_user: '{{ inventory_hostname }}'}"),
        ["5: not judged: handler 'RH': `become_user` round its role changes it", "accepted, 2 of 3 tasks judged"],
        files=HANDLER_OF_ROLE),
    *(Row(f"a word of another form: {word}", tasks(f"{{name: Odd, ping: , {word}}}"),
          [left(4, "Odd", f"`{word.partition(':')[0]}` is {what}"), "not judged, 0 of 1 tasks judged"])
      for word, what in (("run_once: [a]", "no truth value"), ("run_once: soon", "no truth value"),
                         ("debugger: foo", "none of Ansible's choices"), ("tags: ", "no list of texts"),
                         ("tags: [{a: b}]", "no list of texts"), ("tags: 5", "no list of texts"),
                         ("collections: 5", "no list of texts"), ("become_user: [a]", "no text"),
                         ("delegate_to: [a]", "no text"), ("connection: {a: b}", "no text"))),
    *(Row(f"a word of a play of another form: {word}", tasks("{name: Odd, ping: }"),
          ["5: not judged: task 'Odd': " + what, "not judged, 0 of 1 tasks judged"], (), f"  {word}\n")
      for word, what in (("any_errors_fatal: soon", "`any_errors_fatal` is no truth value"),
                         ("max_fail_percentage: x", "`max_fail_percentage` is no number"),
                         ("order: foo", "`order` is none of Ansible's choices"), ("tags: {a: b}", "`tags` is no list of texts"))),
    Row("retries that are a list", tasks("{name: Again, ping: , register: r, until: r is succeeded, retries: [1]}"),
        [left(4, "Again", "a value that hasn't the form which the profile wants"), "not judged, 0 of 1 tasks judged"]),
    Row("until reads who is active", tasks("{name: Judge, ping: , register: r, until: \"'h1' in ansible_play_batch\"}"),
        ["4: V09 task 'Judge': a result that is judged by what other hosts have: `until` reads 'ansible_play_batch'",
         "refused, 1 finding, 1 of 1 tasks judged"]),
    Row("the place of a word that reads it by a name", "  tasks:\n  - name: Judge\n    command: x\n"
        "    vars: {v: \"{{ 'h1' in ansible_play_batch }}\"}\n    changed_when: v\n",
        ["7: V09 task 'Judge': a result that is judged by what other hosts have", "refused, 1 finding, 1 of 1 tasks judged"]),
    Row("a declared module that nothing calls breaks a law", tasks("ping:"),
        ["S03 a signature breaks a law", "refused, 1 finding, 1 of 1 tasks judged"], ("-s", "bad.json"),
        files={"bad.json": SIGNATURES.replace('"own"', '"other"').replace('true}, "msg"', 'false}, "msg"')}),
    Row("findings in the order of their lines", tasks('{name: First, debug: {msg: "{{ gone }}"}}', "{name: Next, own: {level: 9}}"),
        [unset(4, "First", "gone"), "5: A-choice task 'Next': a value that is none of the parameter's choices: '9' is no "
         "choice of `level` of own. Choices: 1", "refused, 2 findings, 2 of 2 tasks judged"], ("-s", "chosen.json"),
        files={"chosen.json": SIGNATURES.strip()[:-2] + ', "ansible": {"name": "own", "aliases": {}, "asked": [], '
                                                        '"required": [], "choices": {"level": [1]}}}]'}),
    Row("a pattern with a sign names groups too", "- hosts: 'we*'\n  gather_facts: false\n" + tasks("{ping: , when: flag}"),
        ["accepted, 1 of 1 tasks judged, at most 1 module calls"]),
    *(Row(f"an include with `{word}`", tasks(f"{{name: Inc, include_tasks: one.yml, {word}: {value}}}"),
          [left(4, "Inc", f"`include_tasks` with `{word}` isn't put in place"), "not judged, 0 of 1 tasks judged"], (),
          files={"one.yml": "- ping:\n"})
      for word, value in (("loop", "[1]"), ("until", "true"), ("retries", "2"), ("register", "r"), ("loop_control",
          "{label: x}"),
                          ("async", "5"), ("args", "{}"), ("changed_when", "false"), ("failed_when", "false"))),
]
