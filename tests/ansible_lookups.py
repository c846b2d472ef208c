# SPDX-License-Identifier: MIT OR Apache-2.0
# Tries how playcheck-ansible looks modules up: by one call with a limit of time, and not where that is not wanted.
import json
import sys
import tempfile
import time
from pathlib import Path

from ansible_tools import TOP, run_tool

BOOKS = {
    "one.yml": "- hosts: all\n  gather_facts: false\n  tasks:\n"
               "    - probe: {state: presnet}\n    - other.sort.thing: {}\n    - ansible.builtin.command: x\n",
    "two.yml": "- hosts: all\n  gather_facts: false\n  tasks:\n"
               "    - action: probe state=present\n    - own: {}\n    - '-t': {}\n    - include_tasks: '{{ x }}'\n",
    "broken.yml": "- hosts: [\n",
    "hosts.json": '{"all": {"hosts": ["h1"]}}',
    "own.json": '[{"name": "own", "params": {}, "ok": {"changed": {"kind": "bool", "always": true}}, "failure": '
                '{"changed": {"kind": "bool", "always": true}, "msg": {"kind": "text", "always": true}}}]',
}
# In the place of ansible-core's: it keeps the words of each call, and knows one module. It isn't called in the book's folder.
KNOWS_ONE = """#!/bin/sh
echo "$@" >> "${0%/*}/../calls"
echo '{"probe": {"doc": {"options": {"state": {"choices": ["absent", "present"]}}}, "return": {}}}'
"""
FAILS = "#!/bin/sh\necho no such luck >&2\nexit 5\n"
NO_JSON = "#!/bin/sh\necho '[1'\n"
# As ansible-core's ends where one of the modules has no documentation.
FAILS_ON_ONE = KNOWS_ONE.replace("#!/bin/sh\n", """#!/bin/sh
case $* in *other.sort.thing*) echo "$@" >> "${0%/*}/../calls"
echo "ERROR! module other.sort.thing missing documentation (or could not parse documentation): none" >&2; exit 1 ;; esac
""")
UNDOCUMENTED = 4
CHECK = ["check", "one.yml", "broken.yml", "two.yml", "-i", "hosts.json", "-s", "own.json"]
BROKEN = "playcheck-ansible: broken.yml:2:1: this is no YAML: did not find expected node content"
NEITHER = "is neither built in nor declared"
UNKNOWN = f"one.yml:5:7: not judged: the module `other.sort.thing` {NEITHER}: ansible-doc doesn't know it"
CHOICE = ("one.yml:4:22: A-choice task: a value that is none of the parameter's choices: 'presnet' is no choice of "
          "`state` of probe. Did you mean 'present'? Choices: absent present")


def not_looked_up(reason):
    return [f"one.yml:4:7: not judged: the module `probe` {NEITHER}: {reason}",
            f"one.yml:5:7: not judged: the module `other.sort.thing` {NEITHER}: {reason}"]


def looked_up(program, *words):
    """What is printed, what is told, and the words of each call of ansible-doc."""
    with tempfile.TemporaryDirectory() as folder:
        for name, text in BOOKS.items():
            Path(folder, name).write_text(text, encoding="utf-8")
        if program:
            Path(folder, "bin").mkdir()
            Path(folder, "bin", "ansible-doc").write_text(program)
            Path(folder, "bin", "ansible-doc").chmod(0o755)
        done = run_tool([*CHECK, *words], folder, Path(folder, "bin") if program else None)
        calls = Path(folder, "calls")
        found = calls.read_text().splitlines() if calls.exists() else []
        return done.stdout.splitlines(), done.stderr.splitlines(), found


def wrong_lookups():
    cases = [
        ("one call", KNOWS_ONE, [], [CHOICE, UNKNOWN], [BROKEN], ["-t module --json other.sort.thing probe"]),
        ("one without documentation", FAILS_ON_ONE, [], [CHOICE, UNKNOWN], [BROKEN],
         ["-t module --json other.sort.thing probe", "-t module --json probe"]),
        ("--no-lookup", KNOWS_ONE, ["--no-lookup"], not_looked_up("`--no-lookup` is given"), [BROKEN], []),
        ("no ansible-core", "", [], not_looked_up("ansible-doc isn't installed"), [BROKEN], []),
        ("a failure", FAILS, [], not_looked_up("ansible-doc failed"),
         ["playcheck-ansible: modules aren't looked up: ansible-doc ended with status 5: no such luck", BROKEN], []),
        ("no JSON", NO_JSON, [], not_looked_up("ansible-doc failed"),
         ["playcheck-ansible: modules aren't looked up: ansible-doc printed no JSON: ", BROKEN], []),
    ]
    for name, program, words, said, told, calls in cases:
        found = looked_up(program, *words)
        lost = [line for line in said if line not in found[0]]
        are_told = len(told) == len(found[1]) and all(line.startswith(one) for line, one in zip(found[1], told))
        if lost or not are_told or found[2] != calls:
            yield f"{name}: lost {lost}, told {found[1]}, calls {found[2]}, printed {found[0]}"


def wrong_undocumented():
    """ansible-doc is called again without each of some modules that have no documentation."""
    names = [f"other.sort.thing{number}" for number in range(UNDOCUMENTED)]
    lacks = "".join(f"case $* in *{name}*) echo 'ERROR! module {name} missing documentation' >&2; exit 1 ;; esac\n"
                    for name in names)
    book = BOOKS["one.yml"] + "".join(f"    - {name}: {{}}\n" for name in names)
    with tempfile.TemporaryDirectory() as folder:
        Path(folder, "bin").mkdir()
        Path(folder, "bin", "ansible-doc").write_text(KNOWS_ONE.replace("#!/bin/sh\n", f"#!/bin/sh\n{lacks}"))
        Path(folder, "bin", "ansible-doc").chmod(0o755)
        Path(folder, "hosts.json").write_text(BOOKS["hosts.json"])
        Path(folder, "one.yml").write_text(book)
        Path(folder, "more.yml").write_text("- hosts: all\n  gather_facts: false\n  tasks: [ping: ]\n")
        done = run_tool(["check", "one.yml", "more.yml", "-i", "hosts.json"], folder, Path(folder, "bin"))
    if not {CHOICE, "more.yml: accepted, 1 of 1 tasks judged, at most 1 module calls"} <= {*done.stdout.splitlines()} or done.stderr:
        yield f"{UNDOCUMENTED} modules without documentation: {done}"


def wrong_long_names():
    """Modules with longer names than the format has are judged all the same, each by its own documentation."""
    names = [f"some.sort.{'long_' * 12}{end}" for end in ("one", "two")]
    options = {"state": {"choices": ["absent", "<any>"]}}
    documents = {names[0]: {"doc": {"options": options}}, names[1]: {"doc": {"options": {"level": {"type": "int"}}}}}
    book = "- hosts: all\n  gather_facts: false\n  tasks:\n"
    with tempfile.TemporaryDirectory() as folder:
        Path(folder, "bin").mkdir()
        Path(folder, "bin", "ansible-doc").write_text(f"#!/bin/sh\ncat <<'END'\n{json.dumps(documents)}\nEND\n")
        Path(folder, "bin", "ansible-doc").chmod(0o755)
        Path(folder, "hosts.json").write_text(BOOKS["hosts.json"])
        tasks = f"    - {names[0]}: {{state: present}}\n    - {names[1]}: {{lvl: 1}}\n"
        Path(folder, "book.yml").write_text(book + tasks)
        done = run_tool(["check", "book.yml", "-i", "hosts.json"], folder, Path(folder, "bin"))
    told = f"{names[1]} has no parameter 'lvl'. Known: level"
    if f"V07 task: an unknown or missing parameter: {told}" not in done.stdout or "2 of 2 tasks" not in done.stdout:
        yield f"long names: {done}"


def wrong_time_limit():
    """A program that hangs is ended after its time, with what it has started."""
    sys.path.insert(0, str(TOP / "ansible"))
    from playcheck_ansible.problems import Problem
    from playcheck_ansible.processes import run_within

    with tempfile.TemporaryDirectory() as folder:
        program = Path(folder, "hangs")
        program.write_text(f"#!/bin/sh\nsleep 100 &\necho $! > {folder}/child\nwait\n")
        program.chmod(0o755)
        start = time.monotonic()
        try:
            run_within([str(program)], 0.5)
            yield "a program that hangs: no problem is told"
        except Problem as problem:
            if str(problem) != "hangs took more than 0.5 seconds" or time.monotonic() - start > 20:
                yield f"a program that hangs: {problem}, {time.monotonic() - start:.1f} s"
        if is_alive(int(Path(folder, "child").read_text())):
            yield "a program that hangs: what it started goes on"


def is_alive(process):
    """Whether a process goes on; one that is ended and that nobody waits for doesn't."""
    for _ in range(100):
        try:
            state = Path(f"/proc/{process}/stat").read_text().rpartition(")")[2].split()[0]
        except OSError:
            return False
        if state in "ZX":
            return False
        time.sleep(0.05)
    return True
