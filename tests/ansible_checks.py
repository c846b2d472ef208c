# SPDX-License-Identifier: MIT OR Apache-2.0
# Tries playcheck-ansible on books and hostile YAML: python3 tests/ansible_checks.py PROGRAM [--quick].
import json
import os
import re
import sys
import tempfile
from pathlib import Path

from ansible_expressions import wrong_expressions
from ansible_formats import wrong_colours, wrong_gitlab, wrong_junit, wrong_sarif, wrong_strict
from ansible_gates import GATES
from ansible_lookups import wrong_long_names, wrong_lookups, wrong_time_limit, wrong_undocumented
from ansible_parts import wrong_parts
from ansible_pipelines import wrong_action, wrong_completion, wrong_gitlab_job, wrong_hook, wrong_zsh
from ansible_rewritings import wrong_rewritings
from ansible_forms import wrong_rows
from ansible_skips import SKIP_SEARCHES
from ansible_tools import SECONDS, TOOL, TOP, WAITED, fork_commands, is_forked, run_tool
from ansible_words import wrong_words
from check import Check, Outcome, outcome_of

CASES = TOP / "tests" / "ansible"
CONVERTED = ("converted", "converted_stand_ins")
LEAST_COMMANDS = 143
MEGABYTES = 700
SMALL = 20_000  # bytes
NO_RUN = ": this book is for check, and not for run\n"
INVENTORY = '{"all": {"hosts": ["h1"]}}'


def transcripts():
    """Each command of each transcript: where it is run, its words, what is wanted, and its status."""
    for path in sorted(CASES.glob("*/transcript")):
        for part in re.split(r"^\$ ", path.read_text(encoding="utf-8"), flags=re.M)[1:]:
            lines = part.splitlines()
            said = [line for line in lines[1:-1] if not line.startswith("! ")]
            told = [line[2:] for line in lines[1:-1] if line.startswith("! ")]
            yield path.parent, lines[0].split(), said, told, int(lines[-1].split()[1])


def lost_transcripts():
    """Each folder of books has a transcript with a command, but for those that are converted; none is lost."""
    folders = [path for path in CASES.iterdir() if path.is_dir() and path.name not in CONVERTED]
    for folder in folders:
        path = folder / "transcript"
        if not path.exists() or not re.search(r"^\$ ", path.read_text(encoding="utf-8"), re.M):
            yield f"{folder.name} has no transcript with a command"
    count = sum(1 for _ in transcripts())
    if count < LEAST_COMMANDS:
        yield f"{count} commands in all transcripts, wanted {LEAST_COMMANDS} or more"


def wrong_transcript(folder, words, said, told, status):
    done = run_tool(words, folder, folder / "bin")
    found = (done.stdout.splitlines(), done.stderr.splitlines(), done.returncode)
    if found == (said, told, status):
        return ""
    return (f"{folder.name}: {' '.join(words)}\n" + "\n".join(f"  wanted {line}" for line in [*said, *told])
            + f"\n  wanted status {status}\n" + "\n".join(f"  found  {line}" for line in [*found[0], *found[1]])
            + f"\n  found  status {done.returncode}")


def hostile():
    """Hostile books: the bytes, what standard error says of them, and the status."""
    play = "- hosts: all\n  gather_facts: false\n  tasks:\n"
    bomb = "- &a0 [x, x, x, x, x, x, x, x, x, x]\n" + "".join(
        f"- &a{n} [{', '.join([f'*a{n - 1}'] * 10)}]\n" for n in range(1, 12))
    yield "aliases that explode", bomb, "book.yml:6:18: more than 400,000 values, with what its aliases", 64
    yield "a cycle", "- &a\n  hosts: all\n  vars: {x: *a}\n", "book.yml:3:13: the alias *a stands in what it names", 64
    yield "10 MB", "# " + "x" * 10_000_000, "book.yml: the file has more than 4,194,304 bytes", 64
    yield "an object's tag", "- !!python/object/apply:os.system [ls]\n", "book.yml:1:3: the tag !!python/object", 64
    yield "an unknown tag", "- hosts: !mine all\n", "book.yml:1:10: the tag !mine isn't read", 64
    yield "no UTF-8", b"- hosts: all\n  name: \xff\n", "book.yml:2:9: byte 21 isn't UTF-8", 64
    yield "UTF-16", "- hosts: all\n".encode("utf-16"), "book.yml:1:1: byte 0 isn't UTF-8", 64
    yield "a key twice", "- hosts: all\n  hosts: web\n", "book.yml:2:3: the key 'hosts' stands here twice, first on", 64
    yield "a key that is a number", "- hosts: all\n  1: x\n", "book.yml:2:3: a key that is no text: 1", 64
    yield "a key that is a list", "- hosts: all\n  ? [a]\n  : x\n", "book.yml:2:5: a key that is no text: a list", 64
    yield "a tab", "- hosts: all\n\ttasks: []\n", "book.yml:2:1: this is no YAML: found ", 64
    yield "two documents", "- hosts: all\n---\n- hosts: all\n", "book.yml:2:1: a second document; one is wanted", 64
    yield "a control character", "- hosts: all\n  name: a\x01b\n", "book.yml:2:10: this is no YAML: ", 64
    yield "deep lists", "[" * 100_000, "book.yml:1:65: more than 64 lists and mappings inside one another", 64
    yield "deep blocks", "".join(" " * n + "- \n" for n in range(200)), "book.yml:65:65: more than 64 lists", 64
    yield "half a pair", '- hosts: "\\ud800"\n', "book.yml:1:1", 64
    yield "an unknown anchor", "- *nothing\n", "book.yml:1:3: ", 64
    yield "a long number", play + "    - debug: {msg: " + "9" * 5000 + "}\n", "book.yml:4:20: '99999", 64
    yield "a long number to the base 16", play + f"    - debug: {{msg: 0x{'f' * 5000}}}\n", "book.yml:4:20: '0xfff", 64
    yield "many values", "[" + "x," * 500_000 + "]", "more than 400,000 values", 64
    yield "no file inside", "- import_playbook: gone.yml\n", "book.yml:1:20: what is imported can't be read: gone", 64
    yield "files that double", hostile_files(), "more than 1,000 files are put in place", 64
    many = "- hosts: all\n  pre_tasks: &t\n" + "    - command: x\n" * 3900 + "- hosts: all\n  tasks:\n"
    yield "tasks that double", many + "    - block: *t\n" * 30, "book.yml: more than 4,096 tasks and blocks", 64
    yield "a name with a zero", '- import_playbook: "a\\0b"\n', "book.yml:1:20: what is imported can't be read: ", 64
    yield "itself imported", "- import_playbook: book.yml\n", "book.yml:1:20: book.yml is imported in itself", 64


def hostile_files():
    """Files that name each other so that they double at each step."""
    twice = "- import_tasks: f{0}.yml\n- import_tasks: f{0}.yml\n"
    files = {f"f{n}.yml": twice.format(n + 1) for n in range(30)}
    book = "- hosts: all\n  tasks:\n    - import_tasks: f0.yml\n"
    return {**files, "f30.yml": "- debug:\n", "book.yml": book, "hosts.json": INVENTORY}


def hostile_outcome(name, data):
    words = ["check", "book.yml", "-i", "hosts.json"]
    files = data if isinstance(data, dict) else {"book.yml": data, "hosts.json": INVENTORY}
    if not is_forked():
        return outcome_of(TOOL, Check(name, words, None, {name: bytes_of(text) for name, text in files.items()}), WAITED)
    with tempfile.TemporaryDirectory() as folder:
        for file, text in files.items():
            Path(folder, file).write_bytes(bytes_of(text))
        done = run_tool(words, folder)
    return Outcome(done.returncode, done.stdout.encode(), done.stderr.encode())


def bytes_of(text):
    return text.encode() if isinstance(text, str) else text


def wrong_hostile(name, data, wanted, status):
    outcome = hostile_outcome(name, data)
    told = outcome.stderr.decode(errors="replace")
    is_named = told.startswith("playcheck-ansible: ") and wanted in told and told.count("\n") == 1
    if is_named and outcome.status == status and outcome.megabytes < MEGABYTES and outcome.seconds < SECONDS:
        return ""
    return f"{name}: wanted status {status} and {wanted!r}, found {outcome}"


def long_chain():
    """A book with a chain of names of `vars`, each of which reads the next one."""
    names = "".join(f"    v{number}: '{{{{ v{number + 1} }}}}'\n" for number in range(4000))
    return f"- hosts: all\n  vars:\n{names}    v4000: x\n  tasks:\n    - debug: {{msg: '{{{{ v0 }}}}'}}\n"


def wrong_long_texts():
    """Texts with much that is opened and never closed take as long as others of their length; what they ask is told."""
    play = "- hosts: all\n  gather_facts: false\n  tasks:\n    - debug: {msg: \"#\"}\n"
    unjudged = "book.yml: not judged, 0 of 1 tasks judged"
    many = 200_000
    cases = {"braces": (play.replace("#", "{{ " * many), unjudged), "signs": (play.replace("#", "{%" * many), unjudged),
             "blanks": (play.replace("#", "{{ a | default(" + " " * many + "x y) }}"), unjudged),
             "hosts": ("- hosts: h1" + ":h1" * many + "\n", "book.yml: refused, 1 finding, 0 of 0 tasks judged"),
             "names": (long_chain(), "book.yml: refused, 1 finding, 1 of 1 tasks judged")}
    for name, (book, wanted) in cases.items():
        files = {"book.yml": book, "hosts.json": INVENTORY}
        outcome = outcome_of(TOOL, Check(name, ["check", "book.yml", "-i", "hosts.json"], None, files), WAITED)
        if not outcome.stdout.decode().endswith(f"{wanted}\n") or outcome.stderr or outcome.seconds > SECONDS:
            yield f"a long text of {name}: wanted {wanted!r}, found {outcome}"


def wrong_many_forms():
    """Of many tasks with a form that only the program refuses each is told, in a time that grows as the book does."""
    count = 1500
    tasks = "".join(f"    - {{command: /bin/ask, when: port == {number}.5}}\n" for number in range(count))
    book = f"- hosts: all\n  gather_facts: false\n  vars: {{port: 1}}\n  tasks:\n{tasks}"
    files = {"book.yml": book, "hosts.json": INVENTORY}
    outcome = outcome_of(TOOL, Check("forms", ["check", "book.yml", "-i", "hosts.json"], None, files), WAITED)
    said = outcome.stdout.decode().splitlines()
    told = sum(line.endswith(": not judged: an expression that the profile lacks") for line in said)
    if told != count or said[-1] != f"book.yml: not judged, 0 of {count} tasks judged" or outcome.seconds > SECONDS:
        yield f"many forms: {told} of {count} told in {outcome.seconds:.1f} s, {said[-1:]}"


def wrong_conversion():
    """What `convert` writes is what the program is asked, and the map of its lines."""
    folder = CASES / "converted"
    wanted = json.loads((folder / "wanted.json").read_text(encoding="utf-8"))
    with tempfile.TemporaryDirectory() as made:
        words = ["convert", "book.yml", "-i", "../inventory.yml", "-o", made]
        done = run_tool(words, folder)
        found = {path.stem: json.loads(path.read_text(encoding="utf-8")) for path in Path(made).glob("*.json")}
    told = "playcheck-ansible: 1 task is another one (book.yml:4:7) than in a run of Ansible" + NO_RUN
    if done.returncode or done.stderr != told or found != wanted:
        yield f"convert: {done.stderr}, status {done.returncode}, wanted {wanted}, found {found}"


def wrong_warnings():
    """`convert` says of how many expressions the values are others, and its map marks the lines that have them."""
    folder = CASES / "converted_stand_ins"
    several = f"2 expressions stand for operations that the profile lacks (book.yml:12:16 first){NO_RUN}"
    one = f"1 expression stands for an operation that the profile lacks (one.yml:7:13){NO_RUN}"
    other = f"playcheck-ansible: 1 task is another one (one.yml:5:7) than in a run of Ansible{NO_RUN}"
    marked = [("Ask", 0), ("Exact", 0), ("Two", 2)]
    for book, told, lines in [("book.yml", several, marked), ("one.yml", one + other, [("", 0), ("", 1), ("", 1)])]:
        with tempfile.TemporaryDirectory() as made:
            done = run_tool(["convert", book, "-i", "../inventory.yml", "-o", made], folder)
            lines_of = json.loads(Path(made, "lines.json").read_text(encoding="utf-8"))
        found = [(line["name"], line["stand_ins"]) for line in lines_of if line["kind"] != "play"]
        if (done.returncode, done.stdout, done.stderr, found) != (0, "", f"playcheck-ansible: {told}", lines):
            yield f"convert {book}: {done}, the lines {found}"


def wrong_signatures():
    """What `signatures` writes out of the documentation, and what it says of the modules that can't be declared."""
    folder = CASES / "documented"
    done = run_tool(["signatures", "book.yml", "gone"], folder, folder / "bin")
    told = ["playcheck-ansible: the module gone isn't declared: ansible-doc doesn't know it",
            "playcheck-ansible: the module package_facts isn't declared: it sets facts"]
    wanted = json.loads((folder / "signatures.json").read_text(encoding="utf-8"))
    if done.returncode or done.stderr.splitlines() != told or json.loads(done.stdout) != wanted:
        yield f"signatures: status {done.returncode}, {done.stderr}, {done.stdout}"


def lost_hook():
    """The hook of pre-commit calls the launcher."""
    import yaml

    hooks = yaml.safe_load((TOP / ".pre-commit-hooks.yaml").read_text(encoding="utf-8"))
    return [str(hook) for hook in hooks if not os.access(TOP / hook["entry"], os.X_OK) or hook["args"] != ["check"]]


def lost_titles():
    """The titles of the codes are those of the pages."""
    sys.path.insert(0, str(TOP / "ansible"))
    sys.dont_write_bytecode = True
    from playcheck_ansible.codes import OWN_PAGE, OWN_TITLES, PAGE, TITLES

    text = "".join((TOP / "docs" / name).read_text(encoding="utf-8") for name in (PAGE, OWN_PAGE))
    page = dict(re.findall(r"^### ([A-Z]\d\d|A-[a-z]+): (.*)$", text, re.M))
    titles = {**TITLES, **OWN_TITLES}
    return [f"{code}: {page.get(code)!r} on the page, {titles.get(code)!r} in codes.py"
            for code in sorted({*page, *titles}) if page.get(code) != titles.get(code)]


def lost_passes():
    """Each pass is named in docs/FROM_ANSIBLE.md."""
    from playcheck_ansible.documented_facts import documented_facts
    from playcheck_ansible.literals import EXPRESSION_PASSES
    from playcheck_ansible.magic import magic_variables
    from playcheck_ansible.gathering import gathered_by_tasks
    from playcheck_ansible.inclusion import leave_early_notifiers
    from playcheck_ansible.null_rc import leave_readers_of_null
    from playcheck_ansible.outlived import leave_readers_of_items
    from playcheck_ansible.passes import ROUNDS
    from playcheck_ansible.plays import PLAY_ROUNDS
    from playcheck_ansible.tags import leave_out
    from playcheck_ansible.variables import put_variables

    page = (TOP / "docs" / "FROM_ANSIBLE.md").read_text(encoding="utf-8")
    passes = (leave_out, put_variables, documented_facts, magic_variables, leave_readers_of_items, leave_readers_of_null,
              leave_early_notifiers, gathered_by_tasks,
              *(one for turns in (*ROUNDS, *PLAY_ROUNDS) for turn in turns for one in turn), *EXPRESSION_PASSES)
    held = page.partition("### What holds it\n")[2].partition("\n## ")[0]
    lost = [f"docs/FROM_ANSIBLE.md doesn't name {one.__name__}" for one in passes if f"`{one.__name__}`" not in page]
    lost += [f"docs/FROM_ANSIBLE.md doesn't say what holds {one.__name__}" for one in passes
             if not re.search(rf"^\|.*`{one.__name__}`.*\|.*\|.*\|$", held, re.M)]
    return lost + [f"docs/FROM_ANSIBLE.md names {name}, which isn't there" for name in re.findall(r"`([a-z]+_[a-z_]+)`", held)
                   if name.startswith(("pass_", "promise_", "unjudged_", "mistake_")) and not (CASES / name).is_dir()]


def lost_files():
    """Each file of the package stands in the table of ansible/README.md."""
    page = (TOP / "ansible" / "README.md").read_text(encoding="utf-8")
    files = (path.name for path in sorted((TOP / "ansible").glob("*/[a-z]*.py")))
    return [f"ansible/README.md doesn't name {name}" for name in files if f"`{name}`" not in page]


SEARCHES = (lost_transcripts, lost_titles, lost_files, lost_passes, lost_hook, wrong_long_texts, wrong_many_forms,
            wrong_conversion, wrong_warnings, wrong_signatures, wrong_gitlab, wrong_junit, wrong_strict, wrong_sarif,
            wrong_colours, wrong_lookups, wrong_undocumented, wrong_long_names, wrong_time_limit, wrong_expressions,
            wrong_rewritings, wrong_rows, wrong_words, wrong_parts, wrong_completion, wrong_zsh,
            wrong_action, wrong_gitlab_job, wrong_hook, *GATES, *SKIP_SEARCHES)
# Those about terminals and large files, or other programs than the front end.
SLOW = (lost_hook, wrong_long_texts, wrong_many_forms, wrong_colours, wrong_completion, wrong_zsh, wrong_action,
        wrong_gitlab_job, wrong_hook)


def results(is_quick):
    """What is wrong by each search, transcript and hostile book; the quick ones alone need no process of their own."""
    quick = [search for search in SEARCHES if search not in SLOW]
    for search in quick:
        yield "\n".join(search())
    for one in transcripts():
        yield wrong_transcript(*one)
    for search in () if is_quick else SLOW:
        yield "\n".join(search())
    for one in hostile():
        if not is_quick or len(one[1]) < SMALL:
            yield wrong_hostile(*one)


def main():
    try:
        import yaml  # noqa: F401
    except ImportError:
        print("skipped: PyYAML isn't here")
        print("0 passed, 0 failed")
        return 0
    os.environ["PLAYCHECK"] = str(Path(sys.argv[1]).resolve())
    if is_quick := "--quick" in sys.argv[2:]:
        fork_commands()
    passed = failed = 0
    for wrong in results(is_quick):
        if wrong:
            print(f"FAILED: {wrong}", flush=True)
        failed, passed = failed + bool(wrong), passed + (not wrong)
    print(f"{passed} passed, {failed} failed")
    return 1 if failed else 0


if __name__ == "__main__":
    sys.exit(main())
