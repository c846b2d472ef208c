# SPDX-License-Identifier: MIT OR Apache-2.0
# Tries parts of the front end alone: the last size that a limit allows and the next one, and what no verdict shows.
import io
import json
import os
import resource
import signal
import sys
import tempfile
from contextlib import redirect_stderr, redirect_stdout
from pathlib import Path
from typing import Dict, Iterator
from unittest.mock import Mock, patch

from ansible_tools import TOP, run_tool

# A list with so many items has as many nodes and one more.
NODES = 9
LEVELS = 24


def is_read(items: int) -> bool:
    from playcheck_ansible.positions import node_of
    from playcheck_ansible.problems import Problem

    try:
        node_of(f"[{', '.join(['x'] * items)}]", "file")
    except Problem as problem:
        return "more than" not in str(problem)
    return True


def wrong_parts() -> Iterator[str]:
    for search in (wrong_limits, wrong_program, wrong_short_name, wrong_folder, wrong_matching,
                   wrong_collections, wrong_others, wrong_count, wrong_allowance, wrong_endings,
                   wrong_books, wrong_bounds):
        yield from search()


def wrong_limits() -> Iterator[str]:
    """The largest file and the deepest expression, and those that are one larger."""
    sys.path.insert(0, str(TOP / "ansible"))
    from playcheck_ansible import positions
    from playcheck_ansible.stand_ins import stand_ins

    with patch.object(positions, "MOST_NODES", NODES):
        found = [is_read(NODES - 1), is_read(NODES)]
    if found != [True, False]:
        yield f"lists of {NODES} and {NODES + 1} nodes: read {found}"
    # The expression itself is the first level.
    texts = [f"{'(' * levels}x is success{')' * levels}" for levels in (LEVELS - 1, LEVELS)]
    if [stand_ins(text, False) == text for text in texts] != [False, True]:
        yield f"expressions of {LEVELS} levels and one more: {[stand_ins(text, False) for text in texts]}"


def wrong_program() -> Iterator[str]:
    """In a clone the program is the launcher, unless PLAYCHECK names another."""
    from playcheck_ansible.places import program

    with patch.dict(os.environ):
        found = [program()]
        del os.environ["PLAYCHECK"]
        found.append(program())
    if found != [os.environ["PLAYCHECK"], str(TOP / "playcheck")]:
        yield f"the program: {found}"


def wrong_short_name() -> Iterator[str]:
    """What convert gives for the name of a host up to its first dot."""
    with tempfile.TemporaryDirectory() as folder:
        Path(folder, "book.yml").write_text("- hosts: all\n  gather_facts: false\n  tasks:\n"
                                            "    - debug: {msg: '{{ inventory_hostname_short }}'}\n")
        done = run_tool(["convert", "book.yml", "-i", "web.eu.example,db", "-o", "out"], folder)
        hosts = json.loads(Path(folder, "out", "inventory.json").read_text())["_meta"]["hostvars"]
    short = {host: given.get("inventory_hostname_short") for host, given in hosts.items()}
    if short != {"web.eu.example": "web", "db": "db"} or done.returncode or done.stderr:
        yield f"short names: {short}, {done}"


def wrong_others() -> Iterator[str]:
    """Of which tasks `convert` says that a run does something else: each of these but the first two."""
    tasks = ("ping:", "{ping: , run_once: false}", "{ping: , register: r, until: r is succeeded, retries: 300}",
             "{ping: , run_once: true}", "{ping: , check_mode: true}", "{ping: , async: 5}", "meta: noop", "{apt: {name: a}}")
    others: Dict[str, int] = {"": len(tasks) - 2, "  any_errors_fatal: true\n": len(tasks) - 1,
                              "  vars_prompt: [{name: y}]\n": len(tasks) - 1, "  max_fail_percentage: 5\n": len(tasks) - 1}
    for head, count in others.items():
        with tempfile.TemporaryDirectory() as folder:
            lines = "".join(f"  - {line}\n" for line in tasks)
            Path(folder, "book.yml").write_text(f"- hosts: all\n  gather_facts: false\n{head}  tasks:\n{lines}")
            done = run_tool(["convert", "book.yml", "-i", "h1,", "-o", "out"], folder)
        first = "1:3" if head else "6:5"
        told = f"{count} tasks are others (book.yml:{first} first) than in a run of Ansible: this book is for check, and not for run"
        if (done.returncode, done.stderr) != (0, f"playcheck-ansible: {told}\n"):
            yield f"tasks that are others: wanted {told}, found {done}"


def wrong_folder() -> Iterator[str]:
    """Of the files of a folder those are playbooks that have plays."""
    files = {"book.yml": "- hosts: all\n  gather_facts: false\n  tasks: [ping: ]\n", "tasks.yml": "- ping:\n",
             "imports.yml": "- import_playbook: book.yml\n", "vars.yml": "a: b\n", "words.txt": "- hosts: all\n"}
    with tempfile.TemporaryDirectory() as folder:
        for name, text in files.items():
            Path(folder, name).write_text(text)
        done = run_tool(["check", ".", "-i", "h1,"], folder)
    ends = ": accepted, 1 of 1 tasks judged, at most 1 module calls"
    if done.stdout.splitlines() != [f"./book.yml{ends}", f"./imports.yml{ends}"] or done.stderr:
        yield f"a folder: {done}"


def wrong_matching() -> Iterator[str]:
    """A Python that isn't there is told where a pattern needs one."""
    from playcheck_ansible.matching import matching
    from playcheck_ansible.problems import Problem

    with patch.object(sys, "executable", "/gone"):
        try:
            yield f"a pattern without a Python: {matching('a pattern that nothing else asks', ('web',))}"
        except Problem as problem:
            if str(problem) != "/gone can't be run: No such file or directory":
                yield f"a pattern without a Python: {problem}"


def wrong_collections() -> Iterator[str]:
    """Roles of collections are looked for where each of Ansible's two variables says."""
    for name in ("ANSIBLE_COLLECTIONS_PATH", "ANSIBLE_COLLECTIONS_PATHS"):
        with tempfile.TemporaryDirectory() as folder:
            role = Path(folder, "there", "ansible_collections", "one", "two", "roles", "three", "tasks", "main.yml")
            role.parent.mkdir(parents=True)
            role.write_text("- ping:\n")
            Path(folder, "book.yml").write_text("- hosts: all\n  gather_facts: false\n  roles: [one.two.three]\n")
            done = run_tool(["check", "book.yml", "-i", "h1,"], folder, given={name: f"/gone:{folder}/there"})
        if done.stdout != "book.yml: accepted, 1 of 1 tasks judged, at most 1 module calls\n":
            yield f"{name}: {done}"


def wrong_allowance() -> Iterator[str]:
    """The time of this process counts, and a check ends where more than it may take is used up."""
    from playcheck_ansible import limits

    own = limits.used(resource.RUSAGE_SELF)
    found, allowance = limits.used(), limits.Allowance()
    allowance.is_set = True
    ended = []
    for start in (found - limits.SECONDS - 1, found):
        allowance.start = start
        try:
            allowance.ask()
        except limits.OutOfTime:
            ended.append(start)
    if not found >= own > 0 or ended != [found - limits.SECONDS - 1]:
        yield f"the time of a check: {own} of {found} seconds, ended from {ended} on"


def wrong_endings() -> Iterator[str]:
    """The status of a command that ends otherwise than by an answer, and what is said of it."""
    from playcheck_ansible import command, limits

    ends = ((KeyboardInterrupt(), 128 + signal.SIGINT, ""), (LookupError("x"), 70, "internal error: LookupError: x (mock.py:"),
            (RecursionError(), 64, "a file nests too deep"), (limits.OutOfTime(), 3, limits.TIME))
    for end, status, told in ends:
        said = io.StringIO()
        with patch.object(command.ALLOWANCE, "set"), redirect_stderr(said), \
                patch.dict(command.COMMANDS, {"explain": Mock(side_effect=end)}):
            found = command.run(["explain", "V01"])
        if found != status or not said.getvalue().startswith(told and f"playcheck-ansible: {told}"):
            yield f"the end by {end!r}: status {found}, {said.getvalue()}"


def wrong_count() -> Iterator[str]:
    """So many files are put in place, and not one more."""
    from playcheck_ansible.contexts import MOST_FILES, Count
    from playcheck_ansible.problems import Place, Problem

    count = Count()
    for _ in range(MOST_FILES):
        count.add(Place("file"))
    try:
        count.add(Place("file"))
        yield f"more than {MOST_FILES} files are put in place"
    except Problem:
        pass


def wrong_books() -> Iterator[str]:
    """A book that takes too much is told, and those behind it are checked."""
    from playcheck_ansible import command, limits

    told = io.StringIO()
    with patch.object(command.ALLOWANCE, "set"), redirect_stderr(told), redirect_stdout(io.StringIO()), \
            patch.object(command, "check_book", Mock(side_effect=[limits.OutOfTime(), MemoryError(), limits.OutOfTime()])):
        status = command.run(["check", "a", "b", "c", "-i", "h1,", "--no-lookup"])
    wanted = [f"playcheck-ansible: {book}: {what}" for book, what in zip("abc", (limits.TIME, limits.MEMORY, limits.TIME))]
    if status != 3 or told.getvalue().splitlines() != wanted:
        yield f"books that take too much: status {status}, {told.getvalue()}"


def wrong_bounds() -> Iterator[str]:
    """The bounds that the page names are those of the front end."""
    from playcheck_ansible import contexts, inventory_sources, limits, loading, looking_up, positions, processes

    page = " ".join((TOP / "docs" / "FROM_ANSIBLE.md").read_text(encoding="utf-8").split())
    for told in (f"one call of `ansible-doc --json`, of at most {looking_up.SECONDS} seconds",
                 f"has {limits.SECONDS} seconds of the processor's time", f"and {limits.BYTES // 2**30} GB of memory",
                 f"may print {processes.MOST_OUTPUT:,} bytes in {inventory_sources.SECONDS} seconds",
                 f"at most {positions.MOST_BYTES:,} bytes and {positions.MOST_NODES:,} values",
                 f"nests at most {positions.MOST_LEVELS} deep",
                 f"At most {contexts.MOST_FILES:,} files are put in place, and {loading.MOST_STEPS:,} tasks and blocks"):
        if told not in page:
            yield f"docs/FROM_ANSIBLE.md doesn't say: {told}"
