#!/usr/bin/env python3
# SPDX-License-Identifier: MIT OR Apache-2.0
# How much of the playbooks, roles and examples in Debian's `ansible` package the front end judges, and why not the rest.
# python3 bench/corpus.py ROOT [--all-examples] [--causes N]: ROOT is / where the package is installed, or the folder that
# `apt-get download ansible ansible-core` and `dpkg -x` filled. PLAYCHECK names the program, else it is ./playcheck.
import argparse
import json
import os
import re
import sys
import tempfile
import time
import traceback
from collections import Counter
from dataclasses import dataclass, field
from pathlib import Path

TOP = Path(__file__).resolve().parent.parent
sys.path.insert(0, str(TOP / "ansible"))
sys.dont_write_bytecode = True

from playcheck_ansible.ansible_core import Trust  # noqa: E402
from playcheck_ansible.books import Play  # noqa: E402
from playcheck_ansible.checking import Options, report_of, settled  # noqa: E402
from playcheck_ansible.documented import documentation, signatures_of  # noqa: E402
from playcheck_ansible.folders import is_book  # noqa: E402
from playcheck_ansible.limits import ALLOWANCE  # noqa: E402
from playcheck_ansible.loading import load_book  # noqa: E402
from playcheck_ansible.looking_up import MODULE, used_modules  # noqa: E402
from playcheck_ansible.modules import PROFILE, Modules  # noqa: E402
from playcheck_ansible.nodes import as_node, texts_of  # noqa: E402
from playcheck_ansible.positions import read_file  # noqa: E402
from playcheck_ansible.problems import Place, Problem  # noqa: E402
from playcheck_ansible.taint import CUT  # noqa: E402

PACKAGES = "usr/lib/python3/dist-packages"
NAMES_AT_ONCE = 400
SECONDS = 1800
QUOTED = re.compile(r"`[^`]*`|'[^']*'|\d+")
# The bars, with what they were set on: 737 playbooks, of which some are of other packages, and 449 examples.
BARS = {"answered": (600, 737), "whole": (300, 737), "examples": (330, 449), "tasks": (55, 100)}


@dataclass
class Tally:
    """What came of some books."""

    name: str
    books: int = 0
    answered: int = 0
    ends: Counter = field(default_factory=Counter)  # of each book: whole, partly or not at all judged, and its verdict
    causes: Counter = field(default_factory=Counter)  # of each task that isn't judged
    problems: Counter = field(default_factory=Counter)
    notes: Counter = field(default_factory=Counter)  # of each book: what isn't asked in it
    tasks: dict = field(default_factory=dict)  # the place of a task to whether it is judged wherever it is put in place
    left_out: set = field(default_factory=set)  # the places of tasks that a run passes by, by their tags
    tracebacks: list = field(default_factory=list)
    slowest: tuple = (0.0, "")

    def count(self, word):
        return sum(number for end, number in self.ends.items() if end.startswith(word))

    def share(self):
        return 100 * sum(self.tasks.values()) / max(len(self.tasks), 1)


def bare(reason):
    """A cause without the names in it; what reads of a task that isn't judged is one cause."""
    if reason.startswith("it reads '") and "which isn't judged" in reason:
        return "it reads what a task that isn't judged sets"
    named = re.match(r"the (filter|test|call|parameter|index) `([^`]*)`", reason)
    return f"the {named[1]} `{named[2]}`" if named else QUOTED.sub("..", reason)


def judge(path, options, tally):
    """Judges one book, and adds what came of it."""
    tally.books += 1
    start = time.monotonic()
    try:
        settler, _ = settled(path, options)
        report = report_of(path, settler)
    except Problem as problem:
        tally.problems[bare(str(problem).rpartition(": ")[2])] += 1
        return None
    except Exception:
        tally.tracebacks.append(f"{path}: {traceback.format_exc().splitlines()[-1]}")
        return None
    finally:
        tally.slowest = max(tally.slowest, (time.monotonic() - start, path))
    tally.answered += 1
    covered = "whole" if report.judged == report.tasks else "partly" if report.judged else "none"
    code = report.findings[0].code if report.findings else "accepted"
    tally.ends[f"{covered} {code}"] += 1
    tally.notes.update({bare(what) for _, what in settler.notes})
    tally.left_out.update(str(task.place) for task in settler.book.left_out)
    for task in settler.tasks:
        is_judged = not task.judging.reason or task.judging.reason.startswith(CUT)
        place = str(task.place)
        tally.tasks[place] = tally.tasks.get(place, True) and is_judged
        if not is_judged:
            tally.causes[bare(task.judging.reason)] += 1
    return report


def hosts_of(book):
    """The texts of a book's `hosts`."""
    for play in book.plays:
        node = play.words.get("hosts") if isinstance(play, Play) else None
        yield from (text.value for text in texts_of(node)) if node is not None else ()


def inputs_of(book, folder):
    """What a user gives to such a book: two hosts for each group that it names, and `all` for a variable in `hosts`."""
    texts = list(hosts_of(book))
    variables = {name for text in texts for name in re.findall(r"\{\{\s*([A-Za-z_]\w*)", text)}
    names = {name for text in texts if "{" not in text for name in re.findall(r"[A-Za-z_][\w-]*", text)}
    names -= {"all", "localhost", "ungrouped"}
    groups = {name: {"hosts": [f"{name}-1", f"{name}-2"]} for name in sorted(names)}
    path = os.path.join(folder, "hosts.json")
    Path(path).write_text(json.dumps({"all": {"hosts": ["h1", "h2"]}, **groups}), encoding="utf-8")
    return path, {name: as_node("all", Place("-e")) for name in variables}


def playbooks(root):
    """Each file that is a list of plays."""
    for path in sorted([*root.rglob("*.yml"), *root.rglob("*.yaml")]):
        if path.is_file() and is_playbook(str(path)):
            yield str(path)


def is_playbook(path):
    ALLOWANCE.begin()
    try:
        return is_book(read_file(path))
    except Problem:
        return False


def role_books(root, folder):
    """A book for each file of tasks of a role, with the variables and handlers of the role."""
    for number, path in enumerate(sorted(root.rglob("roles/*/tasks/**/*.y*ml"))):
        role = next(parent for parent in path.parents if parent.parent.name == "roles")
        files = [str(role / part / "main.yml") for part in ("defaults", "vars")
                 if (role / part / "main.yml").is_file()]
        play = {"hosts": "all", "vars_files": files, "tasks": [{"import_tasks": str(path)}]}
        collection = role.parts[-4:-2] if role.parts[-5] == "ansible_collections" else ()
        if collection:
            play["collections"] = [".".join(collection)]  # where a role of a collection looks first
        if (role / "handlers" / "main.yml").is_file() and path.name == "main.yml":
            play["handlers"] = [{"import_tasks": str(role / "handlers" / "main.yml")}]
        book = Path(folder, f"role{number}.yml")
        book.write_text(json.dumps([play]), encoding="utf-8")
        yield str(book)


def example_books(documents, folder):
    """A book for each task that stands in the EXAMPLES of a module."""
    import yaml

    for name, document in sorted(documents.items()):
        try:
            examples = yaml.safe_load(document.get("examples") or "")
        except yaml.YAMLError:
            continue
        tasks = [task for task in examples or [] if isinstance(task, dict) and "hosts" not in task] \
            if isinstance(examples, list) else []
        for number, task in enumerate(tasks):
            book = Path(folder, f"{name}.{number}.yml")
            book.write_text(json.dumps([{"hosts": "all", "tasks": [task]}], default=str), encoding="utf-8")
            yield str(book)


def module_names(root, is_core):
    """The names of the modules in a folder."""
    if is_core:
        files = (root / "ansible" / "modules").glob("*.py")
        return sorted(path.stem for path in files if not path.name.startswith("_"))
    found = set()
    for path in (root / "ansible_collections").glob("*/*/plugins/modules/**/*.py"):
        parts = path.relative_to(root / "ansible_collections").parts
        if not path.name.startswith("_"):
            found.add(f"{parts[0]}.{parts[1]}.{path.stem}")
    return sorted(found)


def looked_up(names, known):
    """Adds the documentation of these modules."""
    wanted = sorted({name for name in names if MODULE.fullmatch(name)} - set(known) - set(PROFILE))
    for start in range(0, len(wanted), NAMES_AT_ONCE):
        known.update(documentation(wanted[start:start + NAMES_AT_ONCE], Trust(), SECONDS))
        print(f"looked up {min(start + NAMES_AT_ONCE, len(wanted))} of {len(wanted)} modules", file=sys.stderr)


def put_on_path(root, folder):
    """Where the package isn't installed, makes its ansible-doc a program of the PATH."""
    program = Path(folder, "ansible-doc")
    program.write_text(f'#!/bin/sh\nPYTHONPATH="{root / PACKAGES}" exec "{sys.executable}" "{root}/usr/bin/ansible-doc" "$@"\n')
    program.chmod(0o755)
    os.environ["PATH"] = f"{folder}{os.pathsep}{os.environ['PATH']}"


def names_in(books):
    for path in books:
        try:
            yield from used_modules(load_book(path))
        except Problem:
            continue


def judge_all(name, books, modules, folder):
    tally = Tally(name)
    for number, path in enumerate(books, 1):
        try:
            inventory, extra = inputs_of(load_book(path), folder)
        except Problem:
            inventory, extra = "h1,h2", {}
        judge(path, Options([inventory], modules, extra), tally)
        if number % 100 == 0:
            print(f"{name}: {number} of {len(books)}", file=sys.stderr)
    return tally


def told(tally, causes):
    whole, partly = tally.count("whole"), tally.count("partly")
    print(f"{tally.name}: {tally.books} books, {tally.answered} answered, {whole} judged whole, {partly} partly, "
          f"{tally.count('none')} not at all, {len(tally.tracebacks)} tracebacks; slowest {tally.slowest[0]:.1f} s")
    print(f"  tasks: {len(tally.tasks)} at places of their own, {sum(tally.tasks.values())} judged ({tally.share():.1f} %)")
    for what, counter in (("verdicts", tally.ends), ("not read", tally.problems), ("books", tally.notes),
                          ("causes", tally.causes)):
        for cause, number in counter.most_common(causes):
            print(f"  {what}: {number} {cause}")
    for one in tally.tracebacks:
        print(f"  traceback: {one}")


def bar(name, found, of):
    wanted, on = BARS[name]
    print(f"bar: {name}: {found} of {of} ({100 * found / max(of, 1):.1f} %), wanted {wanted} of {on} "
          f"({100 * wanted / on:.1f} %): {'reached' if found * on >= wanted * of else 'not reached'}")


def main():
    words = argparse.ArgumentParser()
    words.add_argument("root", type=Path, help="/ or the folder in which the packages are unpacked")
    words.add_argument("--all-examples", action="store_true", help="the EXAMPLES of the collections' modules too")
    words.add_argument("--causes", type=int, default=25, help="so many causes of each sort are printed")
    given = words.parse_args()
    root = (given.root / PACKAGES).resolve()
    with tempfile.TemporaryDirectory() as folder:
        if given.root.resolve() != Path("/"):
            put_on_path(given.root.resolve(), folder)
        documents = {}
        looked_up(module_names(root, True), documents)
        core = dict(documents)
        books, roles = list(playbooks(root)), list(role_books(root, folder))
        looked_up(names_in([*books, *roles]), documents)
        if given.all_examples:
            looked_up(module_names(root, False), documents)
        modules = Modules(signatures_of(documents)[0])
        profile = documentation(sorted(PROFILE), Trust(), SECONDS)
        examples = list(example_books({**core, **profile}, folder))
        tallies = [judge_all("playbooks", books, modules, folder), judge_all("roles", roles, modules, folder),
                   judge_all("examples of ansible-core", examples, modules, folder)]
        if given.all_examples:
            others = {name: document for name, document in documents.items() if "." in name}
            more = list(example_books(others, folder))
            tallies.append(judge_all("examples of collections", more, modules, folder))
    for tally in tallies:
        told(tally, given.causes)
    both = {**tallies[1].tasks, **tallies[0].tasks}
    bar("answered", tallies[0].answered, tallies[0].books)
    bar("whole", tallies[0].count("whole"), tallies[0].books)
    bar("examples", tallies[2].ends["whole accepted"], tallies[2].books)
    bar("tasks", sum(both.values()), len(both))
    left_out = tallies[0].left_out - set(both)
    print(f"tasks left out by tags wherever they are put in place: {len(left_out)}; of all tasks with these "
          f"{100 * sum(both.values()) / max(len(both) + len(left_out), 1):.1f} % are judged")
    print(f"bar: tracebacks: {sum(len(tally.tracebacks) for tally in tallies)}, wanted 0")


if __name__ == "__main__":
    main()
