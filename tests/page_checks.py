# SPDX-License-Identifier: MIT OR Apache-2.0
# Runs what the pages show: the books of docs/REFUSALS.md, of which each code has one at least, and the console examples of
# README.md and examples/site/README.md, those of YAML where PyYAML is here. python3 tests/page_checks.py [PROGRAM]
import importlib.util
import json
import os
import re
import shlex
import sys
from concurrent.futures import ThreadPoolExecutor
from pathlib import Path

sys.dont_write_bytecode = True

from check import Check, exactly

TOP = Path(__file__).resolve().parent.parent
PROGRAM = TOP / "dist/playcheck"
REFUSALS = TOP / "docs/REFUSALS.md"
CONSOLES = [TOP / "README.md", TOP / "examples/site/README.md"]
ONE_HOST = '{"all":{"hosts":["h1"]}}'
OPTIONS = {"inventory": "-i", "signatures": "-s", "answers": "--answers"}

FENCE = re.compile(r"^```(.*)\n(?s:(.*?))^```$", re.M)
HEADING = re.compile(r"^#+ (?:([A-Z]\d\d): )?.*$", re.M)
CODE = re.compile(r'codes "([A-Z]\d\d)"')
COMMAND = re.compile(r"^\$ (.*)\n((?:(?!\$ ).*\n)*)", re.M)
LAUNCHER = re.compile(r"\./playcheck(?![\w-])")
FRONT_END = "./playcheck-ansible"


# The books of docs/REFUSALS.md.


def sections(page):
    """The code of each heading, or None, and the text below it up to the next heading that isn't inside a block."""
    blank = FENCE.sub(lambda block: " " * len(block[0]), page)
    headings = list(HEADING.finditer(blank))
    ends = [heading.start() for heading in headings[1:]] + [len(page)]
    for heading, end in zip(headings, ends):
        yield heading[1], page[heading.end() : end]


def examples(text):
    """Each book of a section with its other files, and what is printed."""
    files = {"inventory": ONE_HOST}
    for info, content in FENCE.findall(text):
        words = info.split()
        if words[:1] == ["json"]:
            files[words[1]] = json.loads(content) if "generated" in words else content
        if words == ["text", "prints"]:
            yield files, content
            files = {"inventory": ONE_HOST}
    if "book" in files:
        yield files, ""


def command_words(files):
    words = ["run" if "answers" in files else "check", "book"]
    for name, option in OPTIONS.items():
        words += [option, name] if name in files else []
    return words


def refusals(page):
    """The check of each book."""
    for code, text in sections(page):
        for number, (files, printed) in enumerate(examples(text), 1):
            name = f"{REFUSALS.name}: {code or 'no code'}, book {number}"
            yield Check(name, command_words(files), exactly(printed, 1), files)


def codes():
    for path in sorted(TOP.glob("crates/pb_*/specs/Codes.antt")):
        yield from CODE.findall(path.read_text(encoding="utf-8"))


def wrong_sections(page):
    """Each code has just one section, with books that are refused with it, and no other code has one."""
    shown = []
    for code, text in sections(page):
        lines = [printed for _, printed in examples(text)]
        if code and lines:
            shown.append(code)
            yield from (f"{code}: its section shows {line!r}" for line in lines if not line.startswith(f"refused {code} "))
    known = list(codes())
    for code in sorted({*known, *shown}):
        if known.count(code) != 1 or shown.count(code) != 1:
            yield f"{code}: {known.count(code)} in the definitions, {shown.count(code)} sections with a book"


# The console examples.


def prints(text):
    """Wants this text on standard output, and nothing on standard error."""

    def judge(outcome):
        is_so = outcome.stdout == text.encode() and not outcome.stderr
        return "" if is_so else f"stdout {text!r}, empty stderr"

    return judge


def consoles(path, program):
    """The check of each line that begins with `$`, run from the top of the tree."""
    begin = f'export TMPDIR="$PWD" && cd {shlex.quote(str(TOP))} && export PLAYCHECK={shlex.quote(program)} && '
    for _, content in FENCE.findall(path.read_text(encoding="utf-8")):
        for command, printed in COMMAND.findall(content):
            if FRONT_END in command and not importlib.util.find_spec("yaml"):
                print(f"skipped: {command}: PyYAML isn't here")
                continue
            line = LAUNCHER.sub(lambda _: shlex.quote(program), command)
            yield Check(f"{path.relative_to(TOP)}: {command}", ["-c", begin + line], prints(printed))


# All of them.


def failure_of(program, check):
    try:
        outcome = check.run(program)
    except Exception as fault:  # also a program that can't be run, and one that takes too long
        return f"{check.id}\n  got: {fault!r}"
    wanted = check.judge(outcome)
    return f"{check.id}\n  wanted: {wanted}\n  got: {outcome}" if wanted else ""


def main():
    program = os.path.abspath(sys.argv[1] if len(sys.argv) > 1 else PROGRAM)
    page = REFUSALS.read_text(encoding="utf-8")
    parts = [(program, list(refusals(page)))]
    parts += [("bash", list(consoles(path, program))) for path in CONSOLES]
    runs = [(runner, check) for runner, checks in parts for check in checks]
    with ThreadPoolExecutor(os.cpu_count() or 1) as pool:
        results = list(pool.map(lambda run: failure_of(*run), runs))
    failures = [said for said in results if said] + list(wrong_sections(page))
    failures += ["a page has no example" for _, checks in parts if not checks]
    for said in failures:
        print(f"FAILED: {said}")
    print(f"{results.count('')} passed, {len(failures)} failed")
    return 1 if failures else 0


if __name__ == "__main__":
    sys.exit(main())
