# SPDX-License-Identifier: MIT OR Apache-2.0
# Runs with several workers, again and again, beside processes that keep all processors busy:
# python3 tests/thread_checks.py PROGRAM [--all]. 40 books, with answers from a file and with modules that answer late by a seed:
# no run hangs, and each comes to the status and the recap that are worked out for one worker. With --all there are more than
# 10,000 runs, and more seeds.
import contextlib
import itertools
import json
import os
import random
import subprocess
import sys
import tempfile
from concurrent.futures import ThreadPoolExecutor
from dataclasses import dataclass
from pathlib import Path

sys.dont_write_bytecode = True

from check import bytes_of, write_files
from program_checks import BAD_DAY_RECAP, FIRST_RECAP, SETTINGS_RECAP, SIGNED_RECAP, SITE_RECAP

TESTS = Path(__file__).resolve().parent
EXAMPLES = TESTS.parent / "examples"
FORKS = [1, 2, 3, 5, 8, 256]
SECONDS = 300  # of one run at most; alone each takes some hundredths, with modules some tenths or a few
ROUNDS, ALL_ROUNDS = 20, 42
SEEDS, ALL_SEEDS = 2, 8
SHOWN = 20
HANGS = "it hangs"
# What of the cases of one host has several ways through it.
OF_ONE_HOST = ["run-063", "run-066"]
OF_TWO_HOSTS = ["run-074", "run-077"]


@dataclass(frozen=True)
class Book:
    name: str
    files: dict
    status: int
    recaps: tuple  # that of one worker, and what else the run may come to with more of them

    def words(self, forks):
        signed = ["-s", "signatures"] if "signatures" in self.files else []
        return ["run", "book", "-i", "inventory", *signed, "-f", str(forks)]

    def hosts(self):
        return self.recaps[0].count("\n")

    def differs(self, forks, done):
        """What isn't as it is wanted, of the runs that end."""
        recaps = self.recaps if forks > 1 else self.recaps[:1]
        found = done.stdout.decode(errors="replace")
        if done.returncode == self.status and not done.stderr and found in recaps:
            return ""
        lines = itertools.zip_longest(recaps[0].splitlines(), found.splitlines())
        first = next((f"wanted {one!r}, found {other!r}" for one, other in lines if one != other), "")
        return f"status {done.returncode} for {self.status}, {first}, stderr {done.stderr[:200]!r}"


# Books whose outcome is the same in whatever order hosts are answered. Their texts read no other host, or only what was settled at
# an earlier task under `linear`, or in an earlier play; a file of answers, and what stands in the place of modules here, go by the
# number of a host's own call.


def of_case(case):
    names = {"book": "book", "inventory": "inventory", "answers": "answers", "signatures": "signatures"}
    files = {name: bytes_of(case[key]) for name, key in names.items() if case[key] is not None}
    return Book(case["id"], files, case["expected_status"], (case["expected_stdout"],))


def cases(path, names=None):
    with open(TESTS / path, encoding="utf-8") as lines:
        found = [json.loads(line) for line in lines]
    return [of_case(case) for case in found if names is None or case["id"] in names]


def of_example(name, recap, answers="answers", status=0):
    folder = EXAMPLES / name
    files = {it: (folder / f"{it}.json").read_bytes() for it in ["book", "inventory"]}
    files["answers"] = (folder / f"{answers}.json").read_bytes()
    if (folder / "signatures.json").exists():
        files["signatures"] = (folder / "signatures.json").read_bytes()
    return Book(f"{name}-{answers}", files, status, (recap,))


def examples():
    return [
        of_example("first", FIRST_RECAP),
        of_example("settings", SETTINGS_RECAP),
        of_example("signed", SIGNED_RECAP),
        of_example("site", SITE_RECAP),
        of_example("site", BAD_DAY_RECAP, "answers_of_a_bad_day", 2),
    ]


# Books whose outcome depends on that order: a task reads what another host's call at the same task, or at an earlier one under
# `free`, settles. With one worker that call is always answered by then.

OK = {"changed": True, "rc": 0, "stdout": "a", "stderr": "", "stdout_lines": ["a"], "stderr_lines": []}
FAILED = OK | {"changed": False, "failed": True, "msg": "no", "rc": 1}


def recap(*hosts):
    """Lines of h1, h2 and so on, of these counts: ok, changed, failed and skipped."""
    return "".join(
        f"h{number} : ok={ok} changed={changed} unreachable=0 failed={failed} skipped={skipped} rescued=0 ignored=0\n"
        for number, (ok, changed, failed, skipped) in enumerate(hosts, 1)
    )


def made(name, play, answers, status, *recaps):
    files = {
        "book": json.dumps([{"hosts": "all"} | play]).encode(),
        "inventory": json.dumps({"all": {"hosts": list(answers)}}).encode(),
        "answers": json.dumps(answers).encode(),
    }
    return Book(name, files, status, recaps)


LEFT = (0, 0, 1, 0)
CALLED, PASSED_OVER = (2, 1, 0, 0), (1, 0, 0, 1)


def in_the_batch():
    """h1 fails at the task at which the others ask whether it is there: they skip it once it has left, so h3, which is asked
    after h2, never makes the call where h2 doesn't."""
    tasks = [{"command": "a", "when": "'h1' in ansible_play_batch"}, {"debug": {"msg": "end"}}]
    others = [(PASSED_OVER, PASSED_OVER), (CALLED, PASSED_OVER), (CALLED, CALLED)]
    answers = {"h1": [FAILED], "h2": [OK], "h3": [OK]}
    return made("in the batch", {"tasks": tasks}, answers, 2, *(recap(LEFT, *them) for them in others))


def registered_elsewhere():
    """Under `free` h1 asks whether h2 has registered what its call gives, which h2 itself has by then."""
    tasks = [{"command": "a", "register": "r"}, {"debug": {"msg": "x"}, "when": "hostvars['h2'].r is defined"}]
    hosts = [((2, 1, 0, 0), (2, 1, 0, 0)), ((1, 1, 0, 1), (2, 1, 0, 0))]
    answers = {"h1": [OK], "h2": [OK]}
    return made("registered elsewhere", {"strategy": "free", "tasks": tasks}, answers, 0, *(recap(*them) for them in hosts))


def books():
    of_run = cases("cases/run.jsonl", [*OF_ONE_HOST, *OF_TWO_HOSTS])
    return [*cases("forks.jsonl"), *of_run, *examples(), in_the_batch(), registered_elsewhere()]


# Modules. One program stands for all of them: a host's call has the next of its answers, as in a file of answers, at once or
# late, in one of the ways of WAYS, drawn by a seed. It sees that no host has two calls at once.

NAMES = ["ping", "command", "shell", "stat", "copy", "file", "service", "setup", "probe"]
WAYS = 6
LATE = 40  # thousandths of a second at most
MODULE = """#!/bin/sh
number=0 ended=0 answer= way=0 late=0
[ ! -e "calls/$1" ] || read number <"calls/$1"
[ ! -e "ended/$1" ] || read ended <"ended/$1"
[ $number -eq $ended ] || echo $number >two_at_once
echo $((number + 1)) >"calls/$1"
if [ -e "answers/$1/$number" ]; then
    read -r answer <"answers/$1/$number"
    read way late <"ways/$1/$number"
fi
end() { echo $((number + 1)) >"ended/$1"; }
behind=${answer#?????????}
case $way in
0) end "$1"; printf %s "$answer" ;;
1) sleep $late; end "$1"; printf %s "$answer" ;;
2) printf %s "${answer%"$behind"}"; sleep $late; end "$1"; printf %s "$behind" ;;
3) end "$1"; printf %s "$answer"; exec >&-; sleep $late ;;
4) sleep 0; sleep 0; end "$1"; printf %s "$answer" ;;
5) printf %s "$answer"; sleep 0; end "$1" ;;
esac
"""


def write_modules(folder, answers, seed):
    modules = Path(folder, "modules")
    for name in ["modules", "calls", "ended"]:
        Path(folder, name).mkdir()
    (modules / NAMES[0]).write_text(MODULE, encoding="utf-8")
    (modules / NAMES[0]).chmod(0o755)
    for name in NAMES[1:]:
        os.link(modules / NAMES[0], modules / name)
    drawn = random.Random(seed)
    for host, entries in answers.items():
        ways = [f"{drawn.randrange(WAYS)} 0.{drawn.randrange(LATE):03}" for _ in entries]
        write_lines(Path(folder, "answers", host), map(json.dumps, entries))
        write_lines(Path(folder, "ways", host), ways)


def write_lines(folder, lines):
    """A file for each line, named by its number."""
    folder.mkdir(parents=True)
    for number, line in enumerate(lines):
        (folder / str(number)).write_text(f"{line}\n", encoding="utf-8")


# Runs.


def run_of(program, folder, book, forks, words):
    """What is to be said of one run; nothing where all is as it is wanted."""
    words = [program, *book.words(forks), *words]
    how = {"cwd": folder, "stdin": subprocess.DEVNULL, "capture_output": True}
    try:
        found = book.differs(forks, subprocess.run(words, timeout=SECONDS, check=False, **how))
    except subprocess.TimeoutExpired:
        found = f"{HANGS}: it hasn't ended in {SECONDS} s"
    return found and f"{book.name}, {forks} workers: {found}"


def with_answers(program, folder, book, forks):
    return run_of(program, folder, book, forks, ["--answers", "answers"])


def with_modules(program, book, forks, seed):
    """The same with programs, in a folder of its own."""
    with tempfile.TemporaryDirectory() as folder:
        write_files(folder, {name: content for name, content in book.files.items() if name != "answers"})
        write_modules(folder, json.loads(book.files["answers"]), seed)
        said = run_of(program, folder, book, forks, ["--modules", "modules"])
        if Path(folder, "two_at_once").exists():
            said += f"; {book.name}, {forks} workers: a host had two calls at once"
        return said and f"{said} (modules, seed {seed})"


def runs(program, room, is_all):
    """The runs as calls without arguments: first those with answers."""
    found = books()
    for book in found:
        os.mkdir(os.path.join(room, book.name))
        write_files(os.path.join(room, book.name), book.files)
    rounds, seeds = (ALL_ROUNDS, ALL_SEEDS) if is_all else (ROUNDS, SEEDS)
    for _, book, forks in itertools.product(range(rounds), found, FORKS):
        yield lambda book=book, forks=forks: with_answers(program, os.path.join(room, book.name), book, forks)
    for seed, book, forks in itertools.product(range(seeds), found, FORKS):
        if book.hosts() < 100:
            yield lambda book=book, forks=forks, seed=seed: with_modules(program, book, forks, seed)


WORK = "import os, sys\nwhile os.getppid() == int(sys.argv[1]): sum(range(10000))\n"


@contextlib.contextmanager
def busy(count):
    """So many processes that only work, as long as this one is there."""
    begun = [subprocess.Popen([sys.executable, "-c", WORK, str(os.getpid())]) for _ in range(count)]
    try:
        yield
    finally:
        for process in begun:
            process.kill()
            process.wait()


def outcomes(calls, workers):
    """What is to be said of each run, in their order up to the first that hangs, and how many are left out behind it."""
    said = []
    with ThreadPoolExecutor(workers) as pool:
        for text in pool.map(lambda call: call(), calls):
            said.append(text)
            if HANGS in text:
                pool.shutdown(cancel_futures=True)
                break
    return said, len(calls) - len(said)


def main():
    program, is_all = os.path.abspath(sys.argv[1]), "--all" in sys.argv[2:]
    processors = os.cpu_count() or 1
    with tempfile.TemporaryDirectory() as room, busy(processors):
        said, left = outcomes(list(runs(program, room, is_all)), processors)
    failures = [text for text in said if text]
    for text in failures[:SHOWN]:
        print(f"FAILED: {text}")
    if len(failures) > SHOWN:
        print(f"and {len(failures) - SHOWN} more")
    if left:
        print(f"{left} runs were left out, since one hangs")
    print(f"{said.count('')} passed, {len(failures)} failed")
    return 1 if failures else 0


if __name__ == "__main__":
    sys.exit(main())
