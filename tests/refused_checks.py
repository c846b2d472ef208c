# SPDX-License-Identifier: MIT OR Apache-2.0
# Each allocation refused in turn, of the program and, where they are given, of the tests that make calls by hand: the answer, or
# want of memory by name, and nothing else: python3 tests/refused_checks.py PROGRAM [TESTS..]. Where a run makes some thousands of
# them, every so many-th. And each thread of a run refused in turn: want of a thread by name, and no module was started.
import json
import os
import re
import shutil
import subprocess
import sys
import tempfile
from concurrent.futures import ThreadPoolExecutor
from dataclasses import dataclass
from pathlib import Path

from check import TIMEOUT, Outcome, write_files
from program_checks import SITE_RECAP

TESTS = Path(__file__).resolve().parent
SITE = TESTS.parent / "examples/site"
REFUSED = b"allocation refused\n"  # what refuse.c says,
THREAD_REFUSED = b"thread refused\n"  # or this,
TOLD = re.compile(rb"allocations +(\d+)\n")  # and at the end
MOST = 50_000  # more allocations than any of these makes
MOST_TRIED = 2_000  # of one run
TIMES = 3  # as often a run is repeated
SHOWN = 20

OK = {"changed": True, "rc": 0, "stdout": "a", "stderr": "", "stdout_lines": ["a"], "stderr_lines": []}
SAME = OK | {"changed": False}
AGAIN = OK | {"rc": 1}
FAILED = SAME | {"failed": True, "msg": "no", "rc": 1}
TASKS = [{"command": "x", "register": "out"}, {"debug": {"msg": "{{ out.stdout }}"}}]
FILES = {
    "book": json.dumps([{"hosts": "all", "tasks": TASKS}]),
    "inventory": '{"all":{"hosts":["h1"]}}',
    "answers": json.dumps({"h1": [OK]}),
    # Groups below one another, layers of variables with a reserved and an opaque one, and hosts of all sorts of groups.
    "groups": json.dumps(
        {
            "_meta": {"hostvars": {"h1": {"a": [1, {"b": "{{ x }}"}], "item": 1}, "h9": {}}},
            "all": {"vars": {"p": 1}},
            "ungrouped": ["h3"],
            "web": {"hosts": ["h1", "h2"], "children": ["row"], "vars": {"p": 2, "q": 1.5}},
            "row": {"hosts": ["h2"], "vars": {"p": 3}},
        }
    ),
}
CHECK = ["check", "book", "-i", "inventory"]
CHECK_GROUPS = ["check", "book", "-i", "groups"]
RUN = ["run", "book", "-i", "inventory", "--answers", "answers"]

# Books that are run, each with its play, the answers of its hosts, what it prints as worked out by hand, and its status.
BOOKS = {
    # `a` fails and is rescued; `r` and the debug go well.
    "rescued": (
        {"tasks": [{"block": [{"command": "a"}], "rescue": [{"command": "r"}], "always": [{"debug": {"msg": "d"}}]}]},
        {"h1": [FAILED, OK]},
        "h1 : ok=2 changed=1 unreachable=0 failed=0 skipped=0 rescued=1 ignored=0\n",
        0,
    ),
    # On h1 `a` changes something, and the handler runs; on h2 it doesn't.
    "handled": (
        {"tasks": [{"command": "a", "notify": "H"}], "handlers": [{"name": "H", "command": "b"}]},
        {"h1": [OK, OK], "h2": [SAME]},
        "h1 : ok=2 changed=2 unreachable=0 failed=0 skipped=0 rescued=0 ignored=0\n"
        "h2 : ok=1 changed=0 unreachable=0 failed=0 skipped=0 rescued=0 ignored=0\n",
        0,
    ),
    # Two of three items are calls; of their results two are shown.
    "looped": (
        {
            "tasks": [
                {"command": "a {{ item }}", "loop": [1, 2, 3], "when": "item > 1", "register": "r"},
                {"debug": {"msg": "{{ item.stdout }}"}, "loop": "{{ r.results }}", "when": "item is not skipped"},
            ]
        },
        {"h1": [OK, SAME]},
        "h1 : ok=2 changed=1 unreachable=0 failed=0 skipped=0 rescued=0 ignored=0\n",
        0,
    ),
    # `a` fails on both and is rescued; `u` holds on h1 at the second attempt, and on h2 at neither of two.
    "until": (
        {
            "tasks": [
                {
                    "block": [{"command": "a"}],
                    "rescue": [{"command": "u", "register": "r", "until": "r.rc == 0", "retries": 1}],
                    "always": [{"debug": {"msg": "d"}}],
                }
            ]
        },
        {"h1": [FAILED, AGAIN, OK], "h2": [FAILED, AGAIN, AGAIN]},
        "h1 : ok=2 changed=1 unreachable=0 failed=0 skipped=0 rescued=1 ignored=0\n"
        "h2 : ok=1 changed=0 unreachable=0 failed=1 skipped=0 rescued=1 ignored=0\n",
        2,
    ),
}

# A run by several workers, each call of which leaves a mark.
HOSTS = ["h1", "h2", "h3", "h4", "h5"]
WORKERS = [1, 2, 5]
MARKS = "#!/bin/sh\n: >\"marks/$1\"\necho '{\"ping\": \"pong\"}'\n"
FILES |= {
    "pings": json.dumps([{"hosts": "all", "tasks": [{"ping": None}]}]),
    "five": json.dumps({"all": {"hosts": HOSTS}}),
}

ACCEPTED = Outcome(0, b"accepted budget 1\n", b"")
RECAP = Outcome(0, b"h1 : ok=2 changed=1 unreachable=0 failed=0 skipped=0 rescued=0 ignored=0\n", b"")
ACCEPTED_OF_THREE = Outcome(0, b"accepted budget 3\n", b"")
PONGS = Outcome(
    0, "".join(f"{host} : ok=1 changed=0 unreachable=0 failed=0 skipped=0 rescued=0 ignored=0\n" for host in HOSTS).encode(), b""
)
WANT = Outcome(3, b"", b"playcheck: want of memory\n")
NO_THREAD = Outcome(3, b"", b"playcheck: no thread\n")
HANGS = Outcome(-1, b"", b"it hangs")

# Of each program of tests those that make calls by hand and judge them themselves, and what each of these may say where an
# allocation was refused; each of it has to be said of some allocation.
BY_HAND = {
    "pb_tests_tests": {"refusals::a_refused_give_and_a_stop": [b"give refused\n"]},
    "pb_pool_tests_tests": {
        "refusals::a_board_whose_calls_are_made_again": [
            b"open refused\n",
            b"take refused\n",
            b"give refused\n",
            b"give that asks again refused\n",
        ],
        "refused_pools::two_workers_answer_from_a_script": [b"no runners\n", b"no memory\n", b"no thread\n"],
        "refused_pools::an_answer_that_is_refused_fails_its_task": [
            b"no runners\n",
            b"no memory\n",
            b"no thread\n",
            b"no answer\n",
        ],
    },
}


def compiler():
    """The first that is here, and what it needs to link; the kit's own is the last."""
    for name in ["cc", "gcc", "clang"]:
        if shutil.which(name):
            return [name]
    page = subprocess.run(["rt", "doc"], capture_output=True, text=True, check=True).stdout.strip()
    return [Path(page).parent / "toolchain/bin/clang", "--target=x86_64-unknown-linux-gnu", "-nostdlib", "-fuse-ld=lld"]


def build(folder):
    """The library that refuses an allocation of the program that it is loaded into."""
    library = os.path.join(folder, "refuse.so")
    # What it defines is known to compilers, and by another type.
    flags = ["-shared", "-fPIC", "-O2", "-fno-builtin"]
    subprocess.run([*compiler(), *flags, "-o", library, TESTS / "refuse.c"], check=True)
    return library


def files_of(name, play, answers):
    return {
        f"{name}-book": json.dumps([{"hosts": "all"} | play]),
        f"{name}-inventory": json.dumps({"all": {"hosts": list(answers)}}),
        f"{name}-answers": json.dumps(answers),
    }


def runs():
    """The words of each run, and its outcome."""
    yield RUN, RECAP
    for name, (_, answers, recap, status) in BOOKS.items():
        words = ["run", f"{name}-book", "-i", f"{name}-inventory", "--answers", f"{name}-answers"]
        for forks in ["1", "2"] if len(answers) > 1 else ["1"]:
            yield [*words, "-f", forks], Outcome(status, recap.encode(), b"")
    book, inventory, answers = (str(SITE / f"{name}.json") for name in ["book", "inventory", "answers"])
    yield ["run", book, "-i", inventory, "--answers", answers], Outcome(0, SITE_RECAP.encode(), b"")


@dataclass(frozen=True)
class Tried:
    is_refused: bool  # whether the allocation was made, which was refused then
    made: int  # how many it made, where it came to its end
    outcome: Outcome


def refused(library, folder, words, number):
    """A run with the allocation of that number refused; with 0 none is."""
    env = {"LD_PRELOAD": library, "REFUSE": str(number)}
    how = {"cwd": folder, "env": env, "stdin": subprocess.DEVNULL, "capture_output": True}
    try:
        done = subprocess.run(words, timeout=TIMEOUT, check=False, **how)
    except subprocess.TimeoutExpired:
        return Tried(False, 0, HANGS)
    told = TOLD.search(done.stderr)
    stderr = TOLD.sub(b"", done.stderr.replace(REFUSED, b"", 1))
    outcome = Outcome(done.returncode, done.stdout, stderr)
    return Tried(REFUSED in done.stderr, int(told[1]) if told else 0, outcome)


def tries_of(library, folder, words, number):
    """Where its threads came to fewer allocations than in another run, it is tried some times more."""
    found = [refused(library, folder, words, number)]
    while not found[-1].is_refused and found[-1].outcome != HANGS and len(found) < TIMES:
        found.append(refused(library, folder, words, number))
    return [(number, tried) for tried in found]


def by_halves(library, folder, words):
    """The last allocation of a run that ends without telling how many it made."""
    least, most = 0, MOST
    while most - least > 1:
        middle = (least + most) // 2
        is_made = refused(library, folder, words, middle).is_refused
        least, most = (middle, most) if is_made else (least, middle)
    return least


def outcomes(library, folder, words):
    """Each number of a refused allocation that is tried, with what is found: up to the most that a run makes in which none is
    refused, which may depend on the order of its threads, or to the first that hangs; and 0, with none refused. Where one is,
    there may be more, since what was refused may be asked a second time."""
    found = [(0, refused(library, folder, words, 0)) for _ in range(TIMES)]
    last = max(tried.made for _, tried in found) or by_halves(library, folder, words)
    step, following = 1 + last // MOST_TRIED, 1
    with ThreadPoolExecutor(os.cpu_count() or 1) as pool:
        while following <= last < MOST:
            numbers = range(following, last + 1, step)
            following = numbers[-1] + step
            for tries in pool.map(lambda number: tries_of(library, folder, words, number), numbers):
                found += tries
                if tries[-1][1].outcome == HANGS:
                    pool.shutdown(cancel_futures=True)
                    return found
            last = max(last, *(tried.made for _, tried in found if not tried.is_refused))
    if last >= MOST:
        raise RuntimeError(f"{words[0]} made {last} allocations")
    return found


def seldom_refused(seen):
    """What is to be said where no number was tried, or few of them were refused."""
    numbers = {number for number, _ in seen if number}
    count = len({number for number, tried in seen if tried.is_refused})
    return [] if numbers and 10 * count >= 9 * len(numbers) else [f"of {len(numbers)} allocations {count} were refused"]


def program_failures(library, folder, words, answer):
    """How many refusals were tried, and what is to be said of those that went wrong."""
    seen = outcomes(library, folder, words)
    call = " ".join(words[1:])
    # Something may be wanted only where an allocation was refused; an allocation of a run may be one for a thread.
    wants = [WANT, NO_THREAD] if words[1] == "run" else [WANT]
    is_good = [tried.outcome == answer or (tried.is_refused and tried.outcome in wants) for _, tried in seen]
    wrong = [(number, tried.outcome) for (number, tried), good in zip(seen, is_good, strict=True) if not good]
    said = [f"refused-{number} {call}\n  got: {outcome}" for number, outcome in wrong]
    said += [f"refused {call}\n  {text}" for text in seldom_refused(seen)]
    if WANT not in [tried.outcome for _, tried in seen]:
        said.append(f"refused {call}\n  never: {WANT}")
    return len(seen), said


def is_passed(tried, sayings):
    """A test by hand says something only where an allocation was refused."""
    stderr = tried.outcome.stderr
    return tried.outcome.status == 0 and (not stderr or (tried.is_refused and stderr in sayings))


def by_hand_failures(library, folder, tests, name, sayings):
    """The same of a test by hand."""
    seen = outcomes(library, folder, [tests, name])
    said = [f"refused-{number} {name}\n  got: {it.outcome}" for number, it in seen if not is_passed(it, sayings)]
    said += [f"refused {name}\n  {text}" for text in seldom_refused(seen)]
    found = {tried.outcome.stderr for _, tried in seen}
    said += [f"refused {name}\n  never: {text}" for text in sayings if text not in found]
    return len(seen), said


def threads_refused(library, folder, program, workers, number):
    """What is to be said of a run of five hosts whose thread of that number is refused; with 0 none is."""
    marks = Path(folder, "marks")
    shutil.rmtree(marks, ignore_errors=True)
    marks.mkdir()
    words = [program, "run", "pings", "-i", "five", "--modules", "modules", "-f", str(workers)]
    env = {"LD_PRELOAD": library, "REFUSE_THREAD": str(number)}
    how = {"cwd": folder, "env": env, "stdin": subprocess.DEVNULL, "capture_output": True}
    try:
        done = subprocess.run(words, timeout=TIMEOUT, check=False, **how)
    except subprocess.TimeoutExpired:
        return [f"thread {number} of {workers}: it hangs"]
    stderr = TOLD.sub(b"", done.stderr.replace(THREAD_REFUSED, b"", 1))
    found = Outcome(done.returncode, done.stdout, stderr), THREAD_REFUSED in done.stderr, sorted(os.listdir(marks))
    # The threads of a run are as many as its workers, so the one behind the last is never asked for.
    wanted = (NO_THREAD, True, []) if 0 < number <= workers else (PONGS, False, HOSTS)
    return [] if found == wanted else [f"thread {number} of {workers}\n  wanted: {wanted}\n  got: {found}"]


def thread_failures(library, folder, program):
    """Each thread refused in turn, with 1, 2 and 5 workers: how many were tried, and what is to be said."""
    module = Path(folder, "modules", "ping")
    module.parent.mkdir()
    module.write_text(MARKS, encoding="utf-8")
    module.chmod(0o755)
    tried = [(workers, number) for workers in WORKERS for number in range(workers + 2)]
    return len(tried), [text for each in tried for text in threads_refused(library, folder, program, *each)]


def refused_failures(program, programs_of_tests):
    """Of all of these: how many were tried, and what is to be said."""
    with tempfile.TemporaryDirectory() as folder:
        write_files(folder, FILES)
        for name, (play, answers, _, _) in BOOKS.items():
            write_files(folder, files_of(name, play, answers))
        library = build(folder)
        counts = [
            program_failures(library, folder, [program, *CHECK], ACCEPTED),
            program_failures(library, folder, [program, *CHECK_GROUPS], ACCEPTED_OF_THREE),
            *(program_failures(library, folder, [program, *words], outcome) for words, outcome in runs()),
            thread_failures(library, folder, program),
        ]
        for tests in programs_of_tests:
            by_hand = BY_HAND[os.path.basename(tests)]
            counts += [by_hand_failures(library, folder, tests, *each) for each in by_hand.items()]
    return sum(count for count, _ in counts), [text for _, texts in counts for text in texts]


def main():
    program, *tests = map(os.path.abspath, sys.argv[1:])
    tried, failures = refused_failures(program, tests)
    for said in failures[:SHOWN]:
        print(f"FAILED: {said}")
    if len(failures) > SHOWN:
        print(f"and {len(failures) - SHOWN} more")
    print(f"{max(tried - len(failures), 0)} passed, {len(failures)} failed")
    return 1 if failures else 0


if __name__ == "__main__":
    sys.exit(main())
