# SPDX-License-Identifier: MIT OR Apache-2.0
# Checks of what workers do with modules as programs: python3 tests/worker_checks.py PROGRAM [--threads]. How many programs run
# at once, what each has open, and what is left of them while a long run goes on and behind it. With --threads also that as many
# workers as there are make their calls really at once, which fails with a program that runs on one thread.
import json
import os
import subprocess
import sys
import tempfile
import time
from pathlib import Path

sys.dont_write_bytecode = True

from module_checks import COUNTS, FINE, PING, Room

SECONDS = 120  # of one run at most
GLANCE = 0.01
ALONE = 2  # seconds for which one waits for the other in vain
MEET = 30  # and at most where it comes
HOSTS = 24
CALLS = 20  # of each host, in a long run
# Descriptors that a run may have open: its own, and those of each worker's call.
OWN, OF_A_CALL = 16, 8
WATCHDOGS = 1  # of a run, beside its programs

# It waits for the other host's program: both are here at once, or it says that it was alone.
GATE = """: >"here/$1"
for _ in $(seq {tries}); do
    if [ -e here/h1 ] && [ -e here/h2 ]; then
        echo '{{"ping": "both"}}'
        exit
    fi
    sleep 0.1
done
echo '{{"failed": true, "msg": "alone"}}'
"""

# It counts those that run while it does, itself too.
COUNTER = f""": >"here/$1"
sleep 0.05
set -- "$1" here/*
echo $(($# - 1)) >>counts
rm "here/$1"
echo '{FINE}'
"""

# What it has open itself, as `ls` lists it, which opens the folder.
OPEN = f"""ls /proc/self/fd >"here/$1"
sleep 0.02
echo '{FINE}'
"""
OPEN_WANTED = ["0", "1", "2", "3"]

# What the run has open while it asks.
ASKER = f"""set -- /proc/$PPID/fd/*
echo $# >>counts
echo '{FINE}'
"""


class Crew(Room):
    """The files of a run of several hosts, whose module is one program."""

    def __init__(self, program, folder, hosts, text):
        super().__init__(program, folder)
        self.hosts = [f"h{number}" for number in range(1, hosts + 1)]
        self.write("inventory", json.dumps({"all": {"hosts": self.hosts}}))
        self.module("ping", f"#!/bin/sh\n{text}")
        (self.folder / "here").mkdir()

    def start(self, forks, book=PING):
        self.write("book", json.dumps(book))
        words = [self.program, "run", "book", "-i", "inventory", "--modules", "modules", "-f", str(forks)]
        given = {"cwd": self.folder, "stdin": subprocess.DEVNULL, "stdout": subprocess.PIPE, "stderr": subprocess.PIPE}
        return subprocess.Popen(words, text=True, **given)

    def run_with(self, forks, book=PING):
        return self.ended(self.start(forks, book))

    def ended(self, process):
        """What it printed, and its status."""
        try:
            stdout, stderr = process.communicate(timeout=SECONDS)
        except subprocess.TimeoutExpired:
            process.kill()
            process.communicate()
            return "it hangs", "", None
        return stdout, stderr, process.returncode

    def counts(self):
        return [int(line) for line in (self.folder / "counts").read_text(encoding="utf-8").split()]


def recap(hosts):
    """The lines of these hosts, each with the counts that aren't 0."""
    return "".join(
        f"{host} : " + " ".join(f"{name}={counts.get(name, 0)}" for name in COUNTS) + "\n" for host, counts in hosts.items()
    )


def wants(wanted, found):
    return "" if wanted == found else f"wanted {wanted}, found {found}"


def all_ok(crew, found, count=1):
    return wants((recap({host: {"ok": count} for host in crew.hosts}), "", 0), found)


# Two at a gate.


def gate(program, folder, forks, seconds):
    crew = Crew(program, folder, 2, GATE.format(tries=10 * seconds))
    return crew, crew.run_with(forks)


def one_alone(program, folder):
    """With one worker the first waits in vain, and the second finds what the first has left."""
    _, found = gate(program, folder, 1, ALONE)
    return wants((recap({"h1": {"failed": 1}, "h2": {"ok": 1}}), "", 2), found)


def two_at_once(program, folder):
    """Each is ok only if the other came while it waited, or before."""
    return all_ok(*gate(program, folder, 2, MEET))


# How many at once.


def most_at_once(program, folder, forks):
    """The most programs that ran at once, and what is wrong with the run."""
    crew = Crew(program, folder, HOSTS, COUNTER)
    wrong = all_ok(crew, crew.run_with(forks))
    return max(crew.counts(), default=0), wrong


def no_more_than(forks):
    def check(program, folder):
        most, wrong = most_at_once(program, folder, forks)
        return wrong or ("" if most <= forks else f"{most} ran at once")

    return check


def as_many_as(forks):
    """Some of the times that this is tried: the machine may be slow to start them."""

    def check(program, folder):
        seen = []
        for number in range(5):
            room = Path(folder, str(number))
            room.mkdir()
            most, wrong = most_at_once(program, room, forks)
            seen.append(most)
            if wrong or most == forks:
                return wrong
        return f"at most {seen} ran at once"

    return check


# What is open, and what is left.


def opens(program, folder):
    """A program has its input, its output and its errors open, and nothing of the run or of another program."""
    crew = Crew(program, folder, HOSTS, OPEN)
    wrong = all_ok(crew, crew.run_with(5))
    listed = {host: (crew.folder / "here" / host).read_text(encoding="utf-8").split() for host in crew.hosts}
    return wrong or wants({host: OPEN_WANTED for host in crew.hosts}, listed)


def children(number):
    """The states of the processes that a process has begun and that aren't gone, of those that wait to be asked for too."""
    states = []
    for path in Path("/proc").glob("[0-9]*/stat"):
        try:
            state, parent = path.read_text(encoding="utf-8", errors="replace").rpartition(")")[2].split()[:2]
        except OSError:
            continue
        if int(parent) == number:
            states.append(state)
    return states


def stays_in(folder):
    """The processes that work in that folder."""
    found = []
    for path in Path("/proc").glob("[0-9]*/cwd"):
        try:
            if os.path.samefile(path, folder):
                found.append(path.parent.name)
        except OSError:
            continue
    return found


def watched(process):
    """The most children that it has at once, until it ends."""
    most, last = [], time.monotonic() + SECONDS
    while process.poll() is None and time.monotonic() < last:
        most = max(most, children(process.pid), key=len)
        time.sleep(GLANCE)
    return most


def long_run(forks):
    """While it goes on it has no more children than workers and the watchdog, gone ones among them, and no more descriptors
    from call to call; behind it nothing is left."""

    def check(program, folder):
        crew = Crew(program, folder, HOSTS, ASKER)
        process = crew.start(forks, [{"hosts": "all", "tasks": PING[0]["tasks"] * CALLS}])
        most = watched(process)
        wrong = all_ok(crew, crew.ended(process), CALLS)
        if len(most) > forks + WATCHDOGS:
            wrong = wrong or f"it had children in the states {most}"
        counts = crew.counts()
        if len(counts) != HOSTS * CALLS or max(counts) > OWN + OF_A_CALL * forks:
            wrong = wrong or f"it was asked {len(counts)} times, and had {max(counts)} descriptors open"
        return wrong or ("processes are left" if stays_in(folder) else "")

    return check


CHECKS = [
    ("one worker: one waits alone", one_alone),
    *((f"{forks} workers: no more at once", no_more_than(forks)) for forks in (1, 2, 5)),
    ("what a program has open", opens),
    *((f"a long run of {forks} workers", long_run(forks)) for forks in (1, 5)),
]
OF_THREADS = [
    ("two workers at once", two_at_once),
    *((f"{forks} workers at once", as_many_as(forks)) for forks in (2, 5)),
]


def main():
    program = os.path.abspath(sys.argv[1])
    passed = failed = 0
    for name, check in CHECKS + (OF_THREADS if "--threads" in sys.argv[2:] else []):
        with tempfile.TemporaryDirectory() as folder:
            found = check(program, folder)
        passed, failed = passed + (not found), failed + bool(found)
        if found:
            print(f"FAILED: {name}: {found}")
    print(f"{passed} passed, {failed} failed")
    return 1 if failed else 0


if __name__ == "__main__":
    sys.exit(main())
