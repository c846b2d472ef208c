# SPDX-License-Identifier: MIT OR Apache-2.0
# What the scripts of this folder measure with: processes in rounds, instructions, and lines with bars.
import json
import os
import re
import shutil
import subprocess
import sys
import tempfile
import time
from pathlib import Path
from statistics import median
from typing import NamedTuple

TOP = Path(__file__).resolve().parent.parent
PROGRAM = TOP / "crates/pb_cli/out/pb_cli"
ROUNDS = 21

LOAD = "import json,sys\njson.load(open(sys.argv[1]))"
TIMED_LOAD = """import json,sys,time
began = time.perf_counter()
json.load(open(sys.argv[1]))
print(time.perf_counter() - began)"""

COUNTED = re.compile(r"Collected : (\d+)")


def program_of(words):
    """The program whose path is given, else the one that was built here."""
    program = os.path.abspath(words[0] if words else PROGRAM)
    if not os.access(program, os.X_OK):
        sys.exit(f"{program} isn't there; ./playcheck --help builds it")
    return program


def write(folder, name, value):
    path = os.path.join(folder, name)
    with open(path, "w", encoding="utf-8") as file:
        json.dump(value, file)
    return path


# Processes.


class Run(NamedTuple):
    seconds: float  # of wall time
    processor: float  # seconds of the processor's time
    memory: int  # at most, in KiB
    printed: str


def measured(words, wanted=None, ended=0):
    """One process; its status and what it prints have to be what is wanted."""
    reading, writing = os.pipe()
    taken = [(os.POSIX_SPAWN_DUP2, writing, 1), (os.POSIX_SPAWN_CLOSE, reading)]
    began = time.perf_counter()
    pid = os.posix_spawnp(words[0], words, os.environ, file_actions=taken)
    os.close(writing)
    with os.fdopen(reading, "rb") as file:
        printed = file.read().decode()
    _, status, usage = os.wait4(pid, 0)
    seconds = time.perf_counter() - began
    judge(words, os.waitstatus_to_exitcode(status), printed, wanted, ended)
    return Run(seconds, usage.ru_utime + usage.ru_stime, usage.ru_maxrss, printed)


def memory_of(words, wanted=None, ended=0):
    """The most memory that one process takes, in KiB. What is spawned from here counts this process's own until it begins, so
    GNU time stands between, where it is there."""
    between = shutil.which("time")
    if not between:
        return measured(words, wanted, ended).memory
    with tempfile.NamedTemporaryFile("r") as told:
        done = subprocess.run([between, "-f", "%M", "-o", told.name, *words], capture_output=True, text=True)
        judge(words, done.returncode, done.stdout, wanted, ended)
        return int(told.read().split()[-1])


def judge(words, status, printed, wanted, ended):
    if status != ended or wanted not in (None, printed):
        sys.exit(f"{' '.join(words)}: status {status}, printed {printed[:300]!r}")


def in_rounds(commands, rounds=ROUNDS):
    """Of each command by its name, the figures of its runs.

    Each round runs every command, so that what slows the machine for a while falls on all of them; twice, of which the
    second counts for medians, so that none pays for what ran before it.
    """
    taken = {name: [] for name in commands}
    for _ in range(rounds):
        for name, command in commands.items():
            taken[name] += [measured(*command), measured(*command)]
    return {name: Figures(runs, memory_of(*commands[name])) for name, runs in taken.items()}


class Figures:
    """The median time of every second run of one command, with what it printed; the processor's time of each of its runs;
    and the memory of one more."""

    def __init__(self, every, memory):
        runs = every[1::2]
        self.seconds = median(run.seconds for run in runs)
        self.memory = memory
        self.printed = [run.printed for run in runs]
        self.processor = [run.processor for run in every]


# Instructions.


def can_count():
    return shutil.which("valgrind") is not None


def instructions(words, wanted=None, ended=0):
    """How many instructions one process takes; its status and what it prints have to be what is wanted."""
    return counted(words, "/dev/null", wanted, ended)


def counted(words, path, wanted=None, ended=0):
    tool = ["valgrind", "--tool=callgrind", f"--callgrind-out-file={path}"]
    done = subprocess.run([*tool, *words], capture_output=True, text=True)
    judge(words, done.returncode, done.stdout, wanted, ended)
    return int(COUNTED.search(done.stderr)[1])


class Profile:
    """The instructions of one process, whole and by calls: of each function that another calls, those until it returns."""

    def __init__(self, words, wanted=None, ended=0):
        with tempfile.TemporaryDirectory() as folder:
            path = os.path.join(folder, "profile")
            self.whole = counted(words, path, wanted, ended)
            self.calls = calls_in(path)

    def entering(self, part):
        """Those of the functions whose names begin so, where one is called by a function of another name."""
        return sum(
            count for (caller, callee), count in self.calls.items() if callee.startswith(part) and not caller.startswith(part)
        )


def calls_in(path):
    """From callgrind's file, for each caller and callee the instructions of these calls."""
    names, found, caller, callee, is_call = {}, {}, "", "", False
    with open(path, encoding="utf-8") as lines:
        for text in lines:
            key, _, value = text.rstrip("\n").partition("=")
            if key == "fn":
                caller = named(names, value)
            elif key == "cfn":
                callee = named(names, value)
            elif key == "calls":
                is_call = True
            elif is_call:
                is_call = False
                found[caller, callee] = found.get((caller, callee), 0) + int(text.split()[-1])
    return found


def named(names, value):
    """A function by what stands for it, `(number)`, behind which its name stands the first time."""
    number, _, name = value.partition(" ")
    return names.setdefault(number, name)


# Printing.


def ms(seconds):
    return f"{seconds * 1000:.2f} ms"


def line(name, figure, bar, reached):
    print(f"{name}: {figure}; bar: {bar}; {'reached' if reached else 'not reached'}", flush=True)


def at_most(name, ratio, most, detail):
    line(name, f"{ratio:.2f} times ({detail})", f"at most {most} times", ratio <= most)


def against_json_load(found, name="check", most=3):
    check, process = found["check"], found["python"]
    load = median(float(seconds) for seconds in found["load"].printed)
    detail = f"{ms(check.seconds)} over {ms(process.seconds)}"
    at_most(f"{name} over a process of json.load, time", check.seconds / process.seconds, most, detail)
    at_most(f"{name} over json.load alone, time", check.seconds / load, most, f"{ms(check.seconds)} over {ms(load)}")
    detail = f"{check.memory:,.0f} KiB over {process.memory:,.0f} KiB"
    at_most(f"{name} over a process of json.load, memory", check.memory / process.memory, 4, detail)
