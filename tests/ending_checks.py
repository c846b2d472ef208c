# SPDX-License-Identifier: MIT OR Apache-2.0
# Checks of how calls and runs end: python3 tests/ending_checks.py PROGRAM [ENDS]. Calls past their time, runs that a signal ends (so
# many, 40 where none is given) at random moments, machines that fall short, outputs that can't be written, and how arguments come to programs.
# What is wanted is what crates/pb_process/README.md says.
import contextlib
import json
import os
import random
import shutil
import signal
import subprocess
import sys
import tempfile
import time
from pathlib import Path
from typing import Callable, Dict, Iterator, List, Optional, Sequence, Tuple

sys.dont_write_bytecode = True

from module_checks import FINE, PING, recap

SECONDS = 60  # of one run at most
ENDS = 40
GRACE = 5  # seconds that a program has where it is asked to end
NOBODY = 65534
MARK = "PLAYCHECK_TEST"  # in the environment of all that one check starts
ENDING = (signal.SIGINT, signal.SIGTERM, signal.SIGHUP)
SHIM = Path(__file__).resolve().parent / "short_of.c"

Ran = subprocess.CompletedProcess
Check = Callable[["Place"], str]


class Place:
    """A folder with a book that pings, its inventory and its modules."""

    def __init__(self, program: str, folder: str) -> None:
        self.program, self.folder = program, Path(folder)
        self.environment = {**os.environ, MARK: folder}
        (self.folder / "modules").mkdir()
        self.hosts(1)
        self.write("book", json.dumps(PING))

    def hosts(self, count: int) -> None:
        self.write("inventory", json.dumps({"all": {"hosts": [f"h{n}" for n in range(1, count + 1)]}}))

    def write(self, name: str, text: str) -> None:
        (self.folder / name).write_text(text, encoding="utf-8")

    def read(self, name: str) -> str:
        found = self.folder / name
        return found.read_text(encoding="utf-8") if found.exists() else ""

    def module(self, text: str, name: str = "ping") -> None:
        self.write(f"modules/{name}", f"#!/bin/sh\n{text}\n")
        (self.folder / "modules" / name).chmod(0o755)

    def words(self, *more: str) -> List[str]:
        return [self.program, "run", "book", "-i", "inventory", "--modules", "modules", *more]

    def run(self, words: Sequence[str], environment: Optional[Dict[str, str]] = None) -> "Ran[str]":
        return subprocess.run(words, cwd=self.folder, capture_output=True, text=True, timeout=SECONDS, check=False,
                              env={**self.environment, **(environment or {})})

    def shell(self, before: str, *more: str) -> "Ran[str]":
        """The run, from a shell that does something before."""
        return self.run(["bash", "-c", f'{before}; exec "$@"', "bash", *self.words(*more)])

    def start(self, *more: str) -> "subprocess.Popen[str]":
        """The run, which signals end whatever the caller ignores."""
        return subprocess.Popen(self.words(*more), cwd=self.folder, env=self.environment, text=True,
                                stdout=subprocess.PIPE, stderr=subprocess.PIPE, preexec_fn=heed_signals)

    def left(self) -> List[str]:
        """The processes that this place started and that still run, but for those of the run itself."""
        return [found for found in marked(str(self.folder)) if int(found) != os.getpid()]

    def left_after(self, seconds: float) -> List[str]:
        """Those that still run after so long."""
        until = time.monotonic() + seconds
        while self.left() and time.monotonic() < until:
            time.sleep(0.05)
        return self.left()


def heed_signals() -> None:
    for number in ENDING:
        signal.signal(number, signal.SIG_DFL)


def marked(mark: str) -> List[str]:
    wanted, found = f"{MARK}={mark}".encode(), []
    for process in os.listdir("/proc"):
        if process.isdigit():
            with contextlib.suppress(OSError), open(f"/proc/{process}/environ", "rb") as file:
                if wanted in file.read().split(b"\0"):
                    found.append(process)
    return found


def is_not(found: object, wanted: object) -> str:
    return "" if found == wanted else f"wanted {wanted!r}, found {found!r}"


def ended(ran: "Ran[str]", counts: Dict[str, int], status: int, told: str = "") -> str:
    return is_not((ran.stdout, ran.stderr, ran.returncode), (recap(counts), told, status))


def all_fine(ran: "Ran[str]", hosts: int) -> str:
    """Each host is ok, whatever is told."""
    return is_not((ran.returncode, ran.stdout.count("ok=1 "), len(ran.stdout.splitlines())), (0, hosts, hosts))


# --- a call has an end ---

def too_slow(place: Place) -> str:
    place.module("echo $$ >asked; trap 'echo ended >>asked; exit 3' TERM; sleep 60 & wait")
    began = time.monotonic()
    found = ended(place.run(place.words("--timeout", "1")), {"failed": 1}, 2)
    took = time.monotonic() - began
    return found or is_not("ended" in place.read("asked") and 1 <= took < 4, True) or is_not(place.left(), [])


def too_slow_and_deaf(place: Place) -> str:
    place.module("trap '' TERM; (trap '' TERM; sleep 60) & sleep 60")
    began = time.monotonic()
    found = ended(place.run(place.words("--timeout", "1")), {"failed": 1}, 2)
    took = time.monotonic() - began
    return found or is_not(GRACE <= took < 4 * GRACE, True) or is_not(place.left_after(1), [])


def stopped_by_itself(place: Place) -> str:
    place.module("exec >&-; kill -STOP $$")
    return ended(place.run(place.words("--timeout", "1")), {"failed": 1}, 2) or is_not(place.left_after(1), [])


def in_time(place: Place) -> str:
    place.module(f"sleep 0.2; echo '{FINE}'")
    return ended(place.run(place.words("--timeout", "20")), {"ok": 1}, 0)


def writes_for_ever(place: Place) -> str:
    """Past the most output all that it started is ended."""
    place.module("(while :; do echo yes; done) & while :; do echo yes; done")
    return ended(place.run(place.words()), {"failed": 1}, 2) or is_not(place.left_after(2), [])


def chatty_child(place: Place) -> str:
    """What a child writes once the program has ended is neither waited for nor read."""
    place.module(f"echo '{FINE}'; (sleep 0.4; while :; do echo noise; sleep 0.01; done) &")
    began = time.monotonic()
    found = ended(place.run(place.words()), {"ok": 1}, 0)
    took = time.monotonic() - began
    kill_left(place)
    return found or is_not(took < 2, True)


def kill_left(place: Place) -> None:
    for process in place.left():
        with contextlib.suppress(OSError):
            os.kill(int(process), signal.SIGKILL)


# --- a run that a signal ends ---

def by_a_signal(place: Place, number: int, moment: float) -> str:
    """Nothing of the run is left, hosts with calls out are named, and the process ended by that signal."""
    place.hosts(30)
    place.module(f"case $1 in h?) echo '{FINE}'; exit;; esac; sleep 30 & sleep 30")
    process = place.start("-f", "12")
    time.sleep(moment)
    process.send_signal(number)
    out, told = process.communicate(timeout=SECONDS)
    left = place.left_after(GRACE + 3)
    kill_left(place)
    # A process may be ended before it has begun anything; what it names are hosts with calls out.
    named = told.startswith("playcheck: unfinished calls on h") or told == ""
    return is_not((process.returncode, out, named, left), (-number, "", True, []))


def ends(count: int) -> Iterator[Tuple[str, Check]]:
    made = random.Random(20261201)
    for which in range(count):
        number = made.choice([*ENDING, signal.SIGKILL])
        moment = made.uniform(0, 0.6)
        yield (f"a signal {number.name}, {which}: after {moment:.3f} s",
               lambda place, number=number, moment=moment: by_a_signal(place, number, moment))


def names_unfinished(place: Place) -> str:
    place.hosts(3)
    place.module(f"case $1 in h2) echo '{FINE}'; exit;; esac; : >\"$1.out\"; sleep 30")
    process = place.start()
    until = time.monotonic() + SECONDS
    while not all((place.folder / f"{host}.out").exists() for host in ("h1", "h3")) and time.monotonic() < until:
        time.sleep(0.02)
    process.terminate()
    _, told = process.communicate(timeout=SECONDS)
    first, _, hosts = told.strip().partition(" on ")
    return is_not((first, sorted(hosts.split())), ("playcheck: unfinished calls", ["h1", "h3"])) or is_not(place.left_after(1), [])


def leaves_servers(place: Place) -> str:
    """What a program started on purpose goes on where the run ends well."""
    place.module(f"sleep 30 >/dev/null & echo '{FINE}'")
    found = ended(place.run(place.words()), {"ok": 1}, 0)
    left = len(place.left())
    kill_left(place)
    return found or is_not(left, 1)


# --- this machine falls short ---

def few_descriptors(place: Place) -> str:
    place.hosts(40)
    place.module(f"sleep 0.02; echo '{FINE}'")
    ran = place.shell("ulimit -n 20", "-f", "64")
    told = "playcheck: 3 workers: this machine's limits leave no room for 64\n"
    return all_fine(ran, 40) or is_not(ran.stderr, told)


def few_processes(place: Place) -> str:
    """For a user with few processes, which root isn't; the programs themselves start none."""
    place.hosts(40)
    place.module(f"echo '{FINE}'")
    words = ["setpriv", f"--reuid={NOBODY}", f"--regid={NOBODY}", "--clear-groups"] if os.geteuid() == 0 else []
    for path in (place.folder, place.folder / "modules"):
        path.chmod(0o755)
    shutil.copy(place.program, place.folder / "program")
    run = place.words("-f", "64")
    run[0] = str(place.folder / "program")
    return all_fine(place.run([*words, "bash", "-c", 'ulimit -u 64; exec "$@"', "bash", *run]), 40)


def short_starts(place: Place, error: str) -> str:
    """One start of a program in ten fails for want of something that comes back."""
    place.hosts(40)
    place.module(f"echo '{FINE}'")
    library = place.folder / "short_of.so"
    compiler = next(found for found in ("cc", "gcc", "clang") if shutil.which(found))
    subprocess.run([compiler, "-shared", "-fPIC", "-o", library, SHIM], check=True)
    ran = place.run(place.words("-f", "8"), {"LD_PRELOAD": str(library), "SHORT_OF": error, "SHORT_EACH": "10"})
    return all_fine(ran, 40) or is_not(ran.stderr, "")


def no_starts(place: Place) -> str:
    """What can't be started for 5 s is unreachable, and is told once."""
    place.hosts(3)
    place.module(f"echo '{FINE}'")
    library = place.folder / "short_of.so"
    compiler = next(found for found in ("cc", "gcc", "clang") if shutil.which(found))
    subprocess.run([compiler, "-shared", "-fPIC", "-o", library, SHIM], check=True)
    began = time.monotonic()
    ran = place.run(place.words(), {"LD_PRELOAD": str(library), "SHORT_OF": "11", "SHORT_EACH": "1", "SHORT_BUT": "1"})
    took = time.monotonic() - began
    told = "playcheck: cannot start modules/ping: Resource temporarily unavailable\n"
    return is_not((ran.returncode, ran.stderr, ran.stdout.count("unreachable=1"), GRACE <= took < 3 * GRACE), (4, told, 3, True))


def is_told_once(place: Place) -> str:
    place.hosts(20)
    ran = place.run(place.words())
    return is_not((ran.returncode, ran.stderr), (4, "playcheck: cannot start modules/ping: No such file or directory\n"))


def children_ignored(place: Place) -> str:
    place.module(f": >asked; echo '{FINE}'")
    ran = place.shell("trap '' CHLD")
    return is_not((ran.returncode, ran.stdout, "SIGCHLD is ignored" in ran.stderr, place.read("asked")), (64, "", True, ""))


def bad_folder(place: Place, name: str, reason: str) -> str:
    """It is told before anything is read."""
    words = place.words()
    words[words.index("book")], words[-1] = "no_book", name
    ran = place.run(words)
    shown = name.replace("\x1b", "\\x1b").replace("\u202e", "\\u202e").replace("\n", "\\x0a")
    return is_not((ran.returncode, ran.stdout, ran.stderr), (64, "", f"playcheck: cannot read {shown}: {reason}\n"))


# --- an output that can't be written ---

def full_output(place: Place) -> str:
    place.module(f": >asked; echo '{FINE}'")
    with open("/dev/full", "w", encoding="utf-8") as full:
        ran = subprocess.run(place.words(), cwd=place.folder, stdout=full, stderr=subprocess.PIPE, text=True,
                             timeout=SECONDS, check=False, env=place.environment)
    wanted = recap({"ok": 1}) + "playcheck: the output cannot be written\n"
    return is_not((ran.returncode, ran.stderr, (place.folder / "asked").exists()), (64, wanted, True))


def past_the_limit_of_files(place: Place) -> str:
    place.module(f"echo '{FINE}'")
    ran = place.shell("exec >recap; ulimit -f 0")
    return is_not((ran.returncode, ran.stderr), (64, recap({"ok": 1}) + "playcheck: the output cannot be written\n"))


# --- arguments on standard input ---

LONG = "x" * 65000


def by_input(place: Place) -> str:
    place.write("book", json.dumps([{"hosts": "all", "tasks": [{"copy": {"dest": "/tmp/b", "content": "one \"two\"\n"}}]}]))
    place.module("printf '%s|%s|' \"$#\" \"$1\" >asked; cat >>asked; tr '\\0' ' ' </proc/$$/cmdline >seen\n"
                 "echo '{\"changed\": true, \"dest\": \"/tmp/b\"}'", "copy")
    found = ended(place.run(place.words("--arguments", "stdin")), {"ok": 1, "changed": 1}, 0)
    return (found or is_not(place.read("asked"), '1|h1|{"content":"one \\"two\\"\\n","dest":"/tmp/b"}')
            or is_not("two" in place.read("seen"), False))


def unread_input(place: Place) -> str:
    """A program that reads none of a long input."""
    place.write("book", json.dumps([{"hosts": "all", "tasks": [{"copy": {"dest": "/" + "y" * 900, "content": LONG}}]}]))
    place.module("echo '{\"dest\": \"/tmp/b\"}'", "copy")
    return ended(place.run(place.words("--arguments", "stdin")), {"ok": 1}, 0)


def answers_before_it_reads(place: Place) -> str:
    """It writes more than a pipe holds before it reads more than a pipe holds."""
    place.write("book", json.dumps([{"hosts": "all", "tasks": [{"copy": {"dest": "/" + "y" * 900, "content": LONG}}]}]))
    place.module("head -c 900000 /dev/zero | tr '\\0' ' '; cat >asked; echo '{\"dest\": \"/tmp/b\"}'", "copy")
    found = ended(place.run(place.words("--arguments", "stdin")), {"ok": 1}, 0)
    return found or is_not(len(place.read("asked")) > 65_536, True)


def checks(count: int) -> Iterator[Tuple[str, Check]]:
    yield "a call past its time", too_slow
    yield "a call past its time that doesn't end", too_slow_and_deaf
    yield "a call that stops itself", stopped_by_itself
    yield "a call in time", in_time
    yield "more than it may write, and its children", writes_for_ever
    yield "a child that writes late", chatty_child
    yield "hosts with calls out are named", names_unfinished
    yield "what a program leaves on purpose", leaves_servers
    yield "few descriptors", few_descriptors
    if shutil.which("setpriv") or os.geteuid() != 0:
        yield "few processes", few_processes
    if any(shutil.which(found) for found in ("cc", "gcc", "clang")):
        for name, error in (("EAGAIN", "11"), ("ENOMEM", "12"), ("ENFILE", "23"), ("EMFILE", "24"), ("ETXTBSY", "26")):
            yield f"{name} in one start of ten", lambda place, error=error: short_starts(place, error)
        yield "no start for 5 s", no_starts
    yield "a cause is told once", is_told_once
    yield "ends that are ignored", children_ignored
    yield "no folder of modules", lambda place: bad_folder(place, "nowhere", "No such file or directory")
    yield "a file as the folder of modules", lambda place: bad_folder(place, "inventory", "Not a directory")
    yield "no name for the folder of modules", lambda place: bad_folder(place, "", "No such file or directory")
    yield "a name that would forge", lambda place: bad_folder(place, "a\x1b[31m\u202e\n::error::b", "No such file or directory")
    yield "a full output", full_output
    yield "an output past the limit of files", past_the_limit_of_files
    yield "arguments by standard input", by_input
    yield "an input that isn't read", unread_input
    yield "an answer before the input is read", answers_before_it_reads
    yield from ends(count)


def main() -> int:
    program = os.path.abspath(sys.argv[1])
    count = int(sys.argv[2]) if len(sys.argv) > 2 else ENDS
    passed = failed = 0
    for name, check in checks(count):
        with tempfile.TemporaryDirectory() as folder:
            found = check(Place(program, folder))
        passed, failed = passed + (not found), failed + bool(found)
        if found:
            print(f"FAILED: {name}: {found}")
    print(f"{passed} passed, {failed} failed")
    return 1 if failed else 0


if __name__ == "__main__":
    sys.exit(main())
