# SPDX-License-Identifier: MIT OR Apache-2.0
# What one check of the program is, and how it is run: files in a folder of its own, words, and what is wanted.
import base64
import os
import subprocess
import tempfile
import threading
import time
from dataclasses import dataclass, field, replace
from typing import Callable, Optional

TIMEOUT = 60
FOLDER = object()  # stands for a folder, in the place of a file's bytes
PAUSE = 0.02
TIMES = 3
PAIRS = 12
GLANCE = 0.001


@dataclass(frozen=True)
class Pieces:
    """In the place of a file's bytes: a pipe into which these texts are written one by one, with a pause after each."""

    texts: tuple


@dataclass
class Outcome:
    status: int
    stdout: bytes
    stderr: bytes
    seconds: float = 0.0  # of the processor's time
    megabytes: float = 0.0  # at most, in memory
    growth: float = 0.0  # see Growth

    def __str__(self):
        used = f"{self.seconds:.3f} s, {self.megabytes:.0f} MB, growth {self.growth:.2f}"
        return f"status {self.status}, stdout {short(self.stdout)}, stderr {short(self.stderr)}, {used}"


@dataclass
class Check:
    id: str
    words: list
    judge: Callable  # of an Outcome: an empty text where it is as wanted, else what is wanted
    files: dict = field(default_factory=dict)  # name to content, see bytes_of
    stdout: Optional[str] = None  # a file that takes the standard output
    stdin: Optional[str] = None  # which of the files is the standard input; none is empty

    def run(self, program):
        return outcome_of(program, self)


@dataclass
class Cost(Check):
    """The first of some runs that is judged to be good, else the last: the machine may have slowed one down."""

    def run(self, program):
        for _ in range(TIMES):
            outcome = outcome_of(program, self)
            if not self.judge(outcome):
                break
        return outcome


@dataclass
class Growth(Check):
    """How many times as long it takes where its files are larger, by the least of all runs of each so far: the
    machine may slow a run down and never speeds one up, so pairs of runs are added until they are judged to be good."""

    larger: dict = field(default_factory=dict)

    def run(self, program):
        large_files = replace(self, files=self.larger)
        small, large = outcome_of(program, self), outcome_of(program, large_files)
        for _ in range(PAIRS - 1):
            if not self.judge(grown(small, large)):
                break
            small = faster(small, outcome_of(program, self))
            large = faster(large, outcome_of(program, large_files))
        return grown(small, large)


def faster(one, other):
    return min(one, other, key=lambda outcome: outcome.seconds)


def grown(small, large):
    return replace(large, growth=large.seconds / small.seconds)


def short(data, most=300):
    return repr(data if len(data) <= most else data[:most] + b"..")


def bytes_of(content):
    """The bytes of a file: bytes, a text, {"base64": ..} or {"gen": [piece, ..]}."""
    if isinstance(content, bytes):
        return content
    if isinstance(content, str):
        return content.encode()
    if "base64" in content:
        return base64.b64decode(content["base64"])
    return "".join(piece_of(piece) for piece in content["gen"]).encode()


def piece_of(piece):
    if isinstance(piece, str):
        return piece
    if piece[0] == "repeat":
        return piece[1] * piece[2]
    if piece[0] == "count":
        _, text, first, end, between = piece
        return between.join(text.replace("#", str(n)) for n in range(first, end))
    raise ValueError(f"an unknown piece: {piece[0]}")


def write_files(folder, files):
    for name, content in files.items():
        path = os.path.join(folder, name)
        if content is FOLDER:
            os.mkdir(path)
            continue
        if isinstance(content, Pieces):
            os.mkfifo(path)
            threading.Thread(target=feed, args=(path, content.texts), daemon=True).start()
            continue
        with open(path, "wb") as file:
            file.write(bytes_of(content))


def feed(path, texts):
    with open(path, "wb", buffering=0) as pipe:
        for text in texts:
            pipe.write(text.encode())
            time.sleep(PAUSE)


def outcome_of(program, check, seconds=TIMEOUT):
    with tempfile.TemporaryDirectory() as folder, tempfile.TemporaryFile() as said, tempfile.TemporaryFile() as told:
        write_files(folder, check.files)
        given = os.path.join(folder, check.stdin) if check.stdin else os.devnull
        with open(check.stdout or os.devnull, "wb") as taken, open(given, "rb") as asked:
            child = subprocess.Popen(
                [program, *check.words],
                cwd=folder,
                stdin=asked,
                stdout=taken if check.stdout else said,
                stderr=told,
            )
            usage = waited(child, seconds)
        return Outcome(
            child.returncode,
            whole(said),
            whole(told),
            usage.ru_utime + usage.ru_stime,
            usage.ru_maxrss / 1024,
        )


def waited(child, seconds):
    """Waits so long for the program's end, and answers what it used."""
    last = time.monotonic() + seconds
    while True:
        ended, status, usage = os.wait4(child.pid, os.WNOHANG)
        if ended:
            child.returncode = os.waitstatus_to_exitcode(status)
            return usage
        if time.monotonic() > last:
            child.kill()
            child.wait()
            raise subprocess.TimeoutExpired(child.args, seconds)
        time.sleep(GLANCE)


def whole(file):
    file.seek(0)
    return file.read()


def exactly(stdout, status):
    """Wants these bytes on standard output, and this status."""
    if isinstance(stdout, str):
        stdout = stdout.encode()

    def judge(outcome):
        if outcome.stdout == stdout and outcome.status == status:
            return ""
        return f"status {status}, stdout {short(stdout)}"

    return judge
