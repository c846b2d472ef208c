# SPDX-License-Identifier: MIT OR Apache-2.0
# Copies of the tree for planted.py, in which tests run with a bug. A bug may remove files or end processes, so the
# tests run where they can write into a folder of their own alone and see no other process.
import os
import shutil
import signal
import subprocess
import sys
import threading
import time
from pathlib import Path
from typing import IO, List, Sequence, Tuple

from planted_sites import Bug

TOP = Path(__file__).resolve().parent.parent
LEFT_OUT = shutil.ignore_patterns(".git", ".mypy_cache", ".pytest_cache", "__pycache__", "out", "proofs", "must-fail",
                                  "packages")
SECONDS = 300  # of one test
# $1 is the folder that can be written, $2 that in which the rest of the words is run. A place that has bars of its own
# keeps them.
CONFINED = """
mount --bind "$1" "$1"
for place in $(cut -d ' ' -f 2 /proc/self/mounts); do
    case $place in "$1" | /dev | /dev/* | /proc | /proc/* | /sys | /sys/*) continue ;; esac
    for bars in ro ro,nosuid,nodev ro,nosuid,nodev,noexec; do
        ! mount -o "remount,bind,$bars" "$place" 2>/dev/null || break
    done
    [ ! -w "$place" ] || { echo "$place can be written" >&2; exit 1; }
done
cd "$2"
shift 2
exec "$@"
"""
Test = Tuple[str, ...]


def confined(room: Path, folder: Path, words: Sequence[str]) -> List[str]:
    user = [] if os.geteuid() == 0 else ["--map-root-user"]
    return ["unshare", *user, "--mount", "--pid", "--fork", "--kill-child", "--mount-proc", "sh", "-euc", CONFINED, "sh",
            str(room), str(folder), *words]


def cannot_confine() -> str:
    """Why nothing keeps a bug in its copy here."""
    if not shutil.which("unshare"):
        return "there is no unshare"
    words = confined(TOP / "tests", TOP, ["sh", "-c", 'test ! -w examples && test -w tests'])
    done = subprocess.run(words, capture_output=True, text=True, check=False)
    return done.stderr.strip() or "unshare keeps nothing" if done.returncode else ""


class Copy:
    """The tree without proofs, and a folder for what its tests write."""

    def __init__(self, folder: Path, program: Path, named: str) -> None:
        self.tree, self.room, self.program, self.named = folder / "tree", folder / "room", program, named
        shutil.copytree(TOP, self.tree, ignore=LEFT_OUT, symlinks=True)
        self.room.mkdir()

    def with_bug(self, bug: Bug, tests: Sequence[Test]) -> str:
        """What the first test says that sees the bug, nothing where none does."""
        path = self.tree / bug.file
        before = path.read_bytes()
        path.write_text(bug.text, encoding="utf-8")
        try:
            return self.run(tests)
        finally:
            path.write_bytes(before)

    def run(self, tests: Sequence[Test]) -> str:
        for test in tests:
            said = self.run_one([self.program.as_posix() if word == self.named else word for word in test])
            if said:
                return said
        return ""

    def run_one(self, words: List[str]) -> str:
        """The first failure that a test tells, or how it ended; nothing where all is well."""
        environment = {**os.environ, "TMPDIR": str(self.room), "PYTHONDONTWRITEBYTECODE": "1"}
        process = subprocess.Popen(confined(self.room, self.tree, [sys.executable, "-u", *words]), env=environment, text=True,
                                   stdout=subprocess.PIPE, stderr=subprocess.STDOUT, stdin=subprocess.DEVNULL,
                                   errors="replace", start_new_session=True)
        timer = threading.Timer(SECONDS, end, [process])
        timer.start()
        try:
            assert process.stdout is not None
            failure = first_failure(process.stdout)
        finally:
            timer.cancel()
            end(process)
        status = process.wait()
        self.clear()
        return failure or (f"{words[0]} ended with {status}" if status else "")

    def clear(self) -> None:
        shutil.rmtree(self.room, ignore_errors=True)
        self.room.mkdir(exist_ok=True)


def first_failure(output: IO[str]) -> str:
    for line in output:
        if line.startswith("FAILED"):
            return line.strip()
    return ""


def end(process: "subprocess.Popen[str]") -> None:
    """Ends what a test started; where it has ended by itself, nothing is left."""
    for _ in range(20):
        if process.poll() is not None:
            return
        time.sleep(0.01)
    os.killpg(process.pid, signal.SIGKILL)
