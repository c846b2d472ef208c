# SPDX-License-Identifier: MIT OR Apache-2.0
# Checks of modules as programs (`run --modules`): python3 tests/module_checks.py PROGRAM. Each row is a program of the test's
# own, in shell, and what is wanted of the run by the rules of crates/pb_process/README.md.
import contextlib
import json
import os
import signal
import subprocess
import sys
import tempfile
import time
from pathlib import Path

SECONDS = 30
PING = [{"hosts": "all", "tasks": [{"ping": None}]}]
# More than 65,536 bytes of arguments, of texts that are each short enough.
LONG = [{"hosts": "all", "tasks": [{"copy": {"content": "x" * 65000, "dest": "/" + "y" * 900}}]}]
NAMED = [{"hosts": "all", "tasks": [{"copy": {"dest": "/tmp/b", "content": "one \"two\"\n"}}]}]
FINE = '{"ping": "pong"}'
UNSTARTED = "playcheck: cannot start modules/ping: {}\n"
COUNTS = ("ok", "changed", "unreachable", "failed", "skipped", "rescued", "ignored")

# The name of a row, the program of `ping`, the counts of the recap that aren't 0, and the status.
ROWS = [
    ("an answer", f"echo '{FINE}'", {"ok": 1}, 0),
    ("an answer that changed", 'echo \'{"ping": "pong", "changed": true}\'', {"ok": 1, "changed": 1}, 0),
    ("it says that it failed", 'echo \'{"failed": true, "msg": "no"}\'', {"failed": 1}, 2),
    ("another status", 'echo \'{"msg": "no"}\'; exit 3', {"failed": 1}, 2),
    ("another status, and not failed", 'echo \'{"ping": "pong", "failed": false}\'; exit 3', {"ok": 1}, 0),
    ("a signal", 'echo \'{"msg": "no"}\'; kill -9 $$', {"failed": 1}, 2),
    ("no JSON", "echo pong", {"failed": 1}, 2),
    ("no object", "echo '[1]'", {"failed": 1}, 2),
    ("no output", ":", {"failed": 1}, 2),
    ("another shape", 'echo \'{"pong": 1}\'', {"failed": 1}, 2),
    ("it can't reach the host", 'echo \'{"unreachable": true}\'', {"unreachable": 1}, 4),
    ("it reads nothing", f"cat; echo '{FINE}'", {"ok": 1}, 0),
    ("what it says beside is dropped", f"echo noise >&2; echo '{FINE}'", {"ok": 1}, 0),
    ("the most that it may write", f"echo '{FINE}'; head -c 1048559 /dev/zero | tr '\\0' ' '", {"ok": 1}, 0),
    ("more than it may write", f"echo '{FINE}'; head -c 1048560 /dev/zero | tr '\\0' ' '", {"failed": 1}, 2),
    ("its child keeps its output open", f"sleep 300 & echo $! >\"$0.pid\"; echo '{FINE}'", {"ok": 1}, 0),
    ("its child keeps its output open, and it ends by a status", "sleep 300 & echo $! >\"$0.pid\"; echo '{}'; exit 3", {"failed": 1}, 2),
    ("its child writes for ever", "while :; do echo yes; done & echo $! >\"$0.pid\"", {"failed": 1}, 2),
    ("it closes its output and goes on", f"echo '{FINE}'; exec >&-; sleep 1", {"ok": 1}, 0),
    ("it writes late", f"sleep 1; echo '{FINE}'", {"ok": 1}, 0),
]


class Room:
    """A folder with the files of one run."""

    def __init__(self, program, folder):
        self.program, self.folder = program, Path(folder)
        (self.folder / "modules").mkdir()
        self.write("inventory", json.dumps({"all": {"hosts": ["h1"]}}))

    def write(self, name, text):
        (self.folder / name).write_text(text, encoding="utf-8")

    def module(self, name, text, mode=0o755):
        self.write(f"modules/{name}", text)
        (self.folder / "modules" / name).chmod(mode)

    def run(self, book):
        self.write("book", json.dumps(book))
        words = [self.program, "run", "book", "-i", "inventory", "--modules", "modules"]
        return subprocess.run(words, cwd=self.folder, capture_output=True, text=True, timeout=SECONDS, check=False)


def recap(counts):
    return "h1 : " + " ".join(f"{name}={counts.get(name, 0)}" for name in COUNTS) + "\n"


def differs(ran, counts, status, told=""):
    """What isn't as it is wanted."""
    wanted = recap(counts), told, status
    found = ran.stdout, ran.stderr, ran.returncode
    return "" if found == wanted else f"wanted {wanted}, found {found}"


def of_row(room, text, counts, status):
    room.module("ping", f"#!/bin/sh\n{text}\n")
    try:
        return differs(room.run(PING), counts, status)
    finally:
        end_left(room)


def end_left(room):
    """Ends what a program of the test left behind."""
    number = room.folder / "modules/ping.pid"
    if number.exists():
        with contextlib.suppress(OSError):
            os.kill(int(number.read_text(encoding="utf-8")), signal.SIGKILL)


def is_missing(room):
    return differs(room.run(PING), {"unreachable": 1}, 4, UNSTARTED.format("No such file or directory"))


def may_not_run(room):
    room.module("ping", f"#!/bin/sh\necho '{FINE}'\n", mode=0o644)
    return differs(room.run(PING), {"unreachable": 1}, 4, UNSTARTED.format("Permission denied"))


def has_no_interpreter(room):
    room.module("ping", f"#!/no/such/interpreter\necho '{FINE}'\n")
    return differs(room.run(PING), {"unreachable": 1}, 4, UNSTARTED.format("No such file or directory"))


def is_not_started(room):
    """Arguments that are too long: nothing is started."""
    room.module("copy", "#!/bin/sh\ntouch started\n")
    found = differs(room.run(LONG), {"failed": 1}, 2)
    return found or ("it was started" if (room.folder / "started").exists() else "")


def is_asked(room):
    """The host's name and the arguments, as compact JSON with its keys by their bytes."""
    room.module("copy", "#!/bin/sh\nprintf '%s|%s|%s' \"$#\" \"$1\" \"$2\" >asked\necho '{\"changed\": true, \"dest\": \"/tmp/b\"}'\n")
    found = differs(room.run(NAMED), {"ok": 1, "changed": 1}, 0)
    asked = (room.folder / "asked").read_text(encoding="utf-8") if (room.folder / "asked").exists() else ""
    wanted = '2|h1|{"content":"one \\"two\\"\\n","dest":"/tmp/b"}'
    return found or ("" if asked == wanted else f"wanted {wanted}, asked {asked}")


def is_ended(room):
    """A program that writes for ever has ended when the run has."""
    room.module("ping", "#!/bin/sh\necho $$ >\"$0.pid\"; while :; do echo yes; done\n")
    found = differs(room.run(PING), {"failed": 1}, 2)
    number = int((room.folder / "modules/ping.pid").read_text(encoding="utf-8"))
    for _ in range(50):
        if not os.path.exists(f"/proc/{number}"):
            return found
        time.sleep(0.1)
    return "it still runs"


def checks():
    for name, text, counts, status in ROWS:
        yield name, lambda room, row=(text, counts, status): of_row(room, *row)
    yield "no such program", is_missing
    yield "no right to run it", may_not_run
    yield "no interpreter", has_no_interpreter
    yield "arguments that are too long", is_not_started
    yield "what it is asked", is_asked
    yield "it has ended", is_ended


def main():
    program = os.path.abspath(sys.argv[1])
    passed = failed = 0
    for name, check in checks():
        with tempfile.TemporaryDirectory() as folder:
            found = check(Room(program, folder))
        passed, failed = passed + (not found), failed + bool(found)
        if found:
            print(f"FAILED: {name}: {found}")
    print(f"{passed} passed, {failed} failed")
    return 1 if failed else 0


if __name__ == "__main__":
    sys.exit(main())
