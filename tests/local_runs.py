# SPDX-License-Identifier: MIT OR Apache-2.0
# Runs of the book of examples/local with its modules, whose recaps examples/local/README.md works out, and what can be
# seen of the command lines of this machine meanwhile.
import json
import os
import secrets
import shutil
from pathlib import Path
from typing import Callable, Iterator, List, Set, Tuple

from local_room import LOCAL, STDIN, TOP, WORD, Check, Outcome, Room, differs, otherwise
from local_ssh import RUNS, SSH, fake_ssh
from page_checks import COMMAND, FENCE, LAUNCHER

COUNTS = ("ok", "changed", "unreachable", "failed", "skipped", "rescued", "ignored")
# What the modules start, and ssh.
COPYING = {"python3", "cmp", "mktemp", "chmod", "mv"}
STARTED = (*sorted(COPYING), "dirname", "stat", "sed", "cat", "ssh")


def recap(**counts: int) -> str:
    return "localhost : " + " ".join(f"{name}={counts.get(name, 0)}" for name in COUNTS) + "\n"


BUDGET = "accepted budget 15\n"
FIRST = recap(ok=13, changed=8, rescued=1)
AGAIN = recap(ok=8, skipped=3)
ANOTHER_PORT = recap(ok=9, changed=2, skipped=3)
NO_FOLDER = recap(ok=2, failed=1)
CONFIGURATION = f"port = 8080\nrelease = 2.4.1\nsystem = {os.uname().sysname}\n"
DEPLOYED = {
    "etc": "0755",
    "etc/shop": "0755",
    "etc/shop/shop.conf": f"0640 {CONFIGURATION}",
    "srv": "0755",
    "srv/shop": "0755",
    "srv/shop/refused": "0755",
    "srv/shop/refused/3.0.0": "0644 non-zero return code\n",
    "srv/shop/releases": "0755",
    "srv/shop/restarts": "0644 restarted\n",
    "srv/shop/the shop": "0644 ",
}


def transcript() -> List[Tuple[str, str]]:
    """The commands of the page, with what they print."""
    page = (LOCAL / "README.md").read_text(encoding="utf-8")
    return [found for _, content in FENCE.findall(page) for found in COMMAND.findall(content)]


def page_shows(_: Room) -> str:
    return differs([BUDGET, FIRST, AGAIN], [printed for _, printed in transcript()])


def run_words(program: str, modules: Path, way: str, inventory: Path = LOCAL / "inventory.json",
              book: Path = LOCAL / "book.json") -> List[str]:
    return [program, "run", str(book), "-i", str(inventory), "--modules", str(modules), "--arguments", way]


def said(outcome: "Outcome[bytes]") -> Tuple[str, str, int]:
    return outcome.stdout.decode(), outcome.stderr.decode(), outcome.returncode


def page_runs(program: str, room: Room) -> str:
    """The commands of the page, and what stands after each of them."""
    before = room.standing()
    for number, (command, printed) in enumerate(transcript()):
        outcome = room.run(["bash", "-c", LAUNCHER.sub(lambda _: f"'{program}'", command)], cwd=TOP)
        changes = DEPLOYED if number else {}
        found = differs((printed, "", 0), said(outcome)) or differs(changes, otherwise(before, room.standing()))
        if found:
            return f"{command}: {found}"
    return ""


def another_port(program: str, room: Room) -> str:
    """Only the configuration changes, and the shop is restarted once more."""
    room.run(run_words(program, LOCAL / "modules", room.way))
    room.write("inventory", (LOCAL / "inventory.json").read_text(encoding="utf-8").replace("8080", "9090"))
    before = room.standing()
    outcome = room.run(run_words(program, LOCAL / "modules", room.way, room.folder / "inventory"))
    changes = {
        "etc/shop/shop.conf": f"0640 {CONFIGURATION.replace('8080', '9090')}",
        "srv/shop/restarts": "0644 restarted\nrestarted\n",
    }
    return differs((ANOTHER_PORT, "", 0), said(outcome)) or differs(changes, otherwise(before, room.standing()))


def run_without_folder(program: str, room: Room) -> str:
    """The facts and `ping` need none; then the host fails."""
    room.environment["PLAYCHECK_ROOT"] = "nowhere"
    return differs((NO_FOLDER, "", 2), said(room.run(run_words(program, LOCAL / "modules", room.way))))


def run_over_ssh(program: str, room: Room) -> str:
    fake_ssh(room, RUNS)
    room.environment["PLAYCHECK_MODULES"] = str(LOCAL / "modules")
    before = room.standing()
    outcome = room.run(run_words(program, SSH, room.way))
    return differs((FIRST, "", 0), said(outcome)) or differs(DEPLOYED, otherwise(before, room.standing()))


# What can be seen of command lines.


def watch(room: Room, text: str) -> None:
    """Each program that the modules start tells first what all processes of this machine show at that moment."""
    for name in STARTED:
        found = shutil.which(name) or "/bin/false"
        after = f"\n{text}" if name == "ssh" else f'\nexec {found} "$@"'
        room.fake(name, f'{shutil.which("cat")} /proc/[0-9]*/cmdline >>"{room.folder}/seen.{name}" 2>/dev/null{after}')


def seen(room: Room, text: str) -> Set[str]:
    """The programs at whose start that text was to be seen."""
    return {path.suffix[1:] for path in room.folder.glob("seen.*") if text.encode() in path.read_bytes()}


def copies(program: str, room: Room, modules: Path, text: str, dest: str) -> str:
    """A run of two tasks with that text in their arguments."""
    tasks = [{"copy": {"content": text, "dest": dest, "mode": "0600"}}, {"ping": {"data": text}}]
    room.write("book", json.dumps([{"hosts": "all", "gather_facts": False, "tasks": tasks}]))
    outcome = room.run(run_words(program, modules, room.way, book=room.folder / "book"))
    return differs((recap(ok=2, changed=1), "", 0), said(outcome))


def shows_texts(program: str, room: Room) -> str:
    """A text stands in a command line where arguments are a word, and in none where they come on standard input."""
    watch(room, "")
    text = secrets.token_hex()  # it stands in no other process
    found = copies(program, room, LOCAL / "modules", text, "new")
    shown = seen(room, text)
    return (found or differs(f"0600 {text}", room.standing().get("root/new"))
            or differs(COPYING if room.way == WORD else set(), shown & COPYING if room.way == WORD else shown))


def shows_over_ssh(program: str, room: Room) -> str:
    """Of what goes to another machine no argument at all stands in a command line of this one, nor in a word of ssh."""
    answers = """case "$*" in *copy*) echo '{"changed": true, "dest": "new"}';; *) echo '{"ping": "pong"}';; esac"""
    watch(room, f"cat >/dev/null; {answers}")
    text, dest = secrets.token_hex(), secrets.token_hex()
    found = copies(program, room, SSH, text, dest)
    for name in (text, dest):
        shown = seen(room, name)
        found = found or differs({"ssh"} if room.way == WORD else set(), shown & {"ssh"} if room.way == WORD else shown)
    return found


RUNS_OF_EXAMPLES: List[Tuple[str, Callable[[str, Room], str]]] = [
    ("a run with another port", another_port),
    ("a run without a folder", run_without_folder),
    ("a run over ssh", run_over_ssh),
    ("the command lines of a run", shows_texts),
    ("the command lines of a run over ssh", shows_over_ssh),
]


def checks(program: str, way: str) -> Iterator[Tuple[str, Check]]:
    """Those for arguments that come that way; the page's own has them on standard input."""
    for name, check in [("the runs of the page", page_runs)] * (way == STDIN) + RUNS_OF_EXAMPLES:
        yield name, lambda room, check=check: check(program, room)  # type: ignore[misc]
