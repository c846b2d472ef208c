# SPDX-License-Identifier: MIT OR Apache-2.0
# Checks of examples/ssh with a made `ssh`: which words it is called with, what it is given, and what its ends come to.
import json
import os
from typing import Iterator, List, Tuple

from local_answers import ODD, copied
from local_room import LOCAL, STDIN, TOP, Check, Room, answer_of, differs

SSH = TOP / "examples/ssh/modules"
ASKED = "ASKED"
# In the place of ssh: it tells its words and its input, or gives the line to a shell.
SAID = {"said": "by ssh"}
TELLS = f"printf '%s\\0' \"$@\" >\"${ASKED}\"; cat >\"${ASKED}.input\"; echo '{json.dumps(SAID)}'"
RUNS = "for word; do :; done; exec sh -c \"$word\""
UNREACHABLE = '{"unreachable": true}\n', 0


def fake_ssh(room: Room, text: str) -> None:
    room.fake("ssh", text)
    room.environment[ASKED] = str(room.folder / ASKED)


def asked(room: Room) -> Tuple[List[str], str]:
    """The words that ssh was called with, and its input."""
    words, given = room.folder / ASKED, room.folder / f"{ASKED}.input"
    return words.read_text(encoding="utf-8").split("\0")[:-1], given.read_text(encoding="utf-8")


def words_of(host: str, line: str) -> List[str]:
    return ["-T", "-o", "BatchMode=yes", "--", host, line]


def ssh_words(room: Room) -> str:
    """What ssh is called with: no argument. These go by its input, and its answer is handed on."""
    fake_ssh(room, TELLS)
    room.environment["PLAYCHECK_ROOT"] = "/srv/it's \"here\""
    text = '{"a b":\n "it\'s \\n$HOME `x`"}\n' + "x" * 60_000
    found = answer_of(room.call(SSH / "copy", "-web1", text))
    words, given = asked(room)
    line = """env PLAYCHECK_ROOT='/srv/it'\\''s "here"' 'playcheck/modules/copy' '-web1'"""
    end = "" if room.way == STDIN else "\n"
    return differs((SAID, 0), found) or differs(words_of("-web1", line), words) or differs(text + end, given)


def ssh_places(room: Room) -> str:
    """The folder of the programs is named, and that of their paths needn't be."""
    fake_ssh(room, TELLS)
    del room.environment["PLAYCHECK_ROOT"]
    room.environment["PLAYCHECK_MODULES"] = "/opt/its modules"
    found = answer_of(room.call(SSH / "stat", "web1", {"path": "x"}))
    line = "env PLAYCHECK_ROOT='' '/opt/its modules/stat' 'web1'"
    return differs((SAID, 0), found) or differs(words_of("web1", line), asked(room)[0])


def ssh_runs(room: Room) -> str:
    """The programs of examples/local, where ssh gives the line to a shell."""
    fake_ssh(room, RUNS)
    room.environment["PLAYCHECK_MODULES"] = str(LOCAL / "modules")
    name = "it's \"new\"\n 'x'"
    found = answer_of(room.call(SSH / "copy", "h1", {"content": ODD * 100, "dest": name}))
    written = room.root / name
    return differs((copied(name, True), 0), found) or differs(ODD * 100, written.read_text(encoding="utf-8"))


def ssh_says(text: str, answer: Tuple[str, int]) -> Check:
    """What is answered where ssh does that."""

    def check(room: Room) -> str:
        fake_ssh(room, text)
        outcome = room.call(SSH / "ping", "h1", {})
        return differs(answer, (outcome.stdout.decode(), outcome.returncode))

    return check


def ssh_modules(_: Room) -> str:
    """Each program of examples/local can be called over ssh, by a program that is the same for all of them."""
    programs = {path.name for path in (LOCAL / "modules").iterdir() if os.access(path, os.X_OK)}
    modules = {path.name: path.read_bytes() for path in SSH.iterdir() if os.access(path, os.X_OK) and path.name != "over_ssh"}
    return differs((programs, 1), (set(modules), len(set(modules.values()))))


def checks() -> Iterator[Tuple[str, Check]]:
    yield "the words of ssh", ssh_words
    yield "the places of ssh", ssh_places
    yield "the programs over ssh", ssh_runs
    yield "ssh can't reach the host", ssh_says("echo '{'; exit 255", UNREACHABLE)
    yield "no such program on the host", ssh_says("exit 127", UNREACHABLE)
    yield "no right to run it on the host", ssh_says("exit 126", UNREACHABLE)
    yield "another status on the host", ssh_says("echo '{\"a\": 1}'; exit 3", ('{"a": 1}\n', 3))
    yield "the modules over ssh", ssh_modules
