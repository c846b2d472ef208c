# SPDX-License-Identifier: MIT OR Apache-2.0
# The folder in which tests call the modules of examples/local. In it stand
#   plain ("old\n"), folder/inner ("in"), folder/tool,
#   link -> plain, out -> ../outside, out_file -> ../outside/kept, lost -> nowhere, ../outside/back -> ../root/plain
# A module gets its arguments in the two ways of `--arguments`.
import json
import os
import subprocess
import tempfile
from pathlib import Path
from typing import Any, Callable, Dict, Optional, Sequence, Tuple, Union

from local_answers import Answer

TOP = Path(__file__).resolve().parent.parent
LOCAL = TOP / "examples/local"
SECONDS = 60
WORD, STDIN = WAYS = ("word", "stdin")
LINKS = {
    "link": "plain",
    "out": "../outside",
    "out_file": "../outside/kept",
    "lost": "nowhere",
    "../outside/back": "../root/plain",
}
Outcome = subprocess.CompletedProcess
Changes = Dict[str, Optional[str]]
Check = Callable[["Room"], str]


class Room:
    """A folder for modules, with one beside it, which nothing may touch."""

    def __init__(self, folder: str, way: str = WORD) -> None:
        self.folder, self.root, self.way = Path(folder), Path(folder) / "root", way
        self.environment, self.umask = {**os.environ, "PLAYCHECK_ROOT": str(self.root)}, 0o022
        self.before: Sequence[str] = ()  # words before those of each program
        for name in ("root", "outside", "root/folder"):
            self.make(name)
        self.write("outside/kept", "kept")
        self.write("root/plain", "old\n")
        self.write("root/folder/inner", "in")
        self.write("root/folder/tool", '#!/bin/sh\necho "tool $1"\n', 0o755)
        for name, target in LINKS.items():
            (self.root / name).symlink_to(target)

    def make(self, name: str) -> None:
        (self.folder / name).mkdir()
        (self.folder / name).chmod(0o755)

    def write(self, name: str, text: str, mode: int = 0o644) -> None:
        (self.folder / name).write_text(text, encoding="utf-8")
        (self.folder / name).chmod(mode)

    def fake(self, name: str, text: str) -> None:
        """Puts a program of that name before all others."""
        if not (self.folder / "bin").exists():
            self.make("bin")
            self.environment["PATH"] = f"{self.folder}/bin:{self.environment['PATH']}"
        self.write(f"bin/{name}", f"#!/bin/sh\n{text}\n", 0o755)

    def run(self, words: Sequence[str], cwd: Optional[Path] = None, given: bytes = b"input\n") -> "Outcome[bytes]":
        """Runs a program, with an input that nothing is to read where none is given."""
        return subprocess.run([*self.before, *words], cwd=cwd, env=self.environment, umask=self.umask, input=given,
                              capture_output=True, timeout=SECONDS, check=False)

    def call(self, program: Path, host: str, arguments: Any) -> "Outcome[bytes]":
        text = arguments if isinstance(arguments, str) else json.dumps(arguments, ensure_ascii=False)
        if self.way == STDIN:
            return self.run([str(program), host], given=text.encode())
        return self.run([str(program), host, text])

    def answer(self, module: str, arguments: Any) -> Answer:
        """What the module answers, where it ends well and tells nothing beside it."""
        outcome = self.call(LOCAL / "modules" / module, "h1", arguments)
        found, status = answer_of(outcome)
        return found if isinstance(found, dict) and not status and not outcome.stderr else {"msg": str(outcome)}

    def standing(self) -> Dict[str, str]:
        """What stands in the folders, by its name."""
        return {str(path.relative_to(self.folder)): described(path) for path in self.folder.rglob("*")}


def gives_away() -> bool:
    """Whether this is root, and not one user who is called so in a room of its own."""
    users = sum(int(line.split()[2]) for line in Path("/proc/self/uid_map").read_text(encoding="ascii").splitlines())
    return os.geteuid() == 0 and users > 65_536


def described(path: Path) -> str:
    if path.is_symlink():
        return f"-> {os.readlink(path)}"
    mode = f"{path.stat().st_mode & 0o7777:04o}"
    return mode if path.is_dir() else f"{mode} {path.read_text(encoding='utf-8')}"


def otherwise(before: Dict[str, str], after: Dict[str, str]) -> Changes:
    """What stands otherwise than before in the folder of the modules, or by its whole name outside of it."""
    names = sorted(name for name in {*before, *after} if before.get(name) != after.get(name))
    return {name.removeprefix("root/"): after.get(name) for name in names}


def differs(wanted: object, found: object) -> str:
    return "" if wanted == found else f"wanted {short(wanted)}, found {short(found)}"


def short(value: object) -> str:
    text = repr(value)
    return text if len(text) < 1000 else text[:1000] + ".."


def answer_of(outcome: "Outcome[bytes]") -> Tuple[Union[Answer, str], int]:
    """The answer with the status; what is no JSON as it is."""
    try:
        found = json.loads(outcome.stdout)
    except ValueError:
        return str(outcome), outcome.returncode
    return found, outcome.returncode


def of_row(room: Room, module: str, arguments: Any, wanted: Answer, changes: Changes) -> str:
    before = room.standing()
    found = answer_of(room.call(LOCAL / "modules" / module, "h1", arguments))
    return differs((wanted, 0), found) or differs(changes, otherwise(before, room.standing()))


def failure_of(check: Check, way: str = WORD) -> str:
    with tempfile.TemporaryDirectory() as folder:
        try:
            return check(Room(os.path.realpath(folder), way))
        except Exception as fault:  # also a program that can't be run, and one that takes too long
            return repr(fault)
