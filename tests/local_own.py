# SPDX-License-Identifier: MIT OR Apache-2.0
# Checks of the modules of examples/local that are more than a row of local_rows.py.
import grp
import json
import os
import pwd
from typing import Any, Callable, Iterator, List, Tuple

from local_answers import (LONGEST_WORD, MISSING, NO_ROOT, PONG, TOO_LONG, copied, failed, filed, not_started, ran,
                           stands, wrote_too_much)
from local_facts import facts_of
from local_room import LOCAL, STDIN, Check, Room, answer_of, differs, gives_away, of_row
from tree_copies import has_no_more_rights, without_more_rights

def stat_of_a_folder(room: Room) -> str:
    """Its size is as the file system has it."""
    wanted = stands(True, False, room.root.joinpath("folder").stat().st_size, "0755")
    return of_row(room, "stat", {"path": "/folder/."}, wanted, {})


# Programs.


def writes_too_much(line: str) -> Check:
    """What is answered of a program whose pipe is closed: its status is what it makes of that."""

    def check(room: Room) -> str:
        answer = room.answer("shell", {"cmd": line})
        return differs({**wrote_too_much(), "rc": answer.get("rc")}, answer)

    return check


def no_folder(room: Room) -> str:
    """Each module that has paths fails; `ping` has none."""
    for named in ("", ".", str(room.root / "plain"), str(room.root / "none"), None):
        room.environment["PLAYCHECK_ROOT"] = named or ""
        if named is None:
            del room.environment["PLAYCHECK_ROOT"]
        found = (
            of_row(room, "stat", {"path": "plain"}, failed(NO_ROOT), {})
            or of_row(room, "command", {"cmd": "ls"}, not_started(NO_ROOT), {})
            or of_row(room, "ping", {}, PONG, {})
        )
        if found:
            return f"{named}: {found}"
    return ""


def folder_by_a_link(room: Room) -> str:
    """The folder itself may be named by a link, and have blanks and quotes in its name."""
    named = room.folder / "an 'odd' \"name\""
    named.symlink_to("root")
    room.environment["PLAYCHECK_ROOT"] = str(named)
    return (of_row(room, "copy", {"content": "x", "dest": "/folder/new"}, copied("/folder/new", True),
                   {"folder/new": "0644 x"})
            or of_row(room, "shell", {"cmd": "pwd -P | sed 's|.*/||'"}, ran(["root"]), {})
            or of_row(room, "file", {"path": "/", "state": "absent"}, failed("/ is the folder itself"), {}))


def whole_machine(room: Room) -> str:
    """The folder may be that of the whole machine."""
    room.environment["PLAYCHECK_ROOT"] = "/"
    path = f"{room.folder}/outside/kept"
    return of_row(room, "stat", {"path": path}, stands(False, True, 4, "0644"), {})


# Files.


def set_group_bit(room: Room) -> str:
    """A folder that has its group from above gets just the mode that is wanted, and is then as it is wanted."""
    (room.root / "folder").chmod(0o2755)
    arguments = {"path": "folder/new", "state": "directory", "mode": "0755"}
    answer = filed("folder/new", "directory", True)
    return of_row(room, "file", arguments, answer, {"folder/new": "0755"}) or of_row(
        room, "file", arguments, {**answer, "changed": False}, {}
    )


def environment(room: Room) -> str:
    """Variables that are named as arguments aren't taken for them."""
    room.environment.update(mode="0777", creates="plain")
    for name in ("creates_at", "chdir_at", "path_at"):
        room.environment[name] = "/"
    for name in ("state", "content", "src", "owner", "changed", "module", "lib", "data_json"):
        room.environment[name] = "absent"
    return (
        of_row(room, "file", {"path": "plain"}, filed("plain", "file", False), {})
        or of_row(room, "copy", {"content": "y", "dest": "new"}, copied("new", True), {"new": "0644 y"})
        or of_row(room, "command", {"cmd": "echo a"}, ran("a"), {})
        or of_row(room, "ping", {}, PONG, {})
    )


def other_mask(room: Room) -> str:
    room.umask = 0o027
    return (of_row(room, "copy", {"content": "x", "dest": "new"}, copied("new", True), {"new": "0640 x"})
            or of_row(room, "file", {"path": "b", "state": "directory"}, filed("b", "directory", True), {"b": "0750"}))


def fails(name: str) -> Check:
    """Nothing is left and nothing is changed of a copy for which that program fails."""

    def check(room: Room) -> str:
        room.fake(name, "exit 1")
        for dest in ("new", "plain"):
            found = of_row(room, "copy", {"content": "x", "dest": dest}, failed(f"{dest} can't be written"), {})
            if found:
                return found
        return ""

    return check


def mode_that_cannot_be_set(room: Room) -> str:
    room.fake("chmod", "exit 1")
    wanted = failed("the mode of plain can't be set")
    return (of_row(room, "copy", {"content": "old\n", "dest": "plain", "mode": "600"}, wanted, {})
            or of_row(room, "file", {"path": "plain", "mode": "600"}, wanted, {}))


def kept_files(room: Room) -> str:
    """What can't be taken away is told."""
    room.fake("rm", "exit 1")
    return of_row(room, "file", {"path": "plain", "state": "absent"}, failed("plain can't be removed"), {})


# Owners.


def own_names(room: Room) -> str:
    """Its owner and its group are known by their names too."""
    arguments = {"path": "plain", "owner": name_of(pwd.getpwuid, os.getuid()), "group": name_of(grp.getgrgid, os.getgid())}
    return of_row(room, "file", arguments, filed("plain", "file", False), {})


def name_of(entry: Callable[[int], Any], number: int) -> str:
    try:
        return str(entry(number)[0])
    except KeyError:
        return str(number)


def words_of_owners(room: Room) -> str:
    """What sets an owner and a group, which no program takes for an option."""
    for name in ("chown", "chgrp"):
        room.fake(name, f'printf "%s " {name} "$@" >>"{room.folder}/owners"')
    plain = room.root / "plain"
    found = differs(filed("plain", "file", True), room.answer("file", {"path": "plain", "owner": "-R", "group": "-f"}))
    asked = (room.folder / "owners").read_text(encoding="utf-8")
    return found or differs(f"chown -- -R {plain} chgrp -- -f {plain} ", asked)


def owner_that_cannot_be_set(room: Room) -> str:
    """A change that was made before is told."""
    room.fake("chgrp", "exit 1")
    wanted = failed("the owner or group of new can't be set", changed=True)
    return of_row(room, "file", {"path": "new", "state": "touch", "group": "4242"}, wanted, {"new": "0644 "})


def given_away(room: Room) -> str:
    """Root gives a file to somebody else, and then it is theirs."""
    plain, wanted = room.root / "plain", {"path": "plain", "owner": "4242", "group": "4343"}
    for changed in (True, False):
        found = differs(filed("plain", "file", changed), room.answer("file", wanted))
        if found:
            return found
    return differs((4242, 4343), (plain.stat().st_uid, plain.stat().st_gid))


def without_rights(room: Room) -> str:
    """What may not be read, and where nothing may be written."""
    room.before = without_more_rights()
    (room.root / "plain").chmod(0)
    (room.root / "folder").chmod(0o555)
    wanted = {
        "copy": ({"src": "plain", "dest": "new"}, "plain is no file that can be read"),
        " copy": ({"content": "x", "dest": "folder/new"}, "folder/new can't be written"),
        "file": ({"path": "folder/new", "state": "directory"}, "folder/new can't be made"),
        " file": ({"path": "folder/new", "state": "touch"}, "folder/new can't be touched"),
        "  file": ({"path": "folder/inner", "state": "absent"}, "folder/inner can't be removed"),
    }
    found = {name: answer_of(room.call(LOCAL / "modules" / name.strip(), "h1", arguments))
             for name, (arguments, _) in wanted.items()}
    (room.root / "plain").chmod(0o644)
    return differs({name: (failed(message), 0) for name, (_, message) in wanted.items()}, found)


# Arguments that no word of a command line holds.


def most_arguments(room: Room) -> str:
    """They have up to 1,048,576 bytes, which stand in no word and in no environment of a program."""
    room.environment["content"] = "x"
    text = "a'\n" * 250_000
    found = of_row(room, "copy", {"content": text, "dest": "new"}, copied("new", True), {"new": f"0644 {text}"})
    around = len('{"data": ""}')
    letters = room.call(LOCAL / "modules/ping", "h1", {"data": "ö" * 500_000}).stdout
    found = found or differs({**PONG, "ping": "ö" * 500_000}, json.loads(letters)) or differs(True, len(letters) < 1_048_576)
    most = "x" * (1_048_576 - around)
    return (found or of_row(room, "ping", {"data": most}, {**PONG, "ping": most}, {})
            or of_row(room, "ping", {"data": f"{most}x"}, failed(TOO_LONG), {}))


def longest_words(room: Room) -> str:
    """A word that Linux starts no program with is told, and one byte less isn't."""
    line = ": " + "x" * (LONGEST_WORD - 2)
    return (of_row(room, "shell", {"cmd": line}, ran(), {})
            or of_row(room, "shell", {"cmd": line + "x"}, not_started("/bin/sh can't be started: Argument list too long"), {})
            or of_row(room, "command", {"cmd": "echo " + "x" * (LONGEST_WORD + 1)},
                      not_started("echo can't be started: Argument list too long"), {}))


def without_python(room: Room) -> str:
    """A module answers nothing, and says so by its status."""
    room.fake("python3", "exit 127")
    names = [path.name for path in (LOCAL / "modules").iterdir() if os.access(path, os.X_OK)]
    found = {name: room.call(LOCAL / "modules" / name, "h1", {}) for name in names}
    return differs({name: (b"", 1) for name in names}, {name: (it.stdout, it.returncode) for name, it in found.items()})


def other_libraries(room: Room) -> str:
    """No module of Python is taken from where the user has some."""
    room.write("json.py", "raise SystemExit(3)\n")
    room.environment["PYTHONPATH"] = str(room.folder)
    return (of_row(room, "ping", {}, PONG, {})
            or of_row(room, "command", {"cmd": "echo a"}, ran("a"), {})
            or of_row(room, "shell", {"cmd": "", "creates": "plain"}, ran(["skipped, since plain exists"], changed=False), {})
            or of_row(room, "shell", {"cmd": "", "removes": "no"}, ran(["skipped, since no does not exist"], changed=False), {})
            or of_row(room, "stat", {"path": "no"}, MISSING, {})
            or of_row(room, "copy", {"content": "old\n", "dest": "plain"}, copied("plain", False), {})
            or of_row(room, "file", {"path": "plain"}, filed("plain", "file", False), {})
            or differs(True, "ansible_system" in facts_of(room)))


def by_another_name(room: Room) -> str:
    """A module answers as what it is, by whatever name it is called."""
    modules = room.folder / "modules"
    modules.mkdir()
    for path in (LOCAL / "modules").iterdir():
        (modules / path.name).symlink_to(path)
    (modules / "pong").symlink_to(LOCAL / "modules/ping")
    return differs((PONG, 0), answer_of(room.call(modules / "pong", "h1", {})))


def checks(way: str) -> Iterator[Tuple[str, Check]]:
    """Those for arguments that come that way."""
    yield from CHECKS
    if way == STDIN:
        yield "the most arguments", most_arguments
        yield "the longest words", longest_words
    if gives_away():
        yield "an owner and a group", given_away
    if has_no_more_rights():
        yield "what may not be read or written", without_rights


CHECKS: List[Tuple[str, Check]] = [
    ("stat of a folder", stat_of_a_folder),
    ("the names of owners", own_names),
    ("the words of owners", words_of_owners),
    ("an owner that can't be set", owner_that_cannot_be_set),
    ("a program that writes for ever", writes_too_much("yes")),
    ("a program that writes errors for ever", writes_too_much("yes >&2")),
    ("a program that writes too many ends of line", writes_too_much("yes '' | head -c 1048577; echo a")),
    ("PLAYCHECK_ROOT is no folder", no_folder),
    ("PLAYCHECK_ROOT is a link", folder_by_a_link),
    ("PLAYCHECK_ROOT is /", whole_machine),
    ("a folder with the bit of its group", set_group_bit),
    ("variables of the same names", environment),
    ("another mask", other_mask),
    ("a copy that can't be moved", fails("mv")),
    ("a copy whose mode can't be set", fails("chmod")),
    ("a copy without a new file", fails("mktemp")),
    ("a mode that can't be set", mode_that_cannot_be_set),
    ("a file that stays", kept_files),
    ("a module by another name", by_another_name),
    ("no Python", without_python),
    ("other libraries", other_libraries),
]
