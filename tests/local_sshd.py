# SPDX-License-Identifier: MIT OR Apache-2.0
# Checks of examples/ssh with the real ssh and a server of it that ends with each connection, where both are installed.
import os
import shutil
import subprocess
from pathlib import Path
from typing import Iterator, Tuple

from local_answers import ODD, copied
from local_room import LOCAL, SECONDS, STDIN, Check, Room, answer_of, differs, gives_away
from local_ssh import SSH, UNREACHABLE

# A server of root wants an empty folder, which is there where a server runs all the time; else it gets one that it
# alone sees.
FOR_ROOT = Path("/run/sshd")
WITH_FOLDER = "unshare --mount sh -c 'mount -t tmpfs tmpfs /run && mkdir -m 755 /run/sshd && exec {server}'"
SERVER = """HostKey {folder}/server
AuthorizedKeysFile {folder}/user.pub
StrictModes no
UsePAM no
PidFile none
PermitRootLogin yes
"""
CLIENT = """ProxyCommand {server}
IdentityFile {folder}/user
UserKnownHostsFile {folder}/known
StrictHostKeyChecking accept-new
LogLevel ERROR
"""


def found(name: str) -> str:
    return shutil.which(name, path=f"{os.environ['PATH']}:/usr/sbin:/sbin") or ""


def missing() -> str:
    """What isn't there of what these checks want."""
    for name in ("ssh", "sshd", "ssh-keygen"):
        if not found(name):
            return f"no {name} is here"
    if os.geteuid() == 0 and not gives_away():
        return "its server wants to become any user"
    return "no unshare is here" if wants_folder() and not found("unshare") else ""


def wants_folder() -> bool:
    return os.geteuid() == 0 and not FOR_ROOT.is_dir()


def serve(room: Room) -> None:
    """From here on ssh reaches this machine, whatever the host is, as this user."""
    for name in ("server", "user"):
        words = [found("ssh-keygen"), "-q", "-t", "ed25519", "-N", "", "-f", str(room.folder / name)]
        subprocess.run(words, check=True, timeout=SECONDS)
    room.write("sshd_config", SERVER.format(folder=room.folder))
    server = f"{found('sshd')} -i -f {room.folder}/sshd_config 2>/dev/null"
    server = WITH_FOLDER.format(server=server) if wants_folder() else server
    room.write("ssh_config", CLIENT.format(folder=room.folder, server=server), 0o600)
    room.fake("ssh", f'exec {found("ssh")} -F {room.folder}/ssh_config "$@"')
    room.environment["PLAYCHECK_MODULES"] = str(LOCAL / "modules")


def copies(room: Room) -> str:
    serve(room)
    name, text = "it's \"new\"\n 'x'", ODD * (20_000 if room.way == STDIN else 1_000)
    answer = answer_of(room.call(SSH / "copy", "web1", {"content": text, "dest": name}))
    return differs((copied(name, True), 0), answer) or differs(text, (room.root / name).read_text(encoding="utf-8"))


def is_not_there(room: Room) -> str:
    serve(room)
    room.environment["PLAYCHECK_MODULES"] = "/nowhere"
    outcome = room.call(SSH / "ping", "web1", {})
    return differs(UNREACHABLE, (outcome.stdout.decode(), outcome.returncode))


def is_refused(room: Room) -> str:
    """A key that isn't taken; nobody is asked for a password."""
    serve(room)
    room.write("user.pub", "")
    outcome = room.call(SSH / "ping", "web1", {})
    return differs(UNREACHABLE, (outcome.stdout.decode(), outcome.returncode))


def checks() -> Iterator[Tuple[str, Check]]:
    if not missing():
        yield "a copy over the real ssh", copies
        yield "no such program behind the real ssh", is_not_there
        yield "a key that isn't taken", is_refused
