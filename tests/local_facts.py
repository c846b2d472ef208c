# SPDX-License-Identifier: MIT OR Apache-2.0
# Checks of the facts that the module `setup` of examples/local gives.
import os
import shutil
from typing import Iterator, Tuple

from local_answers import Answer, failed
from local_room import Check, Room, differs

# Of /etc/os-release, and what Ansible names the system and its family.
SYSTEMS = {
    "ID=debian": {"ansible_distribution": "Debian", "ansible_os_family": "Debian"},
    "ID=ubuntu": {"ansible_distribution": "Ubuntu", "ansible_os_family": "Debian"},
    'ID="fedora"': {"ansible_distribution": "Fedora", "ansible_os_family": "RedHat"},
    "ID='alpine'": {"ansible_distribution": "Alpine", "ansible_os_family": "Alpine"},
    "ID=debianX": {},
    "": {},
    "ID_LIKE=debian\nID=mint\nVERSION_ID=debian": {},
}


def facts_of(room: Room) -> Answer:
    answer = room.answer("setup", {"gather_subset": ["min"]})
    facts = answer.get("ansible_facts")
    return facts if isinstance(facts, dict) and set(answer) == {"changed", "ansible_facts"} else answer


def facts(room: Room) -> str:
    """They are what this machine says of itself."""
    with open("/proc/meminfo", encoding="ascii") as file:
        memory = [int(line.split()[1]) // 1024 for line in file if line.startswith("MemTotal:")]
    wanted = {
        "ansible_hostname": os.uname().nodename.partition(".")[0],
        "ansible_system": os.uname().sysname,
        "ansible_processor_vcpus": os.sysconf("SC_NPROCESSORS_ONLN"),
        "ansible_memtotal_mb": memory[0],
    }
    found = facts_of(room)
    return differs(wanted, {name: found.get(name) for name in wanted})


def system(described: str) -> Check:
    """The facts where the file that names the system holds that, or isn't there."""

    def check(room: Room) -> str:
        if described:
            room.write("os-release", f"NAME=other\n{described}\n")
        room.fake("sed", f'for word; do shift; [ "$word" != /etc/os-release ] || word="{room.folder}/os-release"\n'
                         f'set -- "$@" "$word"; done; exec {shutil.which("sed")} "$@"')
        found = facts_of(room)
        named = {name: value for name, value in found.items() if name in ("ansible_distribution", "ansible_os_family")}
        return differs(SYSTEMS[described], named) or differs(True, "ansible_system" in found)

    return check


def untold_numbers(room: Room) -> str:
    """A number that can't be told is left out."""
    for said in ("", "undefined", "4x", "-1"):
        room.fake("getconf", f"echo '{said}'; echo told >&2")
        room.fake("awk", f"echo '{said}'; echo told >&2")
        found = facts_of(room)
        numbers = [name for name in ("ansible_processor_vcpus", "ansible_memtotal_mb") if name in found]
        wrong = differs([], numbers) or differs(True, "ansible_system" in found)
        if wrong:
            return f"{said!r}: {wrong}"
    return ""


def named_machine(name: str) -> Check:
    """The answer on a machine that is named so, but for the facts that no machine has to give."""

    def check(room: Room) -> str:
        room.fake("uname", f"[ \"$1\" = -s ] && echo Linux || echo '{name}'")
        given = facts_of(room)
        wanted = ODD_MACHINE if '"' in name else {"ansible_hostname": "web1", "ansible_system": "Linux"}
        return differs(wanted, {fact: given.get(fact) for fact in wanted})

    return check


ODD_MACHINE = failed("this machine is named with other characters than letters, digits, _, -")


def checks() -> Iterator[Tuple[str, Check]]:
    yield "the facts", facts
    yield "numbers that can't be told", untold_numbers
    yield "the facts of a machine with dots in its name", named_machine("web1.example.org")
    yield "the facts of a machine with quotes in its name", named_machine('"web1"')
    for described in SYSTEMS:
        yield f"the facts of a system with {described!r}", system(described)
