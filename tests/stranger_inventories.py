# SPDX-License-Identifier: MIT OR Apache-2.0
# Inventories in INI as the front end reads them, held to what ansible-inventory lists of the same files.
import json
import random
import shlex
import sys
import tempfile
from pathlib import Path
from typing import Any, Dict, Iterator, List, Optional

from ansible_tools import TOP
from made_inventories import listed_by_ansible, made_inventory, made_variables

sys.path.insert(0, str(TOP / "ansible"))
COUNT = 300
LEAST_READ = 120  # of these files both read at least so many, and refuse the others
LINES = 3000


class Skipped(Exception):
    """What a test needs isn't here."""


def read(path: Path) -> Optional[Dict[str, Any]]:
    """The groups and the variables of hosts of an inventory, or None where it is refused."""
    from playcheck_ansible.ansible_core import Trust
    from playcheck_ansible.inventory_reading import put_together
    from playcheck_ansible.problems import Problem

    try:
        inventory, _ = put_together([str(path)], str(path), Trust())
    except Problem as problem:
        return {} if "neither hosts nor groups" in str(problem) else None
    return inventory.json()


def compared(listed: Dict[str, Any]) -> str:
    """What both have to say alike, with the types of values: Ansible lists groups below `all`, and no empty ones."""
    groups = {name: dict(part) for name, part in listed.items() if name != "_meta"}
    alone = groups.pop("all", {})
    grouped = {host for name, group in groups.items() if name != "ungrouped" for host in group.get("hosts", ())}
    ungrouped = groups.setdefault("ungrouped", {})
    left = [*ungrouped.get("hosts", ()), *(host for host in alone.get("hosts", ()) if host not in grouped)]
    ungrouped["hosts"] = list(dict.fromkeys(left))
    groups["all"] = {"vars": alone.get("vars", {})}
    for group in groups.values():
        if group.get("vars", {}).get("ansible_group_priority") == 1:
            group["vars"] = {name: value for name, value in group["vars"].items() if name != "ansible_group_priority"}
    hosts = listed.get("_meta", {}).get("hostvars", {})
    return json.dumps([{name: {key: part for key, part in group.items() if part} for name, group in groups.items()
                        if any(group.values())}, {host: given for host, given in hosts.items() if given}],
                      sort_keys=True)


def wrong_ini() -> Iterator[str]:
    """Values, their types, hosts, groups and children of made files; what Ansible refuses is refused."""
    with tempfile.TemporaryDirectory() as made:
        files = [write_inventory(Path(made, str(seed)), seed) for seed in range(COUNT)]
        listed = listed_by_ansible(files, Path(made))
        if listed is None:
            raise Skipped("inventories in INI beside ansible-inventory: ansible-core isn't installed")
        read_by_both = 0
        for file, wanted in zip(files, listed):
            found = read(file)
            read_by_both += bool(found) and wanted is not None
            if (found is None) != (wanted is None) or found and compared(found) != compared(wanted or {}):
                texts = [one and compared(one) for one in (wanted, found)]
                yield f"INI:\n{file.read_text()}\nwanted {texts[0]}\nfound  {texts[1]}"
        if len(listed) != COUNT or read_by_both < LEAST_READ:
            yield f"INI: {read_by_both} of {len(listed)} made files are read"


def write_inventory(folder: Path, seed: int) -> Path:
    """A made file, with files of variables beside some of them."""
    folder.mkdir()
    Path(folder, "hosts.ini").write_bytes(made_inventory(seed).encode())
    for name, text in made_variables(seed).items():
        path = folder / name
        path.parent.mkdir(parents=True, exist_ok=True)
        path.write_text(text, encoding="utf-8")
    return folder / "hosts.ini"


def wrong_words() -> Iterator[str]:
    """Lines are divided as shlex does, on which Ansible's reader stands."""
    from playcheck_ansible.inventory_values import words_of

    dice = random.Random(1)
    for _ in range(LINES):
        line = "".join(dice.choice("ab= \t'\"\\#é,") for _ in range(dice.randint(1, 12)))
        wanted = words_or_none(lambda text: shlex.split(text, comments=True), line)
        found = words_or_none(words_of, line)
        if found != wanted:
            yield f"words of {line!r}: wanted {wanted}, found {found}"


def words_or_none(divide: Any, line: str) -> Optional[List[str]]:
    try:
        words: List[str] = divide(line)
    except ValueError:
        return None
    return words


# Faults, with what is told of each and the line.
FAULTS = {
    "[web]\nweb1 a b\n": "2:1: a variable as name=value is wanted, not a",
    "[web]\nweb1 a='b\n": "2:1: this host can't be read: a quote isn't closed",
    "[web:vars]\na=1\n": "1:1: [web:vars] is of a group that no section declares",
    "[web:children]\ndb\n": "2:1: [web:children] names the group 'db', which no section declares",
    "[web:children]\ndb\n[db:children]\nweb\n": "4:1: the group '",
    "[web:children]\nweb\n": "2:1: the group 'web' is put below itself",
    "[web:other]\n": "1:1: the section [web:other] has an unknown kind: `vars` and `children` are known",
    "[a b]\n": "1:1: [a b] is no section: a name without blanks, and perhaps `:vars` or `:children`",
    "h[²:³]\n": "1:1: the range of h[²:³] can't be read",
    "h[1:2000]\n": "1:1: the range of h[1:2000] has more than 1024 hosts",
    "h[1:40][1:40]\n": "1:1: the ranges of h[1:40][1:40] have more than 1024 hosts",
    "h[01:3]\n": "1:1: the range of h[01:3] begins and ends with numbers of another length",
    "web:\n": "1:1: web: ends in `:`, which stands before a port",
    "\ufeff[web]\nweb1\n": "1:1: a mark of the order of bytes",
    "".join(f"h{number}\n" for number in range(1025)): "1025:1: more than 1,024 hosts",
    "".join(f"[g{number}]\n" for number in range(1025)): "1025:1: more than 1,024 groups",
    "x" * 2000 + "\n": "1:1: a host's name has more than 1,024 letters",
    "a" + "[1:1]" * 17 + "\n": "1:1: a[1:1][1:1]",
    "web1 a=" + "-" * 90_000 + "1\n": "1:1: this host can't be read: a value nests too deep",
    "[web]\nh\n[web:vars]\nx\n": "4:1: a variable as name=value is wanted, not x",
    "[web:children]\na b\n": "2:1: the name of a group is wanted, not a b",
    "h[c:a]\n": "1:1: the range of h[c:a] ends before it begins",
    "h[a:3]\n": "1:1: the range of h[a:3] can't be read",
    "h[1:]\n": "1:1: the range of h[1:] has no end",
    "h[1:2:3:4]\n": "1:1: the range of h[1:2:3:4] isn't begin:end or begin:end:step",
    "---\n": "1:1: `---` begins a file in YAML, not in INI",
    "[all:vars]\nansible_group_priority=high\n": "2:1: `ansible_group_priority` is no whole number",
}
# Faults of the other forms, by the suffix of their file.
OTHER_FAULTS = {
    ("yml", "web: 5\n"): "1:6: the group 'web' is no mapping",
    ("yml", "web: {hosts: 5}\n"): "1:14: `hosts` is a mapping in an inventory of this form",
    ("yml", "web: {vars: [a]}\n"): "1:13: `vars` is a mapping in an inventory of this form",
    ("yml", "all: {children: {web: 5}}\n"): "1:23: the group 'web' is no mapping",
    ("yml", "web: {hosts: {h1: [a]}}\n"): "1:19: the variables of 'h1' are no mapping",
    ("yml", "- a\n"): "1:1: an inventory is a mapping of groups",
    ("json", '{"_meta": {"hostvars": {"h1": 5}}}'): "`h1` of 'hostvars' in the inventory is no mapping",
    ("json", '{"web": {"children": [5]}}'): "`children` of 'web' in the inventory is no list of names",
}
# Values that no JSON has, or too long ones: each is held, and not read.
NOT_READ = ("{1: 2}", "{1, 2}", "1+2j", "[b'a']", "1e999", "0x" + "f" * 5000, "'\\ud800'", "[" * 60 + "]" * 60,
            "{'a': " * 40 + "1" + "}" * 40)


def wrong_faults() -> Iterator[str]:
    from playcheck_ansible.ansible_core import Trust
    from playcheck_ansible.inventory import Inventory, is_opaque
    from playcheck_ansible.inventory_sources import read_source
    from playcheck_ansible.problems import Problem

    with tempfile.TemporaryDirectory() as folder:
        faults = {("ini", text): wanted for text, wanted in FAULTS.items()}
        for (suffix, text), wanted in {**faults, **OTHER_FAULTS}.items():
            path = Path(folder, f"hosts.{suffix}")
            path.write_text(text, encoding="utf-8")
            try:
                read_source(Inventory(), str(path), Trust())
                yield f"{text[:80]!r} is read"
            except Problem as problem:
                if not str(problem).replace(f"{path}:", "", 1).startswith(wanted):
                    yield f"{text[:80]!r}: wanted {wanted!r}, found {problem}"
        path = Path(folder, "hosts.ini")
        for value in NOT_READ:
            path.write_text(f"[all:vars]\na={value}\n", encoding="utf-8")
            inventory = Inventory()
            read_source(inventory, str(path), Trust())
            if not is_opaque(inventory.groups["all"]["vars"]["a"]):
                yield f"the value {value[:40]} is read: {inventory.groups}"
